//! Bilevel pages for many classes over one desk.
//!
//! A page belongs to a [`Key`]: a school number and a class number. It is
//! written or read in bands of 1 to [`MAX_ROWS`] rows, and each band is one
//! code. When a page is closed, what was learned from it becomes its class's
//! learned table, from which the class's next page starts.
//!
//! The work is done by a library whose code is proved; this crate lends it a
//! [`Desk`] and buffers. Any numbers, bytes and lengths may come in: every call
//! ends with its result or with a [`Refusal`], and a refused call changes no
//! table and no open page.
//!
//! ```
//! use siftpebble::{Desk, Key};
//!
//! # fn main() -> Result<(), siftpebble::Refusal> {
//! let mut desk = Desk::new();
//! let sender = Key { school: 1, class: 5 };
//! let tablet = Key { school: 2, class: 5 };
//!
//! // Two rows of twelve pels, each padded to two bytes.
//! let pels = [0b0011_1100, 0b0011_0000, 0b0100_0010, 0b0100_0000];
//! let mut buffer = [0; 64];
//! desk.open_write(sender, 12)?;
//! let (code, written) = desk.write_code(sender, 2, &pels, &mut buffer)?;
//!
//! // Read from the same state, the code gives the pels back. It takes as many
//! // shifts as the write, at as many pels.
//! let mut rows = [0; 4];
//! desk.open_read(tablet, 12)?;
//! let read = desk.read(tablet, 2, code, &mut rows)?;
//! assert_eq!(rows, pels);
//! assert_eq!(read.shifts, written.shifts);
//! assert_eq!(read.revisits, written.revisits);
//!
//! desk.close(sender)?;
//! desk.close(tablet)?;
//! # Ok(())
//! # }
//! ```

mod limits;
mod marker;
mod refusal;
pub mod sys;

pub use limits::*;
pub use marker::first_marker;
pub use refusal::Refusal;

use sys::Answer;

/// A page's key. Lawful numbers are 1 to [`MAX_KEY`]; others are refused
/// ([`Refusal::BadKey`]).
#[derive(Clone, Copy, Debug, PartialEq, Eq, Hash, PartialOrd, Ord)]
pub struct Key {
    pub school: u64,
    pub class: u64,
}

/// What an accepted band answers.
#[derive(Clone, Copy, Debug, PartialEq, Eq)]
pub struct Band {
    /// The bytes in the front of the lent buffer: of the code for a write, of
    /// all rows for a read.
    pub length: usize,
    /// S, the shifts of the band.
    pub shifts: u64,
    /// The band's pels whose context's estimate was revisited, that is, which
    /// made at least one shift: at most `shifts`, and at most all pels of the
    /// band. A write and the read of its code answer the same.
    pub revisits: u64,
}

/// The first `length` bytes of a buffer, or the empty part where that is more
/// than the buffer has.
///
/// ```
/// assert_eq!(siftpebble::front(&[1, 2, 3], 2), [1, 2]);
/// assert_eq!(siftpebble::front(&[1, 2, 3], 4), []);
/// ```
pub fn front(buffer: &[u8], length: usize) -> &[u8] {
    buffer.get(..length).unwrap_or_default()
}

/// A desk, with room for [`PAGES`] open pages and [`PLACES`] class places.
///
/// A desk is plain memory: [`Desk::as_bytes`] gives its bytes to be kept, and
/// [`Desk::from_bytes`] makes a desk of them again.
#[derive(Clone)]
pub struct Desk {
    /// The memory that is lent; numbers, so that it is aligned to 8.
    memory: Box<[u64]>,
}

impl Default for Desk {
    fn default() -> Self {
        Desk::new()
    }
}

impl std::fmt::Debug for Desk {
    fn fmt(&self, f: &mut std::fmt::Formatter) -> std::fmt::Result {
        f.debug_struct("Desk").finish_non_exhaustive()
    }
}

/// A call without a result of its own.
fn done(answer: Answer) -> Result<(), Refusal> {
    band(answer).map(|_| ())
}

fn band(answer: Answer) -> Result<Band, Refusal> {
    match answer.number {
        0 => Ok(Band {
            length: answer.length as usize,
            shifts: answer.shifts,
            revisits: answer.revisits,
        }),
        number => match Refusal::from_number(number) {
            Some(refusal) => Err(refusal),
            None => panic!("the archive refused with {number}, which this crate does not know"),
        },
    }
}

impl Desk {
    /// An empty desk: no pages and no tables.
    pub fn new() -> Self {
        let mut desk = Desk {
            memory: vec![0; Desk::bytes().div_ceil(8)].into(),
        };
        // SAFETY: the memory is as large as a desk and aligned to 8.
        unsafe { sys::siftpebble_empty(desk.lend()) };
        desk
    }

    /// The size of a desk in bytes.
    pub fn bytes() -> usize {
        // SAFETY: the call takes nothing and only answers a number.
        unsafe { sys::siftpebble_desk_bytes() }
    }

    /// The bytes of the desk, to be kept. Their order is the library's own;
    /// two desks that serve alike may differ in bytes between the fields.
    pub fn as_bytes(&self) -> &[u8] {
        let start = self.memory.as_ptr().cast();
        // SAFETY: the memory has at least that many bytes, all of them set.
        unsafe { std::slice::from_raw_parts(start, Desk::bytes()) }
    }

    /// A desk of these bytes, or `None` if they are not [`Desk::bytes`] many.
    ///
    /// Any bytes may come in. If they are no lawful desk, then each call on it
    /// is refused ([`Refusal::UnlawfulDesk`]).
    ///
    /// ```
    /// use siftpebble::{Desk, Key, Refusal};
    ///
    /// let key = Key { school: 1, class: 5 };
    /// let mut desk = Desk::new();
    /// desk.open_write(key, 8).unwrap();
    /// let mut again = Desk::from_bytes(desk.as_bytes()).unwrap();
    /// assert_eq!(again.open_write(key, 8), Err(Refusal::PageOpen));
    ///
    /// let noise = vec![0xFF; Desk::bytes()];
    /// let mut desk = Desk::from_bytes(&noise).unwrap();
    /// assert_eq!(desk.close(key), Err(Refusal::UnlawfulDesk));
    /// ```
    pub fn from_bytes(bytes: &[u8]) -> Option<Self> {
        if bytes.len() != Desk::bytes() {
            return None;
        }
        let number = |part: &[u8]| {
            let mut whole = [0; 8];
            whole[..part.len()].copy_from_slice(part);
            u64::from_ne_bytes(whole)
        };
        let memory = bytes.chunks(8).map(number).collect();
        Some(Desk { memory })
    }

    /// The memory as the library takes it.
    fn lend(&mut self) -> *mut sys::Desk {
        self.memory.as_mut_ptr().cast()
    }

    /// Opens the key's page to be written, with a width of 1 to [`MAX_WIDTH`]
    /// pels.
    ///
    /// The page starts from the class's learned table, or from a fresh one if
    /// it has none, and with a white row above.
    pub fn open_write(&mut self, key: Key, width: u64) -> Result<(), Refusal> {
        // SAFETY: the desk is lent for the call.
        done(unsafe { sys::siftpebble_open_write(self.lend(), key.school, key.class, width) })
    }

    /// Opens the key's page to be read; otherwise as [`Desk::open_write`].
    pub fn open_read(&mut self, key: Key, width: u64) -> Result<(), Refusal> {
        // SAFETY: the desk is lent for the call.
        done(unsafe { sys::siftpebble_open_read(self.lend(), key.school, key.class, width) })
    }

    /// Writes a band of 1 to [`MAX_ROWS`] rows: its code comes into the front
    /// of `out`, and the rest of `out` is kept.
    ///
    /// Where the last byte that the band's bits make is FF, one more byte 00
    /// follows. It is part of the code: it counts in the length and needs its
    /// room. So no code ends in FF.
    ///
    /// `pels` are packed rows, the leftmost pel in the top bit, each row padded
    /// to a whole byte with zero bits. [`Refusal::NoRoom`] sets all of `out` to
    /// zero; every other refusal leaves it alone.
    ///
    /// ```
    /// # use siftpebble::{front, Desk, Key};
    /// # fn main() -> Result<(), siftpebble::Refusal> {
    /// let key = Key { school: 1, class: 5 };
    /// let mut desk = Desk::new();
    /// desk.open_write(key, 1)?;
    /// let mut out = [0xA5; 4];
    /// let band = desk.write(key, 1, &[0], &mut out)?;
    /// // both shifts are of one pel
    /// assert_eq!((band.length, band.shifts, band.revisits), (2, 2, 1));
    /// assert_eq!(front(&out, band.length), [0xAC, 0x10]);
    /// assert_eq!(out, [0xAC, 0x10, 0xA5, 0xA5]);
    /// # Ok(())
    /// # }
    /// ```
    pub fn write(
        &mut self,
        key: Key,
        rows: u64,
        pels: &[u8],
        out: &mut [u8],
    ) -> Result<Band, Refusal> {
        // SAFETY: the desk and both slices are lent for the call, and no two
        // of them overlap.
        band(unsafe {
            sys::siftpebble_write(
                self.lend(),
                key.school,
                key.class,
                rows,
                pels.as_ptr(),
                pels.len(),
                out.as_mut_ptr(),
                out.len(),
            )
        })
    }

    /// As [`Desk::write`], but answers the code itself too, as the front part
    /// of the caller's buffer.
    ///
    /// ```
    /// # use siftpebble::{Desk, Key};
    /// # fn main() -> Result<(), siftpebble::Refusal> {
    /// let key = Key { school: 1, class: 5 };
    /// let mut desk = Desk::new();
    /// desk.open_write(key, 5)?;
    /// let mut out = [0; 16];
    /// let (code, band) = desk.write_code(key, 1, &[0], &mut out)?;
    /// assert_eq!(code.len(), band.length);
    /// // five white pels: the first made two shifts, and the last none
    /// assert_eq!((band.shifts, band.revisits), (5, 4));
    /// # Ok(())
    /// # }
    /// ```
    pub fn write_code<'a>(
        &mut self,
        key: Key,
        rows: u64,
        pels: &[u8],
        out: &'a mut [u8],
    ) -> Result<(&'a [u8], Band), Refusal> {
        let band = self.write(key, rows, pels, out)?;
        Ok((front(out, band.length), band))
    }

    /// Reads the code of a band of 1 to [`MAX_ROWS`] rows: the packed rows come
    /// into the front of `out`, and the rest of `out` is kept.
    ///
    /// A code is read exactly when a band of that width and height would, from
    /// the page's working table and last row, have been written as those bytes.
    /// No band is written with FF as its last byte, nor with a byte of 90 or
    /// more just after an FF: a code with such a marker is [`Refusal::Marker`],
    /// and any other that is not read is [`Refusal::Damaged`]. The page stays
    /// open then, and the band may be sent again. Those two refusals and
    /// [`Refusal::NoRoom`] set all of `out` to zero; every other refusal leaves
    /// it alone.
    ///
    /// ```
    /// # use siftpebble::{Desk, Key, Refusal};
    /// # fn main() -> Result<(), Refusal> {
    /// let key = Key { school: 1, class: 5 };
    /// let mut desk = Desk::new();
    /// desk.open_read(key, 1)?;
    /// let mut out = [0xA5; 2];
    /// assert_eq!(desk.read(key, 1, &[0xAC, 0x11], &mut out), Err(Refusal::Damaged));
    /// assert_eq!(out, [0, 0]);
    /// assert_eq!(desk.read(key, 1, &[0xFF, 0x90], &mut out), Err(Refusal::Marker));
    /// assert_eq!(desk.read(key, 1, &[0x00, 0x00], &mut out)?.length, 1);
    /// assert_eq!(out, [0x80, 0]);
    /// # Ok(())
    /// # }
    /// ```
    pub fn read(
        &mut self,
        key: Key,
        rows: u64,
        code: &[u8],
        out: &mut [u8],
    ) -> Result<Band, Refusal> {
        // SAFETY: the desk and both slices are lent for the call, and no two
        // of them overlap.
        band(unsafe {
            sys::siftpebble_read(
                self.lend(),
                key.school,
                key.class,
                rows,
                code.as_ptr(),
                code.len(),
                out.as_mut_ptr(),
                out.len(),
            )
        })
    }

    /// Closes the key's page. Its working table becomes the class's learned
    /// table, even when no band was served.
    pub fn close(&mut self, key: Key) -> Result<(), Refusal> {
        // SAFETY: the desk is lent for the call.
        done(unsafe { sys::siftpebble_close(self.lend(), key.school, key.class) })
    }

    /// Abandons the key's page. The class's learned table is as it was before
    /// the page; a place that was only reserved is free again.
    pub fn abandon(&mut self, key: Key) -> Result<(), Refusal> {
        // SAFETY: the desk is lent for the call.
        done(unsafe { sys::siftpebble_abandon(self.lend(), key.school, key.class) })
    }

    /// Forgets the class's learned table: document 01's drop.
    ///
    /// ```
    /// # use siftpebble::{Desk, Key, Refusal};
    /// # fn main() -> Result<(), Refusal> {
    /// let key = Key { school: 1, class: 5 };
    /// let mut desk = Desk::new();
    /// desk.open_write(key, 8)?;
    /// assert_eq!(desk.forget(key), Err(Refusal::PageOpen));
    /// desk.close(key)?;
    /// desk.forget(key)?;
    /// assert_eq!(desk.forget(key), Err(Refusal::NoTable));
    /// # Ok(())
    /// # }
    /// ```
    pub fn forget(&mut self, key: Key) -> Result<(), Refusal> {
        // SAFETY: the desk is lent for the call.
        done(unsafe { sys::siftpebble_drop(self.lend(), key.school, key.class) })
    }

    /// Shows the class's learned table: [`TABLE_BYTES`] bytes in the front of
    /// `out`, one per context, each 2 x index + sense. The rest of `out` is
    /// kept. While a page of the class is open this is still the old table.
    ///
    /// [`Refusal::NoRoom`] sets all of `out` to zero; every other refusal leaves
    /// it alone. The desk is lent to the library like in every other call, and
    /// so it is borrowed alone, although nothing in it changes.
    ///
    /// ```
    /// # use siftpebble::{Desk, Key, Refusal, TABLE_BYTES};
    /// # fn main() -> Result<(), Refusal> {
    /// let key = Key { school: 1, class: 5 };
    /// let mut desk = Desk::new();
    /// desk.open_write(key, 1)?;
    /// desk.write(key, 1, &[0], &mut [0; 2])?;
    /// let mut table = [0; TABLE_BYTES];
    /// assert_eq!(desk.look(key, &mut table), Err(Refusal::NoTable));
    /// desk.close(key)?;
    /// desk.look(key, &mut table)?;
    /// assert_eq!(table[0], 2);
    /// # Ok(())
    /// # }
    /// ```
    pub fn look(&mut self, key: Key, out: &mut [u8]) -> Result<(), Refusal> {
        // SAFETY: the desk and the slice are lent for the call, and they do
        // not overlap.
        done(unsafe {
            sys::siftpebble_look(
                self.lend(),
                key.school,
                key.class,
                out.as_mut_ptr(),
                out.len(),
            )
        })
    }
}
