//! The refusals.

use crate::limits::{MAX_KEY, PAGES, PLACES};
use std::fmt;

/// Why a call was refused. A refused call changes nothing in the desk.
///
/// Later versions may have more refusals: each has a [`number`](Self::number)
/// and says in words what it is.
///
/// ```
/// use siftpebble::Refusal;
///
/// assert_eq!(Refusal::Damaged.number(), 10);
/// assert_eq!(Refusal::from_number(10), Some(Refusal::Damaged));
/// assert_eq!(Refusal::Damaged.to_string(), "the code is damaged");
/// ```
#[derive(Clone, Copy, Debug, PartialEq, Eq, Hash)]
#[non_exhaustive]
pub enum Refusal {
    /// The school or class number is 0 or above [`MAX_KEY`].
    BadKey = 1,
    /// A band, close or abandon without an open page.
    NoPage = 2,
    /// An open or drop while the key's page is open.
    PageOpen = 3,
    /// An open while [`PAGES`] pages are open.
    PagesFull = 4,
    /// An open for a class without a table, while all [`PLACES`] are taken.
    PlacesFull = 5,
    /// The width is not 1 to [`MAX_WIDTH`](crate::MAX_WIDTH), the rows are not
    /// 1 to [`MAX_ROWS`](crate::MAX_ROWS), the pels are not exactly all rows,
    /// or the code has more than [`MAX_CODE`](crate::MAX_CODE) bytes.
    BadSize = 6,
    /// The page is open in the other direction.
    OtherDirection = 7,
    /// A padding bit of the pels is 1.
    PaddingBit = 8,
    /// The code is longer than the buffer or than [`MAX_CODE`](crate::MAX_CODE)
    /// bytes, the rows are longer than the buffer, or a look's buffer has fewer
    /// than [`TABLE_BYTES`](crate::TABLE_BYTES). All of the buffer is set to
    /// zero.
    NoRoom = 9,
    /// The code has no marker, but no band would have been written as these
    /// bytes. All of the buffer is set to zero; the page stays open.
    Damaged = 10,
    /// The class has no learned table.
    NoTable = 11,
    /// The desk's bytes are no lawful desk.
    UnlawfulDesk = 12,
    /// The code has a marker, a byte of 90 or more just after an FF: it is not
    /// a code of ours. [`first_marker`](crate::first_marker) finds it. All of
    /// the buffer is set to zero; the page stays open.
    Marker = 15,
}

impl Refusal {
    /// All refusals, in the order of their numbers.
    pub const ALL: &[Refusal] = &[
        Refusal::BadKey,
        Refusal::NoPage,
        Refusal::PageOpen,
        Refusal::PagesFull,
        Refusal::PlacesFull,
        Refusal::BadSize,
        Refusal::OtherDirection,
        Refusal::PaddingBit,
        Refusal::NoRoom,
        Refusal::Damaged,
        Refusal::NoTable,
        Refusal::UnlawfulDesk,
        Refusal::Marker,
    ];

    /// The refusal's number: up to 12 in document 01's table, and 15 in request
    /// E4.
    pub fn number(self) -> u64 {
        self as u64
    }

    /// The refusal with this number.
    pub fn from_number(number: u64) -> Option<Refusal> {
        let mut all = Refusal::ALL.iter().copied();
        all.find(|refusal| refusal.number() == number)
    }
}

impl fmt::Display for Refusal {
    fn fmt(&self, f: &mut fmt::Formatter) -> fmt::Result {
        match self {
            Refusal::BadKey => write!(f, "the school or class number is not 1 to {MAX_KEY}"),
            Refusal::NoPage => write!(f, "the key has no page open"),
            Refusal::PageOpen => write!(f, "the key's page is open"),
            Refusal::PagesFull => write!(f, "{PAGES} pages are open already"),
            Refusal::PlacesFull => write!(f, "all {PLACES} class places are taken"),
            Refusal::BadSize => write!(f, "a width, a number of rows or a length is not lawful"),
            Refusal::OtherDirection => write!(f, "the page is open in the other direction"),
            Refusal::PaddingBit => write!(f, "a padding bit of the pels is black"),
            Refusal::NoRoom => write!(f, "there is no room for the result"),
            Refusal::Damaged => write!(f, "the code is damaged"),
            Refusal::NoTable => write!(f, "the class has no learned table"),
            Refusal::UnlawfulDesk => write!(f, "the desk is not lawful"),
            Refusal::Marker => write!(f, "the code has a marker: it is not a code of ours"),
        }
    }
}

impl std::error::Error for Refusal {}
