//! A library by its calls as they are: the one that is linked, or another
//! build of it, as the library of an earlier commit, loaded from a file.

use crate::side::{Side, SCHOOL};
use siftpebble::sys::{self, Answer, Desk};
use siftpebble::Refusal;
use siftpebble_model::Direction;
use std::ffi::{c_char, c_int, c_void, CString};
use std::mem::{transmute, MaybeUninit};

extern "C" {
    fn dlopen(path: *const c_char, flags: c_int) -> *mut c_void;
    fn dlsym(library: *mut c_void, name: *const c_char) -> *mut c_void;
}

const RTLD_NOW: c_int = 2;

/// What a call answers. An earlier library may have fewer numbers in its answer,
/// and then leaves the last ones unset. It has more than two, so that its answer
/// too goes into memory of the caller, which is as large as today's.
pub type Reply = MaybeUninit<Answer>;

/// The number and the length, which every library sets.
fn front(reply: Reply) -> (u64, u64) {
    let answer = reply.as_ptr();
    // SAFETY: nothing of the answer but these two is looked at.
    unsafe { ((*answer).number, (*answer).length) }
}

pub type Bytes = unsafe extern "C" fn() -> usize;
pub type Empty = unsafe extern "C" fn(*mut Desk);
pub type Open<A = Reply> = unsafe extern "C" fn(*mut Desk, u64, u64, u64) -> A;
pub type Band<A = Reply> =
    unsafe extern "C" fn(*mut Desk, u64, u64, u64, *const u8, usize, *mut u8, usize) -> A;
pub type Page<A = Reply> = unsafe extern "C" fn(*mut Desk, u64, u64) -> A;
pub type Look<A = Reply> = unsafe extern "C" fn(*mut Desk, u64, u64, *mut u8, usize) -> A;

/// The calls of a library.
#[derive(Clone, Copy)]
pub struct Calls {
    pub bytes: Bytes,
    pub empty: Empty,
    pub open_write: Open,
    pub open_read: Open,
    pub write: Band,
    pub read: Band,
    pub close: Page,
    pub abandon: Page,
    pub forget: Page,
    pub look: Look,
}

/// A library that is measured besides, by its name.
pub struct Library {
    pub name: String,
    pub calls: Calls,
}

impl Library {
    /// From NAME=PATH.
    pub fn load(named: &str) -> Self {
        let (name, path) = named.split_once('=').expect("NAME=PATH");
        let (name, calls) = (name.into(), Calls::load(path));
        Library { name, calls }
    }
}

/// A desk of a library.
#[derive(Clone)]
pub struct Raw {
    pub calls: Calls,
    memory: Box<[u64]>,
}

/// The address of a library's function.
fn address(library: *mut c_void, name: &str) -> *mut c_void {
    let name = CString::new(name).expect("no zero in a name");
    // SAFETY: the library is one that was opened, and the name ends with a zero.
    let found = unsafe { dlsym(library, name.as_ptr()) };
    assert!(!found.is_null(), "the library has no {name:?}");
    found
}

impl Calls {
    /// Those of the library that is linked.
    pub fn linked() -> Self {
        // SAFETY: a reply is handed back as an answer is.
        unsafe {
            Calls {
                bytes: sys::siftpebble_desk_bytes,
                empty: sys::siftpebble_empty,
                open_write: transmute::<Open<Answer>, Open>(sys::siftpebble_open_write),
                open_read: transmute::<Open<Answer>, Open>(sys::siftpebble_open_read),
                write: transmute::<Band<Answer>, Band>(sys::siftpebble_write),
                read: transmute::<Band<Answer>, Band>(sys::siftpebble_read),
                close: transmute::<Page<Answer>, Page>(sys::siftpebble_close),
                abandon: transmute::<Page<Answer>, Page>(sys::siftpebble_abandon),
                forget: transmute::<Page<Answer>, Page>(sys::siftpebble_drop),
                look: transmute::<Look<Answer>, Look>(sys::siftpebble_look),
            }
        }
    }

    /// Those of the library in this file, which must be the calls of
    /// `include/siftpebble.h`, but that the last numbers of an answer may be
    /// missing.
    pub fn load(path: &str) -> Self {
        let name = CString::new(path).expect("no zero in a path");
        // SAFETY: the name ends with a zero, and the library runs nothing when
        // it is loaded.
        let library = unsafe { dlopen(name.as_ptr(), RTLD_NOW) };
        assert!(!library.is_null(), "{path} cannot be loaded");
        let find = |name| address(library, name);
        // SAFETY: the types are those of the header, as in siftpebble::sys; and
        // a reply need not be set to its end.
        unsafe {
            Calls {
                bytes: transmute::<*mut c_void, Bytes>(find("siftpebble_desk_bytes")),
                empty: transmute::<*mut c_void, Empty>(find("siftpebble_empty")),
                open_write: transmute::<*mut c_void, Open>(find("siftpebble_open_write")),
                open_read: transmute::<*mut c_void, Open>(find("siftpebble_open_read")),
                write: transmute::<*mut c_void, Band>(find("siftpebble_write")),
                read: transmute::<*mut c_void, Band>(find("siftpebble_read")),
                close: transmute::<*mut c_void, Page>(find("siftpebble_close")),
                abandon: transmute::<*mut c_void, Page>(find("siftpebble_abandon")),
                forget: transmute::<*mut c_void, Page>(find("siftpebble_drop")),
                look: transmute::<*mut c_void, Look>(find("siftpebble_look")),
            }
        }
    }
}

impl Raw {
    /// An empty desk.
    pub fn new(calls: Calls) -> Self {
        // SAFETY: the call takes nothing and only answers a number.
        let bytes = unsafe { (calls.bytes)() };
        let memory = vec![0; bytes.div_ceil(8)].into();
        let mut desk = Raw { calls, memory };
        desk.empty();
        desk
    }

    pub fn empty(&mut self) {
        // SAFETY: the desk has the library's size and is aligned to 8, as in
        // every call below.
        unsafe { (self.calls.empty)(self.desk()) }
    }

    /// One of the calls on a key alone: answers its number.
    pub fn page(&mut self, call: Page, class: u64) -> u64 {
        // SAFETY: the desk is lent for the call.
        front(unsafe { call(self.desk(), SCHOOL, class) }).0
    }

    fn desk(&mut self) -> *mut Desk {
        self.memory.as_mut_ptr().cast()
    }

    fn band(&mut self, call: Band, class: u64, rows: u64, given: &[u8], out: &mut [u8]) -> usize {
        let (len, room) = (given.len(), out.len());
        let (given, out) = (given.as_ptr(), out.as_mut_ptr());
        // SAFETY: the desk and both slices are lent for the call, and no two
        // of them overlap.
        let reply = unsafe { call(self.desk(), SCHOOL, class, rows, given, len, out, room) };
        let (number, length) = front(reply);
        assert_eq!(number, 0, "a band is refused");
        length as usize
    }
}

impl Side for Raw {
    fn copy(&self) -> Box<dyn Side> {
        Box::new(self.clone())
    }

    fn open(&mut self, class: u64, direction: Direction, width: u64) {
        let call = match direction {
            Direction::Write => self.calls.open_write,
            Direction::Read => self.calls.open_read,
        };
        // SAFETY: the desk is lent for the call.
        let reply = unsafe { call(self.desk(), SCHOOL, class, width) };
        assert_eq!(front(reply).0, 0, "an open is refused");
    }

    fn close(&mut self, class: u64) {
        let number = self.page(self.calls.close, class);
        assert_eq!(number, 0, "a close is refused");
    }

    fn refused_close(&mut self, class: u64) {
        let number = self.page(self.calls.close, class);
        let no_page = Refusal::NoPage.number();
        assert_eq!(number, no_page, "a close without a page");
    }

    fn look(&mut self, class: u64, out: &mut [u8]) {
        let (room, out) = (out.len(), out.as_mut_ptr());
        // SAFETY: the desk and the slice are lent for the call, and they do
        // not overlap.
        let reply = unsafe { (self.calls.look)(self.desk(), SCHOOL, class, out, room) };
        assert_eq!(front(reply).0, 0, "a look is refused");
    }

    fn write(&mut self, class: u64, rows: u64, pels: &[u8], out: &mut [u8]) -> usize {
        self.band(self.calls.write, class, rows, pels, out)
    }

    fn read(&mut self, class: u64, rows: u64, code: &[u8], out: &mut [u8]) {
        self.band(self.calls.read, class, rows, code, out);
    }
}
