//! The calls of the archive as they are; `include/siftpebble.h` says what each
//! does, and what it asks of its pointers. [`Desk`](crate::Desk) is the safe
//! way to them.

/// The lent memory of a desk.
#[repr(C)]
pub struct Desk {
    _private: [u8; 0],
}

/// What every call answers.
#[repr(C)]
#[derive(Clone, Copy, Debug, PartialEq, Eq)]
pub struct Answer {
    pub number: u64,
    pub length: u64,
    pub shifts: u64,
    pub revisits: u64,
}

extern "C" {
    pub fn siftpebble_desk_bytes() -> usize;
    pub fn siftpebble_empty(desk: *mut Desk);
    pub fn siftpebble_open_write(desk: *mut Desk, school: u64, class: u64, width: u64) -> Answer;
    pub fn siftpebble_open_read(desk: *mut Desk, school: u64, class: u64, width: u64) -> Answer;
    pub fn siftpebble_write(
        desk: *mut Desk,
        school: u64,
        class: u64,
        rows: u64,
        pels: *const u8,
        pels_len: usize,
        out: *mut u8,
        out_len: usize,
    ) -> Answer;
    pub fn siftpebble_read(
        desk: *mut Desk,
        school: u64,
        class: u64,
        rows: u64,
        code: *const u8,
        code_len: usize,
        out: *mut u8,
        out_len: usize,
    ) -> Answer;
    pub fn siftpebble_close(desk: *mut Desk, school: u64, class: u64) -> Answer;
    pub fn siftpebble_abandon(desk: *mut Desk, school: u64, class: u64) -> Answer;
    pub fn siftpebble_drop(desk: *mut Desk, school: u64, class: u64) -> Answer;
    pub fn siftpebble_look(
        desk: *mut Desk,
        school: u64,
        class: u64,
        out: *mut u8,
        out_len: usize,
    ) -> Answer;
}
