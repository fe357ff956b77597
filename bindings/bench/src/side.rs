//! What is measured: a desk of the library, of ordinary Rust, plain or fast, or
//! of another library, behind the same calls.

use siftpebble_model::Direction;

pub const SCHOOL: u64 = 1;

/// A desk, and the calls that are measured. Each must be accepted, but for the
/// one that is refused by its name.
pub trait Side {
    fn copy(&self) -> Box<dyn Side>;
    fn open(&mut self, class: u64, direction: Direction, width: u64);
    fn close(&mut self, class: u64);
    /// A close where no page is open (2).
    fn refused_close(&mut self, class: u64);
    /// Shows a learned table in the front of the output.
    fn look(&mut self, class: u64, out: &mut [u8]);
    /// Answers the code's length.
    fn write(&mut self, class: u64, rows: u64, pels: &[u8], out: &mut [u8]) -> usize;
    fn read(&mut self, class: u64, rows: u64, code: &[u8], out: &mut [u8]);
}

fn key(class: u64) -> siftpebble::Key {
    let school = SCHOOL;
    siftpebble::Key { school, class }
}

impl Side for siftpebble::Desk {
    fn copy(&self) -> Box<dyn Side> {
        Box::new(self.clone())
    }

    fn open(&mut self, class: u64, direction: Direction, width: u64) {
        match direction {
            Direction::Write => self.open_write(key(class), width).expect("room"),
            Direction::Read => self.open_read(key(class), width).expect("room"),
        }
    }

    fn close(&mut self, class: u64) {
        siftpebble::Desk::close(self, key(class)).expect("an open page");
    }

    fn refused_close(&mut self, class: u64) {
        let answer = siftpebble::Desk::close(self, key(class));
        assert_eq!(answer, Err(siftpebble::Refusal::NoPage));
    }

    fn look(&mut self, class: u64, out: &mut [u8]) {
        siftpebble::Desk::look(self, key(class), out).expect("a table");
    }

    fn write(&mut self, class: u64, rows: u64, pels: &[u8], out: &mut [u8]) -> usize {
        let band = siftpebble::Desk::write(self, key(class), rows, pels, out);
        band.expect("room").length
    }

    fn read(&mut self, class: u64, rows: u64, code: &[u8], out: &mut [u8]) {
        let band = siftpebble::Desk::read(self, key(class), rows, code, out);
        band.expect("a good code");
    }
}

fn model_key(class: u64) -> siftpebble_model::Key {
    let school = SCHOOL;
    siftpebble_model::Key { school, class }
}

impl Side for siftpebble_model::Desk {
    fn copy(&self) -> Box<dyn Side> {
        Box::new(self.clone())
    }

    fn open(&mut self, class: u64, direction: Direction, width: u64) {
        siftpebble_model::Desk::open(self, model_key(class), direction, width).expect("room");
    }

    fn close(&mut self, class: u64) {
        siftpebble_model::Desk::close(self, model_key(class)).expect("an open page");
    }

    fn refused_close(&mut self, class: u64) {
        let answer = siftpebble_model::Desk::close(self, model_key(class));
        assert_eq!(answer, Err(siftpebble_model::Refusal::NoPage));
    }

    fn look(&mut self, class: u64, out: &mut [u8]) {
        siftpebble_model::Desk::look(self, model_key(class), out).expect("a table");
    }

    fn write(&mut self, class: u64, rows: u64, pels: &[u8], out: &mut [u8]) -> usize {
        let band = siftpebble_model::Desk::write(self, model_key(class), rows, pels, out);
        band.expect("room").length
    }

    fn read(&mut self, class: u64, rows: u64, code: &[u8], out: &mut [u8]) {
        let band = siftpebble_model::Desk::read(self, model_key(class), rows, code, out);
        band.expect("a good code");
    }
}

/// The plain desk, but for its bands.
impl Side for siftpebble_fast::Desk {
    fn copy(&self) -> Box<dyn Side> {
        Box::new(self.clone())
    }

    fn open(&mut self, class: u64, direction: Direction, width: u64) {
        Side::open(&mut self.0, class, direction, width);
    }

    fn close(&mut self, class: u64) {
        Side::close(&mut self.0, class);
    }

    fn refused_close(&mut self, class: u64) {
        Side::refused_close(&mut self.0, class);
    }

    fn look(&mut self, class: u64, out: &mut [u8]) {
        Side::look(&mut self.0, class, out);
    }

    fn write(&mut self, class: u64, rows: u64, pels: &[u8], out: &mut [u8]) -> usize {
        let band = siftpebble_fast::Desk::write(self, model_key(class), rows, pels, out);
        band.expect("room").length
    }

    fn read(&mut self, class: u64, rows: u64, code: &[u8], out: &mut [u8]) {
        let band = siftpebble_fast::Desk::read(self, model_key(class), rows, code, out);
        band.expect("a good code");
    }
}
