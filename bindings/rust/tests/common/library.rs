//! The library as something that serves calls: once through the calls of the
//! archive as they are, once through the safe desk.

use siftpebble::{sys, Band, Refusal};
use siftpebble_model::call::{Act, Answer, Call, Outcome, Serve};
use siftpebble_model::{Direction, Key};

/// Stands before and behind everything that is lent.
const GUARD: usize = 16;
const MARK: u8 = 0xC3;

/// Bytes between guards. The start of the bytes is not aligned.
struct Guarded(Vec<u8>);

impl Guarded {
    fn new(bytes: &[u8]) -> Self {
        let guard = [MARK; GUARD + 1];
        Guarded([&guard[..], bytes, &guard[..]].concat())
    }

    fn bytes(&mut self) -> &mut [u8] {
        let end = self.0.len() - GUARD - 1;
        &mut self.0[GUARD + 1..end]
    }

    /// The bytes, after a look at the guards.
    fn release(mut self) -> Vec<u8> {
        let bytes = self.bytes().to_vec();
        assert_eq!(
            self.0,
            Guarded::new(&bytes).0,
            "written outside a lent buffer"
        );
        bytes
    }
}

/// The desk of the archive, between guards.
pub struct Library {
    memory: Vec<u64>,
}

const GUARD_WORDS: usize = GUARD / 8;
const MARK_WORD: u64 = u64::from_ne_bytes([MARK; 8]);

impl Library {
    /// A desk of these bytes.
    pub fn of(bytes: &[u8]) -> Self {
        assert_eq!(
            bytes.len(),
            siftpebble::Desk::bytes(),
            "not the layout's length"
        );
        let words = bytes.chunks(8).map(|part| {
            let mut word = [0; 8];
            word[..part.len()].copy_from_slice(part);
            u64::from_ne_bytes(word)
        });
        let guard = || std::iter::repeat_n(MARK_WORD, GUARD_WORDS);
        let memory = guard().chain(words).chain(guard()).collect();
        Library { memory }
    }

    fn desk(&mut self) -> *mut sys::Desk {
        self.memory[GUARD_WORDS..].as_mut_ptr().cast()
    }

    /// The bytes of the desk, after a look at the guards.
    pub fn bytes(&self) -> Vec<u8> {
        let (front, rest) = self.memory.split_at(GUARD_WORDS);
        let (words, back) = rest.split_at(rest.len() - GUARD_WORDS);
        let untouched = [front, back].concat().iter().all(|&word| word == MARK_WORD);
        assert!(untouched, "written outside the desk");
        let bytes = words.iter().flat_map(|word| word.to_ne_bytes());
        bytes.take(siftpebble::Desk::bytes()).collect()
    }

    fn call(&mut self, call: &Call, input: &mut [u8], lent: &mut [u8]) -> sys::Answer {
        let Key { school, class } = call.key;
        let desk = self.desk();
        let (from, from_len) = (input.as_ptr(), input.len());
        let (out, out_len) = (lent.as_mut_ptr(), lent.len());
        // SAFETY: all memory is lent for the call, and no two parts overlap.
        unsafe {
            match call.act {
                Act::Open(Direction::Write, width) => {
                    sys::siftpebble_open_write(desk, school, class, width)
                }
                Act::Open(Direction::Read, width) => {
                    sys::siftpebble_open_read(desk, school, class, width)
                }
                Act::Write { rows, .. } => {
                    sys::siftpebble_write(desk, school, class, rows, from, from_len, out, out_len)
                }
                Act::Read { rows, .. } => {
                    sys::siftpebble_read(desk, school, class, rows, from, from_len, out, out_len)
                }
                Act::Close => sys::siftpebble_close(desk, school, class),
                Act::Abandon => sys::siftpebble_abandon(desk, school, class),
                Act::Drop => sys::siftpebble_drop(desk, school, class),
                Act::Look { .. } => sys::siftpebble_look(desk, school, class, out, out_len),
            }
        }
    }
}

impl Serve for Library {
    /// Memory of any bytes, made empty.
    fn empty() -> Self {
        let mut library = Library::of(&vec![0x5A; siftpebble::Desk::bytes()]);
        // SAFETY: the memory is as large as a desk and aligned to 8.
        unsafe { sys::siftpebble_empty(library.desk()) };
        library
    }

    fn serve(&mut self, call: &Call) -> Outcome {
        let given = match &call.act {
            Act::Write { pels: given, .. } | Act::Read { code: given, .. } => given.as_slice(),
            _ => &[],
        };
        let mut input = Guarded::new(given);
        let mut lent = Guarded::new(call.act.lent());
        // each number by its name, so that none is left out
        let sys::Answer {
            number,
            length,
            shifts,
            revisits,
        } = self.call(call, input.bytes(), lent.bytes());
        assert_eq!(input.release(), given, "the input has changed");
        Outcome {
            answer: Answer {
                number,
                length,
                shifts,
                revisits,
            },
            lent: lent.release(),
        }
    }
}

/// The safe desk.
pub struct Safe(siftpebble::Desk);

/// What a refusal answers, and a call that is no band.
const NOTHING: Band = Band {
    length: 0,
    shifts: 0,
    revisits: 0,
};

fn answer(result: Result<Band, Refusal>) -> Answer {
    let (number, band) = match result {
        Ok(band) => (0, band),
        Err(refusal) => (refusal.number(), NOTHING),
    };
    let Band {
        length,
        shifts,
        revisits,
    } = band;
    Answer {
        number,
        length: length as u64,
        shifts,
        revisits,
    }
}

impl Serve for Safe {
    fn empty() -> Self {
        Safe(siftpebble::Desk::new())
    }

    fn serve(&mut self, call: &Call) -> Outcome {
        let Key { school, class } = call.key;
        let (desk, key) = (&mut self.0, siftpebble::Key { school, class });
        let mut lent = call.act.lent().to_vec();
        let out = &mut lent[..];
        let nothing = |()| NOTHING;
        let table = |()| Band {
            length: siftpebble::TABLE_BYTES,
            ..NOTHING
        };
        let answer = answer(match &call.act {
            Act::Open(Direction::Write, width) => desk.open_write(key, *width).map(nothing),
            Act::Open(Direction::Read, width) => desk.open_read(key, *width).map(nothing),
            Act::Write { rows, pels, .. } => desk.write(key, *rows, pels, out),
            Act::Read { rows, code, .. } => desk.read(key, *rows, code, out),
            Act::Close => desk.close(key).map(nothing),
            Act::Abandon => desk.abandon(key).map(nothing),
            Act::Drop => desk.forget(key).map(nothing),
            Act::Look { .. } => desk.look(key, out).map(table),
        });
        Outcome { answer, lent }
    }
}
