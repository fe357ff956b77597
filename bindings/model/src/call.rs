//! Calls and their outcomes as data, and whatever serves them.

use crate::band::Band;
use crate::desk::{Desk, Direction, Key};
use crate::refusal::Refusal;

/// A call with its inputs, and with the lent buffer as it comes in.
#[derive(Clone, Debug, PartialEq, Eq)]
pub struct Call {
    pub key: Key,
    pub act: Act,
}

#[derive(Clone, Debug, PartialEq, Eq)]
pub enum Act {
    Open(Direction, u64),
    Write {
        rows: u64,
        pels: Vec<u8>,
        lent: Vec<u8>,
    },
    Read {
        rows: u64,
        code: Vec<u8>,
        lent: Vec<u8>,
    },
    Close,
    Abandon,
    Drop,
    Look {
        lent: Vec<u8>,
    },
}

/// What a lent buffer holds before a call: no byte of it is zero.
fn lent(room: usize) -> Vec<u8> {
    vec![0xA5; room]
}

/// A write into so much room.
pub fn write(rows: u64, pels: &[u8], room: usize) -> Act {
    let (pels, lent) = (pels.to_vec(), lent(room));
    Act::Write { rows, pels, lent }
}

/// A read into so much room.
pub fn read(rows: u64, code: &[u8], room: usize) -> Act {
    let (code, lent) = (code.to_vec(), lent(room));
    Act::Read { rows, code, lent }
}

/// A look into so much room.
pub fn look(room: usize) -> Act {
    let lent = lent(room);
    Act::Look { lent }
}

/// What every call answers: its number (0 when accepted), a length, S, and the
/// pels revisited.
#[derive(Clone, Copy, Debug, PartialEq, Eq)]
pub struct Answer {
    pub number: u64,
    pub length: u64,
    pub shifts: u64,
    pub revisits: u64,
}

impl Answer {
    pub fn is_refusal(self) -> bool {
        self.number != 0
    }
}

/// All that a caller sees of a call: the answer, and the lent buffer after it
/// (empty where the call has none).
#[derive(Clone, Debug, PartialEq, Eq)]
pub struct Outcome {
    pub answer: Answer,
    pub lent: Vec<u8>,
}

/// Serves calls: the model, the library, or something with a fault.
pub trait Serve {
    /// An empty desk.
    fn empty() -> Self;
    fn serve(&mut self, call: &Call) -> Outcome;
}

impl From<Result<Band, Refusal>> for Answer {
    fn from(result: Result<Band, Refusal>) -> Self {
        let (number, band) = match result {
            Ok(band) => (0, band),
            Err(refusal) => (refusal as u64, Band::default()),
        };
        Answer {
            number,
            length: band.length as u64,
            shifts: band.shifts,
            revisits: band.revisits,
        }
    }
}

impl From<Result<(), Refusal>> for Answer {
    fn from(result: Result<(), Refusal>) -> Self {
        result.map(|()| Band::default()).into()
    }
}

impl From<Result<usize, Refusal>> for Answer {
    fn from(result: Result<usize, Refusal>) -> Self {
        let alone = |length| Band {
            length,
            ..Band::default()
        };
        result.map(alone).into()
    }
}

impl Act {
    /// The lent buffer as it comes in.
    pub fn lent(&self) -> &[u8] {
        match self {
            Act::Write { lent, .. } | Act::Read { lent, .. } | Act::Look { lent } => lent,
            Act::Open(..) | Act::Close | Act::Abandon | Act::Drop => &[],
        }
    }
}

impl Serve for Desk {
    fn empty() -> Self {
        Desk::default()
    }

    fn serve(&mut self, call: &Call) -> Outcome {
        let key = call.key;
        let mut lent = call.act.lent().to_vec();
        let answer = match &call.act {
            Act::Open(direction, width) => self.open(key, *direction, *width).into(),
            Act::Write { rows, pels, .. } => self.write(key, *rows, pels, &mut lent).into(),
            Act::Read { rows, code, .. } => self.read(key, *rows, code, &mut lent).into(),
            Act::Close => self.close(key).into(),
            Act::Abandon => self.abandon(key).into(),
            Act::Drop => self.forget(key).into(),
            Act::Look { .. } => self.look(key, &mut lent).into(),
        };
        Outcome { answer, lent }
    }
}
