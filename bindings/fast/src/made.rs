//! The bytes that the writer makes.

use crate::estimate::{BITS, FIRST};
use siftpebble_model::Refusal;

/// The bytes, in the front of a lent buffer.
pub struct Made<'a> {
    out: &'a mut [u8],
    made: usize,
    /// The byte made last, if there is one: a carry may still come to it.
    held: u8,
    /// Bits that the bytes made have brought.
    covered: u32,
}

impl<'a> Made<'a> {
    pub fn new(out: &'a mut [u8]) -> Self {
        Made {
            out,
            made: 0,
            held: 0,
            covered: 0,
        }
    }

    /// How many bytes there are.
    pub fn length(&self) -> usize {
        self.made
    }

    /// Puts the byte made last where it belongs. Bytes without room are only
    /// counted.
    #[inline]
    fn settle(&mut self) {
        let place = self.made.checked_sub(1);
        if let Some(place) = place.and_then(|at| self.out.get_mut(at)) {
            *place = self.held;
        }
    }

    /// Asked for after a row, so that a byte costs no more than its own test.
    pub fn require_room(&self) -> Result<(), Refusal> {
        if self.made > self.out.len() {
            return Err(Refusal::NoRoom);
        }
        Ok(())
    }

    /// Makes the byte that is due from the top of the lower end. A carry goes
    /// into the byte before; behind an FF it stays, and is the stuff bit.
    /// Answers the lower end and the shifts until the next byte.
    #[inline]
    fn byte(&mut self, mut lower: u64) -> (u64, u32) {
        if self.held != 0xFF {
            self.held += (lower >> BITS) as u8;
            lower &= (1 << BITS) - 1;
        }
        self.settle();
        let due = if self.held == 0xFF { 7 } else { 8 };
        let kept = BITS - due;
        self.held = (lower >> kept) as u8;
        self.made += 1;
        self.covered += due;
        (lower & ((1 << kept) - 1), due)
    }

    /// Doubles the lower end so often, which makes a byte due. Answers the
    /// lower end and the shifts until the next byte.
    #[inline(never)]
    pub fn bytes(&mut self, mut lower: u64, mut due: u32, doublings: u32) -> (u64, u32) {
        let mut left = doublings;
        while left >= due {
            left -= due;
            (lower, due) = self.byte(lower << due);
        }
        (lower << left, due - left)
    }

    /// Makes the last bytes, and a 00 where the last one is FF. Answers the
    /// shifts.
    pub fn finish(&mut self, mut lower: u64, mut due: u32) -> Result<u32, Refusal> {
        let shifts = FIRST + self.covered - due;
        while self.covered < FIRST + shifts {
            (lower, due) = self.byte(lower << due);
        }
        self.settle();
        if self.held == 0xFF {
            self.held = 0x00;
            self.made += 1;
            self.settle();
        }
        self.require_room()?;
        Ok(shifts)
    }
}
