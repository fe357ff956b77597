//! The bytes that the reader is given.

use crate::estimate::{AHEAD, BITS, FIRST, ONE};
use siftpebble_model::Refusal;

/// The lower end is below this if no carry is left.
const NO_CARRY: u64 = 1 << BITS;

/// The code, and the test that it is what the writer would make.
///
/// When a byte is due, the lower end counted from the code's bytes so far is
/// what the bytes behind them come to, less the rest. If they were the writer's
/// up to the last one, that one is too exactly if this is not below 0, and no
/// carry is left: it is below 2^24. An FF leaves its carry as a stuff bit, and
/// so behind one it may be below 2^25. Between two bytes nothing is to be done.
pub struct Given<'a> {
    code: &'a [u8],
    /// How many bytes are taken in, and how many the writer would have made.
    taken: usize,
    made: usize,
    /// How many of the bits at hand are empty, as of the last byte.
    empty: u32,
    after_ff: bool,
    /// What the bytes behind those made come to, as of the last byte.
    number: u64,
    /// What the lower end is below when the next byte is due.
    limit: u64,
    /// The shifts from the last byte to the next one.
    period: u32,
    /// Bits that the bytes made have brought.
    covered: u32,
    damaged: bool,
}

impl<'a> Given<'a> {
    /// The code, and its number as far as it is at hand.
    pub fn new(code: &'a [u8]) -> (Self, u32) {
        let mut given = Given {
            code,
            taken: 0,
            made: 0,
            empty: FIRST + AHEAD,
            after_ff: false,
            number: 0,
            limit: NO_CARRY,
            period: FIRST,
            covered: 0,
            damaged: false,
        };
        given.number = given.take_in();
        let rest = given.within(given.number, ONE);
        (given, rest)
    }

    /// Behind the code's last byte are zeros.
    #[inline]
    fn at(&self, place: usize) -> u8 {
        self.code.get(place).copied().unwrap_or(0)
    }

    /// Takes in bytes until fewer than eight bits are empty. Answers what they
    /// come to.
    #[inline]
    fn take_in(&mut self) -> u64 {
        let mut sum = 0;
        while self.empty >= 8 {
            let byte = self.at(self.taken);
            self.taken += 1;
            self.empty -= if self.after_ff { 7 } else { 8 };
            sum += u64::from(byte) << self.empty;
            self.after_ff = byte == 0xFF;
        }
        sum
    }

    /// The rest, or nothing of it where the code's number is above the interval.
    #[inline]
    fn within(&mut self, rest: u64, width: u32) -> u32 {
        if rest < u64::from(width) {
            return rest as u32;
        }
        self.damaged = true;
        0
    }

    /// The byte that is due: tests the one before, and takes in more of the
    /// code. Answers what that comes to.
    #[inline]
    fn byte(&mut self, rest: u64) -> u64 {
        self.number <<= self.period;
        self.damaged |= self.number.wrapping_sub(rest) >= self.limit;
        self.empty += self.period;
        let sum = self.take_in();
        let byte = self.at(self.made);
        self.made += 1;
        self.period = if self.limit == NO_CARRY { 8 } else { 7 };
        self.covered += self.period;
        self.number += sum;
        self.number -= u64::from(byte) << (BITS - self.period);
        self.limit = if byte == 0xFF { 2 * NO_CARRY } else { NO_CARRY };
        sum
    }

    /// Doubles the rest so often, which makes a byte due. Answers the rest,
    /// and the shifts until the next byte.
    #[inline(never)]
    pub fn bytes(&mut self, rest: u32, due: u32, doublings: u32, width: u32) -> (u32, u32) {
        let (mut rest, mut due, mut left) = (u64::from(rest), due, doublings);
        while left >= due {
            left -= due;
            rest <<= due;
            rest += self.byte(rest);
            due = self.period;
        }
        (self.within(rest << left, width), due - left)
    }

    /// Answers the shifts, if the whole code is what the writer would make: the
    /// last bytes leave nothing over, and only an FF has one more behind it.
    pub fn finish(mut self, rest: u32, mut due: u32) -> Result<u32, Refusal> {
        let shifts = FIRST + self.covered - due;
        let mut rest = u64::from(rest);
        while self.covered < FIRST + shifts {
            rest <<= due;
            rest += self.byte(rest);
            due = self.period;
        }
        let length = self.made + usize::from(self.limit != NO_CARRY);
        self.damaged |= length != self.code.len() || rest != 0;
        self.require_whole()?;
        Ok(shifts)
    }

    /// Damage is only noted where it is found, and asked for after a row.
    pub fn require_whole(&self) -> Result<(), Refusal> {
        if self.damaged {
            return Err(Refusal::Damaged);
        }
        Ok(())
    }
}
