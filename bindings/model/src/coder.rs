//! The interval and its bytes.

use crate::refusal::Refusal;
use crate::table::ESTIMATES;

/// The width 1.0, at which a band starts and below which it is doubled.
const ONE: u32 = 0x1000;

/// The shifts before the first byte goes out.
const FIRST: u32 = 12;

/// Takes the bytes of a code in order, each when no carry can reach it any more.
pub trait Sink {
    fn put(&mut self, byte: u8) -> Result<(), Refusal>;
}

/// Is told of the two rare kinds of carry and of the rare end. The tests
/// count them; the unit type does nothing, at no cost.
pub trait Watch {
    /// A carry became a stuff bit.
    fn stuff_carry(&mut self) {}
    /// A carry turned FE into FF and was spent.
    fn spent_carry(&mut self) {}
    /// The last byte was FF, and one more byte 00 followed.
    fn last_ff(&mut self) {}
}

impl Watch for () {}

/// A lent buffer that is filled from the front.
pub struct Fill<'a> {
    pub out: &'a mut [u8],
    pub made: usize,
}

impl Sink for Fill<'_> {
    fn put(&mut self, byte: u8) -> Result<(), Refusal> {
        *self.out.get_mut(self.made).ok_or(Refusal::NoRoom)? = byte;
        self.made += 1;
        Ok(())
    }
}

/// A given code, which must be what is made.
pub struct Compare<'a> {
    code: std::slice::Iter<'a, u8>,
}

impl Sink for Compare<'_> {
    fn put(&mut self, byte: u8) -> Result<(), Refusal> {
        match self.code.next() {
            Some(&given) if given == byte => Ok(()),
            _ => Err(Refusal::Damaged),
        }
    }
}

/// The writer: the interval, and the bytes that it has made.
pub struct Writer<S, W> {
    width: u32,
    /// The lower end less the value of the bytes made.
    lower: u32,
    /// Shifts until the next byte goes out.
    due: u32,
    /// The byte made last: a carry may still come to it.
    held: Option<u8>,
    /// Bits that the bytes made have brought.
    covered: u32,
    shifts: u32,
    sink: S,
    watch: W,
}

impl<S: Sink, W: Watch> Writer<S, W> {
    pub fn new(sink: S, watch: W) -> Self {
        Writer {
            width: ONE,
            lower: 0,
            due: FIRST,
            held: None,
            covered: 0,
            shifts: 0,
            sink,
            watch,
        }
    }

    /// Codes one pel in the context with this table byte. Answers whether the
    /// estimate was revisited: whether there was a shift (request E11).
    #[inline]
    pub fn code(&mut self, entry: &mut u8, pel: u8) -> Result<bool, Refusal> {
        let estimate = ESTIMATES[*entry as usize];
        if pel == *entry & 1 {
            self.lower += estimate.size;
            self.width -= estimate.size;
            if self.width >= ONE {
                return Ok(false);
            }
            *entry = estimate.after_expected;
        } else {
            self.width = estimate.size;
            *entry = estimate.after_unexpected;
        }
        Ok(self.renormalise()? > 0)
    }

    /// Doubles the interval up to 1.0 and answers how often.
    #[inline]
    fn renormalise(&mut self) -> Result<u32, Refusal> {
        let doublings = self.width.leading_zeros() - ONE.leading_zeros();
        self.width <<= doublings;
        self.shifts += doublings;
        let mut left = doublings;
        while left >= self.due {
            self.lower <<= self.due;
            left -= self.due;
            self.make_byte()?;
        }
        self.lower <<= left;
        self.due -= left;
        Ok(doublings)
    }

    /// Makes the byte that is due from the top of the lower end's 24 bits;
    /// bit 24 is a carry.
    fn make_byte(&mut self) -> Result<(), Refusal> {
        let carry = (self.lower >> 24) as u8;
        let (before, stuff) = match self.held {
            Some(0xFF) => (Some(0xFF), carry),
            Some(byte) => (Some(byte + carry), 0),
            None => (None, 0),
        };
        if let Some(byte) = before {
            self.sink.put(byte)?;
        }
        let after_ff = before == Some(0xFF);
        if stuff == 1 {
            self.watch.stuff_carry();
        } else if after_ff && carry == 1 {
            self.watch.spent_carry();
        }
        self.due = if after_ff { 7 } else { 8 };
        let kept = 24 - self.due;
        let new_bits = (self.lower & 0xFF_FFFF) >> kept;
        self.held = Some(stuff << 7 | new_bits as u8);
        self.lower &= (1 << kept) - 1;
        self.covered += self.due;
        Ok(())
    }

    /// Makes the last bytes; answers the shifts, the sink and the watch.
    /// Where the last one is FF, one more byte 00 follows (request E2).
    pub fn finish(mut self) -> Result<(u32, S, W), Refusal> {
        while self.covered < FIRST + self.shifts {
            self.lower <<= self.due;
            self.make_byte()?;
        }
        if let Some(byte) = self.held {
            self.sink.put(byte)?;
        }
        if self.held == Some(0xFF) {
            self.sink.put(0x00)?;
            self.watch.last_ff();
        }
        Ok((self.shifts, self.sink, self.watch))
    }
}

/// Bits of the code that the reader has at hand below the 12 of the width.
const AHEAD: u32 = 16;

/// The reader: a writer in step, whose bytes must be those of the code.
///
/// The stuff bit of a byte is added when the byte is taken in, so that the
/// bytes taken in cover at least the bits in use. That is early enough for
/// every code that a writer makes; any other code differs from the bytes of
/// the writer in step, whatever pels were found in it.
pub struct Reader<'a> {
    writer: Writer<Compare<'a>, ()>,
    /// The code's number less the lower end, with `AHEAD` more bits.
    rest: u64,
    /// How many of these bits are still empty.
    empty: u32,
    code: std::slice::Iter<'a, u8>,
    after_ff: bool,
}

impl<'a> Reader<'a> {
    pub fn new(code: &'a [u8]) -> Self {
        let compare = Compare { code: code.iter() };
        let mut reader = Reader {
            writer: Writer::new(compare, ()),
            rest: 0,
            empty: FIRST + AHEAD,
            code: code.iter(),
            after_ff: false,
        };
        reader.take_in();
        reader
    }

    /// Takes in bytes until fewer than eight bits are empty. Behind the
    /// code's last byte are zeros.
    fn take_in(&mut self) {
        while self.empty >= 8 {
            let byte = self.code.next().copied().unwrap_or(0);
            self.empty -= if self.after_ff { 7 } else { 8 };
            self.rest += u64::from(byte) << self.empty;
            self.after_ff = byte == 0xFF;
        }
    }

    /// Finds one pel in the context with this table byte. Answers it, and
    /// whether the estimate was revisited: whether there was a shift.
    #[inline]
    pub fn pel(&mut self, entry: &mut u8) -> Result<(u8, bool), Refusal> {
        let estimate = ESTIMATES[*entry as usize];
        let size = u64::from(estimate.size) << AHEAD;
        let sense = *entry & 1;
        let pel = if self.rest >= size {
            self.rest -= size;
            self.writer.lower += estimate.size;
            self.writer.width -= estimate.size;
            if self.writer.width >= ONE {
                return Ok((sense, false));
            }
            *entry = estimate.after_expected;
            sense
        } else {
            self.writer.width = estimate.size;
            *entry = estimate.after_unexpected;
            sense ^ 1
        };
        let doublings = self.writer.renormalise()?;
        self.rest <<= doublings;
        self.empty += doublings;
        self.take_in();
        if self.rest >> AHEAD >= u64::from(self.writer.width) {
            return Err(Refusal::Damaged); // a number above the interval
        }
        Ok((pel, doublings > 0))
    }

    /// Answers the shifts, if the whole code is what the writer in step made.
    pub fn finish(self) -> Result<u32, Refusal> {
        let (shifts, mut compare, ()) = self.writer.finish()?;
        match compare.code.next() {
            None => Ok(shifts),
            Some(_) => Err(Refusal::Damaged),
        }
    }
}
