//! Random runs of calls.

use crate::band::{self, MAX_CODE, MAX_ROWS, MAX_WIDTH};
use crate::call::{Act, Call, Serve};
use crate::desk::{Desk, Direction, Key, Page};
use crate::random::Random;
use crate::sample;
use crate::table::CONTEXTS;

/// A source of random calls. It is shown the desk before each call, so that
/// most calls make sense and the others miss by little.
pub struct Run {
    pub random: Random,
    keys: Vec<Key>,
}

/// Numbers beside the lawful ones, and some that would be lawful if their
/// upper bits were lost.
fn stray(random: &mut Random, last: u64) -> u64 {
    let lawful = 1 + random.number() % last;
    random.pick(&[
        0,
        last + 1,
        u64::MAX,
        lawful + (1 << 32),
        lawful + (1 << 16),
    ])
}

/// A run of calls from an empty desk, made while the model follows it.
pub fn calls(seed: u64, length: usize) -> Vec<Call> {
    let mut run = Run::new(seed);
    let mut desk = Desk::default();
    let mut next = || {
        let call = run.next(&desk);
        desk.serve(&call);
        call
    };
    (0..length).map(|_| next()).collect()
}

impl Run {
    /// Twelve keys, or fewer, so that some runs come back to each key often.
    pub fn new(seed: u64) -> Self {
        let mut random = Random::new(seed);
        let mut keys = sample::keys();
        keys.truncate(random.pick(&[3, 6, 12, 12]));
        Run { random, keys }
    }

    pub fn next(&mut self, desk: &Desk) -> Call {
        let key = self.key(desk);
        let act = match desk.page(key) {
            Some(page) => self.act_on_open(page),
            None => self.act_on_other(),
        };
        Call { key, act }
    }

    fn key(&mut self, desk: &Desk) -> Key {
        let open: Vec<Key> = desk.pages.iter().flatten().map(|page| page.key).collect();
        let mut key = if !open.is_empty() && self.random.chance(55) {
            self.random.pick(&open)
        } else {
            self.random.pick(&self.keys)
        };
        match self.random.below(80) {
            0 => key.school = stray(&mut self.random, 65_535),
            1 => key.class = stray(&mut self.random, 65_535),
            _ => {}
        }
        key
    }

    fn act_on_open(&mut self, page: &Page) -> Act {
        match self.random.below(100) {
            0..=64 => self.band(page, page.direction),
            65..=67 => self.band(page, Direction::Write),
            68..=70 => self.band(page, Direction::Read),
            71..=81 => Act::Close,
            82..=86 => Act::Abandon,
            87..=89 => self.open(),
            90..=92 => Act::Drop,
            _ => self.look(),
        }
    }

    fn act_on_other(&mut self) -> Act {
        match self.random.below(100) {
            0..=49 => self.open(),
            50..=64 => self.look(),
            65..=79 => Act::Drop,
            80..=84 => Act::Close,
            85..=89 => Act::Abandon,
            90..=94 => self.blind_write(),
            _ => self.blind_read(),
        }
    }

    fn open(&mut self) -> Act {
        let direction = self.random.pick(&[Direction::Write, Direction::Read]);
        let width = if self.random.chance(4) {
            stray(&mut self.random, MAX_WIDTH as u64)
        } else {
            sample::width(&mut self.random) as u64
        };
        Act::Open(direction, width)
    }

    fn look(&mut self) -> Act {
        let lent = self.lent(CONTEXTS);
        Act::Look { lent }
    }

    /// A lent buffer around the length that is needed, full of random bytes.
    fn lent(&mut self, needed: usize) -> Vec<u8> {
        let length = match self.random.below(20) {
            0 => 0,
            1 | 2 => needed.saturating_sub(1),
            3 => self.random.between(0, needed),
            4..=8 => needed,
            9 => MAX_CODE + self.random.below(3),
            _ => needed + self.random.below(40),
        };
        self.random.bytes(length)
    }

    fn rows(&mut self) -> usize {
        match self.random.below(20) {
            0..=15 => self.random.between(1, 4),
            16..=18 => self.random.between(1, 16),
            _ => self.random.between(MAX_ROWS - 4, MAX_ROWS),
        }
    }

    /// The rows as they are told: now and then not those that were meant.
    fn told(&mut self, rows: usize) -> u64 {
        match self.random.below(60) {
            0 => stray(&mut self.random, MAX_ROWS as u64),
            1 => rows as u64 + 1,
            _ => rows as u64,
        }
    }

    fn band(&mut self, page: &Page, direction: Direction) -> Act {
        let (width, rows) = (page.width as usize, self.rows());
        let mut pels = sample::band(&mut self.random, &page.state, width, rows);
        let mut code = vec![0; MAX_CODE];
        let made = band::write(&mut page.state.clone(), width, &pels, &mut code, ());
        code.truncate(made.map_or(MAX_CODE, |band| band.length));
        if direction == Direction::Read {
            let lent = self.lent(pels.len());
            if self.random.chance(30) {
                code = sample::spoiled(&mut self.random, &code);
            }
            if self.random.chance(1) {
                code.resize(MAX_CODE + self.random.below(2), 0);
            }
            let rows = self.told(rows);
            return Act::Read { rows, code, lent };
        }
        let lent = self.lent(code.len());
        let rows = self.told(rows);
        self.spoil_pels(&mut pels, width);
        Act::Write { rows, pels, lent }
    }

    /// Now and then a padding bit, or a wrong length.
    fn spoil_pels(&mut self, pels: &mut Vec<u8>, width: usize) {
        match self.random.below(40) {
            0 | 1 => {
                let bytes = band::row_bytes(width);
                let row = self.random.below(pels.len() / bytes);
                let stray = self.random.byte() & band::padding(width);
                pels[(row + 1) * bytes - 1] |= stray;
            }
            2 => pels.truncate(pels.len() - 1),
            3 => pels.push(0),
            _ => {}
        }
    }

    /// A write of anything, to a page that is not open.
    fn blind_write(&mut self) -> Act {
        let rows = self.rows();
        let (length, lent) = (self.random.below(9), self.lent(4));
        Act::Write {
            rows: self.told(rows),
            pels: self.random.bytes(length),
            lent,
        }
    }

    /// A read of anything, now and then at the limit of length, from a page
    /// that is not open.
    fn blind_read(&mut self) -> Act {
        let rows = self.rows();
        let (short, lent) = (self.random.below(9), self.lent(4));
        let length = self
            .random
            .pick(&[short, short, short, MAX_CODE, MAX_CODE + 1]);
        Act::Read {
            rows: self.told(rows),
            code: self.random.bytes(length),
            lent,
        }
    }
}
