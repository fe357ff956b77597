//! Random tables, bands, desks and spoiled codes.

use crate::band::{self, row_bytes, Row, State, MAX_CODE, MAX_WIDTH};
use crate::coder::Watch;
use crate::desk::{Desk, Direction, Key, Page, Place, PAGES};
use crate::random::Random;
use crate::table::{after_expected, after_unexpected, Table, CONTEXTS, ENTRIES, SIZES};

/// Twelve keys in which each school and each class number occurs more than
/// once: more than there are places, and some differ in the school alone.
pub fn keys() -> Vec<Key> {
    let classes = [5, 1, 300, 65_535];
    let schools = [1, 2, 65_535];
    let of_class = |class| schools.map(|school| Key { school, class });
    classes.into_iter().flat_map(of_class).collect()
}

/// Packed rows with the pel at (x, y) black where `black` says so.
pub fn rows(width: usize, rows: usize, mut black: impl FnMut(usize, usize) -> bool) -> Vec<u8> {
    let bytes = row_bytes(width);
    let mut pels = vec![0; rows * bytes];
    for y in 0..rows {
        for x in 0..width {
            if black(x, y) {
                pels[y * bytes + x / 8] |= 0x80 >> (x % 8);
            }
        }
    }
    pels
}

/// A ruled sheet: a black row in every eight, and a margin.
pub fn ruled(width: usize, height: usize) -> Vec<u8> {
    rows(width, height, |x, y| y % 8 == 7 || x == width / 16)
}

/// A grey ramp through a 4 x 4 ordered dither.
pub fn halftone(width: usize, height: usize) -> Vec<u8> {
    const DOTS: [[usize; 4]; 4] = [[0, 8, 2, 10], [12, 4, 14, 6], [3, 11, 1, 9], [15, 7, 13, 5]];
    rows(width, height, |x, y| DOTS[y % 4][x % 4] < x * 16 / width)
}

/// Independent pels, black in `percent` of a hundred cases.
pub fn noise(random: &mut Random, width: usize, height: usize, percent: usize) -> Vec<u8> {
    rows(width, height, |_, _| random.chance(percent))
}

/// Single black pels on white, one at some place of each square cell.
pub fn dots(random: &mut Random, width: usize, height: usize, cell: usize) -> Vec<u8> {
    let across = width.div_ceil(cell);
    let places: Vec<(usize, usize)> = (0..across * height.div_ceil(cell))
        .map(|_| (random.below(cell), random.below(cell)))
        .collect();
    rows(width, height, |x, y| {
        places[y / cell * across + x / cell] == (x % cell, y % cell)
    })
}

/// White rows but for a few pels at any places, one of them often the last.
pub fn sparse(random: &mut Random, width: usize, height: usize) -> Vec<u8> {
    let mut black = vec![vec![false; width]; height];
    for row in &mut black {
        for _ in 0..random.below(4) {
            let any = random.below(width);
            let place = random.pick(&[any, any, width - 1]);
            row[place] = true;
        }
    }
    rows(width, height, |x, y| black[y][x])
}

/// A lawful table: like a young class's, like an old one's, or anything.
pub fn table(random: &mut Random) -> Table {
    let (low, high) = random.pick(&[(0, 1), (0, 8), (0, ENTRIES), (44, ENTRIES), (58, ENTRIES)]);
    std::array::from_fn(|_| random.between(low, high - 1) as u8)
}

/// A lawful working table and last row.
pub fn state(random: &mut Random, width: usize) -> State {
    let mut last: Row = [0; MAX_WIDTH / 8];
    let percent = random.pick(&[0, 10, 50]);
    let row = noise(random, width, 1, percent);
    last[..row.len()].copy_from_slice(&row);
    let table = table(random);
    State { table, last }
}

/// A band of one of many kinds.
pub fn band(random: &mut Random, from: &State, width: usize, height: usize) -> Vec<u8> {
    match random.below(10) {
        0 => rows(width, height, |_, _| false),
        1 => rows(width, height, |_, _| true),
        2 => ruled(width, height),
        3 => halftone(width, height),
        4..=6 => {
            let percent = random.pick(&[2, 10, 50, 90]);
            noise(random, width, height, percent)
        }
        _ => steered(random, from, width, height),
    }
}

/// An endless number, in which random bits and runs of one bit take turns.
struct Target<'a> {
    random: &'a mut Random,
    run: usize,
    bit: Option<u32>,
}

impl Target<'_> {
    fn bit(&mut self) -> u32 {
        if self.run == 0 {
            self.run = self.random.between(1, 24);
            self.bit = self.random.pick(&[None, Some(0), Some(0), Some(1)]);
        }
        self.run -= 1;
        self.bit.unwrap_or_else(|| self.random.below(2) as u32)
    }
}

/// Chooses each pel so that the interval keeps a target number in it.
struct Steer<'a> {
    target: Target<'a>,
    table: Table,
    interval: u32,
    /// The target less the lower end.
    rest: u32,
}

impl Steer<'_> {
    fn pel(&mut self, context: usize) -> bool {
        let entry = self.table[context];
        let size = u32::from(SIZES[usize::from(entry / 2)]);
        let expected = self.rest >= size;
        if expected {
            self.rest -= size;
            self.interval -= size;
        } else {
            self.interval = size;
        }
        if self.interval < 0x1000 {
            let next = if expected {
                after_expected
            } else {
                after_unexpected
            };
            self.table[context] = next(entry);
        }
        while self.interval < 0x1000 {
            self.interval *= 2;
            self.rest = 2 * self.rest + self.target.bit();
        }
        expected == (entry & 1 == 1)
    }
}

/// The sum of weights of the black neighbours of the pel at x.
fn context(above: &[bool], row: &[bool], x: usize) -> usize {
    let weigh = |line: &[bool], shift: isize, weight: usize| {
        let at = x.checked_add_signed(shift);
        let black = at.and_then(|at| line.get(at)).copied().unwrap_or(false);
        if black {
            weight
        } else {
            0
        }
    };
    let same = [(-1, 1), (-2, 2)].map(|(shift, weight)| weigh(row, shift, weight));
    let over = [(2, 4), (1, 8), (0, 16), (-1, 32), (-2, 64)];
    let over = over.map(|(shift, weight)| weigh(above, shift, weight));
    same.iter().chain(&over).sum()
}

/// The pels that lead the lower end toward a number with long runs of 0 and
/// of 1 bits. It comes to that number from below, and so its bytes are rich
/// in FF and in carries that come late.
pub fn steered(random: &mut Random, from: &State, width: usize, height: usize) -> Vec<u8> {
    let mut target = Target {
        random,
        run: 0,
        bit: None,
    };
    let rest = (0..12).fold(0, |rest, _| 2 * rest + target.bit());
    let mut steer = Steer {
        target,
        table: from.table,
        interval: 0x1000,
        rest,
    };
    let pel_of_last = |x: usize| from.last[x / 8] >> (7 - x % 8) & 1 == 1;
    let mut picture = vec![(0..width).map(pel_of_last).collect::<Vec<bool>>()];
    for y in 0..height {
        let mut row = Vec::with_capacity(width);
        for x in 0..width {
            let context = context(&picture[y], &row, x);
            row.push(steer.pel(context));
        }
        picture.push(row);
    }
    rows(width, height, |x, y| picture[y + 1][x])
}

/// Sees whether a 00 follows a last FF.
struct LastFf(bool);

impl Watch for &mut LastFf {
    fn last_ff(&mut self) {
        self.0 = true;
    }
}

fn has_last_ff(from: &State, width: usize, pels: &[u8]) -> bool {
    let mut seen = LastFf(false);
    let written = band::write(
        &mut from.clone(),
        width,
        pels,
        &mut [0; MAX_CODE],
        &mut seen,
    );
    written.is_ok() && seen.0
}

/// A page, its width, and a row of it whose code has a last FF: any pels, and
/// then white ones, each of which raises the lower end by one, so that in the
/// end its lowest bits are ones.
pub fn last_ff(random: &mut Random) -> (State, usize, Vec<u8>) {
    let mut tries = (0..1000).map(|_| try_last_ff(random));
    tries
        .find_map(|found| found)
        .expect("a code with a last FF")
}

fn try_last_ff(random: &mut Random) -> Option<(State, usize, Vec<u8>)> {
    let front = random.between(1, 40);
    let mut from = state(random, front);
    from.table[0] = 2 * 29; // the size is 1
    let row = band(random, &from, front, 1);
    let black = |x: usize| x < front && row[x / 8] >> (7 - x % 8) & 1 == 1;
    let widths = front..front + 0x100;
    let mut rows = widths.map(|width| (width, rows(width, 1, |x, _| black(x))));
    let (width, pels) = rows.find(|(width, pels)| has_last_ff(&from, *width, pels))?;
    Some((from, width, pels))
}

/// A lawful desk: any slots and places in use, in any order.
pub fn desk(random: &mut Random) -> Desk {
    let mut desk = Desk::default();
    let mut keys = keys();
    for spot in &mut desk.places {
        if random.chance(70) {
            let key = keys.swap_remove(random.below(keys.len()));
            let learned = Some(table(random));
            *spot = Some(Place { key, learned });
        }
    }
    let mut homes: Vec<usize> = (0..desk.places.len())
        .filter(|&i| desk.places[i].is_some())
        .collect();
    for slot in &mut desk.pages {
        if homes.is_empty() || random.chance(35) {
            continue;
        }
        let home = homes.swap_remove(random.below(homes.len()));
        if let Some(place) = &mut desk.places[home] {
            if random.chance(40) {
                place.learned = None;
            }
            *slot = Some(page(random, place.key));
        }
    }
    desk
}

/// A lawful desk with one rule probably broken, and the others not: there is
/// nothing in unused room, but a page or place that does not fit the rest.
pub fn misfit(random: &mut Random, lawful: &Desk) -> Desk {
    let mut desk = lawful.clone();
    let page = random.below(desk.pages.len());
    let place = random.below(desk.places.len());
    let other = random.below(desk.places.len());
    match random.below(12) {
        0 => desk.pages[page] = None,
        1 => desk.places[place] = None,
        2 => desk.pages[page] = desk.pages[(page + 1) % PAGES].clone(),
        3 => desk.places[place] = desk.places[other].clone(),
        4 => desk.places.swap(place, other),
        _ => spoil_part(random, &mut desk, page, place),
    }
    desk
}

/// Changes one field of this page or of this place, if it is used.
fn spoil_part(random: &mut Random, desk: &mut Desk, page: usize, place: usize) {
    let key = stray_key(random);
    let entry = random.pick(&[59, 60, 61, 255]);
    let context = random.below(CONTEXTS);
    if let Some(page) = desk.pages[page].as_mut().filter(|_| random.chance(50)) {
        match random.below(4) {
            0 => page.key = key,
            1 => page.width = random.pick(&[0, 2048, 2049, page.width + 1, page.width - 1]),
            2 => page.state.table[context] = entry,
            _ => page.state.last[random.below(MAX_WIDTH / 8)] |= 1 << random.below(8),
        }
    } else if let Some(place) = &mut desk.places[place] {
        match (random.below(3), &mut place.learned) {
            (0, _) => place.key = key,
            (1, Some(table)) => table[context] = entry,
            _ => place.learned = None,
        }
    }
}

/// A key of the twelve, or one that is not lawful.
fn stray_key(random: &mut Random) -> Key {
    let Key { school, class } = random.pick(&keys());
    let number = random.pick(&[0, 65_536, u64::MAX]);
    let (one, two) = (
        Key {
            school: number,
            class,
        },
        Key {
            school,
            class: number,
        },
    );
    random.pick(&[Key { school, class }, one, two])
}

fn page(random: &mut Random, key: Key) -> Page {
    let width = width(random);
    Page {
        key,
        direction: random.pick(&[Direction::Write, Direction::Read]),
        width: width as u64,
        state: state(random, width),
    }
}

/// A lawful width: most are small, so that much is tried in little time.
pub fn width(random: &mut Random) -> usize {
    match random.below(20) {
        0..=11 => random.between(1, 20),
        12..=16 => random.between(1, 100),
        17..=18 => random.between(1, 600),
        _ => random.between(MAX_WIDTH - 10, MAX_WIDTH),
    }
}

/// A code that is probably no band's: cut, extended, changed, made up, or with
/// a marker put in.
pub fn spoiled(random: &mut Random, good: &[u8]) -> Vec<u8> {
    let mut code = good.to_vec();
    match random.below(12) {
        0 => code.truncate(good.len() - 1),
        1 => code.truncate(random.below(good.len())),
        2 => code.push(0),
        3 => {
            let more = random.between(1, 4);
            code.extend(random.bytes(more));
        }
        4 | 5 => code[random.below(good.len())] ^= 1 << random.below(8),
        6 => code[random.below(good.len())] = random.pick(&[0x00, 0x7F, 0x80, 0xFE, 0xFF]),
        7 => code.swap(random.below(good.len()), random.below(good.len())),
        8 => {
            let length = random.below(6);
            code = random.bytes(length);
        }
        9 => code = with_ff(random, good),
        10 => code = after_ff(random, good),
        _ => code = other_form(random, good),
    }
    code
}

/// A byte to stand after an FF: three of four make a marker, and the fourth
/// nearly does.
fn about_90(random: &mut Random) -> u8 {
    let any = random.between(0x90, 0xFF) as u8;
    random.pick(&[0x8F, 0x90, 0xFF, any])
}

/// The code with an FF, and a byte after it, over what stands at any place in
/// it, between two of its bytes, or behind it.
pub fn with_ff(random: &mut Random, good: &[u8]) -> Vec<u8> {
    let at = random.below(good.len() + 1);
    let over = random.pick(&[0, 2]);
    let end = good.len().min(at + over);
    let pair = [0xFF, about_90(random)];
    [&good[..at], &pair, &good[end..]].concat()
}

/// The code with another byte after one of its own FFs, where it has one.
fn after_ff(random: &mut Random, good: &[u8]) -> Vec<u8> {
    let mut code = good.to_vec();
    let after: Vec<usize> = (1..good.len()).filter(|&at| good[at - 1] == 0xFF).collect();
    if !after.is_empty() {
        code[random.pick(&after)] = about_90(random);
    }
    code
}

/// The bits of a code's number: stuff bits are carried into the bits before.
pub fn digits(code: &[u8]) -> Vec<bool> {
    let mut digits = Vec::new();
    let mut after_ff = false;
    for &byte in code {
        if after_ff && byte >= 0x80 {
            let ones = digits.iter().rev().take_while(|&&one| one).count();
            let zero = digits.len().saturating_sub(ones + 1);
            digits[zero..].iter_mut().for_each(|digit| *digit ^= true);
        }
        let first = usize::from(after_ff);
        digits.extend((first..8).map(|bit| byte & 0x80 >> bit != 0));
        after_ff = byte == 0xFF;
    }
    digits
}

/// The bytes of a number, as far as they are made.
#[derive(Clone)]
struct Packing<'a> {
    digits: &'a [bool],
    at: usize,
    code: Vec<u8>,
    /// The stuff bit of the next byte.
    stuff: u8,
}

impl Packing<'_> {
    fn digit(&self, at: usize) -> bool {
        self.digits.get(at).copied().unwrap_or(false)
    }

    fn is_done(&self) -> bool {
        self.at >= self.digits.len()
    }

    fn next_byte(&mut self) {
        let count = if self.code.last() == Some(&0xFF) {
            7
        } else {
            8
        };
        let end = self.at + count;
        let new = (self.at..end).fold(0, |byte, at| byte << 1 | u8::from(self.digit(at)));
        self.code.push(self.stuff | new);
        self.at = end;
        self.stuff = 0;
    }

    /// The same with `xx-1 FF 8y` where `xx 00 0y` would do, `xx` being the
    /// byte made last. None where the digits do not allow it there.
    fn late(&self) -> Option<Self> {
        let zeros = || !(self.at..self.at + 8).any(|at| self.digit(at));
        let last = self.code.last().filter(|&&last| last != 0 && last != 0xFF);
        let last = last.filter(|_| zeros())?;
        let mut late = self.clone();
        late.code.pop();
        late.code.extend([last - 1, 0xFF]);
        late.at += 8;
        late.stuff = 0x80;
        Some(late)
    }

    /// All bytes. None where a stuff bit is left without a byte.
    fn finish(mut self) -> Option<Vec<u8>> {
        while !self.is_done() {
            self.next_byte();
        }
        (self.stuff == 0).then_some(self.code)
    }
}

/// The forms of a code's number: one for each byte but the last that a carry
/// may come to late, and the one in which none does.
fn forms(good: &[u8]) -> Vec<Vec<u8>> {
    let mut plain = Packing {
        digits: &digits(good),
        at: 0,
        code: Vec::new(),
        stuff: 0,
    };
    let mut forms = Vec::new();
    for _ in 1..good.len() {
        if plain.is_done() {
            // the plain form has fewer bytes, and stands for those it has not
            forms.push(plain.code.clone());
        } else {
            plain.next_byte();
            forms.extend(plain.late().and_then(Packing::finish));
        }
    }
    forms.extend(plain.finish());
    forms
}

/// Other bytes with the same number, where there are some.
pub fn other_form(random: &mut Random, good: &[u8]) -> Vec<u8> {
    let mut forms = forms(good);
    forms.retain(|form| form != good);
    if forms.is_empty() {
        good.to_vec()
    } else {
        random.pick(&forms)
    }
}
