//! Request E11: a band also answers how many of its pels were revisited, which
//! is when there was at least one shift.

mod common;

use common::{context, new_page};
use siftpebble_model::band::{row_bytes, State, MAX_CODE};
use siftpebble_model::call::{look, read, write, Act, Answer, Call, Outcome, Serve};
use siftpebble_model::coder::{Fill, Reader, Writer};
use siftpebble_model::random::Random;
use siftpebble_model::run::calls;
use siftpebble_model::table::{after_expected, after_unexpected, Table, CONTEXTS, SIZES};
use siftpebble_model::{sample, Desk, Direction, Key, Place};
use Direction::{Read, Write};

const KEY: Key = Key {
    school: 1,
    class: 5,
};

/// A desk with one page, in this state.
fn desk(direction: Direction, width: usize, state: &State) -> Desk {
    let mut desk = Desk::default();
    desk.open(KEY, direction, width as u64)
        .expect("an empty desk");
    let page = desk.pages[0].as_mut().expect("the open page");
    page.state = state.clone();
    desk
}

fn serve(desk: &mut Desk, act: Act) -> Outcome {
    desk.serve(&Call { key: KEY, act })
}

/// The pels of a band in which all have one value.
fn plain(width: usize, rows: usize, pel: u8) -> Vec<u8> {
    sample::rows(width, rows, |_, _| pel == 1)
}

/// Writes a band on one desk and reads its code on another; answers S and the
/// pels revisited, which are the same for both, and the state after it.
fn both_ways(from: &State, width: usize, pels: &[u8]) -> (u64, u64, State) {
    let rows = (pels.len() / row_bytes(width)) as u64;
    let (mut writing, mut reading) = (desk(Write, width, from), desk(Read, width, from));
    let Outcome { answer, lent } = serve(&mut writing, write(rows, pels, MAX_CODE));
    assert_eq!(answer.number, 0);
    let code = &lent[..answer.length as usize];
    let found = serve(&mut reading, read(rows, code, pels.len()));
    let expected = Answer {
        length: pels.len() as u64,
        ..answer
    };
    assert_eq!((found.answer, &found.lent[..]), (expected, pels));
    let after = |desk: &Desk| desk.page(KEY).expect("the open page").state.clone();
    assert_eq!(after(&writing), after(&reading));
    (answer.shifts, answer.revisits, after(&writing))
}

/// A case: name, width, the bands (each its pels), and of the last one S and
/// the pels revisited.
type Case = (&'static str, usize, &'static [&'static [u8]], u64, u64);

/// A band starts with the width 1000, and a page with the size AC1 for every
/// context. No pel of P1 to P9 is without a shift, and so the last two cases
/// go on to one that is.
const CASES: [Case; 11] = [
    // 1000 - AC1 = 53F has two shifts; they are one pel's
    ("P1", 1, &[&[0x00]], 2, 1),
    // AC1 has one
    ("P2", 1, &[&[0x80]], 1, 1),
    // P1, up to the width 14FC and to row 1; 14FC - A81 = A7B has one
    ("P3", 2, &[&[0x00]], 3, 2),
    // P1; A81 has one
    ("P4", 2, &[&[0x40]], 3, 2),
    // P2, up to 1582; context 1 is at row 0, and 1582 - AC1 = AC1 has one
    ("P5", 2, &[&[0x80]], 2, 2),
    // P2; AC1, of context 1, has one
    ("P6", 2, &[&[0xC0]], 2, 2),
    // only the second band counts: 1000 - A81 = 57F has two
    ("P7", 1, &[&[0x00], &[0x00]], 2, 1),
    // P3, for the second row's context is 0 as well
    ("P8", 1, &[&[0x00, 0x00]], 3, 2),
    // only the second band counts: AC1, of context 16, has one
    ("P9", 1, &[&[0x80], &[0x80]], 1, 1),
    // P3, up to 14F6; 14F6 - A01 = AF5 has one; 15EA - 901 = CE9 has one;
    // 19D2 - 701 = 12D1 has none
    ("five white pels", 5, &[&[0x00]], 5, 4),
    // 12D1 - 701 = BD0 has one: the count goes on after a pel without
    ("six white pels", 6, &[&[0x00]], 6, 5),
];

#[test]
fn bands_worked_by_hand() {
    for (name, width, bands, shifts, revisits) in CASES {
        let mut state = new_page();
        let mut last = Default::default();
        for pels in bands {
            let (shifts, revisits, after) = both_ways(&state, width, pels);
            state = after;
            last = (shifts, revisits);
        }
        assert_eq!(last, (shifts, revisits), "{name}");
    }
}

/// The last of these cases, pel by pel.
#[test]
fn the_coding_of_a_pel_says_it() {
    let expected = [true, true, true, true, false, true];
    let mut out = [0; 4];
    let fill = Fill {
        out: &mut out,
        made: 0,
    };
    let (mut writer, mut entry) = (Writer::new(fill, ()), 0);
    let said = expected.map(|_| writer.code(&mut entry, 0).expect("room"));
    assert_eq!(said, expected);
    let (_, Fill { made, .. }, ()) = writer.finish().expect("room");
    let (mut reader, mut entry) = (Reader::new(&out[..made]), 0);
    let found = expected.map(|_| reader.pel(&mut entry).expect("its own code"));
    assert_eq!(found, expected.map(|revisited| (0, revisited)));
}

/// A new page with one table byte for every context.
fn page_of(entry: u8) -> State {
    State {
        table: [entry; CONTEXTS],
        ..new_page()
    }
}

/// The width falls by 1 with each expected pel at row 29. The first one leaves
/// FFF: one shift to 1FFE, and the row stays. The next 4,094 lead down to 1000
/// without a shift, and the one after them has the second.
#[test]
fn an_expected_pel_at_row_29_counts() {
    for sense in [0, 1] {
        let from = page_of(2 * 29 + sense);
        for (width, rows, revisits) in [
            (1, 1, 1),
            (2, 1, 1),
            (1, 64, 1),
            (1365, 3, 1), // 4,095 pels
            (2048, 2, 2), // 4,096
            (64, 64, 2),
            (2048, 4, 3), // the pels 1, 4,096 and 8,191
        ] {
            let pels = plain(width, rows, sense);
            let (shifts, counted, after) = both_ways(&from, width, &pels);
            assert_eq!((shifts, counted), (revisits, revisits), "{width} {rows}");
            assert_eq!(after.table, from.table, "no table byte changes");
        }
    }
}

/// The unexpected pel's width is 1: twelve shifts, but one pel.
#[test]
fn an_unexpected_pel_at_row_29_counts_once() {
    for sense in [0, 1] {
        let from = page_of(2 * 29 + sense);
        let (shifts, revisits, after) = both_ways(&from, 1, &plain(1, 1, sense ^ 1));
        assert_eq!((shifts, revisits), (12, 1));
        assert_eq!(after.table[0], 2 * 27 + sense);
    }
}

/// What the definition says of one pel: its shifts, and whether the table byte
/// of its context became another one.
struct Pel {
    shifts: u64,
    changed: bool,
}

fn pel(interval: &mut u32, entry: &mut u8, pel: u8) -> Pel {
    let (size, before) = (SIZES[usize::from(*entry / 2)], *entry);
    let (part, after) = if pel == before & 1 {
        (*interval - u32::from(size), after_expected(before))
    } else {
        (u32::from(size), after_unexpected(before))
    };
    let mut shifts = 0;
    *interval = part;
    while *interval < 0x1000 {
        *interval *= 2;
        shifts += 1;
    }
    if shifts > 0 {
        *entry = after;
    }
    let changed = *entry != before;
    Pel { shifts, changed }
}

/// What the definition says of each pel of a band.
fn defined(from: &State, width: usize, pels: &[u8]) -> Vec<Pel> {
    let mut table: Table = from.table;
    let mut interval = 0x1000;
    let mut above = &from.last[..row_bytes(width)];
    let mut all = Vec::new();
    for row in pels.chunks(row_bytes(width)) {
        for x in 0..width {
            let entry = &mut table[context(above, row, width, x)];
            all.push(pel(&mut interval, entry, row[x / 8] >> (7 - x % 8) & 1));
        }
        above = row;
    }
    all
}

/// In how many bands the count is not S, not all pels, and not the table bytes
/// that became others.
#[derive(Debug, Default)]
struct Differs {
    from_shifts: usize,
    from_pels: usize,
    from_changes: usize,
    from_each: usize,
}

/// The first pel of a band always has a shift, so no count is 0.
#[test]
fn random_bands_have_the_defined_count() {
    let mut random = Random::new(11);
    let mut differs = Differs::default();
    for _ in 0..10_000 {
        let (width, rows) = (sample::width(&mut random), random.between(1, 9));
        let from = sample::state(&mut random, width);
        let pels = sample::band(&mut random, &from, width, rows);
        let (shifts, revisits, _) = both_ways(&from, width, &pels);
        let each = defined(&from, width, &pels);
        let count = |holds: fn(&Pel) -> bool| each.iter().filter(|pel| holds(pel)).count() as u64;
        assert_eq!(shifts, each.iter().map(|pel| pel.shifts).sum::<u64>());
        assert_eq!(revisits, count(|pel| pel.shifts > 0));
        let all = (width * rows) as u64;
        assert!(1 <= revisits && revisits <= shifts && revisits <= all);
        let others = [shifts, all, count(|pel| pel.changed)].map(|other| other != revisits);
        differs.from_shifts += usize::from(others[0]);
        differs.from_pels += usize::from(others[1]);
        differs.from_changes += usize::from(others[2]);
        differs.from_each += usize::from(others == [true; 3]);
    }
    println!("{differs:?}");
    assert!(differs.from_shifts > 1000 && differs.from_pels > 1000);
    assert!(differs.from_changes > 1000 && differs.from_each > 1000);
}

fn answer(number: u64, length: u64) -> Answer {
    Answer {
        number,
        length,
        shifts: 0,
        revisits: 0,
    }
}

/// Some of these are refused only after pels with shifts were coded.
#[test]
fn a_refused_band_counts_nothing() {
    let writing = |width| desk(Write, width, &new_page());
    let reading = |width| desk(Read, width, &new_page());
    let mut unlawful = writing(1);
    unlawful.places[0] = None;
    for (mut desk, act, number) in [
        (writing(1), write(1, &[0x00], 1), 9), // P1 needs two bytes
        (writing(1), write(1, &[0x00], 0), 9),
        (writing(2048), write(64, &plain(2048, 64, 0), 9), 9), // ten
        (reading(1), read(1, &[0xAC, 0x11], 1), 10),           // P11
        (reading(1), read(1, &[0x00, 0x00, 0x00], 1), 10),
        (reading(1), read(1, &[], 1), 10),
        (reading(13), read(1, &[0x15, 0x6E, 0xFF], 2), 10), // cut at the end
        (reading(1), read(1, &[0xAC, 0x10], 0), 9),
        (reading(1), read(1, &[0xFF, 0x90], 1), 15),
        (writing(1), write(1, &[0x01], 2), 8),
        (writing(1), write(2, &[0x00], 2), 6),
        (reading(1), write(1, &[0x00], 2), 7),
        (writing(1), read(1, &[0xAC, 0x10], 1), 7),
        (Desk::default(), write(1, &[0x00], 2), 2),
        (unlawful, write(1, &[0x00], 2), 12),
    ] {
        let before = desk.clone();
        assert_eq!(serve(&mut desk, act.clone()).answer, answer(number, 0));
        assert_eq!(desk, before, "{act:?}");
    }
}

/// The band after a refused one counts its own pels alone.
#[test]
fn a_band_sent_again_counts_once() {
    let mut desk = desk(Read, 1, &new_page());
    serve(&mut desk, read(1, &[0xAC, 0x11], 1));
    let p1 = Answer {
        number: 0,
        length: 1,
        shifts: 2,
        revisits: 1,
    };
    assert_eq!(serve(&mut desk, read(1, &[0xAC, 0x10], 1)).answer, p1);
}

/// Each call that is no band, accepted and refused, before and after bands.
#[test]
fn other_calls_count_nothing() {
    let mut desk = Desk::default();
    for (act, number, length) in [
        (Act::Close, 2, 0),
        (Act::Abandon, 2, 0),
        (Act::Drop, 11, 0),
        (look(CONTEXTS), 11, 0),
        (Act::Open(Write, 0), 6, 0),
        (Act::Open(Write, 1), 0, 0),
        (Act::Open(Write, 1), 3, 0),
    ] {
        assert_eq!(serve(&mut desk, act).answer, answer(number, length));
    }
    let band = serve(&mut desk, write(1, &[0x00], 2)).answer;
    assert_eq!((band.number, band.revisits), (0, 1));
    for (act, number, length) in [
        (Act::Drop, 3, 0),
        (Act::Close, 0, 0),
        (look(CONTEXTS), 0, 128),
        (look(CONTEXTS - 1), 9, 0),
        (Act::Open(Write, 1), 0, 0),
    ] {
        assert_eq!(serve(&mut desk, act).answer, answer(number, length));
    }
    let band = serve(&mut desk, write(1, &[0x00], 2)).answer;
    assert_eq!((band.number, band.revisits), (0, 1));
    for act in [Act::Abandon, Act::Drop] {
        assert_eq!(serve(&mut desk, act).answer, answer(0, 0));
    }
}

/// Opens refused for want of a slot and of a place, and a key out of range.
#[test]
fn a_full_desk_counts_nothing() {
    let key = |class| Key { school: 9, class };
    let learned = Some([2 * 29; CONTEXTS]);
    let place = |class| {
        Some(Place {
            key: key(class),
            learned,
        })
    };
    let mut desk = Desk {
        places: [1, 2, 3, 4, 5, 6, 7, 8].map(place),
        ..Desk::default()
    };
    assert_eq!(serve(&mut desk, Act::Open(Read, 1)).answer, answer(5, 0));
    for class in 1..=4 {
        desk.open(key(class), Write, 1).expect("a free slot");
    }
    assert_eq!(serve(&mut desk, Act::Open(Read, 1)).answer, answer(4, 0));
    let out_of_range = Call {
        key: key(0),
        act: write(1, &[0x00], 2),
    };
    assert_eq!(desk.serve(&out_of_range).answer, answer(1, 0));
}

/// How many calls of random runs were bands, other calls, and refused.
#[derive(Debug, Default)]
struct Seen {
    bands: usize,
    others: usize,
    refused: usize,
}

#[test]
fn random_runs() {
    let mut seen = Seen::default();
    for seed in 0..100 {
        let mut desk = Desk::default();
        for call in calls(seed, 200) {
            let width = desk.page(call.key).map_or(0, |page| page.width);
            let Answer {
                number,
                shifts,
                revisits,
                ..
            } = desk.serve(&call).answer;
            match call.act {
                _ if number != 0 => {
                    assert_eq!((shifts, revisits), (0, 0));
                    seen.refused += 1;
                }
                Act::Write { rows, .. } | Act::Read { rows, .. } => {
                    assert!(1 <= revisits && revisits <= shifts.min(rows * width));
                    seen.bands += 1;
                }
                _ => {
                    assert_eq!((shifts, revisits), (0, 0));
                    seen.others += 1;
                }
            }
        }
    }
    println!("{seen:?}");
    assert!(seen.bands > 1000 && seen.others > 1000 && seen.refused > 1000);
}
