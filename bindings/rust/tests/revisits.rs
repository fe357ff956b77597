//! Request E11: every band answers how many of its pels were revisited, which
//! is when there was at least one shift; refusals and all other calls give 0.

mod common;

use common::library::Library;
use siftpebble::{Band, Desk, Key, MAX_CODE, PAGES, PLACES, TABLE_BYTES};
use siftpebble_model::call::{look, read, write, Act, Answer, Call, Serve};
use siftpebble_model::random::Random;
use siftpebble_model::sample;
use siftpebble_model::Direction::{Read, Write};

const WRITER: Key = Key {
    school: 1,
    class: 5,
};

const READER: Key = Key {
    school: 1,
    class: 6,
};

type Table = [u8; TABLE_BYTES];

fn learned(desk: &mut Desk, key: Key) -> Table {
    let mut table = [0; TABLE_BYTES];
    desk.close(key).expect("an open page");
    desk.look(key, &mut table).expect("a closed page");
    table
}

/// Writes a band to a new page, and reads its code on another. Answers S and
/// the pels revisited, and the table learned, which are the same for both.
#[track_caller]
fn both_ways(width: usize, rows: usize, pels: &[u8]) -> (u64, u64, Table) {
    let (width, rows) = (width as u64, rows as u64);
    let mut desk = Desk::new();
    desk.open_write(WRITER, width).expect("an empty desk");
    desk.open_read(READER, width).expect("room");
    let mut out = vec![0; MAX_CODE];
    let written = desk.write_code(WRITER, rows, pels, &mut out);
    let (code, band) = written.expect("a band");
    assert_eq!(code.len(), band.length);
    let mut back = vec![0xA5; pels.len()];
    let read = desk.read(READER, rows, code, &mut back);
    let length = pels.len();
    assert_eq!(read, Ok(Band { length, ..band }));
    assert_eq!(back, pels);
    let table = learned(&mut desk, WRITER);
    assert_eq!(table, learned(&mut desk, READER));
    (band.shifts, band.revisits, table)
}

#[test]
fn known_bands() {
    for (name, width, pels, shifts, revisits) in [
        ("P1", 1, [0x00], 2, 1),
        ("P2", 1, [0x80], 1, 1),
        ("P3", 2, [0x00], 3, 2),
        // the fifth has no shift
        ("five white pels", 5, [0x00], 5, 4),
        // and the sixth has one again
        ("six white pels", 6, [0x00], 6, 5),
    ] {
        let (s, counted, _) = both_ways(width, 1, &pels);
        assert_eq!((s, counted), (shifts, revisits), "{name}");
    }
}

/// After 29 of them the context is at row 29, which is 58 with its sense. It
/// stays there: the other 31 are revisited too, but change nothing.
#[test]
fn white_rows_up_to_row_29_and_on() {
    let (width, rows) = (2048, 64);
    let pels = sample::rows(width, rows, |_, _| false);
    let (shifts, revisits, table) = both_ways(width, rows, &pels);
    assert_eq!((shifts, revisits), (61, 60));
    let mut expected = [0; TABLE_BYTES];
    expected[0] = 58;
    assert_eq!(table, expected);
}

#[test]
fn random_bands() {
    let mut random = Random::new(11);
    let (mut below_shifts, mut below_pels) = (0, 0);
    for _ in 0..1000 {
        let (width, rows) = (sample::width(&mut random), random.between(1, 9));
        let percent = random.pick(&[0, 2, 10, 50, 90]);
        let pels = sample::noise(&mut random, width, rows, percent);
        let (shifts, revisits, _) = both_ways(width, rows, &pels);
        let all = (width * rows) as u64;
        assert!(1 <= revisits && revisits <= shifts && revisits <= all);
        below_shifts += usize::from(revisits < shifts);
        below_pels += usize::from(revisits < all);
    }
    assert!(below_shifts > 100 && below_pels > 100);
}

/// The four numbers of a call of the archive.
fn serve(library: &mut Library, key: Key, act: Act) -> [u64; 4] {
    let Key { school, class } = key;
    let key = siftpebble_model::Key { school, class };
    let Answer {
        number,
        length,
        shifts,
        revisits,
    } = library.serve(&Call { key, act }).answer;
    [number, length, shifts, revisits]
}

/// Each call in its turn on one desk, and the four numbers of its answer: only
/// an accepted band has more than a number and a length. Some are refused only
/// after a pel with shifts was coded.
#[test]
fn refusals_and_other_calls_have_none() {
    let mut library = Library::empty();
    for (act, answer) in [
        (Act::Close, [2, 0, 0, 0]),
        (Act::Abandon, [2, 0, 0, 0]),
        (write(1, &[0x00], 2), [2, 0, 0, 0]),
        (read(1, &[0xAC, 0x10], 1), [2, 0, 0, 0]),
        (Act::Drop, [11, 0, 0, 0]),
        (look(TABLE_BYTES), [11, 0, 0, 0]),
        (Act::Open(Write, 0), [6, 0, 0, 0]),
        (Act::Open(Write, 1), [0, 0, 0, 0]),
        (Act::Open(Write, 1), [3, 0, 0, 0]),
        (Act::Drop, [3, 0, 0, 0]),
        (read(1, &[0xAC, 0x10], 1), [7, 0, 0, 0]),
        (write(2, &[0x00], 2), [6, 0, 0, 0]),
        (write(1, &[0x01], 2), [8, 0, 0, 0]),
        (write(1, &[0x00], 1), [9, 0, 0, 0]),
        // P1
        (write(1, &[0x00], 2), [0, 2, 2, 1]),
        (write(1, &[0x00], 1), [9, 0, 0, 0]),
        (Act::Close, [0, 0, 0, 0]),
        (look(TABLE_BYTES), [0, 128, 0, 0]),
        (look(TABLE_BYTES - 1), [9, 0, 0, 0]),
        (Act::Open(Read, 1), [0, 0, 0, 0]),
        (read(1, &[0xA8, 0x11], 1), [10, 0, 0, 0]),
        (read(1, &[0xFF, 0x90], 1), [15, 0, 0, 0]),
        (read(1, &[0xA8, 0x10], 0), [9, 0, 0, 0]),
        // sent again: P7, from the table that was learned from P1
        (read(1, &[0xA8, 0x10], 1), [0, 1, 2, 1]),
        (read(1, &[0xA8, 0x11], 1), [10, 0, 0, 0]),
        (Act::Abandon, [0, 0, 0, 0]),
        (Act::Drop, [0, 0, 0, 0]),
    ] {
        let said = format!("{act:?}");
        assert_eq!(serve(&mut library, WRITER, act), answer, "{said}");
    }
}

/// The refusals for want of a slot and of a place, of a key and of a desk.
#[test]
fn full_and_unlawful_desks_have_none() {
    let mut library = Library::empty();
    let of_class = |class: usize| Key {
        school: 9,
        class: class as u64,
    };
    for class in 1..=PLACES {
        let open = serve(&mut library, of_class(class), Act::Open(Write, 1));
        assert_eq!(open, [0; 4]);
        let band = serve(&mut library, of_class(class), write(1, &[0x00], 2));
        assert_eq!(band, [0, 2, 2, 1]);
        let close = serve(&mut library, of_class(class), Act::Close);
        assert_eq!(close, [0; 4]);
    }
    let open = serve(&mut library, WRITER, Act::Open(Write, 1));
    assert_eq!(open, [5, 0, 0, 0]);
    for class in 1..=PAGES {
        serve(&mut library, of_class(class), Act::Open(Write, 1));
    }
    let open = serve(&mut library, WRITER, Act::Open(Write, 1));
    assert_eq!(open, [4, 0, 0, 0]);
    let no_class = serve(&mut library, of_class(0), write(1, &[0x00], 2));
    assert_eq!(no_class, [1, 0, 0, 0]);
    let mut noise = Library::of(&vec![0xFF; Desk::bytes()]);
    let unlawful = serve(&mut noise, of_class(1), write(1, &[0x00], 2));
    assert_eq!(unlawful, [12, 0, 0, 0]);
}
