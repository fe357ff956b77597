//! The limits that the crate names are the library's: what lies at a limit is
//! served, and what lies one above it is refused.

use siftpebble::{Desk, Key, Refusal};
use siftpebble::{MAX_BAND_BYTES, MAX_CODE, MAX_KEY, MAX_ROWS, MAX_ROW_BYTES, MAX_WIDTH};
use siftpebble::{PAGES, PLACES, TABLE_BYTES};

const KEY: Key = Key {
    school: 1,
    class: 5,
};

const WIDTH: u64 = MAX_WIDTH as u64;
const ROWS: u64 = MAX_ROWS as u64;

fn of_class(class: usize) -> Key {
    let class = class as u64;
    Key { school: 1, class }
}

#[test]
fn keys() {
    for (number, answer) in [(MAX_KEY, Ok(())), (MAX_KEY + 1, Err(Refusal::BadKey))] {
        let (school, class) = (number, 1);
        assert_eq!(Desk::new().open_write(Key { school, class }, 1), answer);
        let (school, class) = (1, number);
        assert_eq!(Desk::new().open_write(Key { school, class }, 1), answer);
    }
}

#[test]
fn pages_and_places() {
    let mut desk = Desk::new();
    for class in 1..=PAGES {
        assert_eq!(desk.open_write(of_class(class), 1), Ok(()));
    }
    let more = desk.open_write(of_class(PAGES + 1), 1);
    assert_eq!(more, Err(Refusal::PagesFull));
    for class in 1..=PLACES {
        if class > PAGES {
            assert_eq!(desk.open_write(of_class(class), 1), Ok(()));
        }
        assert_eq!(desk.close(of_class(class)), Ok(()));
    }
    let more = desk.open_write(of_class(PLACES + 1), 1);
    assert_eq!(more, Err(Refusal::PlacesFull));
}

#[test]
fn widths_and_rows() {
    let mut desk = Desk::new();
    assert_eq!(desk.open_write(KEY, WIDTH + 1), Err(Refusal::BadSize));
    desk.open_write(KEY, WIDTH).expect("the greatest width");
    let mut code = vec![0; MAX_CODE];
    let pels = vec![0; MAX_BAND_BYTES + MAX_ROW_BYTES];
    let more = desk.write(KEY, ROWS + 1, &pels, &mut code);
    assert_eq!(more, Err(Refusal::BadSize));
    let band = desk.write(KEY, ROWS, &pels[..MAX_BAND_BYTES], &mut code);
    let length = band.expect("the greatest band").length;

    desk.abandon(KEY).expect("an open page");
    desk.open_read(KEY, WIDTH).expect("the greatest width");
    let mut rows = vec![0xA5; MAX_BAND_BYTES];
    let more = desk.read(KEY, ROWS + 1, &code[..length], &mut rows);
    assert_eq!(more, Err(Refusal::BadSize));
    let band = desk.read(KEY, ROWS, &code[..length], &mut rows);
    assert_eq!(band.expect("its code").length, MAX_BAND_BYTES);
    assert!(rows.iter().all(|&byte| byte == 0));
}

#[test]
fn codes() {
    let mut desk = Desk::new();
    desk.open_read(KEY, 1).expect("an empty desk");
    let mut code = vec![0; MAX_CODE + 1];
    let longest = desk.read(KEY, 1, &code[..MAX_CODE], &mut [0]);
    assert_eq!(longest, Err(Refusal::Damaged));
    let longer = desk.read(KEY, 1, &code, &mut [0]);
    assert_eq!(longer, Err(Refusal::BadSize));
    // a marker in the last two bytes
    code[MAX_CODE - 2..MAX_CODE].copy_from_slice(&[0xFF, 0x90]);
    let longest = desk.read(KEY, 1, &code[..MAX_CODE], &mut [0]);
    assert_eq!(longest, Err(Refusal::Marker));
    let longer = desk.read(KEY, 1, &code, &mut [0]);
    assert_eq!(longer, Err(Refusal::BadSize));
}

#[test]
fn tables() {
    let mut desk = Desk::new();
    desk.open_write(KEY, 1).expect("an empty desk");
    desk.close(KEY).expect("an open page");
    let mut table = [0; TABLE_BYTES];
    let less = desk.look(KEY, &mut table[..TABLE_BYTES - 1]);
    assert_eq!(less, Err(Refusal::NoRoom));
    assert_eq!(desk.look(KEY, &mut table), Ok(()));
}
