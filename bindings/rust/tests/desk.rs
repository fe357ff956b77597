//! The safe desk: document 01's cases, and what the type itself adds.

use siftpebble::{front, Band, Desk, Key, Refusal, TABLE_BYTES};

const KEY: Key = Key {
    school: 1,
    class: 5,
};

/// Writes bands to a new page of this width; answers the last one's code, S and
/// the pels revisited.
fn write(width: u64, bands: &[(u64, &[u8])]) -> (Vec<u8>, u64, u64) {
    let mut desk = Desk::new();
    desk.open_write(KEY, width).expect("an empty desk");
    let mut last = Default::default();
    for (rows, pels) in bands {
        let mut out = [0xA5; 16];
        let (code, band) = desk.write_code(KEY, *rows, pels, &mut out).expect("room");
        assert_eq!(code.len(), band.length);
        last = (code.to_vec(), band.shifts, band.revisits);
    }
    last
}

#[test]
fn bands_worked_by_hand() {
    assert_eq!(write(1, &[(1, &[0x00])]), (vec![0xAC, 0x10], 2, 1), "P1");
    assert_eq!(write(1, &[(1, &[0x80])]), (vec![0x00, 0x00], 1, 1), "P2");
    assert_eq!(write(2, &[(1, &[0x00])]), (vec![0xD6, 0x14], 3, 2), "P3");
    assert_eq!(write(2, &[(1, &[0x40])]), (vec![0xAC, 0x10], 3, 2), "P4");
    assert_eq!(write(2, &[(1, &[0x80])]), (vec![0x56, 0x08], 2, 2), "P5");
    assert_eq!(write(2, &[(1, &[0xC0])]), (vec![0x00, 0x00], 2, 2), "P6");
    let p7: [(u64, &[u8]); 2] = [(1, &[0x00]), (1, &[0x00])];
    assert_eq!(write(1, &p7), (vec![0xA8, 0x10], 2, 1), "P7");
    let p8: [(u64, &[u8]); 1] = [(2, &[0x00, 0x00])];
    assert_eq!(write(1, &p8), (vec![0xD6, 0x14], 3, 2), "P8");
    let p9: [(u64, &[u8]); 2] = [(1, &[0x80]), (1, &[0x80])];
    assert_eq!(write(1, &p9), (vec![0x00, 0x00], 1, 1), "P9");
}

#[test]
fn p11_damaged_codes() {
    let mut desk = Desk::new();
    desk.open_read(KEY, 1).expect("an empty desk");
    let codes: [&[u8]; 3] = [&[0xAC, 0x11], &[0, 0, 0], &[]];
    for code in codes {
        let mut out = [0xA5; 3];
        assert_eq!(desk.read(KEY, 1, code, &mut out), Err(Refusal::Damaged));
        assert_eq!(out, [0; 3]);
    }
    let mut out = [0xA5; 3];
    let band = Band {
        length: 1,
        shifts: 1,
        revisits: 1,
    };
    assert_eq!(desk.read(KEY, 1, &[0, 0], &mut out), Ok(band));
    assert_eq!(out, [0x80, 0xA5, 0xA5]);
}

/// Request E2: where the last byte is FF, one more byte 00 follows.
#[test]
fn a_last_ff_has_its_00() {
    let code = vec![0x15, 0x6E, 0xFF, 0x00];
    assert_eq!(write(13, &[(1, &[0xE6, 0x60])]), (code, 12, 12));
    let code = vec![0xE0, 0xBD, 0xFF, 0x00];
    assert_eq!(write(4, &[(3, &[0x30, 0x00, 0x00])]), (code, 12, 11));
    let code = vec![0xFF, 0x7F, 0xFF, 0x6A, 0xFF, 0x00];
    assert_eq!(write(990, &[(1, &[0x00; 124])]), (code, 26, 25));
}

/// The same bytes where the bits go on after the FF: nothing follows the 00.
#[test]
fn an_ff_before_the_last_byte() {
    let code = vec![0x15, 0x6E, 0xFF, 0x00];
    assert_eq!(write(14, &[(1, &[0xE6, 0x60])]), (code, 13, 13));
}

/// The 00 counts in the length and needs its room.
#[test]
fn a_last_ff_into_four_bytes_and_three() {
    let mut desk = Desk::new();
    desk.open_write(KEY, 13).expect("an empty desk");
    let mut three = [0xA5; 3];
    let answer = desk.write(KEY, 1, &[0xE6, 0x60], &mut three);
    assert_eq!((answer, three), (Err(Refusal::NoRoom), [0; 3]));
    let mut four = [0xA5; 4];
    let answer = desk.write(KEY, 1, &[0xE6, 0x60], &mut four);
    let band = Band {
        length: 4,
        shifts: 12,
        revisits: 12,
    };
    assert_eq!((answer, four), (Ok(band), [0x15, 0x6E, 0xFF, 0x00]));
}

/// A last FF without its 00, and with one 00 too many.
#[test]
fn a_wrong_end_is_damaged() {
    let mut desk = Desk::new();
    desk.open_read(KEY, 13).expect("an empty desk");
    let codes: [&[u8]; 2] = [&[0x15, 0x6E, 0xFF], &[0x15, 0x6E, 0xFF, 0x00, 0x00]];
    for code in codes {
        let mut out = [0xA5; 3];
        let answer = desk.read(KEY, 1, code, &mut out);
        assert_eq!((answer, out), (Err(Refusal::Damaged), [0; 3]));
    }
    let mut out = [0xA5; 3];
    let answer = desk.read(KEY, 1, &[0x15, 0x6E, 0xFF, 0x00], &mut out);
    let band = Band {
        length: 2,
        shifts: 12,
        revisits: 12,
    };
    assert_eq!((answer, out), (Ok(band), [0xE6, 0x60, 0xA5]));
}

#[test]
fn looks() {
    let mut desk = Desk::new();
    let mut table = [0xA5; TABLE_BYTES + 2];
    for pel in [0x80, 0x80] {
        desk.open_write(KEY, 1).expect("no page open");
        desk.write(KEY, 1, &[pel], &mut [0; 8]).expect("room");
        desk.abandon(KEY).expect("an open page");
        assert_eq!(desk.look(KEY, &mut table), Err(Refusal::NoTable));
    }
    desk.open_write(KEY, 1).expect("no page open");
    for pel in [0x80, 0x80] {
        desk.write(KEY, 1, &[pel], &mut [0; 8]).expect("room");
    }
    desk.close(KEY).expect("an open page");
    assert_eq!(desk.look(KEY, &mut table), Ok(()));
    for (context, &entry) in table[..TABLE_BYTES].iter().enumerate() {
        assert_eq!(entry, u8::from(context == 0 || context == 16));
    }
    assert_eq!(table[TABLE_BYTES..], [0xA5; 2]);
    let short = &mut table[..TABLE_BYTES - 1];
    assert_eq!(desk.look(KEY, short), Err(Refusal::NoRoom));
    assert!(short.iter().all(|&byte| byte == 0));
}

#[test]
fn bytes_of_a_desk() {
    assert!(Desk::from_bytes(&[]).is_none());
    assert!(Desk::from_bytes(&vec![0; Desk::bytes() + 1]).is_none());
    let mut desk = Desk::new();
    let empty = Desk::from_bytes(desk.as_bytes()).expect("a desk's length");
    desk.open_read(KEY, 8).expect("an empty desk");
    let mut copy = desk.clone();
    assert_eq!(copy.close(KEY), Ok(()));
    assert_eq!(desk.close(KEY), Ok(()), "the copy is another desk");
    assert_eq!(empty.clone().close(KEY), Err(Refusal::NoPage));
    for fill in [0xFF, 0x7F, 0x02] {
        let spoiled = vec![fill; Desk::bytes()];
        let mut desk = Desk::from_bytes(&spoiled).expect("a desk's length");
        assert_eq!(desk.open_write(KEY, 8), Err(Refusal::UnlawfulDesk));
    }
}

#[test]
fn refusals_have_their_numbers() {
    let numbers = Refusal::ALL.iter().map(|refusal| refusal.number());
    assert!(numbers.eq((1..=12).chain([15])));
    for &refusal in Refusal::ALL {
        assert_eq!(Refusal::from_number(refusal.number()), Some(refusal));
        assert!(!refusal.to_string().is_empty());
    }
    for number in [0, 13, 14, 16, u64::MAX] {
        assert_eq!(Refusal::from_number(number), None);
    }
}

#[test]
fn front_part() {
    assert_eq!(front(&[1, 2], 0), []);
    assert_eq!(front(&[1, 2], 2), [1, 2]);
    assert_eq!(front(&[1, 2], usize::MAX), []);
}

/// A desk may be handed to another thread.
#[test]
fn desks_travel() {
    let mut desk = Desk::new();
    let thread = std::thread::spawn(move || desk.open_write(KEY, 8));
    assert_eq!(thread.join().expect("no panic"), Ok(()));
}
