//! The order of the refusals, call by call, and what they leave in the lent
//! output.

use siftpebble_model::call::{look, read, write, Act, Answer, Call, Serve};
use siftpebble_model::{Desk, Direction, Key, Place};
use Direction::{Read, Write};

const KEY: Key = Key {
    school: 1,
    class: 5,
};
const BAD: Key = Key {
    school: 65_536,
    class: 5,
};

fn writing(width: u64) -> Desk {
    let mut desk = Desk::default();
    desk.open(KEY, Write, width).expect("an empty desk");
    desk
}

fn reading(width: u64) -> Desk {
    let mut desk = Desk::default();
    desk.open(KEY, Read, width).expect("an empty desk");
    desk
}

/// A place whose page is missing.
fn unlawful() -> Desk {
    let mut desk = Desk::default();
    let learned = None;
    desk.places[3] = Some(Place { key: KEY, learned });
    desk
}

fn full() -> Desk {
    let mut desk = Desk::default();
    let key = |class| Key { school: 9, class };
    for class in 1..=8 {
        desk.open(key(class), Write, 8).expect("a free slot");
        if class <= 4 {
            desk.close(key(class)).expect("an open page");
        }
    }
    desk
}

/// The call is refused with this number; the desk is as before, the lent
/// output too, or all zero for 9, 10 and 15.
fn refuses(desk: Desk, key: Key, act: Act, number: u64) {
    let call = Call { key, act };
    let mut after = desk.clone();
    let outcome = after.serve(&call);
    let refusal = Answer {
        number,
        length: 0,
        shifts: 0,
        revisits: 0,
    };
    assert_eq!(outcome.answer, refusal, "{call:?}");
    assert_eq!(after, desk);
    let mut lent = call.act.lent().to_vec();
    if matches!(number, 9 | 10 | 15) {
        lent.fill(0);
    }
    assert_eq!(outcome.lent, lent);
}

#[test]
fn unlawful_desk_comes_first() {
    let long = vec![0; 32_769];
    for act in [
        Act::Open(Write, 0),
        write(0, &[], 0),
        read(0, &long, 0),
        Act::Close,
        Act::Abandon,
        Act::Drop,
        look(0),
    ] {
        refuses(unlawful(), BAD, act.clone(), 12);
        refuses(writing(8), BAD, act, 1);
    }
}

#[test]
fn numbers_of_schools_and_classes() {
    for number in [0, 65_536, 65_537, u64::MAX] {
        let (school, class) = (number, 5);
        refuses(writing(8), Key { school, class }, Act::Close, 1);
        let (school, class) = (1, number);
        refuses(writing(8), Key { school, class }, Act::Close, 1);
    }
}

#[test]
fn open_in_order() {
    refuses(writing(8), KEY, Act::Open(Write, 0), 6);
    refuses(writing(8), KEY, Act::Open(Read, 8), 3);
    refuses(full(), KEY, Act::Open(Read, 8), 4);
    let mut desk = full();
    let last = Key {
        school: 9,
        class: 8,
    };
    refuses(desk.clone(), last, Act::Open(Read, 8), 3);
    desk.close(last).expect("an open page");
    refuses(desk, KEY, Act::Open(Read, 8), 5);
}

#[test]
fn write_in_order() {
    refuses(Desk::default(), KEY, write(0, &[1], 0), 6);
    refuses(Desk::default(), KEY, write(65, &[1], 0), 6);
    refuses(Desk::default(), KEY, write(1, &[], 0), 2);
    refuses(reading(1), KEY, write(1, &[], 0), 7);
    refuses(writing(1), KEY, write(1, &[], 0), 6);
    refuses(writing(1), KEY, write(1, &[1, 1], 0), 6);
    refuses(writing(1), KEY, write(1, &[1], 0), 8);
    refuses(writing(1), KEY, write(2, &[0x40, 0], 1), 8);
    refuses(writing(1), KEY, write(1, &[0], 1), 9);
    refuses(writing(1), KEY, write(1, &[0], 0), 9);
}

#[test]
fn read_in_order() {
    refuses(Desk::default(), KEY, read(65, &[], 0), 6);
    refuses(Desk::default(), KEY, read(1, &[0; 32_769], 0), 6);
    refuses(Desk::default(), KEY, read(1, &[0; 32_768], 0), 2);
    refuses(writing(1), KEY, read(1, &[], 0), 7);
    refuses(reading(9), KEY, read(2, &[], 3), 9);
    refuses(reading(9), KEY, read(2, &[], 4), 10);
    refuses(reading(9), KEY, read(2, &[0; 32_768], 99), 10);
}

/// A marker is seen only where nothing else but damage is left to be tested.
#[test]
fn a_marker_comes_just_before_damage() {
    let marker = [0xFF, 0x90];
    let long = [&[0; 32_767][..], &marker].concat();
    refuses(unlawful(), KEY, read(1, &marker, 9), 12);
    refuses(reading(9), BAD, read(1, &marker, 9), 1);
    refuses(reading(9), KEY, read(0, &marker, 9), 6);
    refuses(reading(9), KEY, read(1, &long, 9), 6);
    refuses(Desk::default(), KEY, read(1, &marker, 9), 2);
    refuses(writing(9), KEY, read(1, &marker, 9), 7);
    refuses(reading(9), KEY, read(2, &marker, 0), 9);
    refuses(reading(9), KEY, read(2, &marker, 3), 9);
    refuses(reading(9), KEY, read(2, &marker, 4), 15);
    refuses(reading(9), KEY, read(2, &long[1..], 99), 15);
}

#[test]
fn the_others_in_order() {
    refuses(Desk::default(), KEY, Act::Close, 2);
    refuses(Desk::default(), KEY, Act::Abandon, 2);
    refuses(Desk::default(), KEY, Act::Drop, 11);
    refuses(writing(1), KEY, Act::Drop, 3);
    refuses(Desk::default(), KEY, look(5), 11);
    refuses(writing(1), KEY, look(5), 11);
    let mut desk = writing(1);
    desk.close(KEY).expect("an open page");
    refuses(desk.clone(), KEY, look(127), 9);
    refuses(desk.clone(), KEY, look(0), 9);
    assert_eq!(desk.look(KEY, &mut [0; 128]), Ok(128));
    desk.open(KEY, Read, 1).expect("no page open");
    refuses(desk, KEY, Act::Drop, 3);
}

/// A close with no band leaves a learned table, though it is all zero.
#[test]
fn an_empty_page_teaches_the_fresh_table() {
    let mut desk = writing(1);
    desk.close(KEY).expect("an open page");
    assert_eq!(desk.learned(KEY), Some(&[0; 128]));
}

#[test]
fn unlawful_desks() {
    let lawful = full();
    assert!(lawful.is_lawful());
    let spoil: [fn(&mut Desk); 9] = [
        |desk| desk.places[7] = None,
        |desk| desk.places[0].as_mut().unwrap().key.class = 2,
        |desk| desk.places[0].as_mut().unwrap().key.school = 0,
        |desk| desk.places[0].as_mut().unwrap().learned = None,
        |desk| desk.places[0].as_mut().unwrap().learned.as_mut().unwrap()[9] = 60,
        |desk| desk.pages[0].as_mut().unwrap().state.table[127] = 60,
        |desk| desk.pages[0].as_mut().unwrap().width = 2049,
        |desk| desk.pages[0].as_mut().unwrap().state.last[1] = 1,
        |desk| desk.pages[1] = desk.pages[0].clone(),
    ];
    for spoil in spoil {
        let mut desk = lawful.clone();
        spoil(&mut desk);
        refuses(desk, KEY, look(0), 12);
    }
}
