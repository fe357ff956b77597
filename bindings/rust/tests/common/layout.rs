//! How a desk lies in the lent memory, so that a test sees the whole of it.

use siftpebble::{MAX_ROW_BYTES, PAGES, PLACES, TABLE_BYTES};
use siftpebble_model::band::State;
use siftpebble_model::{Desk, Direction, Key, Page, Place};

// ---------------------------------------------------------------------------
// THE LAYOUT: the fields of a page and of a place, their order and sizes in
// memory, and what their values mean. If the library's desk changes, then this
// part does, and nothing else.
// ---------------------------------------------------------------------------

struct RawDesk {
    pages: [RawPage; PAGES],
    places: [RawPlace; PLACES],
}

struct RawPage {
    state: u64,
    school: u64,
    class: u64,
    width: u64,
    table: [u8; TABLE_BYTES],
    last: [u8; MAX_ROW_BYTES],
}

struct RawPlace {
    state: u64,
    school: u64,
    class: u64,
    table: [u8; TABLE_BYTES],
}

const FREE_PAGE: RawPage = RawPage {
    state: 0,
    school: 0,
    class: 0,
    width: 0,
    table: [0; TABLE_BYTES],
    last: [0; MAX_ROW_BYTES],
};

const FREE_PLACE: RawPlace = RawPlace {
    state: 0,
    school: 0,
    class: 0,
    table: [0; TABLE_BYTES],
};

/// A page's state; 0 is unused.
const TO_WRITE: u64 = 1;
const TO_READ: u64 = 2;

/// A place's state; 0 is free.
const RESERVED: u64 = 1;
const LEARNED: u64 = 2;

/// The fields in the order of memory, each number with its size in bytes,
/// which is also its alignment: first the book, then the arrays.
fn visit_desk(desk: &mut RawDesk, memory: &mut Memory) {
    for page in &mut desk.pages {
        memory.number(&mut page.state, 8);
        memory.number(&mut page.school, 8);
        memory.number(&mut page.class, 8);
        memory.number(&mut page.width, 8);
    }
    for place in &mut desk.places {
        memory.number(&mut place.state, 8);
        memory.number(&mut place.school, 8);
        memory.number(&mut place.class, 8);
    }
    for page in &mut desk.pages {
        memory.bytes(&mut page.table);
    }
    for page in &mut desk.pages {
        memory.bytes(&mut page.last);
    }
    for place in &mut desk.places {
        memory.bytes(&mut place.table);
    }
    memory.align(8);
}

fn raw_page(page: &Page) -> RawPage {
    RawPage {
        state: match page.direction {
            Direction::Write => TO_WRITE,
            Direction::Read => TO_READ,
        },
        school: page.key.school,
        class: page.key.class,
        width: page.width,
        table: page.state.table,
        last: page.state.last,
    }
}

fn raw_place(place: &Place) -> RawPlace {
    RawPlace {
        state: place.learned.map_or(RESERVED, |_| LEARNED),
        school: place.key.school,
        class: place.key.class,
        table: place.learned.unwrap_or(FREE_PLACE.table),
    }
}

/// The page in a slot, if it is used. What else its state says need not be
/// tested here: `desk_of` finds every value that `raw_page` does not give.
fn page_of(raw: RawPage) -> Option<Page> {
    let direction = match raw.state {
        TO_WRITE => Direction::Write,
        _ => Direction::Read,
    };
    (raw.state != 0).then_some(Page {
        key: Key {
            school: raw.school,
            class: raw.class,
        },
        direction,
        width: raw.width,
        state: State {
            table: raw.table,
            last: raw.last,
        },
    })
}

fn place_of(raw: RawPlace) -> Option<Place> {
    let key = Key {
        school: raw.school,
        class: raw.class,
    };
    let learned = (raw.state == LEARNED).then_some(raw.table);
    (raw.state != 0).then_some(Place { key, learned })
}

// ---------------------------------------------------------------------------
// The rest holds for any layout.
// ---------------------------------------------------------------------------

/// A walk over the memory, which copies fields into it or out of it.
struct Memory {
    bytes: Vec<u8>,
    /// Which bytes are in a field, and not between two fields.
    fields: Vec<bool>,
    at: usize,
    out: bool,
}

impl Memory {
    fn align(&mut self, to: usize) {
        self.at = self.at.next_multiple_of(to);
        self.grow();
    }

    fn grow(&mut self) {
        let length = self.bytes.len().max(self.at);
        self.bytes.resize(length, 0);
        self.fields.resize(length, false);
    }

    fn bytes(&mut self, field: &mut [u8]) {
        let start = self.at;
        self.at += field.len();
        self.grow();
        self.fields[start..self.at].fill(true);
        let memory = &mut self.bytes[start..self.at];
        if self.out {
            field.copy_from_slice(memory);
        } else {
            memory.copy_from_slice(field);
        }
    }

    fn number(&mut self, field: &mut u64, size: usize) {
        self.align(size);
        let mut bytes = field.to_le_bytes();
        self.bytes(&mut bytes[..size]);
        *field = u64::from_le_bytes(bytes);
    }
}

/// A desk's bytes, and which of them are in fields.
pub struct Image {
    pub bytes: Vec<u8>,
    pub fields: Vec<bool>,
}

impl Image {
    /// Whether memory has the same fields. What lies between them is ignored.
    pub fn is_in(&self, memory: &[u8]) -> bool {
        let mut all = self.bytes.iter().zip(memory).zip(&self.fields);
        self.bytes.len() == memory.len() && all.all(|((a, b), field)| a == b || !field)
    }
}

/// The image of a model desk.
pub fn desk_image(desk: &Desk) -> Image {
    let mut raw = RawDesk {
        pages: desk
            .pages
            .each_ref()
            .map(|page| page.as_ref().map_or(FREE_PAGE, raw_page)),
        places: desk
            .places
            .each_ref()
            .map(|place| place.as_ref().map_or(FREE_PLACE, raw_place)),
    };
    let mut memory = Memory {
        bytes: Vec::new(),
        fields: Vec::new(),
        at: 0,
        out: false,
    };
    visit_desk(&mut raw, &mut memory);
    Image {
        bytes: memory.bytes,
        fields: memory.fields,
    }
}

/// The model desk that these bytes are, if they are a lawful one.
pub fn desk_of(bytes: &[u8]) -> Option<Desk> {
    let mut raw = RawDesk {
        pages: [FREE_PAGE; PAGES],
        places: [FREE_PLACE; PLACES],
    };
    let mut memory = Memory {
        bytes: bytes.to_vec(),
        fields: vec![false; bytes.len()],
        at: 0,
        out: true,
    };
    visit_desk(&mut raw, &mut memory);
    let desk = Desk {
        pages: raw.pages.map(page_of),
        places: raw.places.map(place_of),
    };
    // A desk has one image: other bytes have a mark that means nothing, or
    // something in unused room.
    let lawful = desk_image(&desk).is_in(bytes) && desk.is_lawful();
    lawful.then_some(desk)
}
