//! The desk: open pages, class places and the calls.

use crate::band::{self, Band, Row, State};
use crate::coder::Watch;
use crate::refusal::Refusal;
use crate::table::{Table, CONTEXTS, ENTRIES, FRESH};

pub const PAGES: usize = 4;
pub const PLACES: usize = 8;

/// A school number and a class number.
#[derive(Clone, Copy, Debug, PartialEq, Eq, PartialOrd, Ord)]
pub struct Key {
    pub school: u64,
    pub class: u64,
}

impl Key {
    fn is_lawful(self) -> bool {
        let lawful = 1..=65_535;
        lawful.contains(&self.school) && lawful.contains(&self.class)
    }
}

#[derive(Clone, Copy, Debug, PartialEq, Eq)]
pub enum Direction {
    Write,
    Read,
}

/// An open page. Its working table and its last row are the state.
#[derive(Clone, Debug, PartialEq, Eq)]
pub struct Page {
    pub key: Key,
    pub direction: Direction,
    pub width: u64,
    pub state: State,
}

/// A class place: taken with the learned table, or only reserved without.
#[derive(Clone, Debug, PartialEq, Eq)]
pub struct Place {
    pub key: Key,
    pub learned: Option<Table>,
}

/// The desk. A slot or place with nothing in it is free.
#[derive(Clone, Debug, Default, PartialEq, Eq)]
pub struct Desk {
    pub pages: [Option<Page>; PAGES],
    pub places: [Option<Place>; PLACES],
}

type Answer<T> = Result<T, Refusal>;

fn require(holds: bool, refusal: Refusal) -> Answer<()> {
    holds.then_some(()).ok_or(refusal)
}

/// "No room", "marker" and "damaged" set all of the lent output to zero.
fn clear_if_refused<T>(answer: Answer<T>, out: &mut [u8]) -> Answer<T> {
    if answer.is_err() {
        out.fill(0);
    }
    answer
}

fn require_rows(rows: u64) -> Answer<()> {
    require((1..=band::MAX_ROWS as u64).contains(&rows), Refusal::Size)
}

fn width_is_lawful(width: u64) -> bool {
    (1..=band::MAX_WIDTH as u64).contains(&width)
}

impl Page {
    fn is_lawful(&self) -> bool {
        if !self.key.is_lawful() || !width_is_lawful(self.width) {
            return false;
        }
        let width = self.width as usize;
        let (row, unused) = self.state.last.split_at(band::row_bytes(width));
        table_is_lawful(&self.state.table)
            && band::clean(row, width)
            && unused.iter().all(|&byte| byte == 0)
    }
}

fn table_is_lawful(table: &Table) -> bool {
    table.iter().all(|&entry| usize::from(entry) < ENTRIES)
}

fn all_differ(keys: &[Key]) -> bool {
    (1..keys.len()).all(|i| !keys[..i].contains(&keys[i]))
}

impl Desk {
    /// The open page of a key.
    pub fn page(&self, key: Key) -> Option<&Page> {
        self.pages.iter().flatten().find(|page| page.key == key)
    }

    /// The place of a key, learned or reserved.
    pub fn place(&self, key: Key) -> Option<&Place> {
        self.places.iter().flatten().find(|place| place.key == key)
    }

    /// The learned table of a key.
    pub fn learned(&self, key: Key) -> Option<&Table> {
        self.place(key)?.learned.as_ref()
    }

    /// Document 01's last paragraph on refusals, but for what this form of
    /// desk cannot hold: something in unused room.
    pub fn is_lawful(&self) -> bool {
        let pages: Vec<Key> = self.pages.iter().flatten().map(|page| page.key).collect();
        let places: Vec<Key> = self
            .places
            .iter()
            .flatten()
            .map(|place| place.key)
            .collect();
        all_differ(&pages)
            && all_differ(&places)
            && self.pages.iter().flatten().all(Page::is_lawful)
            && pages.iter().all(|key| places.contains(key))
            && self.places.iter().flatten().all(|place| {
                place.key.is_lawful()
                    && match &place.learned {
                        Some(table) => table_is_lawful(table),
                        None => pages.contains(&place.key),
                    }
            })
    }

    /// The tests with which every call begins.
    fn admit(&self, key: Key) -> Answer<()> {
        require(self.is_lawful(), Refusal::Unlawful)?;
        require(key.is_lawful(), Refusal::Key)
    }

    fn page_slot(&self, key: Key) -> Answer<usize> {
        self.pages
            .iter()
            .position(|slot| slot.as_ref().is_some_and(|page| page.key == key))
            .ok_or(Refusal::NoPage)
    }

    fn page_mut(&mut self, key: Key, direction: Direction) -> Answer<&mut Page> {
        let slot = self.page_slot(key)?;
        let page = self.pages[slot].as_mut().ok_or(Refusal::NoPage)?;
        require(page.direction == direction, Refusal::Direction)?;
        Ok(page)
    }

    fn place_mut(&mut self, key: Key) -> Option<&mut Option<Place>> {
        self.places
            .iter_mut()
            .find(|spot| spot.as_ref().is_some_and(|place| place.key == key))
    }

    pub fn open(&mut self, key: Key, direction: Direction, width: u64) -> Answer<()> {
        self.admit(key)?;
        require(width_is_lawful(width), Refusal::Size)?;
        require(self.page(key).is_none(), Refusal::PageOpen)?;
        let slot = self.pages.iter().position(Option::is_none);
        let slot = slot.ok_or(Refusal::PagesFull)?;
        let table = match self.learned(key) {
            Some(table) => *table,
            None => {
                let spot = self.places.iter().position(Option::is_none);
                let spot = spot.ok_or(Refusal::PlacesFull)?;
                self.places[spot] = Some(Place { key, learned: None });
                FRESH
            }
        };
        let last: Row = [0; band::MAX_WIDTH / 8];
        self.pages[slot] = Some(Page {
            key,
            direction,
            width,
            state: State { table, last },
        });
        Ok(())
    }

    pub fn write(&mut self, key: Key, rows: u64, pels: &[u8], out: &mut [u8]) -> Answer<Band> {
        self.write_watched(key, rows, pels, out, ())
    }

    /// A write whose rare carries are told to `watch`.
    pub fn write_watched(
        &mut self,
        key: Key,
        rows: u64,
        pels: &[u8],
        out: &mut [u8],
        watch: impl Watch,
    ) -> Answer<Band> {
        self.write_by(key, rows, pels, out, |state, width, pels, out| {
            band::write(state, width, pels, out, watch)
        })
    }

    /// A write whose band is coded by `code`, as [`band::write`] does it.
    pub fn write_by(
        &mut self,
        key: Key,
        rows: u64,
        pels: &[u8],
        out: &mut [u8],
        code: impl FnOnce(&mut State, usize, &[u8], &mut [u8]) -> Answer<Band>,
    ) -> Answer<Band> {
        self.admit(key)?;
        require_rows(rows)?;
        let page = self.page_mut(key, Direction::Write)?;
        let width = page.width as usize;
        let bytes = band::row_bytes(width);
        require(pels.len() == rows as usize * bytes, Refusal::Size)?;
        let clean = pels.chunks_exact(bytes).all(|row| band::clean(row, width));
        require(clean, Refusal::Padding)?;
        let answer = code(&mut page.state, width, pels, out);
        clear_if_refused(answer, out)
    }

    pub fn read(&mut self, key: Key, rows: u64, code: &[u8], out: &mut [u8]) -> Answer<Band> {
        self.read_by(key, rows, code, out, band::read)
    }

    /// A read whose band is decoded by `decode`, as [`band::read`] does it.
    pub fn read_by(
        &mut self,
        key: Key,
        rows: u64,
        code: &[u8],
        out: &mut [u8],
        decode: impl FnOnce(&mut State, usize, &[u8], &mut [u8]) -> Answer<Band>,
    ) -> Answer<Band> {
        self.admit(key)?;
        require_rows(rows)?;
        require(code.len() <= band::MAX_CODE, Refusal::Size)?;
        let page = self.page_mut(key, Direction::Read)?;
        let width = page.width as usize;
        let length = rows as usize * band::row_bytes(width);
        let answer = match out.get_mut(..length) {
            None => Err(Refusal::NoRoom),
            Some(_) if band::has_marker(code) => Err(Refusal::Marker),
            Some(front) => decode(&mut page.state, width, code, front),
        };
        clear_if_refused(answer, out)
    }

    pub fn close(&mut self, key: Key) -> Answer<()> {
        self.admit(key)?;
        let slot = self.page_slot(key)?;
        let page = self.pages[slot].take().ok_or(Refusal::NoPage)?;
        if let Some(spot) = self.place_mut(key) {
            let learned = Some(page.state.table);
            *spot = Some(Place { key, learned });
        }
        Ok(())
    }

    pub fn abandon(&mut self, key: Key) -> Answer<()> {
        self.admit(key)?;
        let slot = self.page_slot(key)?;
        self.pages[slot] = None;
        if self.learned(key).is_none() {
            if let Some(spot) = self.place_mut(key) {
                *spot = None;
            }
        }
        Ok(())
    }

    /// Document 01's drop.
    pub fn forget(&mut self, key: Key) -> Answer<()> {
        self.admit(key)?;
        require(self.page(key).is_none(), Refusal::PageOpen)?;
        require(self.learned(key).is_some(), Refusal::NoTable)?;
        if let Some(spot) = self.place_mut(key) {
            *spot = None;
        }
        Ok(())
    }

    pub fn look(&self, key: Key, out: &mut [u8]) -> Answer<usize> {
        self.admit(key)?;
        let table = self.learned(key).ok_or(Refusal::NoTable)?;
        let answer = match out.get_mut(..CONTEXTS) {
            Some(front) => {
                front.copy_from_slice(table);
                Ok(CONTEXTS)
            }
            None => Err(Refusal::NoRoom),
        };
        clear_if_refused(answer, out)
    }
}
