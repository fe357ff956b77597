//! A packed file read page by page. A page is handed on only when every band
//! of it was read and the rows are those that were packed.

use crate::contents::{Contents, Page};
use crate::crc::crc32;
use crate::failure::Failure;
use crate::frame::Record;
use crate::input::Input;
use crate::progress::Progress;
use siftpebble::{first_marker, front, Band, Desk, Refusal, MAX_BAND_BYTES};

/// A packed file and its bytes.
pub struct Packed<'a> {
    pub input: &'a Input,
    pub bytes: Vec<u8>,
    pub contents: Contents,
}

/// A page that came back whole.
pub struct Whole<'a> {
    pub number: usize,
    pub record: &'a Record,
    pub rows: Vec<u8>,
    /// What the read of each band answered.
    pub bands: Vec<Band>,
}

impl<'a> Packed<'a> {
    pub fn open(input: &'a Input) -> Result<Self, Failure> {
        let bytes = input.bytes()?;
        let contents = Contents::of(&bytes).map_err(|fault| Failure::data(input, fault))?;
        Ok(Packed {
            input,
            bytes,
            contents,
        })
    }

    /// Reads the pages in their order and delivers those that come back whole.
    /// After a page that does not there are no more: the next one starts from
    /// the table that the class would have learned from it.
    pub fn read(
        &self,
        desk: &mut Desk,
        quiet: bool,
        mut deliver: impl FnMut(Whole) -> Result<(), Failure>,
    ) -> Result<(), Failure> {
        let mut progress = Progress::new(quiet);
        let mut faults = Vec::new();
        for (index, page) in self.contents.pages.iter().enumerate() {
            match self.page(desk, index + 1, page, &mut progress) {
                Ok(whole) => {
                    progress.clear();
                    deliver(whole)?;
                }
                Err(lines) => {
                    faults = lines;
                    faults.extend(self.not_read_after(index + 1));
                    break;
                }
            }
        }
        faults.extend(self.contents.faults.iter().cloned());
        if faults.is_empty() {
            return Ok(());
        }
        let named = |fault| format!("{}: {fault}", self.input);
        Err(Failure::Data(faults.into_iter().map(named).collect()))
    }

    /// Reads one page, and closes it only if it came back whole.
    fn page<'p>(
        &self,
        desk: &mut Desk,
        number: usize,
        page: &'p Page,
        progress: &mut Progress,
    ) -> Result<Whole<'p>, Vec<String>> {
        let (key, record) = (self.contents.header.key, &page.record);
        let place = format!("page {number} ({})", record.name);
        let refused = |refusal| vec![format!("{place}: {refusal}")];
        desk.open_read(key, record.width as u64).map_err(refused)?;
        let (rows, bands) = self.bands(desk, page, &place, progress)?;
        if crc32(&rows) != record.sum {
            let fault = "the rows are not those that were packed: their checksum differs";
            return Err(vec![format!("{place}: {fault}")]);
        }
        desk.close(key).map_err(refused)?;
        Ok(Whole {
            number,
            record,
            rows,
            bands,
        })
    }

    /// Reads the bands of an open page: all rows, and what each band answered.
    fn bands(
        &self,
        desk: &mut Desk,
        page: &Page,
        place: &str,
        progress: &mut Progress,
    ) -> Result<(Vec<u8>, Vec<Band>), Vec<String>> {
        let (header, record) = (&self.contents.header, &page.record);
        let (mut rows, mut answers) = (Vec::new(), Vec::new());
        let mut buffer = [0; MAX_BAND_BYTES];
        let mut codes = &self.bytes[page.codes.clone()];
        let bands = record.lengths.len();
        for (index, height) in record.band_rows(header.rows).enumerate() {
            progress.band(place, index + 1, bands);
            let (code, rest) = codes.split_at(record.lengths[index]);
            codes = rest;
            match desk.read(header.key, height as u64, code, &mut buffer) {
                Ok(band) => {
                    rows.extend_from_slice(front(&buffer, band.length));
                    answers.push(band);
                }
                Err(refusal) => {
                    let why = said_of(refusal, code);
                    return Err(refused_band(place, index + 1, bands, &why));
                }
            }
        }
        Ok((rows, answers))
    }

    /// What is said of the pages after a refused one.
    fn not_read_after(&self, refused: usize) -> impl Iterator<Item = String> + '_ {
        let later = self.contents.pages.iter().enumerate().skip(refused);
        later.map(move |(index, page)| {
            let (number, name) = (index + 1, &page.record.name);
            let why = format!("it needs the table learned from page {refused}");
            format!("page {number} ({name}): not read: {why}")
        })
    }
}

/// What is said of a refused code. Its marker is shown, so that a wrong file
/// can be told from a cut one.
fn said_of(refusal: Refusal, code: &[u8]) -> String {
    match (refusal, first_marker(code)) {
        (Refusal::Marker, Some(at)) => {
            let byte = code[at + 1];
            format!("not a code of ours: marker FF {byte:02X} at byte {at}")
        }
        _ => refusal.to_string(),
    }
}

/// What is said of a band that was refused for this, and of those after it.
fn refused_band(place: &str, band: usize, bands: usize, why: &str) -> Vec<String> {
    let mut lines = vec![format!("{place}, band {band}: {why}")];
    let why = format!("not read, since band {band} was refused");
    match bands - band {
        0 => (),
        1 => lines.push(format!("{place}, band {bands}: {why}")),
        _ => lines.push(format!("{place}, bands {} to {bands}: {why}", band + 1)),
    }
    lines
}
