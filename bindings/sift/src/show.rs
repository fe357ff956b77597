//! `sift show`: what is in a packed file. Every band is read, since S and the
//! pels revisited come from reading; so this also tells whether the file is
//! whole.

use crate::args::Show;
use crate::failure::Failure;
use crate::frame::Header;
use crate::output;
use crate::reading::{Packed, Whole};
use siftpebble::Desk;

pub fn run(job: &Show) -> Result<(), Failure> {
    let packed = Packed::open(&job.input)?;
    let header = packed.contents.header;
    let mut total = Total::default();
    output::to_stdout(head(&packed).as_bytes())?;
    let read = packed.read(&mut Desk::new(), job.quiet, |page| {
        total.add(&page);
        let mut lines = page_line(&page);
        if job.bands {
            lines += &band_lines(&page, &header);
        }
        output::to_stdout(lines.as_bytes())
    });
    output::to_stdout(total.lines(packed.bytes.len()).as_bytes())?;
    read
}

/// The counts of one page, or of more.
#[derive(Default)]
struct Counts {
    bands: usize,
    raw: usize,
    code: usize,
    shifts: u64,
    revisits: u64,
}

impl Counts {
    fn of(page: &Whole) -> Self {
        Counts {
            bands: page.bands.len(),
            raw: page.record.raw_bytes(),
            code: page.record.code_bytes(),
            shifts: page.bands.iter().map(|band| band.shifts).sum(),
            revisits: page.bands.iter().map(|band| band.revisits).sum(),
        }
    }
}

/// What is counted over the pages that came back.
#[derive(Default)]
struct Total {
    pages: usize,
    counts: Counts,
}

impl Total {
    fn add(&mut self, page: &Whole) {
        let more = Counts::of(page);
        self.pages += 1;
        self.counts.bands += more.bands;
        self.counts.raw += more.raw;
        self.counts.code += more.code;
        self.counts.shifts += more.shifts;
        self.counts.revisits += more.revisits;
    }

    fn lines(&self, file: usize) -> String {
        let pages = match self.pages {
            1 => "1 page".to_string(),
            pages => format!("{pages} pages"),
        };
        let total = line("total", &pages, &self.counts, "");
        format!("{total}The file has {file} bytes, its frame among them.\n")
    }
}

fn head(packed: &Packed) -> String {
    let Header { key, rows, pages } = packed.contents.header;
    let (school, class) = (key.school, key.class);
    format!(
        "{}: school {school}, class {class}, bands of {rows} rows, pages: {pages}\n\
         {:>5} {:>12} {:>6} {:>10} {:>10} {:>10} {:>10} {:>8}  {}\n",
        packed.input,
        "page",
        "pels",
        "bands",
        "raw bytes",
        "code bytes",
        "S",
        "revisits",
        "saving",
        "name"
    )
}

fn page_line(page: &Whole) -> String {
    let record = page.record;
    let pels = format!("{} x {}", record.width, record.height);
    let number = page.number.to_string();
    line(&number, &pels, &Counts::of(page), &record.name)
}

/// One line for each band: its rows, its code's bytes, S and the pels revisited.
fn band_lines(page: &Whole, header: &Header) -> String {
    let rows = page.record.band_rows(header.rows);
    let facts = rows.zip(&page.record.lengths).zip(&page.bands);
    let mut lines = String::new();
    for (index, ((rows, bytes), answer)) in facts.enumerate() {
        let (band, shifts, revisits) = (index + 1, answer.shifts, answer.revisits);
        let counts = format!("S {shifts}, revisits {revisits}");
        lines += &format!("      band {band}: rows {rows}, code bytes {bytes}, {counts}\n");
    }
    lines
}

fn line(page: &str, pels: &str, counts: &Counts, name: &str) -> String {
    let Counts {
        bands,
        raw,
        code,
        shifts,
        revisits,
    } = counts;
    let saving = saving(*raw, *code);
    let counts = format!("{bands:>6} {raw:>10} {code:>10} {shifts:>10} {revisits:>10}");
    let line = format!("{page:>5} {pels:>12} {counts} {saving:>8}");
    match name {
        "" => format!("{line}\n"),
        _ => format!("{line}  {name}\n"),
    }
}

/// What the codes save beside the packed rows, in a hundred.
fn saving(raw: usize, code: usize) -> String {
    if raw == 0 {
        return "-".into();
    }
    let saved = raw as f64 - code as f64;
    format!("{:.1}%", 100.0 * saved / raw as f64)
}
