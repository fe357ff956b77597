//! `sift pack`: pages through the desk into one file.

use crate::args::Pack;
use crate::crc::crc32;
use crate::failure::Failure;
use crate::frame::{self, Header, Record, MAX_PAGES};
use crate::input::Input;
use crate::name;
use crate::output;
use crate::pbm::{row_bytes, Picture, Pictures};
use crate::progress::Progress;
use siftpebble::{Desk, Key, MAX_CODE};
use std::collections::HashSet;
use std::path::Path;

pub fn run(job: &Pack) -> Result<(), Failure> {
    let path = Path::new(&job.output);
    let to_stdout = job.output == "-";
    if !to_stdout {
        output::check_free(path, job.force)?;
        check_apart(path, &job.inputs)?;
    }
    let mut packing = Packing::new(job);
    for input in &job.inputs {
        packing.file(input)?;
    }
    let file = packing.finish();
    match to_stdout {
        true => output::to_stdout(&file),
        false => output::to_file(path, &file, job.force),
    }
}

/// Refuses to replace a page by the file it is packed into.
fn check_apart(path: &Path, inputs: &[Input]) -> Result<(), Failure> {
    let Ok(output) = path.canonicalize() else {
        return Ok(());
    };
    let same = |input: &&Input| {
        Path::new(&input.0)
            .canonicalize()
            .is_ok_and(|i| i == output)
    };
    match inputs.iter().find(same) {
        None => Ok(()),
        Some(input) => Err(Failure::data(input, "it is the output too")),
    }
}

/// A file in the making. It is kept in memory until its last page is in it, so
/// that a page which cannot be packed leaves nothing behind.
struct Packing {
    desk: Desk,
    key: Key,
    rows: usize,
    names: HashSet<String>,
    /// The pages, as they will follow the header.
    body: Vec<u8>,
    progress: Progress,
}

impl Packing {
    fn new(job: &Pack) -> Self {
        Packing {
            desk: Desk::new(),
            key: job.key,
            rows: job.rows,
            names: HashSet::new(),
            body: Vec::new(),
            progress: Progress::new(job.quiet),
        }
    }

    /// Adds every picture of an input.
    fn file(&mut self, input: &Input) -> Result<(), Failure> {
        let bytes = input.bytes()?;
        for (index, picture) in Pictures::of(&bytes).enumerate() {
            let number = index + 1;
            let failed = |fault| Failure::data(input, format!("page {number}: {fault}"));
            let picture = picture.map_err(failed)?;
            let base = input.base().unwrap_or(name::UNNAMED.as_ref());
            let name = name::of_picture(base, number).map_err(failed)?;
            let name = self.new_name(name).map_err(failed)?;
            let place = format!("page {number} ({name})");
            let page = self.page(&place, name, &picture);
            page.map_err(|fault| Failure::data(input, format!("{place}{fault}")))?;
        }
        Ok(())
    }

    /// Refuses a name that another page has, and a page too many.
    fn new_name(&mut self, name: String) -> Result<String, String> {
        if !self.names.insert(name.clone()) {
            return Err(format!(
                "another page has the name {name} already: rename one, or pack them apart"
            ));
        }
        match self.names.len() {
            0..=MAX_PAGES => Ok(name),
            _ => Err(format!("a file has at most {MAX_PAGES} pages")),
        }
    }

    /// Adds one page, and has the class learn from it. A fault follows the
    /// page's name in the message.
    fn page(&mut self, place: &str, name: String, picture: &Picture) -> Result<(), String> {
        let plain = |refusal| format!(": {refusal}");
        let opened = self.desk.open_write(self.key, picture.width as u64);
        opened.map_err(plain)?;
        let (lengths, codes) = self.bands(place, picture)?;
        self.desk.close(self.key).map_err(plain)?;
        let record = Record {
            name,
            width: picture.width,
            height: picture.height,
            lengths,
            sum: crc32(&picture.rows),
        };
        frame::put_record(&record, &mut self.body);
        self.body.extend_from_slice(&codes);
        Ok(())
    }

    /// Writes the bands of an open page: each code's length, and all codes.
    fn bands(&mut self, place: &str, picture: &Picture) -> Result<(Vec<usize>, Vec<u8>), String> {
        let (mut lengths, mut codes) = (Vec::new(), Vec::new());
        let bytes = row_bytes(picture.width);
        let bands = picture.height.div_ceil(self.rows);
        let mut buffer = [0; MAX_CODE];
        for (index, pels) in picture.rows.chunks(self.rows * bytes).enumerate() {
            self.progress.band(place, index + 1, bands);
            let rows = (pels.len() / bytes) as u64;
            let written = self.desk.write_code(self.key, rows, pels, &mut buffer);
            let (code, _) =
                written.map_err(|refusal| format!(", band {}: {refusal}", index + 1))?;
            lengths.push(code.len());
            codes.extend_from_slice(code);
        }
        Ok((lengths, codes))
    }

    /// The whole file.
    fn finish(self) -> Vec<u8> {
        let header = Header {
            key: self.key,
            rows: self.rows,
            pages: self.names.len(),
        };
        let mut file = Vec::new();
        frame::put_header(&header, &mut file);
        file.extend_from_slice(&self.body);
        frame::put_end(&mut file);
        file
    }
}
