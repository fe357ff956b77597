//! `sift unpack`: the pages of a packed file as PBM files.

use crate::args::Unpack;
use crate::failure::Failure;
use crate::output;
use crate::pbm;
use crate::reading::{Packed, Whole};
use siftpebble::Desk;
use std::path::Path;

pub fn run(job: &Unpack) -> Result<(), Failure> {
    let packed = Packed::open(&job.input)?;
    let picture = |page: &Whole| {
        let (width, height) = (page.record.width, page.record.height);
        match job.plain {
            true => pbm::plain(width, height, &page.rows),
            false => pbm::packed(width, height, &page.rows),
        }
    };
    let mut desk = Desk::new();
    if job.output == "-" {
        let deliver = |page: Whole| output::to_stdout(&picture(&page));
        return packed.read(&mut desk, job.quiet, deliver);
    }
    let directory = Path::new(&job.output);
    check_room(&packed, directory, job.force)?;
    let deliver = |page: Whole| {
        let path = directory.join(&page.record.name);
        make(directory)?;
        output::to_file(&path, &picture(&page), job.force)
    };
    packed.read(&mut desk, job.quiet, deliver)
}

/// Looks for files in the way before any page is written, so that a job is not
/// done by half for a reason that could be known.
fn check_room(packed: &Packed, directory: &Path, force: bool) -> Result<(), Failure> {
    for page in &packed.contents.pages {
        output::check_free(&directory.join(&page.record.name), force)?;
    }
    Ok(())
}

/// Makes the directory if it is not there: only for a page that is whole.
fn make(directory: &Path) -> Result<(), Failure> {
    let made = std::fs::create_dir_all(directory);
    made.map_err(|error| Failure::data(directory.display(), error))
}
