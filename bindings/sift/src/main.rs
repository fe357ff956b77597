//! `sift`: packs black-and-white pages with the desk, and reads them back.
//!
//! The packed file is described in docs/FORMAT.md. Every band goes through the
//! proved library; what stands here is the frame around the bands, PBM, and
//! files.

mod args;
mod contents;
mod crc;
mod failure;
mod frame;
mod help;
mod input;
mod look;
mod name;
mod options;
mod output;
mod pack;
mod pbm;
mod progress;
mod reading;
mod show;
mod unpack;

use args::Job;
use failure::Failure;
use std::io::Write;
use std::process::ExitCode;

fn main() -> ExitCode {
    match args::parse(std::env::args_os().skip(1)).and_then(run) {
        Ok(()) => ExitCode::SUCCESS,
        Err(Failure::Data(lines)) => {
            complain(&lines);
            ExitCode::from(1)
        }
        Err(Failure::Usage(line)) => {
            complain(&[line]);
            ExitCode::from(2)
        }
    }
}

fn run(job: Job) -> Result<(), Failure> {
    match job {
        Job::Say(text) => output::to_stdout(text.as_bytes()),
        Job::Pack(job) => pack::run(&job),
        Job::Unpack(job) => unpack::run(&job),
        Job::Show(job) => show::run(&job),
        Job::Look(job) => look::run(&job),
    }
}

/// Writes lines on standard error. If that is closed there is nobody to tell,
/// and the status still says it.
fn complain(lines: &[String]) {
    let mut stderr = std::io::stderr().lock();
    for line in lines {
        let _ = writeln!(stderr, "sift: {line}");
    }
}
