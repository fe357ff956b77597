//! `believe`: prints docs/BELIEVE.md.

use siftpebble_believe::list::List;
use siftpebble_believe::tree::Tree;
use siftpebble_believe::{page, root, stats};
use std::io::Write;
use std::process::ExitCode;

const USAGE: &str = "\
believe                 prints docs/BELIEVE.md: what a reader believes
believe --list-missing  what of it has no comment directly above it
believe --stats         how much of each file is on the list, and which specs hold laws
";

/// What is printed, or what is wrong.
fn text(option: Option<&str>) -> Result<String, String> {
    let list = List::read(&root())?;
    let missing = list.missing();
    match option {
        Some("--list-missing") => Ok(missing.iter().map(|line| format!("{line}\n")).collect()),
        Some("--stats") => Ok(stats::stats(&Tree::read(&root())?, &list)),
        _ if !missing.is_empty() => {
            let faults = missing.join("\n");
            Err(format!("no comment directly above these:\n{faults}"))
        }
        _ => Ok(page::page(&list)),
    }
}

fn main() -> ExitCode {
    let words: Vec<String> = std::env::args().skip(1).collect();
    let words: Vec<&str> = words.iter().map(String::as_str).collect();
    let option = match words[..] {
        [] => None,
        [option @ ("--list-missing" | "--stats")] => Some(option),
        _ => {
            eprint!("{USAGE}");
            return ExitCode::from(2);
        }
    };
    let printed = text(option).and_then(|text| {
        let mut out = std::io::stdout().lock();
        out.write_all(text.as_bytes()).map_err(|e| e.to_string())
    });
    match printed {
        Ok(()) => ExitCode::SUCCESS,
        Err(fault) => {
            eprintln!("believe: {fault}");
            ExitCode::FAILURE
        }
    }
}
