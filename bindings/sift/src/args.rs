//! The command line.

use crate::failure::Failure;
use crate::help;
use crate::input::Input;
use crate::options::Given;
use siftpebble::{Key, MAX_KEY, MAX_ROWS};
use std::collections::VecDeque;
use std::ffi::OsString;

/// What is to be done.
pub enum Job {
    Say(String),
    Pack(Pack),
    Unpack(Unpack),
    Show(Show),
    Look(Look),
}

pub struct Pack {
    pub inputs: Vec<Input>,
    pub output: OsString,
    pub key: Key,
    pub rows: usize,
    pub force: bool,
    pub quiet: bool,
}

pub struct Unpack {
    pub input: Input,
    /// A directory, or `-`.
    pub output: OsString,
    pub plain: bool,
    pub force: bool,
    pub quiet: bool,
}

pub struct Show {
    pub input: Input,
    pub bands: bool,
    pub quiet: bool,
}

pub struct Look {
    pub input: Input,
    pub quiet: bool,
}

pub fn parse(words: impl Iterator<Item = OsString>) -> Result<Job, Failure> {
    let mut words: VecDeque<OsString> = words.collect();
    let Some(first) = words.pop_front() else {
        return Err(Failure::Usage("nothing to do; see sift --help".into()));
    };
    let first = first.to_string_lossy().into_owned();
    let (takes, help) = match first.as_str() {
        "--help" | "-h" | "help" => return Ok(Job::Say(help::GENERAL.into())),
        "--version" | "-V" => return Ok(Job::Say(help::version())),
        "pack" => (help::PACK_TAKES, help::pack()),
        "unpack" => (help::UNPACK_TAKES, help::UNPACK.into()),
        "show" => (help::SHOW_TAKES, help::SHOW.into()),
        "look" => (help::LOOK_TAKES, help::look()),
        _ => {
            let wrong = format!("there is no job {first:?}; see sift --help");
            return Err(Failure::Usage(wrong));
        }
    };
    let usage = |wrong| Failure::Usage(format!("{first}: {wrong}; see sift {first} --help"));
    let Some(mut given) = Given::take(words, takes).map_err(usage)? else {
        return Ok(Job::Say(help));
    };
    let job = match first.as_str() {
        "pack" => given.pack().map(Job::Pack),
        "unpack" => given.unpack().map(Job::Unpack),
        "show" => given.show().map(Job::Show),
        _ => given.look().map(Job::Look),
    };
    job.map_err(usage)
}

impl Given {
    fn pack(&mut self) -> Result<Pack, String> {
        let stdin = self.plain.iter().filter(|word| *word == "-").count();
        if self.plain.is_empty() {
            return Err("no page is named".into());
        }
        if stdin > 1 {
            return Err("standard input can be read once only".into());
        }
        let key = Key {
            school: self.number("--school", MAX_KEY, 1)?,
            class: self.number("--class", MAX_KEY, 1)?,
        };
        let most = MAX_ROWS as u64;
        Ok(Pack {
            output: self.output("FILE")?,
            inputs: self.plain.drain(..).map(Input).collect(),
            key,
            rows: self.number("--rows", most, most)? as usize,
            force: self.flag("--force"),
            quiet: self.flag("--quiet"),
        })
    }

    fn unpack(&mut self) -> Result<Unpack, String> {
        Ok(Unpack {
            input: self.input()?,
            output: self.output("DIR")?,
            plain: self.flag("--plain"),
            force: self.flag("--force"),
            quiet: self.flag("--quiet"),
        })
    }

    fn show(&mut self) -> Result<Show, String> {
        Ok(Show {
            input: self.input()?,
            bands: self.flag("--bands"),
            quiet: self.flag("--quiet"),
        })
    }

    fn look(&mut self) -> Result<Look, String> {
        Ok(Look {
            input: self.input()?,
            quiet: self.flag("--quiet"),
        })
    }
}
