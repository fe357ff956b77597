//! The options of a command line, and the files that it names.

use crate::input::Input;
use std::collections::VecDeque;
use std::ffi::OsString;

/// An option's name, and whether a value follows it.
pub type Takes = (&'static str, bool);

/// A command line taken apart: its options, each at most once, and the rest.
pub struct Given {
    options: Vec<(&'static str, OsString)>,
    pub plain: Vec<OsString>,
}

impl Given {
    /// Nothing if help was asked for.
    pub fn take(mut words: VecDeque<OsString>, takes: &[Takes]) -> Result<Option<Given>, String> {
        let mut given = Given {
            options: Vec::new(),
            plain: Vec::new(),
        };
        while let Some(word) = words.pop_front() {
            let text = word.to_string_lossy().into_owned();
            match text.as_str() {
                "--help" | "-h" => return Ok(None),
                "--" => given.plain.extend(words.drain(..)),
                "-" => given.plain.push(word),
                _ if text.starts_with('-') => given.option(&text, &mut words, takes)?,
                _ => given.plain.push(word),
            }
        }
        Ok(Some(given))
    }

    /// Takes one option and its value, which may follow a `=`.
    fn option(
        &mut self,
        text: &str,
        words: &mut VecDeque<OsString>,
        takes: &[Takes],
    ) -> Result<(), String> {
        let (name, joined) = match text.split_once('=') {
            Some((name, value)) if name.starts_with("--") => (name, Some(value)),
            _ => (text, None),
        };
        let Some(&(name, valued)) = takes.iter().find(|takes| takes.0 == name) else {
            return Err(format!("there is no option {text}"));
        };
        if self.options.iter().any(|option| option.0 == name) {
            return Err(format!("{name} is given twice"));
        }
        let value = match (valued, joined) {
            (false, None) => OsString::new(),
            (false, Some(_)) => return Err(format!("{name} takes no value")),
            (true, Some(value)) => value.into(),
            (true, None) => words
                .pop_front()
                .ok_or_else(|| format!("no value follows {name}"))?,
        };
        self.options.push((name, value));
        Ok(())
    }

    pub fn value(&self, name: &str) -> Option<&OsString> {
        let found = self.options.iter().find(|option| option.0 == name);
        found.map(|option| &option.1)
    }

    pub fn flag(&self, name: &str) -> bool {
        self.value(name).is_some()
    }

    /// A number from 1 to `most`.
    pub fn number(&self, name: &str, most: u64, otherwise: u64) -> Result<u64, String> {
        let Some(value) = self.value(name) else {
            return Ok(otherwise);
        };
        let digits = |text: &&str| text.bytes().all(|byte| byte.is_ascii_digit());
        let number = value.to_str().filter(digits);
        let number = number.and_then(|text| text.parse().ok());
        match number {
            Some(number) if (1..=most).contains(&number) => Ok(number),
            _ => Err(format!("{name} is a number from 1 to {most}")),
        }
    }

    pub fn output(&self, what: &str) -> Result<OsString, String> {
        match self.value("-o") {
            Some(output) if output.is_empty() => Err("the name after -o is empty".into()),
            Some(output) => Ok(output.clone()),
            None => Err(format!("no output is named: -o {what}")),
        }
    }

    /// The one file of a job.
    pub fn input(&mut self) -> Result<Input, String> {
        match self.plain.len() {
            1 => Ok(Input(self.plain.remove(0))),
            0 => Err("no file is named".into()),
            _ => Err("more than one file is named".into()),
        }
    }
}
