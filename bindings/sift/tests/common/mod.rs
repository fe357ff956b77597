//! Runs the program, and makes pages and packed files without its help: all of
//! this is written from docs/FORMAT.md and the description of PBM.

// each test program uses a part of it
#![allow(dead_code)]

use siftpebble_model::band::{Band, MAX_CODE};
use siftpebble_model::random::Random;
use siftpebble_model::{sample, Desk, Direction, Key, Table};
use std::io::Write;
use std::path::{Path, PathBuf};
use std::process::{Command, Stdio};

/// How a run of the program ended.
pub struct Ran {
    pub status: i32,
    pub stdout: Vec<u8>,
    pub stderr: String,
}

impl Ran {
    pub fn text(&self) -> &str {
        std::str::from_utf8(&self.stdout).expect("text")
    }

    /// Status 0, and nothing to complain of.
    #[track_caller]
    pub fn fine(self) -> Self {
        assert_eq!((self.status, self.stderr.as_str()), (0, ""));
        self
    }

    /// This status, and exactly these lines on standard error.
    #[track_caller]
    pub fn refused(self, status: i32, lines: &[&str]) -> Self {
        let said: Vec<_> = self.stderr.lines().collect();
        assert_eq!((self.status, said.as_slice()), (status, lines));
        self
    }
}

/// Runs the program in a directory, with these bytes on standard input.
pub fn sift(dir: &Path, words: &[&str], stdin: &[u8]) -> Ran {
    let mut child = Command::new(env!("CARGO_BIN_EXE_sift"))
        .args(words)
        .current_dir(dir)
        .stdin(Stdio::piped())
        .stdout(Stdio::piped())
        .stderr(Stdio::piped())
        .spawn()
        .expect("the program");
    let mut pipe = child.stdin.take().expect("a pipe");
    let output = std::thread::scope(|scope| {
        // a program that refuses early does not read it all
        scope.spawn(move || pipe.write_all(stdin).ok());
        child.wait_with_output().expect("an end")
    });
    Ran {
        status: output.status.code().expect("an end by itself"),
        stdout: output.stdout,
        stderr: String::from_utf8(output.stderr).expect("text"),
    }
}

/// A new empty directory for a test.
pub fn directory(test: &str) -> PathBuf {
    let dir = Path::new(env!("CARGO_TARGET_TMPDIR")).join(format!("sift-{test}"));
    let _ = std::fs::remove_dir_all(&dir);
    std::fs::create_dir_all(&dir).expect("a directory");
    dir
}

/// The names in a directory, in order.
pub fn names(dir: &Path) -> Vec<String> {
    let entries = std::fs::read_dir(dir).expect("a directory");
    let name = |entry: std::io::Result<std::fs::DirEntry>| {
        let name = entry.expect("an entry").file_name();
        name.into_string().expect("text")
    };
    let mut names: Vec<_> = entries.map(name).collect();
    names.sort();
    names
}

/// A page to be packed.
#[derive(Clone)]
pub struct Sheet {
    pub width: usize,
    pub height: usize,
    pub rows: Vec<u8>,
}

impl Sheet {
    pub fn random(random: &mut Random, width: usize, height: usize) -> Sheet {
        let rows = match random.below(5) {
            0 => sample::rows(width, height, |_, _| false),
            1 => sample::ruled(width, height),
            2 => sample::halftone(width, height),
            _ => {
                let percent = random.pick(&[3, 20, 50, 95]);
                sample::noise(random, width, height, percent)
            }
        };
        Sheet {
            width,
            height,
            rows,
        }
    }

    pub fn row_bytes(&self) -> usize {
        self.width.div_ceil(8)
    }

    pub fn p4(&self) -> Vec<u8> {
        let header = format!("P4\n{} {}\n", self.width, self.height);
        [header.as_bytes(), &self.rows].concat()
    }

    fn pel(&self, x: usize, y: usize) -> bool {
        self.rows[y * self.row_bytes() + x / 8] >> (7 - x % 8) & 1 == 1
    }

    /// As P1, with `between` after each pel.
    pub fn p1(&self, mut between: impl FnMut() -> &'static str) -> Vec<u8> {
        let mut text = format!("P1\n{} {}\n", self.width, self.height);
        for y in 0..self.height {
            for x in 0..self.width {
                text.push(if self.pel(x, y) { '1' } else { '0' });
                text.push_str(between());
            }
        }
        text.into_bytes()
    }
}

/// CRC-32, bit by bit.
pub fn crc32(bytes: &[u8]) -> u32 {
    let mut sum = !0_u32;
    for bit in bytes
        .iter()
        .flat_map(|byte| (0..8).map(move |at| byte >> at & 1))
    {
        let low = sum & 1 ^ u32::from(bit);
        sum >>= 1;
        if low == 1 {
            sum ^= 0xEDB8_8320;
        }
    }
    !sum
}

/// These bytes and their CRC-32.
pub fn summed(mut bytes: Vec<u8>) -> Vec<u8> {
    let sum = crc32(&bytes);
    bytes.extend(sum.to_be_bytes());
    bytes
}

/// A header, right or not, with a right checksum.
pub fn header(rows: u8, school: u16, class: u16, pages: u16) -> Vec<u8> {
    let mut bytes = b"SIFT\x02".to_vec();
    bytes.push(rows);
    for number in [school, class, pages] {
        bytes.extend(number.to_be_bytes());
    }
    summed(bytes)
}

/// A page record, right or not, with a right checksum.
pub fn record(width: u16, height: u16, name: &[u8], lengths: &[u16], sum: u32) -> Vec<u8> {
    let mut bytes = [width.to_be_bytes(), height.to_be_bytes()].concat();
    bytes.push(name.len() as u8);
    bytes.extend(name);
    bytes.extend(lengths.iter().flat_map(|length| length.to_be_bytes()));
    bytes.extend(sum.to_be_bytes());
    summed(bytes)
}

/// A file of one page of one white pel: band P1 of the rules.
pub fn one_pel(name: &[u8]) -> Vec<u8> {
    let record = record(1, 1, name, &[2], crc32(&[0]));
    [&header(64, 1, 1, 1)[..], &record, &[0xAC, 0x10], b"END\n"].concat()
}

/// What the model makes of some pages.
pub struct Modelled {
    pub file: Vec<u8>,
    /// The rows of each band of each page, its code and what was answered.
    pub bands: Vec<Vec<(u64, Vec<u8>, Band)>>,
    /// The table learned after the last page.
    pub table: Table,
}

/// Packs these pages with the model.
pub fn packed(key: Key, rows: usize, pages: &[(&str, &Sheet)]) -> Modelled {
    let (school, class) = (key.school as u16, key.class as u16);
    let mut file = header(rows as u8, school, class, pages.len() as u16);
    let mut desk = Desk::default();
    let mut all = Vec::new();
    for (name, sheet) in pages {
        let bands = model_page(&mut desk, key, rows, sheet);
        let lengths: Vec<_> = bands.iter().map(|band| band.1.len() as u16).collect();
        let (width, height) = (sheet.width as u16, sheet.height as u16);
        let sum = crc32(&sheet.rows);
        file.extend(record(width, height, name.as_bytes(), &lengths, sum));
        file.extend(bands.iter().flat_map(|band| &band.1));
        all.push(bands);
    }
    file.extend(b"END\n");
    Modelled {
        file,
        bands: all,
        table: *desk.learned(key).expect("a table"),
    }
}

fn model_page(desk: &mut Desk, key: Key, rows: usize, sheet: &Sheet) -> Vec<(u64, Vec<u8>, Band)> {
    let width = sheet.width as u64;
    desk.open(key, Direction::Write, width).expect("room");
    let bands = sheet.rows.chunks(rows * sheet.row_bytes()).map(|pels| {
        let rows = (pels.len() / sheet.row_bytes()) as u64;
        let mut out = vec![0; MAX_CODE];
        let band = desk.write(key, rows, pels, &mut out).expect("room");
        out.truncate(band.length);
        (rows, out, band)
    });
    let bands = bands.collect();
    desk.close(key).expect("an open page");
    bands
}
