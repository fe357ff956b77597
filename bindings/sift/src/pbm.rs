//! PBM pictures, P1 and P4, read and written. A 1 is black, as at the desk.

use crate::frame::MAX_HEIGHT;
use siftpebble::MAX_WIDTH;

/// The longest line of a P1 file.
const LINE: usize = 70;

/// A picture as the desk takes it: packed rows, padded with zero bits.
pub struct Picture {
    pub width: usize,
    pub height: usize,
    pub rows: Vec<u8>,
}

/// The bytes of a row.
pub fn row_bytes(width: usize) -> usize {
    width.div_ceil(8)
}

/// The pictures of a file, one after another. After a fault there are no more.
pub struct Pictures<'a> {
    rest: &'a [u8],
    any: bool,
}

impl<'a> Pictures<'a> {
    pub fn of(bytes: &'a [u8]) -> Self {
        Pictures {
            rest: bytes,
            any: false,
        }
    }

    /// Takes the next picture, which is there.
    fn picture(&mut self) -> Result<Picture, String> {
        let plain = self.magic()?;
        let width = self.number("width")?;
        let height = self.number("height")?;
        let (width, height) = sizes(width, height)?;
        let rows = match plain {
            true => self.plain_rows(width, height)?,
            false => self.packed_rows(width, height)?,
        };
        Ok(Picture {
            width,
            height,
            rows,
        })
    }

    /// Whether the picture is a plain one.
    fn magic(&mut self) -> Result<bool, String> {
        let magic = self.rest.get(..2).unwrap_or_default();
        let plain = match magic {
            b"P1" => true,
            b"P4" => false,
            b"P2" | b"P3" | b"P5" | b"P6" | b"P7" => {
                return Err("it is grey or coloured; only PBM is read, P1 and P4".into())
            }
            _ => return Err("it is no PBM picture: no P1 or P4 stands here".into()),
        };
        self.rest = &self.rest[2..];
        match self.byte() {
            Some(byte) if is_space(byte) => Ok(plain),
            _ => Err("no white space follows P1 or P4".into()),
        }
    }

    /// The next byte of a header or of a plain picture, where a comment counts
    /// as the end of its line.
    fn byte(&mut self) -> Option<u8> {
        let (&first, rest) = self.rest.split_first()?;
        self.rest = rest;
        if first != b'#' {
            return Some(first);
        }
        let end = rest.iter().position(|&byte| byte == b'\n' || byte == b'\r');
        self.rest = end.map_or(&[], |end| &rest[end + 1..]);
        end.map(|end| rest[end])
    }

    fn byte_after_spaces(&mut self) -> Option<u8> {
        loop {
            match self.byte() {
                Some(byte) if is_space(byte) => (),
                other => return other,
            }
        }
    }

    /// A number, with the one space that ends it. Larger ones stay at the
    /// largest, which is refused like them.
    fn number(&mut self, what: &str) -> Result<usize, String> {
        let wrong = || format!("the {what} is not a number with white space after it");
        let mut next = self.byte_after_spaces();
        let mut number: Option<usize> = None;
        while let Some(digit @ b'0'..=b'9') = next {
            let ten = number.unwrap_or(0).saturating_mul(10);
            number = Some(ten.saturating_add(usize::from(digit - b'0')));
            next = self.byte();
        }
        match (number, next) {
            (Some(number), Some(byte)) if is_space(byte) => Ok(number),
            _ => Err(wrong()),
        }
    }

    /// Rows as P4 has them. Its padding bits mean nothing: they become zero.
    fn packed_rows(&mut self, width: usize, height: usize) -> Result<Vec<u8>, String> {
        let bytes = row_bytes(width);
        let Some((rows, rest)) = self.rest.split_at_checked(height * bytes) else {
            return Err(format!("its {height} rows are not all there"));
        };
        self.rest = rest;
        let mut rows = rows.to_vec();
        for row in rows.chunks_exact_mut(bytes) {
            row[bytes - 1] &= 0xFF << (bytes * 8 - width);
        }
        Ok(rows)
    }

    /// Rows as P1 has them: digits, with or without white space.
    fn plain_rows(&mut self, width: usize, height: usize) -> Result<Vec<u8>, String> {
        let bytes = row_bytes(width);
        let mut rows = vec![0; height * bytes];
        for row in rows.chunks_exact_mut(bytes) {
            for x in 0..width {
                match self.byte_after_spaces() {
                    Some(b'0') => (),
                    Some(b'1') => row[x / 8] |= 0x80 >> (x % 8),
                    Some(_) => return Err("a pel is neither 0 nor 1".into()),
                    None => return Err(format!("its {height} rows are not all there")),
                }
            }
        }
        // a comment may follow the last pel too
        while self
            .rest
            .first()
            .is_some_and(|&byte| is_space(byte) || byte == b'#')
        {
            self.byte();
        }
        Ok(rows)
    }
}

impl Iterator for Pictures<'_> {
    type Item = Result<Picture, String>;

    fn next(&mut self) -> Option<Self::Item> {
        // programs leave line ends between pictures and after the last one
        let start = self.rest.iter().position(|&byte| !is_space(byte));
        match start {
            Some(start) => self.rest = &self.rest[start..],
            None if self.any => return None,
            None => {
                self.any = true;
                self.rest = &[];
                return Some(Err("there is no picture in it".into()));
            }
        }
        self.any = true;
        let picture = self.picture();
        if picture.is_err() {
            self.rest = &[];
        }
        Some(picture)
    }
}

fn is_space(byte: u8) -> bool {
    matches!(byte, b' ' | b'\t' | b'\n' | b'\r')
}

/// Sizes that can be packed.
fn sizes(width: usize, height: usize) -> Result<(usize, usize), String> {
    if width == 0 || height == 0 {
        return Err(format!("it is {width} x {height} pels: there is no pel"));
    }
    if width > MAX_WIDTH {
        return Err(format!(
            "it is {width} pels wide, and the widest page is {MAX_WIDTH}: \
             make it smaller, or cut it into strips"
        ));
    }
    if height > MAX_HEIGHT {
        return Err(format!(
            "it is {height} rows high, and the highest page is {MAX_HEIGHT}: \
             cut it into pages"
        ));
    }
    Ok((width, height))
}

/// A picture as a P4 file.
pub fn packed(width: usize, height: usize, rows: &[u8]) -> Vec<u8> {
    let mut file = format!("P4\n{width} {height}\n").into_bytes();
    file.extend_from_slice(rows);
    file
}

/// A picture as a P1 file, each row starting a line.
pub fn plain(width: usize, height: usize, rows: &[u8]) -> Vec<u8> {
    let mut file = format!("P1\n{width} {height}\n");
    for row in rows.chunks_exact(row_bytes(width)) {
        for x in 0..width {
            if x > 0 && x % LINE == 0 {
                file.push('\n');
            }
            let black = row[x / 8] & 0x80 >> (x % 8) != 0;
            file.push(if black { '1' } else { '0' });
        }
        file.push('\n');
    }
    file.into_bytes()
}
