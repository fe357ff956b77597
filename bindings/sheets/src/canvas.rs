//! A page to draw on. What is drawn outside of it is not there.

use crate::font;

#[derive(Clone, PartialEq)]
pub struct Canvas {
    width: i32,
    height: i32,
    black: Vec<bool>,
}

impl Canvas {
    /// A white page.
    pub fn new(width: i32, height: i32) -> Self {
        let black = vec![false; (width * height) as usize];
        Canvas {
            width,
            height,
            black,
        }
    }

    fn place(&self, x: i32, y: i32) -> Option<usize> {
        let inside = (0..self.width).contains(&x) && (0..self.height).contains(&y);
        inside.then(|| (y * self.width + x) as usize)
    }

    pub fn is_black(&self, x: i32, y: i32) -> bool {
        self.place(x, y).is_some_and(|place| self.black[place])
    }

    pub fn paint(&mut self, x: i32, y: i32, black: bool) {
        if let Some(place) = self.place(x, y) {
            self.black[place] = black;
        }
    }

    /// A filled rectangle.
    pub fn bar(&mut self, x: i32, y: i32, width: i32, height: i32) {
        for y in y..y + height {
            for x in x..x + width {
                self.paint(x, y, true);
            }
        }
    }

    /// A rectangle's four sides, so thick.
    pub fn frame(&mut self, x: i32, y: i32, width: i32, height: i32, thick: i32) {
        self.bar(x, y, width, thick);
        self.bar(x, y + height - thick, width, thick);
        self.bar(x, y, thick, height);
        self.bar(x + width - thick, y, thick, height);
    }

    /// A circle's line between two radii; a disc if the inner one is 0.
    pub fn ring(&mut self, x: i32, y: i32, inner: i32, outer: i32) {
        for down in -outer..=outer {
            for right in -outer..=outer {
                let square = right * right + down * down;
                if (inner * inner..=outer * outer).contains(&square) {
                    self.paint(x + right, y + down, true);
                }
            }
        }
    }

    /// Everything black on another canvas, from here to the right and down.
    pub fn stamp(&mut self, other: &Canvas, x: i32, y: i32) {
        for down in 0..other.height {
            for right in 0..other.width {
                if other.is_black(right, down) {
                    self.paint(x + right, y + down, true);
                }
            }
        }
    }

    /// A line of text, doubled so many times.
    pub fn text(&mut self, x: i32, y: i32, doublings: u32, text: &str) {
        let letters = text.chars().count();
        let mut line = Canvas::new((letters * font::STEP) as i32, font::HEIGHT as i32);
        for (index, letter) in text.chars().enumerate() {
            for (right, down) in font::pels(letter) {
                line.paint((index * font::STEP + right) as i32, down as i32, true);
            }
        }
        for _ in 0..doublings {
            line = line.doubled();
        }
        self.stamp(&line, x, y);
    }

    /// Twice as large, with steps in slanting lines made smaller: a quarter of
    /// a pel takes the colour of its two sides where they are equal and the
    /// other two are not.
    fn doubled(&self) -> Canvas {
        let mut large = Canvas::new(self.width * 2, self.height * 2);
        for y in 0..self.height {
            for x in 0..self.width {
                for (right, down) in [(-1, -1), (1, -1), (-1, 1), (1, 1)] {
                    let own = self.is_black(x, y);
                    let side = self.is_black(x + right, y);
                    let end = self.is_black(x, y + down);
                    let far_side = self.is_black(x - right, y);
                    let far_end = self.is_black(x, y - down);
                    let slants = side == end && side != far_end && end != far_side;
                    let black = if slants { side } else { own };
                    large.paint(2 * x + (right + 1) / 2, 2 * y + (down + 1) / 2, black);
                }
            }
        }
        large
    }

    /// The page as a P4 file.
    pub fn pbm(&self) -> Vec<u8> {
        let mut file = format!("P4\n{} {}\n", self.width, self.height).into_bytes();
        for row in self.black.chunks(self.width as usize) {
            let byte = |pels: &[bool]| {
                let bits = pels.iter().enumerate();
                bits.fold(0, |byte, (x, &black)| byte | u8::from(black) << (7 - x))
            };
            file.extend(row.chunks(8).map(byte));
        }
        file
    }
}
