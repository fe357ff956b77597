//! Handwriting, or what looks like it from far enough.

use crate::canvas::Canvas;
use siftpebble_model::random::Random;

type Point = (i32, i32);

/// The steps in which a curve is drawn.
const STEPS: i32 = 64;

/// A curve that leaves `from` and arrives at `to`, drawn to `by`.
fn curve(canvas: &mut Canvas, from: Point, by: Point, to: Point, nib: i32) {
    let between = |t: i32, from: i32, by: i32, to: i32| {
        let rest = STEPS - t;
        (rest * rest * from + 2 * t * rest * by + t * t * to) / (STEPS * STEPS)
    };
    for t in 0..=STEPS {
        let x = between(t, from.0, by.0, to.0);
        let y = between(t, from.1, by.1, to.1);
        canvas.ring(x, y, 0, nib);
    }
}

/// A word of so many letters on a line; answers where it ends.
pub fn word(canvas: &mut Canvas, random: &mut Random, start: Point, letters: usize) -> i32 {
    let mut at = start;
    for _ in 0..letters {
        let step = random.between(18, 30) as i32;
        let up = random.pick(&[26, 30, 34, 70, 80]);
        let top = (at.0 + step * 2 / 3, start.1 - up / 2);
        let end = (at.0 + step, start.1 + random.between(0, 4) as i32 - 2);
        curve(canvas, at, (at.0, start.1 - up), top, 2);
        let low = random.pick(&[0, 6, 10, 60]);
        curve(canvas, top, (at.0 + step, start.1 + low), end, 2);
        at = end;
    }
    at.0
}

/// Words up to a margin.
pub fn line(canvas: &mut Canvas, random: &mut Random, start: Point, margin: i32) {
    let mut x = start.0;
    while x < margin {
        let letters = random.between(2, 8);
        x = word(canvas, random, (x, start.1), letters) + 36;
    }
}

/// A bubble filled with a pen, not quite.
pub fn fill(canvas: &mut Canvas, random: &mut Random, (x, y): Point, radius: i32) {
    for stroke in -3..=3 {
        let down = stroke * radius / 4 + random.between(0, 2) as i32 - 1;
        let half = radius - 1 - stroke * stroke;
        let slant = random.between(0, 6) as i32 - 3;
        let middle = (x, y + down + slant);
        curve(
            canvas,
            (x - half, y + down),
            middle,
            (x + half, y + down),
            2,
        );
    }
}
