//! Ruled paper as a scanner sees it: the lines are not quite level, and some
//! have writing on them.

use crate::canvas::Canvas;
use crate::pen;
use siftpebble_model::random::Random;

pub fn draw(number: usize) -> Canvas {
    let mut random = Random::new(200 + number as u64);
    let mut page = Canvas::new(1600, 2200);
    // one pel down for so many to the right
    let slant = [430, 310][number - 1];
    let level = |x: i32| x / slant;
    for rule in 0..31 {
        let y = 240 + rule * 62;
        for x in 0..1600 {
            page.bar(x, y + level(x), 1, 3);
        }
    }
    for y in 0..2200 {
        page.bar(190 - level(y), y, 3, 1);
        page.bar(198 - level(y), y, 2, 1);
    }
    for hole in [420, 1100, 1780] {
        page.ring(80, hole, 30, 33);
    }
    page.text(1180, 120, 2, &format!("Page {number}"));
    for rule in 1..4 + 3 * number as i32 {
        let y = 240 + rule * 62;
        let margin = random.between(700, 1350) as i32;
        pen::line(&mut page, &mut random, (230, y - 4), margin);
    }
    page
}
