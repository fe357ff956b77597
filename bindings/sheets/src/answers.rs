//! An answer sheet, filled in with a pen and scanned.

use crate::canvas::Canvas;
use crate::pen;
use siftpebble_model::random::Random;

const BUBBLE: i32 = 17;

pub fn draw(number: usize) -> Canvas {
    let mut random = Random::new(300 + number as u64);
    let mut page = Canvas::new(1600, 2200);
    page.text(120, 90, 3, &format!("Answer sheet {number}"));
    for (x, y) in [(40, 40), (1520, 40), (40, 2120), (1520, 2120)] {
        page.bar(x, y, 40, 40);
    }
    name_boxes(&mut page, &mut random);
    for column in 0..3 {
        for row in 0..15 {
            let (x, y) = (130 + column * 470, 420 + row * 60);
            choice(&mut page, &mut random, x, y, column * 15 + row + 1);
        }
    }
    for answer in 0..3 {
        written(&mut page, &mut random, 1370 + answer * 240, 46 + answer);
    }
    specks(&mut page, &mut random);
    page
}

fn name_boxes(page: &mut Canvas, random: &mut Random) {
    page.text(120, 220, 2, "Name");
    page.text(120, 310, 2, "Class");
    for place in 0..22 {
        page.frame(270 + place * 54, 200, 56, 64, 2);
    }
    for place in 0..4 {
        page.frame(270 + place * 54, 290, 56, 64, 2);
    }
    for place in 0..random.between(8, 18) as i32 {
        pen::word(page, random, (286 + place * 54, 246), 1);
    }
    pen::word(page, random, (290, 336), 1);
}

/// One question: five bubbles, of which mostly one is filled.
fn choice(page: &mut Canvas, random: &mut Random, x: i32, y: i32, question: i32) {
    page.text(x, y - 14, 2, &format!("{question}"));
    let chosen = random.below(6) as i32;
    for (place, letter) in (0..).zip(["A", "B", "C", "D", "E"]) {
        let middle = (x + 110 + place * 62, y);
        page.ring(middle.0, middle.1, BUBBLE - 2, BUBBLE);
        match place == chosen {
            true => pen::fill(page, random, middle, BUBBLE),
            false => page.text(middle.0 - 5, middle.1 - 7, 1, letter),
        }
    }
}

/// A question with a box to write in.
fn written(page: &mut Canvas, random: &mut Random, y: i32, question: i32) {
    page.text(130, y, 2, &format!("{question}"));
    page.frame(230, y, 1240, 210, 3);
    for line in 0..random.between(1, 2) as i32 {
        let margin = random.between(600, 1200) as i32;
        pen::line(page, random, (260, y + 90 + line * 90), margin);
    }
}

/// Dust on the glass.
fn specks(page: &mut Canvas, random: &mut Random) {
    for _ in 0..120 {
        let (x, y) = (random.below(1600) as i32, random.below(2200) as i32);
        let size = random.between(1, 2) as i32;
        page.bar(x, y, size, size);
    }
}
