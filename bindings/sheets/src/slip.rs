//! A homework slip, signed: a small page, of which a class sends many.

use crate::canvas::Canvas;
use crate::pen;
use siftpebble_model::random::Random;

pub fn draw(number: usize) -> Canvas {
    let mut random = Random::new(400 + number as u64);
    let mut page = Canvas::new(960, 320);
    page.frame(10, 10, 940, 300, 3);
    page.text(40, 36, 2, &format!("Homework, week {}", 10 + number));
    let first = random.between(10, 80);
    let last = first + random.between(2, 9);
    page.text(40, 110, 2, &format!("Read pages {first} to {last}."));
    page.frame(760, 100, 60, 60, 3);
    page.text(840, 110, 2, "done");
    pen::word(&mut page, &mut random, (772, 146), 2);
    page.text(40, 230, 2, "Signed");
    page.bar(200, 270, 700, 2);
    for x in [220, 500] {
        let letters = random.between(5, 9);
        pen::word(&mut page, &mut random, (x, 258), letters);
    }
    page
}
