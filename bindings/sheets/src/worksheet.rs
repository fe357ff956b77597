//! A worksheet: a printed page of sums and questions.

use crate::canvas::Canvas;
use siftpebble_model::random::Random;

const LEFT: i32 = 120;
const RIGHT: i32 = 1480;

/// Letters in a printed line.
const LINE: usize = 56;

const NAMES: [&str; 6] = ["Ada", "Ben", "Carla", "Dinesh", "Ewa", "Femi"];
const THINGS: [&str; 6] = ["apples", "pencils", "shells", "stamps", "beads", "eggs"];

pub fn draw(number: usize) -> Canvas {
    let mut random = Random::new(100 + number as u64);
    let mut page = Canvas::new(1600, 2200);
    page.text(LEFT, 100, 3, &format!("Number work, sheet {number}"));
    for (x, width, label) in [
        (LEFT, 700, "Name"),
        (860, 240, "Class"),
        (1140, 340, "Date"),
    ] {
        page.text(x, 210, 2, label);
        page.bar(x + 130, 246, width - 150, 3);
    }
    page.text(LEFT, 310, 2, "A   Write the answers.");
    for index in 0..15 {
        let (x, y) = (LEFT + 40 + index % 3 * 460, 380 + index / 3 * 70);
        page.text(x, y, 2, &sum(&mut random));
        page.bar(x + 230, y + 36, 130, 3);
    }
    page.text(
        LEFT,
        760,
        2,
        "B   Read each question and show your working.",
    );
    let mut y = 830;
    for index in 1..=6 {
        y = question(&mut page, y, &format!("{index}. {}", story(&mut random)));
    }
    page.text(
        LEFT + 520,
        2110,
        1,
        &format!("Number work {number}: please turn over"),
    );
    page
}

/// Prints a question over its lines, and two rules for the answer; answers
/// where the next one starts.
fn question(page: &mut Canvas, mut y: i32, text: &str) -> i32 {
    let mut line = String::new();
    for word in text.split(' ') {
        if line.len() + word.len() >= LINE {
            page.text(LEFT, y, 2, &line);
            y += 46;
            line = "  ".into();
        }
        line += &format!(" {word}");
    }
    page.text(LEFT, y, 2, &line);
    for rule in 1..=2 {
        page.bar(LEFT + 50, y + 36 + rule * 46, RIGHT - LEFT - 50, 2);
    }
    y + 164
}

fn sum(random: &mut Random) -> String {
    let sign = random.pick(&['+', '-', 'x', ':']);
    let (first, second) = (random.between(10, 99), random.between(2, 9));
    format!("{first} {sign} {second} =")
}

fn story(random: &mut Random) -> String {
    let (name, things) = (random.pick(&NAMES), random.pick(&THINGS));
    let (many, few) = (random.between(20, 96), random.between(3, 9));
    match random.below(4) {
        0 => format!("{name} has {many} {things} and buys {few} more. How many has {name} now?"),
        1 => format!(
            "{name} shares {many} {things} with {few} friends. \
             How many does each one get, and how many are left over?"
        ),
        2 => format!("A box holds {many} {things}. How many {things} are there in {few} boxes?"),
        _ => format!(
            "On Monday {name} counts {many} {things}. Each day {few} of them are sold. \
             How many days until none is left?"
        ),
    }
}
