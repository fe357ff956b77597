//! Whole pages, 1,728 x 2,200 pels: what a school sends, and what no table
//! can foretell.

use siftpebble_model::random::Random;
use siftpebble_model::sample;

pub const WIDTH: usize = 1_728;
pub const HEIGHT: usize = 2_200;

/// Every page with its name: the paper first, then the ink, then the noise.
pub fn all() -> Vec<(&'static str, Vec<u8>)> {
    let mut random = Random::new(1);
    let mut noise = |percent| sample::noise(&mut random, WIDTH, HEIGHT, percent);
    vec![
        ("white", page(|_, _| false)),
        ("ruled", page(ruled)),
        ("squared", page(squared)),
        ("worksheet", page(worksheet)),
        ("text", page(text)),
        ("form", page(form)),
        ("noisy scan", scanned(&mut Random::new(2))),
        ("halftone, clustered", page(clustered)),
        ("halftone, diffused", diffused()),
        ("random 1 %", noise(1)),
        ("random 10 %", noise(10)),
        ("random 50 %", noise(50)),
    ]
}

fn page(black: impl FnMut(usize, usize) -> bool) -> Vec<u8> {
    sample::rows(WIDTH, HEIGHT, black)
}

/// Narrow ruled paper: a line two pels thick in every fifty rows.
fn ruled(_: usize, y: usize) -> bool {
    y % 50 < 2
}

/// Squared paper: lines two pels thick, forty apart, both ways.
fn squared(x: usize, y: usize) -> bool {
    x % 40 < 2 || y % 40 < 2
}

/// The letters A to Z, seven rows of five pels each, the top row first.
#[rustfmt::skip]
const LETTERS: [[u8; 7]; 26] = [
    [14, 17, 17, 31, 17, 17, 17], [30, 17, 17, 30, 17, 17, 30], [14, 17, 16, 16, 16, 17, 14],
    [30, 17, 17, 17, 17, 17, 30], [31, 16, 16, 30, 16, 16, 31], [31, 16, 16, 30, 16, 16, 16],
    [14, 17, 16, 23, 17, 17, 14], [17, 17, 17, 31, 17, 17, 17], [14, 4, 4, 4, 4, 4, 14],
    [7, 2, 2, 2, 2, 18, 12], [17, 18, 20, 24, 20, 18, 17], [16, 16, 16, 16, 16, 16, 31],
    [17, 27, 21, 21, 17, 17, 17], [17, 25, 21, 19, 17, 17, 17], [14, 17, 17, 17, 17, 17, 14],
    [30, 17, 17, 30, 16, 16, 16], [14, 17, 17, 17, 21, 18, 13], [30, 17, 17, 30, 20, 18, 17],
    [15, 16, 16, 14, 1, 1, 30], [31, 4, 4, 4, 4, 4, 4], [17, 17, 17, 17, 17, 17, 14],
    [17, 17, 17, 17, 17, 10, 4], [17, 17, 17, 21, 21, 27, 17], [17, 17, 10, 4, 10, 17, 17],
    [17, 17, 10, 4, 4, 4, 4], [31, 1, 2, 4, 8, 16, 31],
];

/// A letter's pels stand three by three; it has six by twelve of them, with
/// the room around it.
const DOT: usize = 3;
const CELL: (usize, usize) = (6 * DOT, 12 * DOT);

/// A number that looks random, but is the same for the same place.
fn scatter(a: usize, b: usize) -> usize {
    let mixed = (a * 7_919 + b * 104_729 + 12_345).wrapping_mul(0x9E37_79B9_7F4A_7C15);
    (mixed ^ mixed >> 29).wrapping_mul(0xBF58_476D_1CE4_E5B9) >> 33
}

/// A printed page: lines of words of letters, ragged at the right, with a gap
/// after every eighth line.
fn text(x: usize, y: usize) -> bool {
    let margin = 150;
    if x < margin || y < margin || y >= HEIGHT - margin {
        return false;
    }
    let (column, line) = ((x - margin) / CELL.0, (y - margin) / CELL.1);
    let end = 55 + scatter(line, 1) % 22;
    if line % 8 == 7 || column >= end || scatter(line, column).is_multiple_of(6) {
        return false;
    }
    letter(
        scatter(column, line),
        (x - margin) % CELL.0,
        (y - margin) % CELL.1,
    )
}

/// A sheet to be filled in: a heading, then questions of one line, each with
/// three lines to write on.
fn worksheet(x: usize, y: usize) -> bool {
    let margin = 150;
    if x < margin || x >= WIDTH - margin || y < margin || y >= HEIGHT - margin {
        return false;
    }
    let (column, line) = ((x - margin) / CELL.0, (y - margin) / CELL.1);
    match line % 9 {
        0 => text(x, y),
        3 | 5 | 7 => column >= 2 && (y - margin) % CELL.1 < 2,
        _ => false,
    }
}

fn letter(which: usize, x: usize, y: usize) -> bool {
    let (across, down) = (x / DOT, y / DOT);
    across < 5 && down < 7 && LETTERS[which % 26][down] >> (4 - across) & 1 == 1
}

/// An answer sheet: rows of rings in boxes, some of them filled in, and a
/// letter before each row.
fn form(x: usize, y: usize) -> bool {
    let (left, top, box_wide, box_high) = (200, 200, 60, 50);
    if x < left || y < top || x >= left + 22 * box_wide || y >= top + 36 * box_high {
        return false;
    }
    let (column, row) = ((x - left) / box_wide, (y - top) / box_high);
    let (x, y) = ((x - left) % box_wide, (y - top) % box_high);
    if column % 11 == 0 {
        return x >= 20 && y >= 14 && letter(row, x - 20, y - 14);
    }
    if y < 2 || (x < 2 && column % 11 == 1) {
        return true;
    }
    let far = x.abs_diff(30).pow(2) + y.abs_diff(26).pow(2);
    let filled = scatter(row, column / 11) % 10 + 1 == column % 11;
    (13 * 13..16 * 16).contains(&far) || (filled && far < 13 * 13)
}

/// The printed page from a scanner: specks everywhere, and rough edges.
fn scanned(random: &mut Random) -> Vec<u8> {
    page(|x, y| {
        let rough = random.chance(10);
        let (x, y) = if rough { (x + 1, y + 1) } else { (x, y) };
        text(x, y) != (random.below(400) == 0)
    })
}

/// The grey of a photograph, from 0 to 255: light from one side, and waves.
fn grey(x: usize, y: usize) -> f64 {
    let (x, y) = (x as f64 / WIDTH as f64, y as f64 / HEIGHT as f64);
    let waves = (9.0 * x + 4.0 * y).sin() * (7.0 * y - 3.0 * x).cos();
    127.0 + 60.0 * (x - y) + 60.0 * waves
}

/// That photograph in clustered dots: one in each six by six pels, the darker
/// the larger.
fn clustered(x: usize, y: usize) -> bool {
    let from_middle = |at: usize| (2 * (at % 6)).abs_diff(5);
    let far = from_middle(x).pow(2) + from_middle(y).pow(2);
    (far as f64) < (255.0 - grey(x, y)) / 255.0 * 50.0
}

/// That photograph, the error of each pel handed on to the pels beside and
/// below it.
fn diffused() -> Vec<u8> {
    let mut here = vec![0.0; WIDTH + 2];
    let mut below = vec![0.0; WIDTH + 2];
    page(|x, y| {
        if x == 0 {
            std::mem::swap(&mut here, &mut below);
            below.fill(0.0);
        }
        let wanted = grey(x, y) + here[x + 1];
        let black = wanted < 128.0;
        let error = wanted - if black { 0.0 } else { 255.0 };
        here[x + 2] += error * 7.0 / 16.0;
        below[x] += error * 3.0 / 16.0;
        below[x + 1] += error * 5.0 / 16.0;
        below[x + 2] += error / 16.0;
        black
    })
}
