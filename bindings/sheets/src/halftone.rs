//! A picture from a book: greys as dots of a screen, in whole numbers so that
//! every machine draws the same ones.

use crate::canvas::Canvas;

const WIDTH: i32 = 1600;
const HEIGHT: i32 = 1200;

/// Darkness goes from 0 to this.
const DARKEST: i32 = 64;

/// A dot of the screen grows from the middle of its cell of 8 by 8 pels: at
/// each place, the darkness from which it is black.
fn screen() -> [[i32; 8]; 8] {
    let distance = |x: i32, y: i32| (2 * x - 7).pow(2) + (2 * y - 7).pow(2);
    let mut places: Vec<_> = (0..8).flat_map(|y| (0..8).map(move |x| (x, y))).collect();
    places.sort_by_key(|&(x, y)| (distance(x, y), y, x));
    let mut screen = [[0; 8]; 8];
    for (rank, (x, y)) in (1..).zip(places) {
        screen[y as usize][x as usize] = rank;
    }
    screen
}

pub fn draw(number: usize) -> Canvas {
    let screen = screen();
    let mut page = Canvas::new(WIDTH, HEIGHT);
    for y in 0..HEIGHT {
        for x in 0..WIDTH {
            let dark = match number {
                1 => balls(x, y),
                _ => hills(x, y),
            };
            // rows of dots are shifted by half a cell, as if turned
            let across = x + y / 8 % 2 * 4;
            let limit = screen[(y % 8) as usize][(across % 8) as usize];
            page.paint(x, y, dark >= limit);
        }
    }
    page
}

/// How dark a lit ball is here; nothing outside of it.
fn ball(x: i32, y: i32, middle: (i32, i32), radius: i32) -> Option<i32> {
    let (right, down) = (x - middle.0, y - middle.1);
    let inside = right * right + down * down <= radius * radius;
    // the light comes from the upper left
    let (right, down) = (right + radius / 2, down + radius / 2);
    let far = right * right + down * down;
    inside.then(|| (far / 8 * DARKEST / (radius * radius * 3 / 8)).min(DARKEST))
}

fn balls(x: i32, y: i32) -> i32 {
    let found = [((500, 520), 330), ((1080, 700), 380), ((1250, 260), 170)]
        .into_iter()
        .find_map(|(middle, radius)| ball(x, y, middle, radius));
    found.unwrap_or(6 + y * 20 / HEIGHT)
}

fn hills(x: i32, y: i32) -> i32 {
    // the top of a hill, as an arc
    let top = |middle: i32, height: i32, width: i32| {
        let away = x - middle;
        HEIGHT - height + away * away / width
    };
    let hills = [top(380, 620, 900), top(1150, 760, 700), top(800, 400, 2500)];
    let (sun, sky) = (ball(x, y, (1330, 210), 120), 4 + (HEIGHT - y) * 22 / HEIGHT);
    match hills {
        [_, _, near] if y > near => 40 + (y - near) * 24 / HEIGHT + x / 7 % 3,
        [left, _, _] if y > left => 26 + (y - left) * 30 / HEIGHT,
        [_, right, _] if y > right => 18 + (y - right) * 36 / HEIGHT,
        _ => sun.map_or(sky, |dark| dark / 3),
    }
}
