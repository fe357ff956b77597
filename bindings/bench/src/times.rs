//! The times of a job, in which all sides take turns.

use crate::side::Side;
use std::time::Instant;

/// The times of one job, in nanoseconds, with a number for each side in their
/// order.
pub struct Times {
    /// For each repetition the time of all its steps.
    turns: Vec<Vec<f64>>,
    /// The best times of each step, added up.
    best: Vec<f64>,
}

/// The value below which so many percent of the sorted values lie.
fn percentile(sorted: &[f64], percent: usize) -> f64 {
    sorted[((sorted.len() - 1) * percent + 50) / 100]
}

/// Two digits after the point, or three where the first two say little.
pub fn short(number: f64) -> String {
    if number < 0.0995 {
        format!("{number:.3}")
    } else {
        format!("{number:.2}")
    }
}

impl Times {
    /// A side's time as a part of another's in the same repetition: the median,
    /// so that no single disturbed moment decides it, and how far most
    /// repetitions are from it.
    fn ratio(&self, side: usize, other: usize) -> String {
        let ratios = self.turns.iter().map(|turn| turn[side] / turn[other]);
        let mut ratios: Vec<f64> = ratios.collect();
        ratios.sort_by(f64::total_cmp);
        let [low, middle, high] = [10, 50, 90].map(|percent| short(percentile(&ratios, percent)));
        format!("{middle} ({low}–{high})")
    }

    /// A side's time for one of so many equal things.
    fn each(&self, side: usize, count: usize) -> String {
        short(self.best[side] / count as f64)
    }

    /// The cells of a table: the first side, and the others with its ratio to
    /// them.
    pub fn cells(&self, count: usize) -> String {
        let other = |side| format!(" {} | {} |", self.each(side, count), self.ratio(0, side));
        let others = (1..self.best.len()).map(other);
        format!(" {} |{}", self.each(0, count), others.collect::<String>())
    }

    /// The cells of a table where the second half of the sides is the first
    /// once more, in another way: each in both, and their ratio.
    pub fn pairs(&self, count: usize) -> String {
        let half = self.best.len() / 2;
        let pair = |side| {
            let (first, second) = (self.each(side, count), self.each(half + side, count));
            format!(" {first} | {second} | {} |", self.ratio(half + side, side))
        };
        (0..half).map(pair).collect()
    }
}

/// The sides take turns at every step, so that whatever else slows the machine
/// slows all; each comes first as often as the others. A repetition goes
/// through all steps on a copy of the desks. The work is told the desk, its
/// side, and the step.
pub fn measure(
    desks: &[Box<dyn Side>],
    repetitions: usize,
    steps: usize,
    mut work: impl FnMut(&mut dyn Side, usize, usize),
) -> Times {
    let sides = desks.len();
    let mut best = vec![vec![f64::INFINITY; sides]; steps];
    let mut turns = Vec::new();
    for repetition in 0..repetitions {
        let mut turn = vec![0.0; sides];
        let mut desks: Vec<_> = desks.iter().map(|desk| desk.copy()).collect();
        for (step, best) in best.iter_mut().enumerate() {
            for place in 0..sides {
                let side = (repetition + step + place) % sides;
                let start = Instant::now();
                work(&mut *desks[side], side, step);
                let time = start.elapsed().as_secs_f64() * 1e9;
                turn[side] += time;
                best[side] = best[side].min(time);
            }
        }
        turns.push(turn);
    }
    let added = |side: usize| best.iter().map(|step| step[side]).sum();
    let best = (0..sides).map(added).collect();
    Times { turns, best }
}
