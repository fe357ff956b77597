//! Demand 3, executed: strike out, serve one page at a time, compare.

use crate::call::{Act, Call, Outcome, Serve};
use crate::cores::spread;
use crate::desk::Key;
use crate::run;
use crate::table::CONTEXTS;
use std::sync::Mutex;

/// Where an accepted call is served: a drop or look, which is no page's own
/// call, where it stood; a page's own call at that page's close. `None` for a
/// refused call, and for a page that was abandoned or never closed.
fn place(calls: &[Call], outcomes: &[Outcome], number: usize) -> Option<usize> {
    let accepted = |number: usize| !outcomes[number].answer.is_refusal();
    if !accepted(number) {
        return None;
    }
    if matches!(calls[number].act, Act::Drop | Act::Look { .. }) {
        return Some(number);
    }
    let of_key = |&later: &usize| accepted(later) && calls[later].key == calls[number].key;
    let mut later = (number..calls.len()).filter(of_key);
    let end = later.find(|&later| matches!(calls[later].act, Act::Close | Act::Abandon))?;
    matches!(calls[end].act, Act::Close).then_some(end)
}

/// The calls of the serial run, by their numbers in the run: those that are
/// not struck out, by the place at which each is served, and the calls of one
/// page in their own order.
pub fn serial(calls: &[Call], outcomes: &[Outcome]) -> Vec<usize> {
    let numbers = 0..calls.len();
    let mut served: Vec<(usize, usize)> = numbers
        .filter_map(|number| Some((place(calls, outcomes, number)?, number)))
        .collect();
    served.sort();
    served.into_iter().map(|(_, number)| number).collect()
}

/// What was compared in a run; enough to see that it was not nothing.
#[derive(Clone, Copy, Debug, Default)]
pub struct Compared {
    pub calls: usize,
    pub served: usize,
    pub bands: usize,
    /// How often a call of the serial run comes just before one that was
    /// earlier in the run.
    pub moved: usize,
    pub tables: usize,
}

impl std::ops::AddAssign for Compared {
    fn add_assign(&mut self, more: Compared) {
        self.calls += more.calls;
        self.served += more.served;
        self.bands += more.bands;
        self.moved += more.moved;
        self.tables += more.tables;
    }
}

/// Serves the run on a new desk, then the serial run on another, and compares
/// every answer, every lent byte and every key's learned table at the end.
pub fn check<S: Serve>(calls: &[Call]) -> Result<Compared, String> {
    let mut desk = S::empty();
    let outcomes: Vec<Outcome> = calls.iter().map(|call| desk.serve(call)).collect();
    let serial = serial(calls, &outcomes);
    let mut fresh = S::empty();
    for &i in &serial {
        let again = fresh.serve(&calls[i]);
        if again.answer.is_refusal() {
            return Err(format!("call {i} is refused {}", again.answer.number));
        }
        if again != outcomes[i] {
            return Err(format!("call {i}: {:?} is not {:?}", again, outcomes[i]));
        }
    }
    let tables = compare_tables(calls, &mut desk, &mut fresh)?;
    let is_band = |&&i: &&usize| matches!(calls[i].act, Act::Write { .. } | Act::Read { .. });
    Ok(Compared {
        calls: calls.len(),
        served: serial.len(),
        bands: serial.iter().filter(is_band).count(),
        moved: serial.windows(2).filter(|pair| pair[0] > pair[1]).count(),
        tables,
    })
}

/// Checks so many random runs, with seeds from the first on, and answers what
/// was compared in all of them. A difference is a panic.
pub fn check_runs<S: Serve>(first: u64, runs: usize) -> Compared {
    let total = Mutex::new(Compared::default());
    spread(runs, &|number| {
        let seed = first + number as u64;
        let calls = run::calls(seed, 20 + seed as usize % 200);
        match check::<S>(&calls) {
            Ok(compared) => *total.lock().expect("no panic") += compared,
            Err(difference) => panic!("run {seed}: {difference}"),
        }
    });
    total.into_inner().expect("no panic")
}

/// Answers how many keys have a table, the same one on both desks.
fn compare_tables<S: Serve>(calls: &[Call], one: &mut S, two: &mut S) -> Result<usize, String> {
    let mut keys: Vec<Key> = calls.iter().map(|call| call.key).collect();
    keys.sort();
    keys.dedup();
    let mut tables = 0;
    for key in keys {
        let lent = vec![0; CONTEXTS];
        let act = Act::Look { lent };
        let look = Call { key, act };
        let (first, second) = (one.serve(&look), two.serve(&look));
        if first != second {
            return Err(format!("the tables of {key:?} differ"));
        }
        tables += usize::from(!first.answer.is_refusal());
    }
    Ok(tables)
}
