//! Demand 3 on the model, and on desks with a fault that breaks it.

use siftpebble_model::call::{Act, Call, Outcome, Serve};
use siftpebble_model::cores::spread;
use siftpebble_model::run::calls;
use siftpebble_model::turns::{check, check_runs};
use siftpebble_model::{Desk, Table};
use std::sync::atomic::{AtomicUsize, Ordering};

#[test]
fn work_is_done_once_for_each_number() {
    let done = [const { AtomicUsize::new(0) }; 1000];
    spread(done.len(), &|number| {
        done[number].fetch_add(1, Ordering::Relaxed);
    });
    assert!(done.into_iter().all(|times| times.into_inner() == 1));
}

#[test]
#[should_panic(expected = "number 7")]
fn a_panic_is_handed_on() {
    spread(20, &|number| assert_ne!(number, 7, "number {number}"));
}

#[test]
fn any_order_of_turns() {
    let total = check_runs::<Desk>(0, 4000);
    println!("{total:?}");
    assert!(total.bands > 10_000 && total.moved > 10_000 && total.tables > 10_000);
}

/// A desk that serves calls with a fault.
struct Faulty<F>(Desk, std::marker::PhantomData<F>);

trait Fault {
    fn serve(desk: &mut Desk, call: &Call) -> Outcome;
}

impl<F: Fault> Serve for Faulty<F> {
    fn empty() -> Self {
        Faulty(Desk::default(), std::marker::PhantomData)
    }

    fn serve(&mut self, call: &Call) -> Outcome {
        F::serve(&mut self.0, call)
    }
}

/// The working table of the call's page.
fn working(desk: &Desk, call: &Call) -> Option<Table> {
    desk.page(call.key).map(|page| page.state.table)
}

/// The learned table of the call's class, if that has a place.
fn learned<'a>(desk: &'a mut Desk, call: &Call) -> Option<&'a mut Option<Table>> {
    let mut places = desk.places.iter_mut().flatten();
    let place = places.find(|place| place.key == call.key)?;
    Some(&mut place.learned)
}

/// The table is saved after each band.
struct SavesEachBand;

impl Fault for SavesEachBand {
    fn serve(desk: &mut Desk, call: &Call) -> Outcome {
        let outcome = desk.serve(call);
        let is_band = matches!(call.act, Act::Write { .. } | Act::Read { .. });
        if is_band && !outcome.answer.is_refusal() {
            let table = working(desk, call);
            if let Some(learned) = learned(desk, call) {
                *learned = table;
            }
        }
        outcome
    }
}

/// A look shows the working table of an open page.
struct LooksAtWork;

impl Fault for LooksAtWork {
    fn serve(desk: &mut Desk, call: &Call) -> Outcome {
        let mut outcome = desk.serve(call);
        let is_look = matches!(call.act, Act::Look { .. });
        if is_look && !outcome.answer.is_refusal() {
            if let Some(table) = working(desk, call) {
                outcome.lent[..table.len()].copy_from_slice(&table);
            }
        }
        outcome
    }
}

/// A drop is served while the page is open: its place is then only reserved.
struct DropsOpenPages;

impl Fault for DropsOpenPages {
    fn serve(desk: &mut Desk, call: &Call) -> Outcome {
        let mut outcome = desk.serve(call);
        if call.act == Act::Drop && outcome.answer.number == 3 {
            let dropped = learned(desk, call).and_then(Option::take);
            if dropped.is_some() {
                outcome.answer.number = 0;
            }
        }
        outcome
    }
}

/// An abandoned page teaches its class, if that has a table.
struct LearnsFromAbandoned;

impl Fault for LearnsFromAbandoned {
    fn serve(desk: &mut Desk, call: &Call) -> Outcome {
        let table = working(desk, call);
        let outcome = desk.serve(call);
        if call.act == Act::Abandon && !outcome.answer.is_refusal() {
            if let Some(Some(learned)) = learned(desk, call) {
                *learned = table.unwrap_or(*learned);
            }
        }
        outcome
    }
}

/// Pages are found by the class number only.
struct FindsByClass;

impl Fault for FindsByClass {
    fn serve(desk: &mut Desk, call: &Call) -> Outcome {
        let mut call = call.clone();
        call.key.school = call.key.school.min(1);
        desk.serve(&call)
    }
}

/// The pels revisited depend on how many pages are open.
struct CountsPages;

impl Fault for CountsPages {
    fn serve(desk: &mut Desk, call: &Call) -> Outcome {
        let mut outcome = desk.serve(call);
        if outcome.answer.revisits > 0 {
            outcome.answer.revisits += desk.pages.iter().flatten().count() as u64;
        }
        outcome
    }
}

/// How many of two hundred runs show that demand 3 does not hold.
fn caught<F: Fault>() -> usize {
    let caught = AtomicUsize::new(0);
    spread(200, &|seed| {
        let checked = check::<Faulty<F>>(&calls(seed as u64, 150));
        caught.fetch_add(usize::from(checked.is_err()), Ordering::Relaxed);
    });
    caught.into_inner()
}

#[test]
fn faults_are_seen() {
    let caught = [
        caught::<SavesEachBand>(),
        caught::<LooksAtWork>(),
        caught::<DropsOpenPages>(),
        caught::<LearnsFromAbandoned>(),
        caught::<FindsByClass>(),
        caught::<CountsPages>(),
    ];
    println!("{caught:?}");
    assert!(caught.iter().all(|&runs| runs > 20));
}
