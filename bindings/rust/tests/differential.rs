//! The library against the model, call by call: every number of every answer,
//! every byte of every lent buffer, and the whole desk. In the runs of calls
//! the safe desk comes along, and wherever a band is asked for the fast coder.
//!
//! The seeds are fixed. `SIFTPEBBLE_TIMES=n` tries n times as much, and
//! `SIFTPEBBLE_SEED=n` something else.

mod common;

use common::layout::{desk_image, desk_of, Image};
use common::library::{Library, Safe};
use common::setting;
use siftpebble_fast as fast;
use siftpebble_model::band::{self, row_bytes, State, MAX_CODE, MAX_ROWS, MAX_WIDTH};
use siftpebble_model::call::{Act, Answer, Call, Outcome, Serve};
use siftpebble_model::coder::Watch;
use siftpebble_model::cores::spread;
use siftpebble_model::random::Random;
use siftpebble_model::run::Run;
use siftpebble_model::{sample, Desk, Direction, Key, Page, Place, Refusal};
use std::sync::Mutex;
use std::time::Instant;

/// What is rare in a code.
#[derive(Default)]
struct Rare {
    stuff_carries: u64,
    spent_carries: u64,
    last_ffs: u64,
}

impl Watch for &mut Rare {
    fn stuff_carry(&mut self) {
        self.stuff_carries += 1;
    }

    fn spent_carry(&mut self) {
        self.spent_carries += 1;
    }

    fn last_ff(&mut self) {
        self.last_ffs += 1;
    }
}

impl std::ops::AddAssign for Rare {
    fn add_assign(&mut self, more: Rare) {
        self.stuff_carries += more.stuff_carries;
        self.spent_carries += more.spent_carries;
        self.last_ffs += more.last_ffs;
    }
}

/// Bands whose pels revisited (request E11) are fewer than S, fewer than all
/// pels, or some although no table byte changed.
#[derive(Default)]
struct Revisits {
    below_shifts: u64,
    below_pels: u64,
    without_a_change: u64,
}

impl std::ops::AddAssign for Revisits {
    fn add_assign(&mut self, more: Revisits) {
        self.below_shifts += more.below_shifts;
        self.below_pels += more.below_pels;
        self.without_a_change += more.without_a_change;
    }
}

/// The kinds of call, and the numbers that each can answer.
const KINDS: [(&str, &[usize]); 7] = [
    ("open", &[0, 12, 1, 6, 3, 4, 5]),
    ("write", &[0, 12, 1, 6, 2, 7, 8, 9]),
    ("read", &[0, 12, 1, 6, 2, 7, 9, 15, 10]),
    ("close", &[0, 12, 1, 2]),
    ("abandon", &[0, 12, 1, 2]),
    ("drop", &[0, 12, 1, 3, 11]),
    ("look", &[0, 12, 1, 11, 9]),
];

fn kind(act: &Act) -> usize {
    match act {
        Act::Open(..) => 0,
        Act::Write { .. } => 1,
        Act::Read { .. } => 2,
        Act::Close => 3,
        Act::Abandon => 4,
        Act::Drop => 5,
        Act::Look { .. } => 6,
    }
}

/// One more than the greatest number that a call can answer.
const NUMBERS: usize = 1 + siftpebble::Refusal::Marker as usize;

/// What was reached.
#[derive(Default)]
struct Report {
    /// For each kind of call how often it answered each number.
    answers: [[u64; NUMBERS]; KINDS.len()],
    ff_bytes: u64,
    rare: Rare,
    revisits: Revisits,
}

impl std::ops::AddAssign for Report {
    fn add_assign(&mut self, more: Report) {
        let counts = self.answers.as_flattened_mut().iter_mut();
        for (count, more) in counts.zip(more.answers.as_flattened()) {
            *count += more;
        }
        self.ff_bytes += more.ff_bytes;
        self.rare += more.rare;
        self.revisits += more.revisits;
    }
}

impl Report {
    fn count(&mut self, call: &Call, answer: Answer) {
        self.answers[kind(&call.act)][answer.number as usize] += 1;
    }

    /// How often each number was answered, and each rare thing in a code or of
    /// a band's counts seen.
    fn lines(&self) -> Vec<(String, u64)> {
        let all = |number: usize| self.answers.iter().map(|kind| kind[number]).sum();
        let mut lines = vec![("accepted calls".to_string(), all(0))];
        for refusal in siftpebble::Refusal::ALL {
            let number = refusal.number();
            lines.push((format!("refusal {number}"), all(number as usize)));
        }
        lines.push(("FF bytes in codes".into(), self.ff_bytes));
        let Rare {
            stuff_carries,
            spent_carries,
            last_ffs,
        } = self.rare;
        lines.push(("carries into a stuff bit".into(), stuff_carries));
        lines.push(("FE turned into FF by a carry".into(), spent_carries));
        lines.push(("00 after a last FF".into(), last_ffs));
        let Revisits {
            below_shifts,
            below_pels,
            without_a_change,
        } = self.revisits;
        let bands = |which: &str| format!("bands with {which}");
        lines.push((bands("more shifts than pels revisited"), below_shifts));
        lines.push((bands("a pel that is not revisited"), below_pels));
        lines.push((
            bands("a pel revisited, and no table byte changed"),
            without_a_change,
        ));
        lines
    }

    /// Everything was reached: each line, and each number of each kind of call.
    fn assert_complete(&self) {
        for (name, count) in self.lines() {
            assert_ne!(count, 0, "not reached: {name}");
        }
        for ((kind, numbers), counts) in KINDS.iter().zip(&self.answers) {
            for (number, &count) in counts.iter().enumerate() {
                assert_eq!(count != 0, numbers.contains(&number), "{kind}: {number}");
            }
        }
    }
}

/// Serves a call on the model, and looks into the code and the counts of a
/// band.
fn expected(desk: &mut Desk, call: &Call, report: &mut Report) -> Outcome {
    let before = desk.page(call.key).cloned();
    let (rows, outcome) = match &call.act {
        Act::Write { rows, pels, lent } => {
            let outcome = expected_write(desk, call.key, *rows, pels, lent, report);
            (rows, outcome)
        }
        Act::Read { rows, .. } => (rows, desk.serve(call)),
        _ => return desk.serve(call),
    };
    let answer = outcome.answer;
    if let (0, Some(before), Some(after)) = (answer.number, before, desk.page(call.key)) {
        let same_table = before.state.table == after.state.table;
        report.revisits += Revisits {
            below_shifts: u64::from(answer.revisits < answer.shifts),
            below_pels: u64::from(answer.revisits < rows * before.width),
            without_a_change: u64::from(answer.revisits > 0 && same_table),
        };
    }
    outcome
}

fn expected_write(
    desk: &mut Desk,
    key: Key,
    rows: u64,
    pels: &[u8],
    lent: &[u8],
    report: &mut Report,
) -> Outcome {
    let mut lent = lent.to_vec();
    let mut rare = Rare::default();
    let result = desk.write_watched(key, rows, pels, &mut lent, &mut rare);
    if let Ok(band) = result {
        let code = lent[..band.length].iter();
        report.ff_bytes += code.filter(|&&byte| byte == 0xFF).count() as u64;
        report.rare += rare;
    }
    let answer = result.into();
    Outcome { answer, lent }
}

/// A band by the fast coder: as the model has it, to the desk after it.
fn compare_fast(before: Desk, after: &Desk, call: &Call, expected: &Outcome) {
    let mut fast = fast::Desk(before);
    assert_eq!(&fast.serve(call), expected, "the fast coder: {call:?}");
    assert_eq!(&fast.0, after, "the fast coder's desk after {call:?}");
}

/// One call on both: they answer alike, and leave the same lent bytes and the
/// same desk. Answers the outcome.
fn compare(desk: &mut Desk, library: &mut Library, call: &Call, report: &mut Report) -> Outcome {
    let is_band = matches!(call.act, Act::Write { .. } | Act::Read { .. });
    let before = is_band.then(|| desk.clone());
    let expected = expected(desk, call, report);
    report.count(call, expected.answer);
    if let Some(before) = before {
        compare_fast(before, desk, call, &expected);
    }
    let outcome = library.serve(call);
    assert_eq!(outcome, expected, "{call:?}");
    assert!(
        desk_image(desk).is_in(&library.bytes()),
        "the desks differ after {call:?}"
    );
    outcome
}

/// The same call on bytes that are no lawful desk: refused 12, and nothing
/// has changed.
fn compare_unlawful(library: &mut Library, call: &Call, report: &mut Report) {
    let fields = desk_image(&Desk::default()).fields;
    let before = library.bytes();
    let outcome = library.serve(call);
    let refusal: Answer = Err::<(), _>(Refusal::Unlawful).into();
    assert_eq!(outcome.answer, refusal, "{call:?}");
    assert_eq!(outcome.lent, call.act.lent(), "{call:?}");
    let image = Image {
        bytes: before,
        fields,
    };
    assert!(image.is_in(&library.bytes()), "the desk has changed");
    report.count(call, refusal);
}

/// Runs of calls from an empty desk, over several keys, on the safe desk too.
fn runs_of_calls(seed: u64, times: u64, report: &mut Report) {
    for number in 0..2000 * times {
        let mut run = Run::new(seed + number);
        let mut desk = Desk::default();
        let mut library = Library::empty();
        let mut safe = Safe::empty();
        assert!(desk_image(&desk).is_in(&library.bytes()), "no empty desk");
        for _ in 0..150 {
            let call = run.next(&desk);
            let outcome = compare(&mut desk, &mut library, &call, report);
            assert_eq!(safe.serve(&call), outcome, "the safe desk: {call:?}");
        }
    }
}

/// A few calls on each of many lawful desks, with any tables and last rows.
fn calls_on_any_desk(seed: u64, times: u64, report: &mut Report) {
    for number in 0..20_000 * times {
        let mut run = Run::new(seed + number);
        let mut desk = sample::desk(&mut run.random);
        let mut library = Library::of(&desk_image(&desk).bytes);
        for _ in 0..8 {
            let call = run.next(&desk);
            compare(&mut desk, &mut library, &call, report);
        }
    }
}

const KEY: Key = Key {
    school: 1,
    class: 5,
};

/// A desk with one open page.
fn one_page(width: usize, state: State) -> Desk {
    let mut desk = Desk::default();
    desk.pages[0] = Some(Page {
        key: KEY,
        direction: Direction::Write,
        width: width as u64,
        state,
    });
    let learned = None;
    desk.places[0] = Some(Place { key: KEY, learned });
    desk
}

/// The same desk, with its pages open to be read.
fn to_be_read(mut desk: Desk) -> Desk {
    for page in desk.pages.iter_mut().flatten() {
        page.direction = Direction::Read;
    }
    desk
}

/// One call on a desk that is given to the library as bytes.
fn call_from(desk: &Desk, act: Act, report: &mut Report) {
    let call = Call { key: KEY, act };
    let mut library = Library::of(&desk_image(desk).bytes);
    compare(&mut desk.clone(), &mut library, &call, report);
}

/// The code of a band on the desk's one open page.
fn code_of(desk: &Desk, pels: &[u8]) -> Vec<u8> {
    let page = desk.page(KEY).expect("an open page");
    let (mut state, width) = (page.state.clone(), page.width as usize);
    let mut code = vec![0; MAX_CODE];
    let band = band::write(&mut state, width, pels, &mut code, ());
    code.truncate(band.expect("room").length);
    code
}

/// A band on a desk with one open page: written, read back, and read from
/// spoiled codes.
fn both_ways(random: &mut Random, desk: Desk, pels: Vec<u8>, report: &mut Report) {
    let code = code_of(&desk, &pels);
    let width = desk.page(KEY).expect("an open page").width as usize;
    let (rows, room) = ((pels.len() / row_bytes(width)) as u64, pels.len());
    let lent = random.bytes(code.len());
    let write = Act::Write { rows, pels, lent };
    call_from(&desk, write, report);
    let desk = to_be_read(desk);
    let spoiled = [0; 3].map(|_| sample::spoiled(random, &code));
    for code in spoiled.into_iter().chain([code]) {
        let more = random.below(9);
        let lent = random.bytes(room + more);
        call_from(&desk, Act::Read { rows, code, lent }, report);
    }
}

/// Large bands of every kind.
fn large_bands(seed: u64, times: u64, report: &mut Report) {
    let mut random = Random::new(seed);
    for _ in 0..150 * times {
        let width = random.between(MAX_WIDTH / 2, MAX_WIDTH);
        let rows = random.between(MAX_ROWS / 2, MAX_ROWS);
        let state = sample::state(&mut random, width);
        let pels = sample::band(&mut random, &state, width, rows);
        both_ways(&mut random, one_page(width, state), pels, report);
    }
}

/// White bands with a few black pels, on pages that expect white and on pages
/// that expect black there: where a run begins and ends, at every place in a
/// byte and at the right edge of every width.
fn white_runs(seed: u64, times: u64, report: &mut Report) {
    let mut random = Random::new(seed);
    for _ in 0..20_000 * times {
        let width = random.between(1, 300);
        let rows = random.between(1, 12);
        let mut state = sample::state(&mut random, width);
        state.table[0] = random.between(30, 59) as u8;
        let last = sample::sparse(&mut random, width, 1);
        state.last = [0; MAX_WIDTH / 8];
        state.last[..last.len()].copy_from_slice(&last);
        let pels = sample::sparse(&mut random, width, rows);
        both_ways(&mut random, one_page(width, state), pels, report);
    }
}

/// Rows whose code has a 00 after a last FF: written with room for all but
/// that byte too, and read without it and with another one behind it.
fn last_ffs(seed: u64, times: u64, report: &mut Report) {
    let mut random = Random::new(seed);
    for _ in 0..500 * times {
        let (state, width, pels) = sample::last_ff(&mut random);
        let desk = one_page(width, state);
        let code = code_of(&desk, &pels);
        let (rows, lent) = (1, random.bytes(code.len() - 1));
        let short = Act::Write {
            rows,
            pels: pels.clone(),
            lent,
        };
        call_from(&desk, short, report);
        let without = code[..code.len() - 1].to_vec();
        let behind = [&code[..], &[0x00]].concat();
        for code in [without, behind] {
            let lent = random.bytes(pels.len());
            let read = Act::Read { rows, code, lent };
            call_from(&to_be_read(desk.clone()), read, report);
        }
        both_ways(&mut random, desk, pels, report);
    }
}

/// Codes with an FF and a byte about 90 put in or behind them: read into room
/// enough, and into a byte less.
fn markers(seed: u64, times: u64, report: &mut Report) {
    let mut random = Random::new(seed);
    for _ in 0..5000 * times {
        let (width, rows) = (random.between(1, 60), random.between(1, 6));
        let state = sample::state(&mut random, width);
        let pels = sample::band(&mut random, &state, width, rows);
        let desk = one_page(width, state);
        let good = code_of(&desk, &pels);
        let desk = to_be_read(desk);
        let behind = |more: &[u8]| [&good[..], more].concat();
        let mut codes = vec![
            behind(&[0x00]),
            behind(&[0xFF]),
            behind(&[0xFF, 0x8F]),
            behind(&[0xFF, 0x90]),
        ];
        codes.extend([0; 4].map(|_| sample::with_ff(&mut random, &good)));
        for code in codes {
            for room in [pels.len() - 1, pels.len()] {
                let (rows, lent) = (rows as u64, random.bytes(room));
                let code = code.clone();
                call_from(&desk, Act::Read { rows, code, lent }, report);
            }
        }
    }
}

/// A call on any bytes, as the lawful desk that they are or as none. It is
/// chosen to make sense on the desk that the bytes were made of.
fn call_on(bytes: &[u8], like: &Desk, run: &mut Run, report: &mut Report) {
    let mut library = Library::of(bytes);
    let call = run.next(like);
    match desk_of(bytes) {
        Some(mut desk) => {
            compare(&mut desk, &mut library, &call, report);
        }
        None => compare_unlawful(&mut library, &call, report),
    }
}

/// Lawful desks with a stray bit, at every place in turn; others with a few
/// bytes changed; and random bytes.
fn stray_bits(seed: u64, times: u64, report: &mut Report) {
    for number in 0..2 * times {
        let mut run = Run::new(seed + number);
        let desk = sample::desk(&mut run.random);
        let mut bytes = desk_image(&desk).bytes;
        for bit in 0..8 * bytes.len() {
            bytes[bit / 8] ^= 1 << (bit % 8);
            call_on(&bytes, &desk, &mut run, report);
            bytes[bit / 8] ^= 1 << (bit % 8);
        }
    }
    for number in 0..10_000 * times {
        let mut run = Run::new(seed + number);
        let desk = sample::desk(&mut run.random);
        let mut bytes = desk_image(&desk).bytes;
        for _ in 0..run.random.between(1, 3) {
            let at = run.random.below(bytes.len());
            bytes[at] = run.random.pick(&[0, 1, 2, 59, 60, 0x80, 0xFF]);
        }
        call_on(&bytes, &desk, &mut run, report);
        if number % 100 == 0 {
            let noise = run.random.bytes(bytes.len());
            call_on(&noise, &desk, &mut run, report);
        }
    }
}

/// Desks with no stray bit, in which a page or place does not fit the rest.
fn misfits(seed: u64, times: u64, report: &mut Report) {
    for number in 0..20_000 * times {
        let mut run = Run::new(seed + number);
        let desk = sample::desk(&mut run.random);
        let misfit = sample::misfit(&mut run.random, &desk);
        let bytes = desk_image(&misfit).bytes;
        call_on(&bytes, &desk, &mut run, report);
    }
}

/// A part's name, the number of its seeds, and its work.
type Part = (&'static str, u64, fn(u64, u64, &mut Report));

/// The longest come first, so that the cores end at about one time.
const PARTS: [Part; 8] = [
    ("runs of calls", 0, runs_of_calls),
    ("calls on any lawful desk", 1, calls_on_any_desk),
    ("white runs", 5, white_runs),
    ("stray bits", 3, stray_bits),
    ("markers", 7, markers),
    ("last FF", 6, last_ffs),
    ("large bands", 2, large_bands),
    ("misfits", 4, misfits),
];

fn main() {
    let seed = setting("SIFTPEBBLE_SEED", 1) << 32;
    let times = setting("SIFTPEBBLE_TIMES", 1);
    let total = Mutex::new(Report::default());
    spread(PARTS.len(), &|part| {
        let (name, number, work) = PARTS[part];
        let (start, mut report) = (Instant::now(), Report::default());
        // each part its own desks
        work(seed + (number << 24), times, &mut report);
        println!("{name}: {:.1} s", start.elapsed().as_secs_f64());
        *total.lock().expect("no panic") += report;
    });
    let report = total.into_inner().expect("no panic");
    for (name, count) in report.lines() {
        println!("{count:>12}  {name}");
    }
    report.assert_complete();
}
