//! The fast bands against the model's: every number answered, every byte of
//! the lent buffer, and the state.

use siftpebble_model::band::{self, State, MAX_CODE, MAX_ROWS, MAX_WIDTH};
use siftpebble_model::call::Serve;
use siftpebble_model::cores::spread;
use siftpebble_model::random::Random;
use siftpebble_model::run::Run;
use siftpebble_model::{sample, Desk, Refusal};

/// A page as a band finds it, and the band.
struct Case {
    from: State,
    width: usize,
    pels: Vec<u8>,
}

impl Case {
    fn new(from: State, width: usize, pels: Vec<u8>) -> Self {
        Case { from, width, pels }
    }

    /// The model's code.
    fn code(&self) -> Vec<u8> {
        let mut code = vec![0; MAX_CODE + 8];
        let mut state = self.from.clone();
        let band = band::write(&mut state, self.width, &self.pels, &mut code, ());
        code.truncate(band.expect("room").length);
        code
    }

    /// Both write into a buffer that holds these bytes.
    fn write_into(&self, lent: &[u8]) {
        let (mut expected, mut found) = (lent.to_vec(), lent.to_vec());
        let (mut model, mut fast) = (self.from.clone(), self.from.clone());
        let answer = band::write(&mut model, self.width, &self.pels, &mut expected, ());
        assert_eq!(
            siftpebble_fast::write(&mut fast, self.width, &self.pels, &mut found),
            answer
        );
        assert!(fast == model, "the states differ");
        assert!(answer.is_err() || found == expected, "the codes differ");
    }

    /// Both read a code into a buffer that holds something else.
    fn read_from(&self, random: &mut Random, code: &[u8]) -> Result<(), Refusal> {
        let lent = random.bytes(self.pels.len());
        let (mut expected, mut found) = (lent.clone(), lent);
        let (mut model, mut fast) = (self.from.clone(), self.from.clone());
        let answer = band::read(&mut model, self.width, code, &mut expected);
        assert_eq!(
            siftpebble_fast::read(&mut fast, self.width, code, &mut found),
            answer,
            "width {} code {code:02X?}",
            self.width
        );
        assert!(fast == model, "the states differ");
        assert!(answer.is_err() || found == expected, "the pels differ");
        answer.map(|_| ())
    }

    /// Written with room for less than the code, for just that, and for more;
    /// read back, and read from what is no code or another band's.
    fn try_all(&self, random: &mut Random) {
        let code = self.code();
        let less = random.below(code.len());
        let more = code.len() + random.below(9);
        for room in [less, code.len() - 1, code.len(), more] {
            self.write_into(&random.bytes(room));
        }
        self.read_from(random, &code).expect("the code of the band");
        for _ in 0..4 {
            let spoiled = sample::spoiled(random, &code);
            let _ = self.read_from(random, &spoiled);
        }
        let cut = random.below(code.len());
        let byte = random.pick(&[0x00, 0x7F, 0xFF]);
        let (any, length) = (random.below(code.len()), random.below(2 * code.len()));
        let others = [
            code[..cut].to_vec(),
            [&code[..], &[byte]].concat(),
            sample::with_ff(random, &code),
            [&code[..any], &random.bytes(length)].concat(),
        ];
        for other in others {
            let _ = self.read_from(random, &other);
        }
    }
}

/// Any table and last row, and a band of any kind.
fn any(random: &mut Random, width: usize, rows: usize) -> Case {
    let from = sample::state(random, width);
    let pels = sample::band(random, &from, width, rows);
    Case::new(from, width, pels)
}

/// White rows with a few black pels below such a row, on pages that expect
/// white or black there.
fn sparse(random: &mut Random, width: usize, rows: usize) -> Case {
    let mut from = sample::state(random, width);
    from.table[0] = random.between(30, 59) as u8;
    let last = sample::sparse(random, width, 1);
    from.last[..last.len()].copy_from_slice(&last);
    let pels = sample::sparse(random, width, rows);
    Case::new(from, width, pels)
}

/// Independent pels of any darkness, whose runs are of either colour.
fn noise(random: &mut Random, width: usize, rows: usize) -> Case {
    let from = sample::state(random, width);
    let percent = random.between(0, 100);
    let pels = sample::noise(random, width, rows, percent);
    Case::new(from, width, pels)
}

type Kind = fn(&mut Random, usize, usize) -> Case;

/// A kind of band, the greatest width and height of such ones, and how many.
const PARTS: [(Kind, usize, usize, usize); 9] = [
    (any, MAX_WIDTH, MAX_ROWS, 12),
    (sparse, MAX_WIDTH, MAX_ROWS, 12),
    (noise, MAX_WIDTH, MAX_ROWS, 12),
    (any, 300, 12, 1000),
    (sparse, 300, 12, 1000),
    (noise, 300, 12, 1000),
    (any, 60, 6, 3000),
    (sparse, 60, 6, 3000),
    (noise, 60, 6, 3000),
];

#[test]
fn bands_are_the_models() {
    spread(PARTS.len(), &|part| {
        let (kind, width, rows, count) = PARTS[part];
        let mut random = Random::new(part as u64);
        for _ in 0..count {
            let (width, rows) = (random.between(1, width), random.between(1, rows));
            kind(&mut random, width, rows).try_all(&mut random);
        }
    });
}

#[test]
fn the_greatest_bands_are_the_models() {
    let mut random = Random::new(20);
    for kind in [any, sparse, noise] {
        kind(&mut random, MAX_WIDTH, MAX_ROWS).try_all(&mut random);
    }
}

#[test]
fn a_last_ff_is_followed_by_00() {
    let mut random = Random::new(30);
    for _ in 0..100 {
        let (from, width, pels) = sample::last_ff(&mut random);
        let case = Case::new(from, width, pels);
        let code = case.code();
        let without = &code[..code.len() - 1];
        assert!(code.ends_with(&[0xFF, 0x00]));
        assert_eq!(case.read_from(&mut random, without), Err(Refusal::Damaged));
        case.try_all(&mut random);
    }
}

#[test]
fn desks_serve_alike() {
    for seed in 0..60 {
        let mut run = Run::new(50 + seed);
        let mut model = Desk::default();
        let mut fast = siftpebble_fast::Desk::empty();
        for _ in 0..100 {
            let call = run.next(&model);
            assert_eq!(fast.serve(&call), model.serve(&call), "{call:?}");
            assert!(fast.0 == model, "the desks differ");
        }
    }
}
