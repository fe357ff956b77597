//! The model's desk with the fast bands.

use siftpebble_model::band::Band;
use siftpebble_model::call::{Act, Call, Outcome, Serve};
use siftpebble_model::{Key, Refusal};

/// Only writing and reading differ: every other call is the inner desk's.
#[derive(Clone, Debug, Default, PartialEq, Eq)]
pub struct Desk(pub siftpebble_model::Desk);

impl Desk {
    pub fn write(
        &mut self,
        key: Key,
        rows: u64,
        pels: &[u8],
        out: &mut [u8],
    ) -> Result<Band, Refusal> {
        self.0.write_by(key, rows, pels, out, crate::write)
    }

    pub fn read(
        &mut self,
        key: Key,
        rows: u64,
        code: &[u8],
        out: &mut [u8],
    ) -> Result<Band, Refusal> {
        self.0.read_by(key, rows, code, out, crate::read)
    }
}

impl Serve for Desk {
    fn empty() -> Self {
        Desk::default()
    }

    fn serve(&mut self, call: &Call) -> Outcome {
        let mut lent = call.act.lent().to_vec();
        let result = match &call.act {
            Act::Write { rows, pels, .. } => self.write(call.key, *rows, pels, &mut lent),
            Act::Read { rows, code, .. } => self.read(call.key, *rows, code, &mut lent),
            _ => return self.0.serve(call),
        };
        let answer = result.into();
        Outcome { answer, lent }
    }
}
