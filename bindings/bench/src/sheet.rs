//! A sheet that is measured: its pels, cut into bands.

use siftpebble::MAX_ROWS;
use siftpebble_model::band::row_bytes;

pub struct Sheet {
    pub name: &'static str,
    pub width: usize,
    pub repetitions: usize,
    pels: Vec<u8>,
}

impl Sheet {
    pub fn new(name: &'static str, width: usize, pels: Vec<u8>, repetitions: usize) -> Self {
        Sheet {
            name,
            width,
            repetitions,
            pels,
        }
    }

    /// The bytes of a full band.
    pub fn band_bytes(&self) -> usize {
        MAX_ROWS * row_bytes(self.width)
    }

    /// How many pels it has.
    pub fn pels(&self) -> usize {
        self.pels.len() / row_bytes(self.width) * self.width
    }

    /// Its bands, each with its number of rows.
    pub fn bands(&self) -> impl Iterator<Item = (u64, &[u8])> {
        let bytes = row_bytes(self.width);
        let rows = move |band: &[u8]| (band.len() / bytes) as u64;
        let bands = self.pels.chunks(self.band_bytes());
        bands.map(move |band| (rows(band), band))
    }
}
