//! Who is measured, and the columns of their tables.

use crate::raw::{Library, Raw};
use crate::side::Side;

/// Who is measured: the library first.
pub struct Sides {
    names: Vec<String>,
    desks: Vec<Box<dyn Side>>,
}

impl Sides {
    /// Empty desks: of the library, of ordinary Rust, plain and fast, and of the
    /// other libraries.
    pub fn new(others: &[Library]) -> Self {
        let mut sides = Sides {
            names: vec!["library".into(), "plain".into(), "fast".into()],
            desks: vec![
                Box::new(siftpebble::Desk::new()),
                Box::new(siftpebble_model::Desk::default()),
                Box::new(siftpebble_fast::Desk::default()),
            ],
        };
        for library in others {
            sides.names.push(library.name.clone());
            sides.desks.push(Box::new(Raw::new(library.calls)));
        }
        sides
    }

    pub fn copy(&self) -> Vec<Box<dyn Side>> {
        self.desks.iter().map(|desk| desk.copy()).collect()
    }

    /// The columns of one job.
    pub fn head(&self, job: &str) -> String {
        let others = self.names[1..].iter();
        let others: String = others.map(|name| format!(" {name} | ratio |")).collect();
        format!(" {job}{} |{others}", self.names[0])
    }

    /// Their rule.
    pub fn rule(&self) -> String {
        "---|".repeat(2 * self.names.len() - 1)
    }

    /// The columns of sides in two ways, the second of this name.
    pub fn head_of_pairs(&self, way: &str) -> String {
        let names = self.names.iter();
        let pair = |name| format!(" {name} | {way} | ratio |");
        names.map(pair).collect()
    }

    /// Their rule.
    pub fn rule_of_pairs(&self) -> String {
        "---|".repeat(3 * self.names.len())
    }

    pub fn count(&self) -> usize {
        self.names.len()
    }
}
