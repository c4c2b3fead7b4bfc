//! The proved search, as a trial of searches takes it.

use second_reader::searches::Searched;
use second_reader::{Draft, Sought};
use talazumir::Record;

/// A record that the proved search searches.
pub struct Proved(pub Record);

/// The record of these numbers.
pub fn opened(draft: &Draft) -> Box<dyn Searched> {
    Box::new(Proved(Record::from_numbers(draft.numbers())))
}

impl Searched for Proved {
    fn search(&self, vendor: u32, code: u32, ordinal: usize) -> Sought {
        let talazumir::Sought { position, number } = self.0.search(vendor, code, ordinal);
        Sought { position, number }
    }

    /// Where a search below the number finds none, a list that no search has: the iterator would panic.
    fn all(&self, vendor: u32, code: u32) -> Vec<usize> {
        let number = self.0.search(vendor, code, 0).number;
        if (0..number).any(|ordinal| self.0.search(vendor, code, ordinal).position.is_none()) {
            return vec![usize::MAX];
        }
        self.0.all(vendor, code).collect()
    }
}
