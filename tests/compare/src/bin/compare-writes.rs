//! Compares the proved writer, over its boundary, with the second writer on generated drafts and pairs of lists of
//! write calls: the answer and the whole output of each call, and that two lists write the same octets exactly where
//! the accepted drafts have the same meanings.
//!
//! `compare-writes SEED DRAFTS PAIRS` ends with a table of what was reached. It exits 1 at the first difference, with
//! the draft made small, or where a cell of the table is empty.

use second_reader::{trial, Draft, Verdict, Written};
use std::process::ExitCode;
use talazumir::Record;

fn main() -> ExitCode {
    trial::main(&mut write)
}

/// The proved writer.
fn write(draft: &Draft, octets: &[u8], output: &mut [u8]) -> Written {
    let record = Record::from_numbers(draft.numbers());
    let talazumir::Written { verdict: v, length } = talazumir::write(&record, octets, output);
    Written { verdict: Verdict { number: v.number, place: v.place, vendor: v.vendor, code: v.code }, length }
}
