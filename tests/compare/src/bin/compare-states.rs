//! Compares the proved canonical form, over its boundary, with the second one on generated commands, each with an
//! output of some room: the answer and the whole output; and on pairs of commands that differ in one thing, that the
//! forms are the same exactly where the commands agree.
//!
//! `compare-states SEED COMMANDS PAIRS` ends with a table of what was reached. It exits 1 at the first difference, with
//! the command, or where a cell of the table is empty.

use second_reader::{states, Verdict, Written};
use std::process::ExitCode;

fn main() -> ExitCode {
    states::main(&mut canonical)
}

/// The proved canonical form.
fn canonical(octets: &[u8], output: &mut [u8]) -> Written {
    let talazumir::Written { verdict: v, length } = talazumir::canonical(octets, output);
    Written { verdict: Verdict { number: v.number, place: v.place, vendor: v.vendor, code: v.code }, length }
}
