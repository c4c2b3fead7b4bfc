//! Checks the second writer alone on generated drafts and pairs of lists.
//!
//! `writes SEED DRAFTS PAIRS` ends with a table of what was reached. It exits 1 at the first
//! property that does not hold, with the draft made small, or where a cell of the table is empty.

use std::process::ExitCode;

fn main() -> ExitCode {
    second_reader::trial::main(&mut second_reader::write)
}
