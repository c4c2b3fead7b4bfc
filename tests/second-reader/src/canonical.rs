//! The canonical form of a command: its record, written over its octets.

use crate::draft::Draft;
use crate::writer::{write, Written};

/// Writes an accepted command in its canonical form to the start of the output. The reader's
/// refusal is the answer, else 7004; a refusal leaves the output as it was.
pub fn canonical(octets: &[u8], output: &mut [u8]) -> Written {
    let reading = crate::read(octets);
    if reading.verdict.number != 0 {
        return Written { verdict: reading.verdict, length: 0 };
    }
    write(&Draft::of(&reading.record), octets, output)
}
