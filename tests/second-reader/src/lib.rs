//! An independent reader and writer of Diameter Nt commands (Background-Data-Transfer request,
//! answer and error answer), written from documents 01 and 02 and their readings alone.
//!
//! One pass over the octets decides everything: the walk counts rows and gathers what the
//! exchange rules need while it goes, so [`verdict()`] allocates nothing.

mod avp;
mod book;
pub mod calls;
mod canonical;
mod command_line;
pub mod coverage;
pub mod dictionary;
pub mod draft;
mod error_cells;
pub mod error_coverage;
mod exchange;
mod gaps;
pub mod generate;
mod header;
pub mod link;
pub mod links;
pub mod meaning;
pub mod properties;
mod record;
pub mod rows;
pub mod searches;
mod shrink;
pub mod state_coverage;
pub mod states;
pub mod time;
pub mod trial;
mod verdict;
pub mod volume_coverage;
mod walk;
mod walked;
pub mod window_coverage;
pub mod write_coverage;
mod writer;

pub use book::{listing, pieces, Piece, LONGEST_BOOK};
pub use canonical::canonical;
pub use draft::{Draft, Place};
pub use header::Command;
pub use record::{all, data, search, Avp, Record, Sought, MOST_AVPS};
pub use verdict::{number, Verdict};
pub use writer::{length, write, Written};

use header::Header;
use walk::{Forget, Keep};

/// A verdict with its record, which is the empty one unless the command is accepted.
#[derive(Clone, Debug, Default, PartialEq, Eq)]
pub struct Reading {
    /// The answer.
    pub verdict: Verdict,
    /// What was read.
    pub record: Record,
}

/// Reads one command.
pub fn read(octets: &[u8]) -> Reading {
    let mut record = Record::default();
    let verdict = read_into(octets, &mut record);
    Reading { verdict, record }
}

/// Reads one command into a record whose room is used again.
pub fn read_into(octets: &[u8], record: &mut Record) -> Verdict {
    record.clear();
    match judge(octets, &mut record.avps) {
        Ok(header) => {
            record.r = header.r;
            record.p = header.p;
            record.e = header.e;
            record.t = header.t;
            record.hop_by_hop = header.hop_by_hop;
            record.end_to_end = header.end_to_end;
            Verdict::ACCEPTED
        }
        Err(refusal) => {
            record.avps.clear();
            refusal
        }
    }
}

/// Judges one command and keeps no record.
pub fn verdict(octets: &[u8]) -> Verdict {
    match judge(octets, &mut Forget) {
        Ok(_) => Verdict::ACCEPTED,
        Err(refusal) => refusal,
    }
}

/// Header, walk, rows, exchange rules: the first that applies is the answer.
fn judge(octets: &[u8], keep: &mut impl Keep) -> Result<Header, Verdict> {
    let header = header::read(octets)?;
    let command = header.command();
    let found = walk::walk(octets, command, keep)?;
    if let Some(fault) = found.row_fault {
        return Err(fault);
    }
    exchange::check(command, &found, octets)?;
    Ok(header)
}
