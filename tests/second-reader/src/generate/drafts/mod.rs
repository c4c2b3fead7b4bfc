//! Drafts for the writer: records of accepted commands, the same over other octets, drafts built
//! from nothing, and ones made malformed or too long; each with an output.

mod damage;
mod lend;
mod limits;
mod pick;
mod room;
mod source;
mod ways;

pub use lend::{lend, settle};
pub use room::{output, room, Room};
pub use source::Origin;
pub use ways::{Field, Flag, Spot, Way};

use super::prng::Prng;
use crate::draft::Draft;
use crate::header::LONGEST_COMMAND;
use crate::writer::{length, write};

/// A draft with its lent octets and an output.
#[derive(Clone, Debug)]
pub struct Case {
    /// Where the draft comes from.
    pub origin: Origin,
    /// The one way in which a draft that the writer accepts was made malformed.
    pub way: Option<Way>,
    /// The draft.
    pub draft: Draft,
    /// Its lent octets.
    pub octets: Vec<u8>,
    /// The output, with what it holds before the call.
    pub output: Vec<u8>,
}

/// A case of any sort.
pub fn case(prng: &mut Prng) -> Case {
    let (origin, mut draft, mut octets) = source::any(prng);
    let mut way = None;
    match prng.below(20) {
        0..=7 => {
            if prng.one_in(4) {
                limits::crowd(&mut draft, prng);
            }
            if is_accepted(&draft, &octets) {
                way = damage::one(&mut draft, &mut octets, prng);
            }
        }
        8..=9 => {
            for _ in 0..1 + prng.below(3) {
                damage::one(&mut draft, &mut octets, prng);
            }
        }
        10 => limits::lengthen(&mut draft, &mut octets, prng),
        11 if prng.one_in(3) => {
            limits::lengthen(&mut draft, &mut octets, prng);
            damage::one(&mut draft, &mut octets, prng);
        }
        11 => limits::crowd(&mut draft, prng),
        12 if prng.one_in(6) => limits::deepen(&mut draft),
        _ => {}
    }
    let output = room::draft_output(&draft, prng);
    Case { origin, way, draft, octets, output }
}

/// A draft that the writer accepts, given room, and its lent octets.
pub fn accepted(prng: &mut Prng) -> (Draft, Vec<u8>) {
    loop {
        let (_, draft, octets) = source::any(prng);
        if is_accepted(&draft, &octets) {
            return (draft, octets);
        }
    }
}

/// A draft that the writer refuses, whatever the room, and its lent octets.
pub fn refused(prng: &mut Prng) -> (Draft, Vec<u8>) {
    loop {
        let Case { draft, octets, .. } = case(prng);
        if octets.len() < 40_000 && !is_accepted(&draft, &octets) {
            return (draft, octets);
        }
    }
}

/// The same meaning over other octets.
pub fn moved(draft: &Draft, octets: &[u8], prng: &mut Prng) -> (Draft, Vec<u8>) {
    lend::moved(draft, octets, prng)
}

/// Whether the writer accepts the draft, given room.
pub fn is_accepted(draft: &Draft, octets: &[u8]) -> bool {
    length(draft) <= LONGEST_COMMAND as u64 && write(draft, octets, &mut [0; LONGEST_COMMAND]).verdict.number == 0
}
