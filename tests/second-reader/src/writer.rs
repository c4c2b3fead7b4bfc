//! An independent writer: a draft into an output, from document 01's "The record and the writer"
//! and the readings alone.

use crate::avp::padded;
use crate::draft::{avps, Draft, Place};
use crate::header::{APPLICATION, COMMAND_CODE, HEADER, LONGEST_COMMAND};
use crate::record::MOST_AVPS;
use crate::verdict::{number, Verdict};

/// No AVP stands deeper.
const DEEPEST: u32 = 4;

/// What comes back for a write.
#[derive(Clone, Copy, Debug, Default, PartialEq, Eq)]
pub struct Written {
    /// The answer; 7006, 7001 and 7004 have place, vendor and code 0.
    pub verdict: Verdict,
    /// Octets written, 0 with a refusal.
    pub length: u32,
}

/// Writes a draft to the start of the output. A refusal leaves the whole output as it was, and an
/// acceptance what lies past the written length.
pub fn write(draft: &Draft, octets: &[u8], output: &mut [u8]) -> Written {
    match command(draft, octets, output.len()) {
        Ok(command) => {
            output[..command.len()].copy_from_slice(&command);
            Written { verdict: Verdict::ACCEPTED, length: command.len() as u32 }
        }
        Err(refusal) => Written { verdict: refusal, length: 0 },
    }
}

/// The command that a draft stands for, or the refusal, in the order of 01.
fn command(draft: &Draft, octets: &[u8], room: usize) -> Result<Vec<u8>, Verdict> {
    let refuse = |number| Err(Verdict::unnamed(number, 0));
    if is_malformed(draft, octets) {
        return refuse(number::MALFORMED_DRAFT);
    }
    let length = length(draft);
    if length > LONGEST_COMMAND as u64 {
        return refuse(number::COMMAND_TOO_LONG);
    }
    if length > room as u64 {
        return refuse(number::OUTPUT_TOO_SHORT);
    }
    let command = encode(draft, octets);
    match crate::verdict(&command) {
        Verdict::ACCEPTED => Ok(command),
        refusal => Err(refusal),
    }
}

/// Whether one of 7006's conditions holds. Identifiers, vendor and code fill their places on the
/// wire, so of "does not fit" only the flags are left.
fn is_malformed(draft: &Draft, octets: &[u8]) -> bool {
    draft.count as usize > MOST_AVPS
        || draft.unused().iter().any(|&place| place != Place::default())
        || draft.used().iter().any(|place| !place.is_group() && leaves(place, octets))
        || !is_tree(draft.used())
        || !has_group_lengths(draft.used())
        || [draft.r, draft.p, draft.e, draft.t].iter().any(|&flag| flag > 1)
        || draft.used().iter().any(|place| place.m > 1 || place.p > 1)
}

/// Whether the data part does not lie in the octets.
fn leaves(place: &Place, octets: &[u8]) -> bool {
    u64::from(place.start) + u64::from(place.length) > octets.len() as u64
}

/// First 1; none 0; deeper by one only after a read group; at most 4.
fn is_tree(places: &[Place]) -> bool {
    let mut deepest = 1;
    for place in places {
        if place.depth == 0 || place.depth > deepest || place.depth > DEEPEST {
            return false;
        }
        deepest = place.depth + u32::from(place.is_group());
    }
    true
}

/// Whether each read group's length is that of its members with padding.
fn has_group_lengths(places: &[Place]) -> bool {
    avps(places).all(|(place, members)| {
        !place.is_group() || (u64::from(place.length) == list_length(members) && has_group_lengths(members))
    })
}

/// Octets of the command that a draft stands for, by the lengths in its own list.
pub fn length(draft: &Draft) -> u64 {
    HEADER as u64 + list_length(draft.used())
}

/// Octets of a list's AVPs with padding, by the lengths that its own places have.
fn list_length(places: &[Place]) -> u64 {
    avps(places).map(|(place, _)| place.padded()).sum()
}

/// The octets of a draft that is not malformed and not too long.
pub(crate) fn encode(draft: &Draft, octets: &[u8]) -> Vec<u8> {
    let mut out = Vec::with_capacity(length(draft) as usize);
    out.extend([0; HEADER]);
    put_list(draft.used(), octets, &mut out);
    let length = out.len() as u32;
    let flags = draft.r << 7 | draft.p << 6 | draft.e << 5 | draft.t << 4;
    let words = [1 << 24 | length, flags << 24 | COMMAND_CODE, APPLICATION, draft.hop_by_hop, draft.end_to_end];
    for (octets, word) in out.chunks_exact_mut(4).zip(words) {
        octets.copy_from_slice(&word.to_be_bytes());
    }
    out
}

fn put_list(places: &[Place], octets: &[u8], out: &mut Vec<u8>) {
    for (place, members) in avps(places) {
        put_avp(place, members, octets, out);
    }
}

/// Appends an AVP. Its length field is what was put, so a group's comes from its members.
fn put_avp(place: &Place, members: &[Place], octets: &[u8], out: &mut Vec<u8>) {
    let at = out.len();
    let v = u32::from(place.vendor != 0);
    let flags = v << 7 | place.m << 6 | place.p << 5;
    out.extend(place.code.to_be_bytes());
    out.extend([0; 4]);
    if v == 1 {
        out.extend(place.vendor.to_be_bytes());
    }
    if place.is_group() {
        put_list(members, octets, out);
    } else {
        let start = place.start as usize;
        out.extend(&octets[start..start + place.length as usize]);
    }
    let length = (out.len() - at) as u32;
    out[at + 4..at + 8].copy_from_slice(&(flags << 24 | length).to_be_bytes());
    out.resize(at + padded(out.len() - at), 0);
}
