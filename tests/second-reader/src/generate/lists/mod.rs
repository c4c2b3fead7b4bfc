//! Pairs of lists of write calls that differ in one thing, which their meaning has or has not.

mod change;
mod twins;

use super::drafts::{accepted, refused};
use super::prng::Prng;
use crate::calls::{Call, Lent};
use crate::draft::Draft;
use crate::header::LONGEST_COMMAND;
use change::{changed, lenders};

pub use twins::{twins, Twins, CHANGES};

/// In what the second list differs from the first.
#[derive(Clone, Copy, Debug, PartialEq, Eq, PartialOrd, Ord)]
pub enum Change {
    /// In nothing.
    Nothing,
    /// In where the data lie in the lent octets.
    Starts,
    /// In the padding and the reserved bits of the commands that the drafts were read from.
    Source,
    /// In refused calls between the others.
    Refusals,
    /// In that the last call lends what its list has written.
    Lender,
    /// In one data octet.
    DataOctet,
    /// In the command flag T.
    Retransmitted,
    /// In the command flag P of an error answer.
    Proxiable,
    /// In the command flag E of an answer.
    Error,
    /// In one AVP's M or P.
    AvpFlag,
    /// In one identifier.
    Identifier,
    /// In one vendor or code.
    Name,
    /// In where the data of one AVP end and those of the next start.
    Split,
    /// In the order of two AVPs.
    AvpOrder,
    /// In whether an AVP stands in a group or behind it.
    Depth,
    /// In the order of two calls.
    CallOrder,
    /// In a call that only one list has.
    Number,
}

impl Change {
    /// Changes after which the meanings are the same.
    pub const KEEPING: [Change; 5] =
        [Change::Nothing, Change::Starts, Change::Source, Change::Refusals, Change::Lender];
    /// Changes after which they are not.
    pub const TELLING: [Change; 12] = [
        Change::DataOctet,
        Change::Retransmitted,
        Change::Proxiable,
        Change::Error,
        Change::AvpFlag,
        Change::Identifier,
        Change::Name,
        Change::Split,
        Change::AvpOrder,
        Change::Depth,
        Change::CallOrder,
        Change::Number,
    ];
}

/// Two lists of write calls, each with its output.
#[derive(Clone, Debug)]
pub struct Pair {
    /// In what they differ.
    pub change: Change,
    /// Whether each output has room for its list.
    pub room: bool,
    /// The lists.
    pub lists: [Vec<Call>; 2],
    /// The outputs, with what they hold before the first call.
    pub outputs: [Vec<u8>; 2],
}

/// A pair of lists.
pub fn pair(prng: &mut Prng) -> Pair {
    let change = if prng.one_in(3) { prng.pick(&Change::KEEPING) } else { prng.pick(&Change::TELLING) };
    loop {
        let first = list(prng);
        let Some(second) = changed(change, &first, prng) else {
            continue;
        };
        let mut lists = match change {
            Change::Lender => lenders(&first, prng),
            _ => [first, second],
        };
        if prng.one_in(2) {
            lists.reverse();
        }
        if prng.one_in(3) {
            let side = prng.below(2);
            insert_refusals(&mut lists[side], prng);
        }
        let room = !prng.one_in(4);
        let outputs = [0, 1].map(|side| output(&lists[side], room, prng));
        return Pair { change, room, lists, outputs };
    }
}

fn own((draft, octets): (Draft, Vec<u8>)) -> Call {
    Call { draft, lent: Lent::Own(octets) }
}

/// A list of calls that the writer accepts, given room.
fn list(prng: &mut Prng) -> Vec<Call> {
    let calls = prng.pick(&[0, 1, 1, 1, 2, 2, 3, 4, 6]);
    (0..calls).map(|_| own(accepted(prng))).collect()
}

fn insert_refusals(list: &mut Vec<Call>, prng: &mut Prng) {
    for _ in 0..1 + prng.below(2) {
        let at = prng.below(list.len() + 1);
        list.insert(at, own(refused(prng)));
    }
}

/// An output with room for all, or for less.
fn output(list: &[Call], room: bool, prng: &mut Prng) -> Vec<u8> {
    let all: u64 =
        list.iter().map(|call| crate::length(&call.draft)).filter(|&length| length <= LONGEST_COMMAND as u64).sum();
    let length = if room { all as usize + prng.below(9) } else { prng.below(all as usize + 1) };
    prng.octets(length)
}
