//! Two accepted commands that differ in one thing, which their meaning has or has not, each with
//! padding and reserved bits of its own.

use super::change::{changed, octets, source};
use super::{own, Change};
use crate::generate::drafts::accepted;
use crate::generate::prng::Prng;

/// What one command can differ in from another; of these only nothing keeps the meaning.
pub const CHANGES: [Change; 11] = [
    Change::Nothing,
    Change::DataOctet,
    Change::Retransmitted,
    Change::Proxiable,
    Change::Error,
    Change::AvpFlag,
    Change::Identifier,
    Change::Name,
    Change::Split,
    Change::AvpOrder,
    Change::Depth,
];

/// Two accepted commands.
#[derive(Clone, Debug)]
pub struct Twins {
    /// In what they differ beside padding and reserved bits.
    pub change: Change,
    /// The commands.
    pub commands: [Vec<u8>; 2],
}

/// Two accepted commands that differ in one thing.
pub fn twins(prng: &mut Prng) -> Twins {
    loop {
        let change = prng.pick(&CHANGES);
        let first = vec![own(accepted(prng))];
        let Some(second) = changed(change, &first, prng) else {
            continue;
        };
        let commands = [first, second].map(|list| source(&list[0].draft, octets(&list[0]), prng).1);
        return Twins { change, commands };
    }
}
