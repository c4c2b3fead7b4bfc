//! Sound commands with more AVPs, or with one long AVP.

use super::prng::Prng;
use super::sound::{known, unknown};
use super::tree::{Body, Node, Tree};
use crate::dictionary::Kind::*;
use crate::record::MOST_AVPS;

/// Adds short AVPs, anywhere that admits them, until there are `goal`.
pub fn fill(tree: &mut Tree, goal: usize, prng: &mut Prng) {
    while tree.count() < goal {
        let mut node = if prng.one_in(2) { unknown(prng) } else { known(RouteRecord, 1, prng) };
        if let Body::Data(data) = &mut node.body {
            data.truncate(6);
        }
        let groups = open_groups(tree);
        if groups.is_empty() || !prng.one_in(4) {
            tree.list.insert(1 + prng.below(tree.list.len()), node);
        } else if let Body::Members(members) = &mut tree.list[prng.pick(&groups)].body {
            members.push(node);
        }
    }
}

/// Where the groups of the command's own list stand that admit any other AVP.
pub fn open_groups(tree: &Tree) -> Vec<usize> {
    let is_open =
        |node: &Node| [ProxyInfo, SupportedFeatures, TimeWindow, TransferPolicy].into_iter().any(|kind| node.is(kind));
    (0..tree.list.len()).filter(|&at| is_open(&tree.list[at])).collect()
}

/// Adds one long AVP that makes the command `goal` octets long, if there is room.
pub fn stretch(tree: &mut Tree, goal: usize, prng: &mut Prng) {
    let length = tree.encode().len();
    if length + 20 > goal || tree.count() >= MOST_AVPS {
        return;
    }
    let mut node = if prng.one_in(2) { unknown(prng) } else { known(RouteRecord, 1, prng) };
    let header = if node.vendor.is_some() { 12 } else { 8 };
    let room = goal - length - header - prng.below(4);
    node.body = Body::Data(prng.octets(room));
    tree.list.insert(1 + prng.below(tree.list.len()), node);
}
