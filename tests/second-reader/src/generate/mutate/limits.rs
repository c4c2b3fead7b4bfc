//! Depth, number and length at their limits, and what does not fill a list.

use super::pick::{one, some_list};
use crate::avp::padded;
use crate::dictionary::Kind;
use crate::generate::fill::{fill, stretch};
use crate::generate::prng::Prng;
use crate::generate::sound;
use crate::generate::tree::{Body, Node, Tree};
use crate::header::LONGEST_COMMAND;
use crate::record::MOST_AVPS;
use Kind::*;

/// Adds a chain of groups, each in the one before.
pub fn nest(tree: &mut Tree, prng: &mut Prng) {
    let mut chain: Option<Node> = None;
    for _ in 0..1 + prng.below(4) {
        // Depth 3 keeps its own members plain.
        let mut group = sound::known(prng.pick(&sound::GROUPS), 3, prng);
        if let Body::Members(members) = &mut group.body {
            if prng.one_in(6) {
                members.clear();
            }
            if let Some(inner) = chain.take() {
                members.insert(prng.below(members.len() + 1), inner);
            }
        }
        chain = Some(group);
    }
    if let Some(group) = chain {
        let list = some_list(&mut tree.list, prng);
        list.insert(prng.below(list.len() + 1), group);
    }
}

/// Brings the number of AVPs to the limit and beyond.
pub fn crowd(tree: &mut Tree, prng: &mut Prng) {
    let goal = MOST_AVPS + prng.below(4) - 1;
    if prng.one_in(2) {
        crowd_group(tree, goal, prng);
    } else {
        fill(tree, goal, prng);
    }
    if prng.one_in(3) {
        let length = prng.below(12);
        tree.tail = prng.octets(length);
    }
}

/// Fills a last group, which may be a nested one, so that the limit is met within it.
fn crowd_group(tree: &mut Tree, goal: usize, prng: &mut Prng) {
    let mut crowd = Vec::new();
    let levels = 1 + prng.below(3);
    while tree.count() + 3 * levels + crowd.len() < goal {
        let mut node = sound::unknown(prng);
        node.body = Body::Data(vec![7; prng.below(6)]);
        crowd.push(node);
    }
    for level in 0..levels {
        let mut group = sound::known(ProxyInfo, 3, prng);
        if let Body::Members(members) = &mut group.body {
            members.truncate(2);
            members.append(&mut crowd);
            // Members behind an inner group move where the limit is met.
            if level > 0 && prng.one_in(2) {
                let at = prng.below(members.len());
                members.swap(0, at);
            }
        }
        crowd.push(group);
    }
    tree.list.append(&mut crowd);
}

/// Stray octets at the end of a list.
pub fn stray(tree: &mut Tree, prng: &mut Prng) {
    let code = prng.pick(Kind::ALL).code();
    let mut octets = code.to_be_bytes().to_vec();
    octets.push(prng.pick(&[0x40, 0x00, 0x80, 0xC0, 0xE0, 0xFF]));
    octets.extend_from_slice(&[0, 0, prng.pick(&[0, 7, 8, 9, 11, 12, 13, 16])]);
    octets.extend_from_slice(&prng.pick(&[0u32, 10_415, 7]).to_be_bytes());
    octets.truncate(1 + prng.below(12));
    let groups = tree.list.iter().filter(|node| matches!(node.body, Body::Members(_))).count();
    if groups == 0 || prng.one_in(4) {
        tree.tail = octets;
    } else {
        let group = |node: &Node| matches!(node.body, Body::Members(_));
        one(tree, prng, group, |node, _| node.tail.clone_from(&octets));
    }
}

/// Takes the last member's padding out of a group's length, or out of the group.
pub fn lose_padding(tree: &mut Tree, prng: &mut Prng) {
    let ragged = |node: &Node| match &node.body {
        Body::Members(members) => members.last().is_some_and(Node::is_ragged),
        Body::Data(_) => false,
    };
    if prng.one_in(2) {
        // A last member with padding, for a group that has none.
        let mut node = sound::unknown(prng);
        node.body = Body::Data(vec![7; 1 + prng.below(3)]);
        let list = some_list(&mut tree.list, prng);
        list.push(node);
    }
    one(tree, prng, ragged, |node, _| {
        if let Body::Members(members) = &mut node.body {
            if let Some(last) = members.last_mut() {
                last.unpadded = true;
            }
        }
    });
}

pub fn too_long(tree: &mut Tree, prng: &mut Prng) {
    let goal = LONGEST_COMMAND + prng.pick(&[0, 4, 4, 8, 100, 4000]);
    stretch(tree, goal, prng);
}

impl Node {
    /// Whether it has padding.
    fn is_ragged(&self) -> bool {
        matches!(&self.body, Body::Data(data) if padded(data.len()) != data.len())
    }
}
