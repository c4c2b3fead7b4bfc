//! Wrong fields: of the header, of AVP headers, of data.

use super::pick::{one, some_list, some_node};
use crate::dictionary::{Form, Kind};
use crate::generate::prng::Prng;
use crate::generate::sound;
use crate::generate::tree::{Body, Node, Tree};
use Kind::*;

pub fn header(tree: &mut Tree, prng: &mut Prng) {
    match prng.below(6) {
        0 => tree.version = prng.pick(&[0, 2, 255]),
        1 => tree.application ^= 1 << prng.below(32),
        2 => tree.code = (tree.code ^ 1 << prng.below(24)) & 0xFF_FFFF,
        3 => tree.flags ^= 0x40,
        4 => tree.flags ^= 0x20,
        _ => tree.flags = prng.octet(),
    }
    if prng.one_in(4) {
        header(tree, prng);
    }
}

pub fn rename(tree: &mut Tree, prng: &mut Prng) {
    let change = prng.below(5);
    let (vendor, code) = (prng.pick(&[1, 10_414, 10_416, u32::MAX]), prng.word());
    let kind = prng.pick(Kind::ALL);
    let Some(node) = some_node(tree, prng) else {
        return;
    };
    match change {
        0 => node.vendor = node.vendor.map_or(Some(10_415), |_| None),
        1 => node.vendor = Some(vendor),
        2 => node.code = code,
        3 => node.code = kind.code(),
        _ => {
            node.code = kind.code();
            node.vendor = (kind.vendor() != 0).then_some(kind.vendor());
        }
    }
    if code & 1 != 0 {
        node.flags &= !0x40;
    }
}

pub fn flags(tree: &mut Tree, prng: &mut Prng) {
    let change = prng.below(4);
    let bit = 1 << prng.below(5);
    let Some(node) = some_node(tree, prng) else {
        return;
    };
    match change {
        0 | 1 => node.flags ^= 0x40,
        2 => node.flags |= bit,
        _ => node.vendor = Some(0),
    }
}

pub fn length(tree: &mut Tree, prng: &mut Prng) {
    let change = prng.below(6);
    let small = prng.below(16) as u32;
    let large = prng.pick(&[0xFF_FFFF, 0xFF_FFFD, 0x80_0000, 16_384, 65_536]);
    let Some(node) = some_node(tree, prng) else {
        return;
    };
    let mut plain = node.clone();
    plain.length = None;
    let honest = Tree::of(0, 0, 0, vec![plain]).encode().len() as u32 - 20;
    node.length = Some(match change {
        0 => small,
        1 => large,
        2 => honest + small,
        3 => honest.saturating_sub(small),
        4 => honest + 4 * small,
        _ => honest + 1,
    });
}

pub fn width(tree: &mut Tree, prng: &mut Prng) {
    let fixed = |node: &Node| {
        let kind = Kind::of(node.vendor.unwrap_or(0), node.code);
        kind.is_some_and(|kind| matches!(kind.form(), Form::Four | Form::Eight))
    };
    one(tree, prng, fixed, |node, prng| {
        if let Body::Data(data) = &mut node.body {
            let length = prng.pick(&[0, 1, 2, 3, 5, 6, 7, 8, 4, 9, 12, 16]);
            data.resize(length, 0);
        }
    });
}

pub fn value(tree: &mut Tree, prng: &mut Prng) {
    let wanted = if prng.one_in(2) { AuthSessionState } else { TransferRequestType };
    if prng.one_in(3) {
        // One that stands in a group.
        let node = sound::known(wanted, 4, prng);
        let list = some_list(&mut tree.list, prng);
        list.insert(prng.below(list.len() + 1), node);
    }
    one(
        tree,
        prng,
        |node| node.is(wanted),
        |node, prng| {
            let value: u32 = prng.pick(&[0, 1, 2, 3, 0x100, 0x0100_0000, 0x8000_0000, 0x0001_0001]);
            node.body = Body::Data(value.to_be_bytes().to_vec());
        },
    );
}
