//! Changes of error answers, request 1 of 02: of each row of the general form, of what is not asked of them, and of
//! what is asked as of every command.

use super::pick::{one, some_list};
use super::{fields, members, windows};
use crate::dictionary::{Kind, VENDOR_3GPP};
use crate::generate::prng::Prng;
use crate::generate::sound;
use crate::generate::tree::{Body, Node, Tree};
use crate::rows::ERROR_ANSWER;
use Kind::*;

/// The rows that stand at most once.
const SINGLE: [Kind; 9] = [
    SessionId,
    OriginHost,
    OriginRealm,
    ResultCode,
    OriginStateId,
    ErrorMessage,
    ErrorReportingHost,
    FailedAvp,
    ExperimentalResult,
];

/// Changes an error answer in one way.
pub fn error_answer(tree: &mut Tree, prng: &mut Prng) {
    match prng.below(20) {
        0 => tree.flags |= 0x80,
        1 => tree.flags = prng.pick(&[0x00, 0x10, 0x40, 0x50, 0x80, 0xC0]),
        2..=4 => drop_rows(tree, prng),
        5..=7 => exceed(tree, prng),
        8..=9 => late_session(tree, prng),
        10 => result(tree, prng),
        11..=13 => group_row(tree, prng),
        14..=15 => windows::window(tree, prng),
        16 => windows::windows(tree, prng),
        17 => unknown(tree, prng),
        18 => fields::value(tree, prng),
        _ => {
            let node = sound::known(SessionId, 4, prng);
            some_list(&mut tree.list, prng).push(node);
        }
    }
}

/// Drops one or more of the rows that have to be there.
fn drop_rows(tree: &mut Tree, prng: &mut Prng) {
    for _ in 0..prng.pick(&[1, 1, 2, 3]) {
        members::drop_kind(tree, prng.pick(ERROR_ANSWER.required));
    }
}

/// A second AVP of a row that stands at most once; 263 first, where it is that row.
fn exceed(tree: &mut Tree, prng: &mut Prng) {
    let kind = prng.pick(&SINGLE);
    if !tree.list.iter().any(|node| node.is(kind)) {
        let at = if kind == SessionId { 0 } else { behind_first(tree, prng) };
        tree.list.insert(at, sound::known(kind, 1, prng));
    }
    let node = sound::known(kind, 1, prng);
    tree.list.insert(behind_first(tree, prng), node);
}

/// A 263 that is not first; at times another one behind it, or 263s of vendors alone before it.
fn late_session(tree: &mut Tree, prng: &mut Prng) {
    tree.list.retain(|node| !node.is(SessionId));
    if prng.one_in(4) {
        tree.list.insert(0, sound::known(SessionId, 1, prng));
        for _ in 0..prng.pick(&[1, 1, 2]) {
            // Of a vendor the dictionary lacks it: without M it is admitted.
            let mut node = sound::known(SessionId, 1, prng);
            node.vendor = Some(prng.pick(&[VENDOR_3GPP, VENDOR_3GPP + 1]));
            node.flags &= !0x40;
            tree.list.insert(0, node);
        }
        return;
    }
    for _ in 0..prng.pick(&[1, 1, 2]) {
        let node = sound::known(SessionId, 1, prng);
        tree.list.insert(behind_first(tree, prng), node);
    }
}

/// 297 without 268, or both.
fn result(tree: &mut Tree, prng: &mut Prng) {
    if !tree.list.iter().any(|node| node.is(ExperimentalResult)) {
        let node = sound::known(ExperimentalResult, 1, prng);
        tree.list.insert(behind_first(tree, prng), node);
    }
    if prng.one_in(2) {
        members::drop_kind(tree, ResultCode);
    }
}

/// A group that lacks a row, exceeds one, or holds what it does not admit.
fn group_row(tree: &mut Tree, prng: &mut Prng) {
    let mut group = sound::known(prng.pick(&sound::GROUPS), 2, prng);
    let closed = group.is(VendorSpecificApplicationId) || group.is(ExperimentalResult);
    if let Body::Members(list) = &mut group.body {
        let at = prng.below(list.len());
        match prng.below(3) {
            0 => {
                list.remove(at);
            }
            1 => {
                let copy = list[at].clone();
                list.push(copy);
            }
            _ if closed => {
                let other = if prng.one_in(2) { sound::unknown(prng) } else { sound::known(RouteRecord, 3, prng) };
                list.insert(at, other);
            }
            _ => list.retain(|_| prng.one_in(2)),
        }
    }
    // One 297 has a row.
    if group.is(ExperimentalResult) {
        members::drop_kind(tree, ExperimentalResult);
    }
    let list = if prng.one_in(3) { within(tree, prng) } else { &mut tree.list };
    let at = (1 + prng.below(list.len())).min(list.len());
    list.insert(at, group);
}

/// The members of a 284, which admits any other group.
fn within<'a>(tree: &'a mut Tree, prng: &mut Prng) -> &'a mut Vec<Node> {
    let group = sound::known(ProxyInfo, 3, prng);
    let at = behind_first(tree, prng);
    tree.list.insert(at, group);
    match &mut tree.list[at].body {
        Body::Members(members) => members,
        Body::Data(_) => unreachable!("groups have members"),
    }
}

/// An unknown AVP, with M or without, anywhere that admits it.
fn unknown(tree: &mut Tree, prng: &mut Prng) {
    let mut node = sound::unknown(prng);
    if prng.one_in(2) {
        node.flags |= 0x40;
    }
    if prng.one_in(2) {
        tree.list.insert(behind_first(tree, prng), node);
    } else {
        one(
            tree,
            prng,
            |group| group.is(ProxyInfo) || group.is(TransferPolicy) || group.is(TimeWindow),
            |group, prng| {
                if let Body::Members(members) = &mut group.body {
                    members.insert(prng.below(members.len() + 1), node.clone());
                }
            },
        );
    }
}

/// A position of the command's own list behind its first AVP.
fn behind_first(tree: &Tree, prng: &mut Prng) -> usize {
    (1 + prng.below(tree.list.len())).min(tree.list.len())
}
