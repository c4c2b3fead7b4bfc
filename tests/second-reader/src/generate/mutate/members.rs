//! Members that are missing, too many or out of place.

use super::pick::{one, some_list};
use super::windows::window;
use crate::dictionary::{Kind, DIRECTIONS, VOLUMES};
use crate::generate::prng::Prng;
use crate::generate::sound;
use crate::generate::tree::{Body, Node, Tree};
use Kind::*;

pub fn drop_any(tree: &mut Tree, prng: &mut Prng) {
    let list = some_list(&mut tree.list, prng);
    if !list.is_empty() {
        list.remove(prng.below(list.len()));
    }
}

/// Drops AVPs of the command's list that an exchange rule or, less often, a row may need.
pub fn drop_ruled(tree: &mut Tree, prng: &mut Prng) {
    let ruled = [
        ApplicationServiceProviderIdentity,
        CcOutputOctets,
        NumberOfUes,
        TimeWindow,
        ReferenceId,
        TransferPolicyId,
        DestinationHost,
        ResultCode,
        ExperimentalResult,
        PcrfAddress,
        VendorSpecificApplicationId,
        SessionId,
        AuthSessionState,
        OriginHost,
        OriginRealm,
        DestinationRealm,
        TransferRequestType,
    ];
    let exchange = if prng.one_in(2) { 10 } else { ruled.len() };
    let there: Vec<Kind> =
        ruled[..exchange].iter().copied().filter(|&kind| tree.list.iter().any(|node| node.is(kind))).collect();
    if there.is_empty() {
        return;
    }
    for _ in 0..prng.pick(&[1, 1, 1, 2, 3, 5]) {
        drop_kind(tree, prng.pick(&there));
    }
}

/// Drops the AVPs of this kind from the command's list; with 414 all volumes.
pub fn drop_kind(tree: &mut Tree, gone: Kind) {
    tree.list.retain(|node| !(node.is(gone) || gone == CcOutputOctets && is_volume(node)));
}

/// Drops about half of a group's members.
pub fn thin(tree: &mut Tree, prng: &mut Prng) {
    let kind = prng.pick(&sound::GROUPS);
    if prng.one_in(2) {
        let node = sound::known(kind, 3, prng);
        tree.list.push(node);
    }
    one(
        tree,
        prng,
        |node| node.is(kind),
        |node, prng| {
            if let Body::Members(members) = &mut node.body {
                members.retain(|_| prng.one_in(2));
            }
        },
    );
}

pub fn double(tree: &mut Tree, prng: &mut Prng) {
    let list = some_list(&mut tree.list, prng);
    if !list.is_empty() {
        let copy = list[prng.below(list.len())].clone();
        list.insert(prng.below(list.len() + 1), copy);
    }
}

pub fn swap(tree: &mut Tree, prng: &mut Prng) {
    let list = some_list(&mut tree.list, prng);
    if !list.is_empty() {
        let (a, b) = (prng.below(list.len()), prng.below(list.len()));
        list.swap(a, b);
    }
}

pub fn move_elsewhere(tree: &mut Tree, prng: &mut Prng) {
    let list = some_list(&mut tree.list, prng);
    if list.is_empty() {
        return;
    }
    let node = list.remove(prng.below(list.len()));
    let list = some_list(&mut tree.list, prng);
    list.insert(prng.below(list.len() + 1), node);
}

/// Puts a sound AVP, known or not, where it may not belong.
pub fn intrude(tree: &mut Tree, prng: &mut Prng) {
    let node = if prng.one_in(4) {
        let mut node = sound::unknown(prng);
        if prng.one_in(2) {
            node.flags |= 0x40;
        }
        node
    } else {
        sound::known(prng.pick(Kind::ALL), 3, prng)
    };
    if prng.one_in(3) {
        let closed = |node: &Node| node.is(VendorSpecificApplicationId) || node.is(ExperimentalResult);
        one(tree, prng, closed, |group, prng| {
            if let Body::Members(members) = &mut group.body {
                members.insert(prng.below(members.len() + 1), node.clone());
            }
        });
    } else {
        let list = some_list(&mut tree.list, prng);
        list.insert(prng.below(list.len() + 1), node);
    }
}

pub fn session(tree: &mut Tree, prng: &mut Prng) {
    if tree.list.is_empty() {
        return;
    }
    let first = tree.list[0].clone();
    if prng.one_in(2) {
        tree.list.remove(0);
    }
    let list = if prng.one_in(4) { some_list(&mut tree.list, prng) } else { &mut tree.list };
    list.insert(prng.below(list.len() + 1), first);
}

/// Both results in an answer.
pub fn outcome(tree: &mut Tree, prng: &mut Prng) {
    for kind in [ResultCode, ExperimentalResult] {
        if !tree.list.iter().any(|node| node.is(kind)) {
            let node = sound::known(kind, 1, prng);
            tree.list.insert(prng.below(tree.list.len() + 1), node);
        }
    }
}

/// The total volume beside one direction or both, in any order; at times one or the other in groups alone, another
/// total in a group, a repetition, and what the rules before and behind this one refuse.
pub fn volumes(tree: &mut Tree, prng: &mut Prng) {
    tree.list.retain(|node| !is_volume(node));
    // With both directions there are six orders, with one there are two.
    let directions = prng.pick(&[&DIRECTIONS[..1], &DIRECTIONS[1..], &DIRECTIONS, &DIRECTIONS, &DIRECTIONS]);
    for kinds in [&[CcTotalOctets], directions] {
        let within = prng.one_in(4);
        for &kind in kinds {
            add_volume(tree, kind, within, prng);
        }
    }
    match prng.below(12) {
        0..=2 => {
            let gone = prng.pick(&[ApplicationServiceProviderIdentity, NumberOfUes, TimeWindow]);
            tree.list.retain(|node| !node.is(gone));
        }
        3 => window(tree, prng),
        4..=5 => add_volume(tree, CcTotalOctets, true, prng),
        6 => add_volume(tree, prng.pick(&VOLUMES), false, prng),
        _ => {}
    }
}

/// The total beside a direction, where one of them is missing.
pub fn total(tree: &mut Tree, prng: &mut Prng) {
    for kind in [CcTotalOctets, prng.pick(&DIRECTIONS)] {
        if !tree.list.iter().any(|node| node.is(kind)) {
            add_volume(tree, kind, false, prng);
        }
    }
}

/// Adds a volume, itself or in groups, behind what stands first.
fn add_volume(tree: &mut Tree, kind: Kind, within: bool, prng: &mut Prng) {
    let node = volume(kind, within, prng);
    let at = (1 + prng.below(tree.list.len())).min(tree.list.len());
    tree.list.insert(at, node);
}

/// A volume, at times of 0: itself, or within one to three groups.
fn volume(kind: Kind, within: bool, prng: &mut Prng) -> Node {
    let mut node = sound::known(kind, 1, prng);
    if prng.one_in(4) {
        node.body = Body::Data(vec![0; 8]);
    }
    let groups = if within { 1 + prng.below(3) } else { 0 };
    for _ in 0..groups {
        // Depth 3 keeps its own members plain.
        let mut group = sound::known(prng.pick(&[ProxyInfo, SupportedFeatures]), 3, prng);
        if let Body::Members(members) = &mut group.body {
            members.insert(prng.below(members.len() + 1), node);
        }
        node = group;
    }
    node
}

fn is_volume(node: &Node) -> bool {
    VOLUMES.into_iter().any(|kind| node.is(kind))
}

pub fn empty_group(tree: &mut Tree, prng: &mut Prng) {
    let group = |node: &Node| matches!(node.body, Body::Members(_));
    one(tree, prng, group, |node, _| node.body = Body::Members(Vec::new()));
}

/// Adds policies or takes their members.
pub fn policies(tree: &mut Tree, prng: &mut Prng) {
    if prng.one_in(2) {
        let node = sound::known(TransferPolicy, 1, prng);
        tree.list.insert(prng.below(tree.list.len() + 1), node);
    }
    let gone = prng.pick(&[TimeWindow, RatingGroup, TransferPolicyId]);
    one(
        tree,
        prng,
        |node| node.is(TransferPolicy),
        |node, _| {
            if let Body::Members(members) = &mut node.body {
                members.retain(|member| !member.is(gone));
            }
        },
    );
}
