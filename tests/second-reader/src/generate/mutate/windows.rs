//! Windows, right and wrong, one or several, and where they stand.

use super::pick::{each, one, some_list};
use super::{fields, members};
use crate::dictionary::Kind;
use crate::generate::prng::Prng;
use crate::generate::tree::{Body, Node, Tree};
use crate::generate::{sound, times};
use crate::header::Command;
use Kind::*;

/// Makes a window wrong; at times a further one, or two of which one stands in the other.
pub fn window(tree: &mut Tree, prng: &mut Prng) {
    if prng.one_in(4) {
        let node = sound::known(TimeWindow, 2, prng);
        let list = some_list(&mut tree.list, prng);
        list.insert(prng.below(list.len() + 1), node);
    }
    if prng.one_in(8) {
        let inner = sound::known(TimeWindow, 3, prng);
        one(tree, prng, |node| node.is(TimeWindow), |node, prng| insert(node, inner.clone(), prng));
        each(&mut tree.list, &mut |node| set(node, mostly_wrong(prng)));
    } else {
        one(tree, prng, |node| node.is(TimeWindow), |node, prng| set(node, mostly_wrong(prng)));
    }
}

/// Several windows, right and wrong, in policies, in other groups or in each other. At times there are times outside a
/// window, or something is broken that goes before the windows.
pub fn windows(tree: &mut Tree, prng: &mut Prng) {
    // An answer whose policies have to be whole.
    let answer = tree.command() == Command::Answer;
    match prng.below(3) {
        0 if answer => add_policies(tree, prng),
        1 => add_nested(tree, answer, prng),
        _ => (0..1 + prng.below(3)).for_each(|_| add_within(tree, answer, prng)),
    }
    let broken = prng.one_in(3);
    set_several(tree, if broken { 0 } else { prng.below(5) }, prng);
    if broken {
        break_before(tree, answer, prng);
    } else if prng.one_in(5) {
        add_times(tree, prng);
    }
}

/// Sets the times of all windows by one of five patterns.
fn set_several(tree: &mut Tree, pattern: usize, prng: &mut Prng) {
    let mut number = 0;
    each(&mut tree.list, &mut |node| number += usize::from(node.is(TimeWindow)));
    let chosen = prng.below(number);
    let mut met = 0;
    each(&mut tree.list, &mut |node| {
        if node.is(TimeWindow) {
            let wrong = match pattern {
                0 => true,
                1 => false,
                2 => met == chosen,
                _ => prng.one_in(2),
            };
            let times = match (pattern, wrong) {
                (4, wrong) => times::right_by_nearer(wrong, prng),
                (_, true) => times::wrong(prng),
                (_, false) => times::right(prng),
            };
            set(node, times);
            met += 1;
        }
    });
}

/// Policies of an answer's own list, and what they ask for there.
fn add_policies(tree: &mut Tree, prng: &mut Prng) {
    for _ in 0..1 + prng.below(3) {
        let policy = sound::policy(prng);
        add(tree, policy, prng);
    }
    for kind in [ReferenceId, PcrfAddress] {
        if !tree.list.iter().any(|node| node.is(kind)) {
            let node = sound::known(kind, 1, prng);
            add(tree, node, prng);
        }
    }
}

/// A window in a window, which is the command's own or stands in a group.
fn add_nested(tree: &mut Tree, answer: bool, prng: &mut Prng) {
    // Depth 3 keeps its own members plain.
    let inner = sound::known(TimeWindow, 3, prng);
    match tree.list.iter_mut().find(|node| node.is(TimeWindow)) {
        Some(outer) if prng.one_in(2) => insert(outer, inner, prng),
        own => {
            let within = own.is_some() && !answer || prng.one_in(2);
            let mut outer = sound::known(TimeWindow, 3, prng);
            insert(&mut outer, inner, prng);
            let node = if within { holder(outer, answer, prng) } else { outer };
            add(tree, node, prng);
        }
    }
}

/// A window within one or two groups.
fn add_within(tree: &mut Tree, answer: bool, prng: &mut Prng) {
    let mut node = sound::known(TimeWindow, 3, prng);
    if prng.one_in(2) {
        node = holder(node, false, prng);
    }
    let node = holder(node, answer, prng);
    add(tree, node, prng);
}

/// A group that admits others, with this one; of an answer's own list no policy.
fn holder(inner: Node, answer: bool, prng: &mut Prng) -> Node {
    let kinds = [ProxyInfo, SupportedFeatures, TimeWindow, TransferPolicy];
    let kind = prng.pick(if answer { &kinds[..3] } else { &kinds });
    let mut group = sound::known(kind, 3, prng);
    insert(&mut group, inner, prng);
    group
}

/// A start and an end in any order that belong to no window.
fn add_times(tree: &mut Tree, prng: &mut Prng) {
    let mut times = [TransferStartTime, TransferEndTime].map(|kind| sound::known(kind, 1, prng)).to_vec();
    sound::set_window(&mut times, times::wrong(prng));
    if prng.one_in(2) {
        let mut group = sound::known(prng.pick(&[ProxyInfo, SupportedFeatures]), 3, prng);
        times.into_iter().for_each(|time| insert(&mut group, time, prng));
        add(tree, group, prng);
    } else {
        times.into_iter().for_each(|time| add(tree, time, prng));
    }
}

/// Breaks an exchange rule, of an error answer a row, or, less often, gives a value that stops the walk.
fn break_before(tree: &mut Tree, answer: bool, prng: &mut Prng) {
    let first = tree.list.iter().any(|node| {
        node.is(TransferRequestType) && matches!(&node.body, Body::Data(data) if data.iter().all(|&octet| octet == 0))
    });
    let needed: &[Kind] = match (answer, first) {
        (true, _) => &[ResultCode, ReferenceId, PcrfAddress],
        _ if tree.command() == Command::ErrorAnswer => &[OriginHost, OriginRealm, ResultCode],
        (false, true) => &[ApplicationServiceProviderIdentity, CcOutputOctets, NumberOfUes, TimeWindow, TimeWindow],
        (false, false) => &[ReferenceId, TransferPolicyId, DestinationHost],
    };
    match (answer, prng.below(8)) {
        (_, 0) => fields::value(tree, prng),
        (true, 1) => members::outcome(tree, prng),
        (true, 2..=3) => members::policies(tree, prng),
        (false, 1) => members::total(tree, prng),
        _ => members::drop_kind(tree, prng.pick(needed)),
    }
}

/// Adds an AVP to the command's list, behind what stands first.
fn add(tree: &mut Tree, node: Node, prng: &mut Prng) {
    let at = (1 + prng.below(tree.list.len())).min(tree.list.len());
    tree.list.insert(at, node);
}

/// Adds a member to a group.
fn insert(group: &mut Node, member: Node, prng: &mut Prng) {
    if let Body::Members(members) = &mut group.body {
        members.insert(prng.below(members.len() + 1), member);
    }
}

/// Sets the times of a window; leaves any other AVP.
fn set(node: &mut Node, times: (u32, u32)) {
    let is_window = node.is(TimeWindow);
    match &mut node.body {
        Body::Members(members) if is_window => sound::set_window(members, times),
        _ => {}
    }
}

fn mostly_wrong(prng: &mut Prng) -> (u32, u32) {
    if prng.one_in(4) {
        times::right(prng)
    } else {
        times::wrong(prng)
    }
}
