//! Sound commands of every shape.

use super::fill::{fill, open_groups, stretch};
use super::prng::Prng;
use super::tree::{Body, Node, Tree};
use super::{errors, times};
use crate::dictionary::{Form, Kind, DIRECTIONS, VOLUMES};
use crate::header::{Command, LONGEST_COMMAND};
use crate::record::MOST_AVPS;
use crate::rows::{self, Rows};
use Kind::*;

/// The read groups.
pub const GROUPS: [Kind; 6] =
    [VendorSpecificApplicationId, ExperimentalResult, ProxyInfo, SupportedFeatures, TimeWindow, TransferPolicy];

/// Values of 268, which is not judged: none that is assigned, of a success, of protocol errors, of failures.
const RESULTS: [u32; 6] = [0, 2001, 3007, 3008, 4002, 5005];

/// A sound command, rarely one that a limit refuses.
pub fn command(prng: &mut Prng) -> Tree {
    let (mut flags, command, list) = match prng.below(8) {
        0..=2 => (0xC0, Command::Request, request(prng)),
        3..=5 => (0x40, Command::Answer, answer(prng)),
        _ => (prng.pick(&[0x20, 0x60]), Command::ErrorAnswer, errors::error_answer(prng)),
    };
    let rows = rows::of_command(command);
    flags |= prng.octet() & 0x0F;
    if prng.one_in(3) {
        flags |= 0x10;
    }
    let mut tree = Tree::of(flags, prng.word(), prng.word(), list);
    extras(&mut tree.list, rows, 1, prng);
    if !prng.one_in(4) {
        prng.shuffle(&mut tree.list[1..]);
    }
    if prng.one_in(60) {
        let goal = prng.pick(&[MOST_AVPS, MOST_AVPS, MOST_AVPS - 1, 200, 100]);
        fill(&mut tree, goal, prng);
    }
    if prng.one_in(150) {
        let goal = prng.pick(&[LONGEST_COMMAND, LONGEST_COMMAND, LONGEST_COMMAND - 4, 15_000]);
        stretch(&mut tree, goal, prng);
    }
    tree
}

/// A sound command with several AVPs of a kind that its own list admits in any number, at times with
/// one more in a group, or with the most AVPs; rarely one that a limit refuses.
pub fn repeated(prng: &mut Prng) -> Tree {
    let mut tree = command(prng);
    let kind = prng.pick(&[RouteRecord, ProxyInfo, SupportedFeatures, RedirectHost, Load]);
    for _ in 0..1 + prng.below(4) {
        let node = known(kind, 1, prng);
        tree.list.insert(1 + prng.below(tree.list.len()), node);
    }
    let groups = open_groups(&tree);
    if !groups.is_empty() && prng.one_in(2) {
        if let Body::Members(members) = &mut tree.list[prng.pick(&groups)].body {
            members.push(known(kind, 2, prng));
        }
    }
    if prng.one_in(60) {
        fill(&mut tree, MOST_AVPS, prng);
    }
    tree
}

fn request(prng: &mut Prng) -> Vec<Node> {
    let kind = prng.below(2);
    let mut list = required(&rows::BTR, 1, prng);
    if let Some(node) = list.iter_mut().find(|node| node.code == TransferRequestType.code()) {
        node.body = Body::Data((kind as u32).to_be_bytes().to_vec());
    }
    let volumes = volumes(kind == 0, prng);
    let mut optional = |wanted: bool, kinds: &[Kind]| {
        for &kind in kinds {
            if wanted || prng.one_in(4) {
                list.push(known(kind, 1, prng));
            }
        }
    };
    optional(false, &[Drmp, NetworkAreaInfoList, OcSupportedFeatures]);
    optional(kind == 0, &[ApplicationServiceProviderIdentity, NumberOfUes, TimeWindow]);
    optional(true, &volumes);
    optional(kind == 1, &[ReferenceId, TransferPolicyId, DestinationHost]);
    list
}

/// The volumes of a request: of one direction or both, or else the total, where an exchange rule asks for them; any
/// where none does.
fn volumes(ruled: bool, prng: &mut Prng) -> Vec<Kind> {
    if ruled {
        return prng.pick(&[&DIRECTIONS[..1], &DIRECTIONS[1..], &DIRECTIONS, &[CcTotalOctets]]).to_vec();
    }
    VOLUMES.into_iter().filter(|_| prng.one_in(2)).collect()
}

fn answer(prng: &mut Prng) -> Vec<Node> {
    let mut list = required(&rows::BTA, 1, prng);
    let outcome = if prng.one_in(3) { ExperimentalResult } else { ResultCode };
    list.push(known(outcome, 1, prng));
    let policies = prng.pick(&[0, 0, 1, 1, 1, 2, 2, 3, 5]);
    for _ in 0..policies {
        list.push(policy(prng));
    }
    if policies > 0 || prng.one_in(3) {
        list.push(known(ReferenceId, 1, prng));
    }
    if policies > 1 || prng.one_in(4) {
        list.push(known(PcrfAddress, 1, prng));
    }
    for kind in [
        Drmp,
        ErrorMessage,
        ErrorReportingHost,
        FailedAvp,
        RedirectHostUsage,
        RedirectMaxCacheTime,
        OcSupportedFeatures,
        OcOlr,
    ] {
        if prng.one_in(4) {
            list.push(known(kind, 1, prng));
        }
    }
    list
}

/// A Transfer-Policy as an answer's own list needs it.
pub fn policy(prng: &mut Prng) -> Node {
    let mut node = known(TransferPolicy, 1, prng);
    if let Body::Members(members) = &mut node.body {
        for kind in [TimeWindow, RatingGroup] {
            if !members.iter().any(|member| member.is(kind)) {
                members.insert(prng.below(members.len() + 1), known(kind, 2, prng));
            }
        }
    }
    node
}

/// The required rows of a list, in printed order.
pub fn required(rows: &'static Rows, depth: usize, prng: &mut Prng) -> Vec<Node> {
    rows.required.iter().map(|&kind| known(kind, depth, prng)).collect()
}

/// A sound AVP of this kind that stands at this depth.
pub fn known(kind: Kind, depth: usize, prng: &mut Prng) -> Node {
    let body = match kind.form() {
        Form::Four => Body::Data(four(kind, prng)),
        Form::Eight => Body::Data(prng.octets(8)),
        Form::Octets => Body::Data(text(kind, prng)),
        Form::Group => Body::Members(members(kind, depth, prng)),
    };
    let m = kind.must() || prng.one_in(2);
    let vendor = (kind.vendor() != 0).then_some(kind.vendor());
    node(vendor, kind.code(), m, body, prng)
}

/// An AVP that the dictionary lacks, without M.
pub fn unknown(prng: &mut Prng) -> Node {
    loop {
        let vendor = prng.pick(&[None, Some(10_415), Some(1), Some(u32::MAX), Some(10_416)]);
        let code = match prng.below(4) {
            0 => prng.word(),
            1 => prng.pick(Kind::ALL).code(),
            2 => prng.below(700) as u32,
            _ => prng.pick(&[0, 1, 9999, 4200, 4210, 651, 10_415, u32::MAX]),
        };
        if Kind::of(vendor.unwrap_or(0), code).is_none() {
            let length = length(prng);
            let body = Body::Data(prng.octets(length));
            return node(vendor, code, false, body, prng);
        }
    }
}

fn node(vendor: Option<u32>, code: u32, m: bool, body: Body, prng: &mut Prng) -> Node {
    let mut flags = if m { 0x40 } else { 0 };
    if prng.one_in(4) {
        flags |= 0x20;
    }
    let padding = if prng.one_in(2) { [0; 3] } else { [prng.octet(), prng.octet(), prng.octet()] };
    Node { vendor, code, flags, body, tail: Vec::new(), length: None, padding, unpadded: false }
}

fn four(kind: Kind, prng: &mut Prng) -> Vec<u8> {
    let value = match kind {
        AuthSessionState => 1,
        TransferRequestType => prng.below(2) as u32,
        TransferPolicyId => prng.below(9) as u32,
        ResultCode if !prng.one_in(4) => prng.pick(&RESULTS),
        _ => prng.word(),
    };
    value.to_be_bytes().to_vec()
}

fn text(kind: Kind, prng: &mut Prng) -> Vec<u8> {
    match kind {
        FailedAvp | Load | OcSupportedFeatures | OcOlr if prng.one_in(2) => malformed(prng),
        _ => {
            let length = length(prng);
            prng.octets(length)
        }
    }
}

/// What looks like an AVP and is none.
fn malformed(prng: &mut Prng) -> Vec<u8> {
    let mut data = prng.pick(Kind::ALL).code().to_be_bytes().to_vec();
    data.push(prng.pick(&[0x00, 0x40, 0xC0, 0xFF, 0x41]));
    data.extend_from_slice(&[0, 0, prng.octet()]);
    let more = prng.below(12);
    data.extend(prng.octets(more));
    data.truncate(prng.below(data.len()) + 1);
    data
}

/// A length of plain data; mostly short.
fn length(prng: &mut Prng) -> usize {
    match prng.below(400) {
        0 => prng.below(3000),
        1..=9 => prng.below(300),
        10..=100 => prng.below(40),
        _ => prng.below(10),
    }
}

/// Members of a sound group that stands at this depth.
fn members(kind: Kind, depth: usize, prng: &mut Prng) -> Vec<Node> {
    let Some(rows) = rows::of_group(kind) else {
        return Vec::new();
    };
    let inner = depth + 1;
    let mut list = required(rows, inner, prng);
    let optional: &[Kind] = match kind {
        VendorSpecificApplicationId => &[AuthApplicationId, AcctApplicationId],
        TransferPolicy => &[TimeWindow, RatingGroup, MaxRequestedBandwidthDl, MaxRequestedBandwidthUl],
        _ => &[],
    };
    for &kind in optional {
        if (depth < 3 || kind.form() != Form::Group) && prng.one_in(2) {
            list.push(known(kind, inner, prng));
        }
    }
    extras(&mut list, rows, inner, prng);
    prng.shuffle(&mut list);
    if kind == TimeWindow {
        set_window(&mut list, times::right(prng));
    }
    list
}

/// Gives a Time-Window's members a start and an end.
pub fn set_window(list: &mut [Node], (start, end): (u32, u32)) {
    for node in list {
        if node.is(TransferStartTime) {
            node.body = Body::Data(start.to_be_bytes().to_vec());
        } else if node.is(TransferEndTime) {
            node.body = Body::Data(end.to_be_bytes().to_vec());
        }
    }
}

/// Adds AVPs that the list's * rows and its "+" admit.
fn extras(list: &mut Vec<Node>, rows: &Rows, depth: usize, prng: &mut Prng) {
    if !rows.open {
        return;
    }
    let number = match (depth, prng.below(4)) {
        (1, 0) => prng.below(8),
        (1, _) => prng.below(4),
        (_, 0) => prng.below(3),
        _ => 0,
    };
    for _ in 0..number {
        if let Some(node) = extra(rows, depth, prng) {
            list.push(node);
        }
    }
}

/// One AVP that such a list admits in any number.
fn extra(rows: &Rows, depth: usize, prng: &mut Prng) -> Option<Node> {
    let kind = match prng.below(5) {
        0 | 1 => return Some(unknown(prng)),
        2 => prng.pick(&GROUPS),
        3 => prng.pick(&[ProxyInfo, RouteRecord, SupportedFeatures, Load, RedirectHost, TransferPolicy]),
        _ => prng.pick(Kind::ALL),
    };
    if rows.single.has(kind) || (depth > 3 && kind.form() == Form::Group) {
        return None;
    }
    // A further Transfer-Policy in a command's list meets the exchange rules of answers.
    if kind == TransferPolicy && depth == 1 {
        return None;
    }
    Some(known(kind, depth, prng))
}

impl Node {
    /// Whether this is the named AVP.
    pub fn is(&self, kind: Kind) -> bool {
        self.vendor.unwrap_or(0) == kind.vendor() && self.code == kind.code()
    }
}
