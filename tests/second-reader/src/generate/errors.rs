//! Sound error answers, request 1 of 02.

use super::prng::Prng;
use super::sound::{known, required, unknown};
use super::tree::Node;
use crate::dictionary::Kind;
use crate::rows::ERROR_ANSWER;
use Kind::*;

/// The rows that may be missing, but for 263.
const OPTIONAL: [Kind; 5] = [OriginStateId, ErrorMessage, ErrorReportingHost, FailedAvp, ExperimentalResult];

/// The list of an error answer, in any order but for a first 263, which is there or not.
pub fn error_answer(prng: &mut Prng) -> Vec<Node> {
    let mut list = required(&ERROR_ANSWER, 1, prng);
    for kind in OPTIONAL {
        if prng.one_in(3) {
            list.push(known(kind, 1, prng));
        }
    }
    // What BTA's rows and exchange rules ask for, or bound, has no row here.
    for kind in [VendorSpecificApplicationId, AuthSessionState, ReferenceId, PcrfAddress] {
        add(&mut list, kind, &[0, 0, 1, 1, 2], prng);
    }
    add(&mut list, TransferPolicy, &[0, 0, 1, 1, 2, 3], prng);
    add(&mut list, TimeWindow, &[0, 0, 0, 1, 2], prng);
    add(&mut list, ProxyInfo, &[0, 0, 0, 1, 2], prng);
    if prng.one_in(2) {
        let kind = prng.pick(Kind::ALL);
        if !ERROR_ANSWER.single.has(kind) {
            add(&mut list, kind, &[1, 2, 2, 3], prng);
        }
    }
    if prng.one_in(8) {
        let node = unknown(prng);
        list.extend([node.clone(), node]);
    }
    prng.shuffle(&mut list);
    if !prng.one_in(3) {
        list.insert(0, known(SessionId, 1, prng));
    }
    list
}

/// Adds one of these numbers of AVPs of a kind.
fn add(list: &mut Vec<Node>, kind: Kind, numbers: &[usize], prng: &mut Prng) {
    for _ in 0..prng.pick(numbers) {
        list.push(known(kind, 1, prng));
    }
}
