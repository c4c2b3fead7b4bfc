//! The exchange rules of clause 4.4.1, request 2 of 02 among them, on the command's own list, and the windows, which
//! alone are asked of an error answer.

use crate::avp::AvpHeader;
use crate::dictionary::{Kind, Kinds, DIRECTIONS};
use crate::header::{Command, HEADER};
use crate::rows::missing;
use crate::verdict::{number, Verdict};
use crate::walk::Found;

/// Checks the command that fills `octets` and whose rows are met.
pub fn check(command: Command, found: &Found, octets: &[u8]) -> Result<(), Verdict> {
    let end = octets.len();
    match (command, found.request_type) {
        (Command::Request, 0) => new_transfer(found.seen, octets)?,
        (Command::Request, _) => chosen_policy(found.seen, end)?,
        (Command::Answer, _) => answer(found, end)?,
        (Command::ErrorAnswer, _) => {}
    }
    found.window_fault.map_or(Ok(()), Err)
}

/// A request for policies (Transfer-Request-Type 0).
fn new_transfer(seen: Kinds, octets: &[u8]) -> Result<(), Verdict> {
    const DIRECTION: Kinds = Kinds::of(&DIRECTIONS);
    let end = octets.len();
    need(seen, Kind::ApplicationServiceProviderIdentity, end)?;
    match (seen.has_any(DIRECTION), seen.has(Kind::CcTotalOctets)) {
        (false, false) => return Err(missing(Kind::CcOutputOctets, end)),
        (true, true) => return Err(not_allowed(Kind::CcTotalOctets, place(octets, Kind::CcTotalOctets))),
        _ => {}
    }
    need(seen, Kind::NumberOfUes, end)?;
    need(seen, Kind::TimeWindow, end)
}

/// A notice of the chosen policy (Transfer-Request-Type 1).
fn chosen_policy(seen: Kinds, end: usize) -> Result<(), Verdict> {
    need(seen, Kind::ReferenceId, end)?;
    need(seen, Kind::TransferPolicyId, end)?;
    need(seen, Kind::DestinationHost, end)
}

/// An answer without E.
fn answer(found: &Found, end: usize) -> Result<(), Verdict> {
    let seen = found.seen;
    match (seen.has(Kind::ResultCode), seen.has(Kind::ExperimentalResult)) {
        (false, false) => return Err(missing(Kind::ResultCode, end)),
        (true, true) => return Err(not_allowed(Kind::ExperimentalResult, found.experimental_result)),
        _ => {}
    }
    if found.policies >= 1 {
        need(seen, Kind::ReferenceId, end)?;
    }
    if found.policies >= 2 {
        need(seen, Kind::PcrfAddress, end)?;
    }
    found.policy_fault.map_or(Ok(()), Err)
}

/// 5008 for the AVP at `place`, which another one of its list excludes.
fn not_allowed(kind: Kind, place: usize) -> Verdict {
    Verdict::named(number::AVP_NOT_ALLOWED, place, kind.vendor(), kind.code())
}

/// The place of the first AVP of a kind in the list of a walked command; its end if there is none.
#[cold]
fn place(octets: &[u8], kind: Kind) -> usize {
    let mut at = HEADER;
    while let Ok(header) = AvpHeader::read(&octets[at..], at) {
        if Kind::of(header.vendor, header.code) == Some(kind) {
            break;
        }
        at += header.padded();
    }
    at
}

fn need(seen: Kinds, kind: Kind, end: usize) -> Result<(), Verdict> {
    if seen.has(kind) {
        Ok(())
    } else {
        Err(missing(kind, end))
    }
}
