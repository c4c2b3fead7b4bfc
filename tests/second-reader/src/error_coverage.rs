//! Which cells of error answers a command reaches. A run that lacks a cell has tested less than it says; one that lacks
//! none has met each thing of the list, which does not show that every other way of judging would be seen. The wrong
//! readers that have to be seen are in tests/error_readers.

pub use crate::error_cells::{Cell, Fault};

use crate::avp::AvpHeader;
use crate::dictionary::{Kind, Kinds};
use crate::error_cells::{is_single, POLICY_LACKS, REQUIRED, RESULTS};
use crate::header::Command;
use crate::record::Avp;
use crate::rows;
use crate::verdict::{number, Verdict};
use crate::walk::Found;
use crate::walked::{holder, names, place, Walked};
use crate::window_coverage;
use Kind::*;

/// The cells that a command with this verdict reaches; `walked` is that command.
pub(crate) fn cells(octets: &[u8], walked: Option<&Walked>, verdict: &Verdict) -> Vec<Cell> {
    let Some(walked) = walked else {
        return flags(octets, verdict).into_iter().collect();
    };
    if walked.command != Command::ErrorAnswer {
        return Vec::new();
    }
    match &walked.found {
        None => stopped(walked, verdict),
        Some(found) if found.row_fault == Some(*verdict) => rows(walked, found, verdict),
        Some(_) if *verdict == Verdict::ACCEPTED => accepted(walked),
        // No exchange rule but that of windows.
        Some(_) => {
            let holder = window_coverage::holder_at_fault(walked, verdict);
            holder.map(|holder| Cell::Window(holder, false)).into_iter().collect()
        }
    }
}

/// The cell of a header whose flags are refused.
fn flags(octets: &[u8], verdict: &Verdict) -> Option<Cell> {
    if verdict.number != number::INVALID_HEADER_BITS {
        return None;
    }
    let [r, p, e] = [0x80, 0x40, 0x20].map(|bit| octets[4] & bit != 0);
    Some(if e { Cell::RequestWithE { p } } else { Cell::ClearP { r } })
}

/// The cells of a walk that stops.
fn stopped(walked: &Walked, verdict: &Verdict) -> Vec<Cell> {
    let mut cells = vec![Cell::Walk(verdict.number)];
    match verdict.number {
        number::INVALID_AVP_VALUE => cells.extend(Kind::of(verdict.vendor, verdict.code).map(Cell::Value)),
        number::AVP_UNSUPPORTED => cells.push(Cell::Unknown { m: true, own: !walked.is_within(verdict.place) }),
        _ => {}
    }
    let session = own(walked).skip(1).any(|avp| names(avp, SessionId));
    cells.extend(session.then_some(Cell::Before(Fault::Walk, Fault::Session)));
    cells.extend(window_coverage::is_one_wrong(walked).then_some(Cell::Before(Fault::Walk, Fault::Window)));
    cells
}

/// The cells of a row's fault.
fn rows(walked: &Walked, found: &Found, verdict: &Verdict) -> Vec<Cell> {
    if let Some(group) = group_at_fault(walked, verdict) {
        let window = window_coverage::is_one_wrong(walked).then_some(Cell::Before(Fault::Group, Fault::Window));
        return [Cell::Group(group, verdict.number)].into_iter().chain(window).collect();
    }
    let kind = Kind::of(verdict.vendor, verdict.code).unwrap_or(SessionId);
    let lacks = || REQUIRED.into_iter().filter(|&other| !found.seen.has(other) && other != kind);
    let mut cells = Vec::new();
    let fault = match verdict.number {
        number::MISSING_AVP => {
            cells.push(Cell::Missing(kind));
            cells.extend(lacks().map(|other| Cell::MissingBefore(kind, other)));
            let alone = kind == ResultCode && found.seen.has(ExperimentalResult);
            cells.extend(alone.then_some(Cell::ExperimentalResultAlone));
            Fault::Missing
        }
        number::AVP_OCCURS_TOO_MANY_TIMES => {
            cells.push(Cell::Exceeding(kind));
            Fault::Exceeding
        }
        _ => {
            let again = own(walked).filter(|avp| names(avp, SessionId)).count() > 1;
            cells.push(Cell::SessionLate { again });
            let before: Vec<&Avp> = own(walked).take_while(|avp| place(avp) < verdict.place).collect();
            let alone = before.iter().all(|avp| is_session_of_vendor(avp));
            cells.extend(before.first().filter(|_| alone).map(|first| Cell::SessionBehind(first.vendor)));
            Fault::Session
        }
    };
    let later = [
        (Fault::Missing, fault != Fault::Missing && lacks().next().is_some()),
        (Fault::Group, (0..walked.avps.len()).any(|at| has_lack(walked, at))),
        (Fault::Window, window_coverage::is_one_wrong(walked)),
    ];
    cells.extend(later.into_iter().filter(|&(_, is)| is).map(|(later, _)| Cell::Before(fault, later)));
    cells
}

/// The cells of an accepted error answer.
fn accepted(walked: &Walked) -> Vec<Cell> {
    let times = |kind| own(walked).filter(|avp| names(avp, kind)).count();
    let flag = |bit| walked.octets[4] & bit != 0;
    let session = times(SessionId) > 0;
    let mut cells = vec![Cell::Accepted { session, p: flag(0x40), t: flag(0x10) }];
    let mut add = |is: bool, cell| cells.extend(is.then_some(cell));
    add(!session && walked.avps.iter().any(|avp| names(avp, SessionId)), Cell::SessionInGroup);
    for &kind in Kind::ALL.iter().filter(|&&kind| !is_single(kind)) {
        add(true, Cell::Times(kind, times(kind).min(2)));
    }
    let unknown = |avp: &&Avp| Kind::of(avp.vendor, avp.code).is_none();
    let twice = |a: &Avp| own(walked).filter(|b| (a.vendor, a.code) == (b.vendor, b.code)).count() > 1;
    add(own(walked).filter(unknown).any(twice), Cell::UnknownTwice);
    add(own(walked).any(|avp| unknown(&avp)), Cell::Unknown { m: false, own: true });
    add(walked.avps.iter().any(|avp| avp.depth > 1 && unknown(&avp)), Cell::Unknown { m: false, own: false });
    add(times(ExperimentalResult) > 0, Cell::BothResults);
    let value = |kind| own(walked).find(|avp| names(avp, kind)).map(|avp| walked.value(avp));
    cells.extend(value(ResultCode).filter(|value| RESULTS.contains(value)).map(Cell::ResultOf));
    cells.extend(value(TransferRequestType).map(Cell::RequestType));
    let both = times(CcTotalOctets) > 0 && times(CcInputOctets) + times(CcOutputOctets) > 0;
    cells.extend(both.then_some(Cell::TotalBesideDirection));
    let malformed = |avp: &Avp| names(avp, FailedAvp) && !is_list(walked.data(avp));
    cells.extend(own(walked).any(malformed).then_some(Cell::MalformedFailedAvp));
    let policies: Vec<usize> = (0..walked.avps.len()).filter(|&at| is_own_policy(&walked.avps[at])).collect();
    for lack in POLICY_LACKS {
        let lacks = match lack {
            TimeWindow | RatingGroup => policies.iter().any(|&at| !members(walked, at).has(lack)),
            _ => times(lack) == 0,
        };
        let several = policies.len() > 1;
        cells.extend((!policies.is_empty() && lacks).then_some(Cell::Policies { several, lack }));
    }
    cells.extend(window_coverage::holders(walked).into_iter().map(|holder| Cell::Window(holder, true)));
    cells
}

/// The AVPs of the command's own list.
fn own<'a>(walked: &'a Walked) -> impl Iterator<Item = &'a Avp> {
    walked.avps.iter().filter(|avp| avp.depth == 1)
}

/// A 263 that the dictionary lacks.
fn is_session_of_vendor(avp: &Avp) -> bool {
    avp.vendor != 0 && avp.code == SessionId.code()
}

fn is_own_policy(avp: &Avp) -> bool {
    avp.depth == 1 && names(avp, TransferPolicy)
}

/// The known direct members of the group at this position.
fn members(walked: &Walked, at: usize) -> Kinds {
    let depth = walked.avps[at].depth;
    let below = walked.avps[at + 1..].iter().take_while(|avp| avp.depth > depth);
    let direct = below.filter(|avp| avp.depth == depth + 1).filter_map(|avp| Kind::of(avp.vendor, avp.code));
    direct.fold(Kinds::default(), Kinds::with)
}

/// Whether the AVP at this position is a group that lacks a row.
fn has_lack(walked: &Walked, at: usize) -> bool {
    let avp = &walked.avps[at];
    let rows = Kind::of(avp.vendor, avp.code).and_then(rows::of_group);
    rows.is_some_and(|rows| !members(walked, at).has_all(rows.needed))
}

/// The group whose row is at fault, if it is not the command's own list: no group needs what that list needs.
fn group_at_fault(walked: &Walked, verdict: &Verdict) -> Option<Kind> {
    let avps = &walked.avps;
    let kind = |at: usize| Kind::of(avps[at].vendor, avps[at].code);
    if verdict.number != number::MISSING_AVP {
        let at = avps.iter().position(|avp| place(avp) == verdict.place)?;
        return kind(holder(avps, at)?);
    }
    let missing = Kind::of(verdict.vendor, verdict.code)?;
    let lacks = |&at: &usize| {
        let needs = kind(at).and_then(rows::of_group).is_some_and(|rows| rows.needed.has(missing));
        avps[at].start + avps[at].length == verdict.place && needs && !members(walked, at).has(missing)
    };
    (0..avps.len()).find(lacks).and_then(kind)
}

/// Whether these octets are AVPs.
fn is_list(mut data: &[u8]) -> bool {
    while let Ok(header) = AvpHeader::read(data, 0) {
        data = &data[header.padded()..];
    }
    data.is_empty()
}
