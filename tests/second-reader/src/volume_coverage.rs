//! Where the total volume (421) stands beside a direction (412, 414), request 2 of 02: by the order of the AVPs, among
//! the rules before and behind it, and where it does not apply. A run that lacks a cell has tested less than it says.

use crate::dictionary::{Kind, Kinds, DIRECTIONS, VOLUMES};
use crate::header::Command;
use crate::record::Avp;
use crate::verdict::{number, Verdict};
use crate::walk::Found;
use crate::walked::{is, names, Walked};
use Kind::*;

/// The total and one direction or both, in each order.
const ORDERS: [&[Kind]; 10] = [
    &[CcTotalOctets, CcOutputOctets],
    &[CcOutputOctets, CcTotalOctets],
    &[CcTotalOctets, CcInputOctets],
    &[CcInputOctets, CcTotalOctets],
    &[CcTotalOctets, CcOutputOctets, CcInputOctets],
    &[CcTotalOctets, CcInputOctets, CcOutputOctets],
    &[CcOutputOctets, CcTotalOctets, CcInputOctets],
    &[CcInputOctets, CcTotalOctets, CcOutputOctets],
    &[CcOutputOctets, CcInputOctets, CcTotalOctets],
    &[CcInputOctets, CcOutputOctets, CcTotalOctets],
];

/// The rules behind this one: number, and the AVP that it names.
const LATER: [(u32, Kind); 3] = [
    (number::MISSING_AVP, NumberOfUes),
    (number::MISSING_AVP, TimeWindow),
    (number::INVALID_AVP_VALUE, TransferEndTime),
];

/// A thing that a run has to reach. A first request has 4203 = 0; "beside" is within the command's own list.
#[derive(Clone, Copy, Debug, PartialEq, Eq, PartialOrd, Ord)]
pub enum Cell {
    /// 5008 at the 421 of a first request whose list has the volumes in this order.
    Refused(&'static [Kind]),
    /// The same where a later rule, by number and name, is broken as well.
    RefusedBefore(u32, Kind),
    /// The same where the total is 0.
    RefusedTotalOf0,
    /// The same where the directions are 0.
    RefusedDirectionsOf0,
    /// The same with another 421 in a group before the one at fault.
    RefusedInnerBefore,
    /// The same with another 421 in a group behind it.
    RefusedInnerBehind,
    /// The fault of a row in a first request that has the total beside a direction.
    BehindRows,
    /// 5009 of a volume in a first request that has the total beside a direction.
    BehindRepetition,
    /// 5005 for 532 in a first request that has the total beside a direction.
    BehindAsp,
    /// Acceptance of a first request with the total, and a direction in a group alone.
    DirectionInGroup,
    /// Acceptance of a first request with a direction, and the total in a group alone.
    TotalInGroup,
    /// 5005 for 414 in a first request with the total and a direction in groups alone.
    BothInGroups,
    /// Acceptance of a request with 4203 = 1 whose list has the volumes in this order.
    ChosenPolicy(&'static [Kind]),
    /// Acceptance of an answer without E that has the total beside a direction.
    Answer,
}

impl Cell {
    /// All that have to be reached.
    pub fn all() -> Vec<Cell> {
        use Cell::*;
        let mut cells: Vec<Cell> = ORDERS.map(Refused).into();
        cells.extend(LATER.map(|(number, kind)| RefusedBefore(number, kind)));
        cells.extend([RefusedTotalOf0, RefusedDirectionsOf0, RefusedInnerBefore, RefusedInnerBehind]);
        cells.extend([BehindRows, BehindRepetition, BehindAsp, DirectionInGroup, TotalInGroup, BothInGroups]);
        cells.extend(ORDERS.map(ChosenPolicy));
        cells.push(Answer);
        cells
    }
}

/// The cells that a command with this verdict reaches.
pub(crate) fn cells(walked: &Walked, verdict: &Verdict) -> Vec<Cell> {
    let Some(found) = &walked.found else {
        return Vec::new();
    };
    let volumes = walked.avps.iter().filter(|avp| VOLUMES.into_iter().any(|kind| names(avp, kind)));
    let (own, inner): (Vec<Avp>, Vec<Avp>) = volumes.partition(|avp| avp.depth == 1);
    let (own_kinds, inner_kinds) = (kinds(&own), kinds(&inner));
    let order = ORDERS.into_iter().find(|&order| order == own_kinds);
    let accepted = *verdict == Verdict::ACCEPTED;
    match (walked.request_type(), order) {
        (Some(0), Some(order)) => beside(order, (&own, &inner), walked, found, verdict),
        (Some(0), None) => apart(&own_kinds, &inner_kinds, verdict).into_iter().collect(),
        (Some(_), Some(order)) if accepted => vec![Cell::ChosenPolicy(order)],
        (None, Some(_)) if accepted && walked.command == Command::Answer => vec![Cell::Answer],
        _ => Vec::new(),
    }
}

/// The cells of a first request whose list has the volumes `own` in this order, and whose groups have `inner`.
fn beside(
    order: &'static [Kind],
    (own, inner): (&[Avp], &[Avp]),
    walked: &Walked,
    found: &Found,
    verdict: &Verdict,
) -> Vec<Cell> {
    if found.row_fault == Some(*verdict) {
        return vec![Cell::BehindRows];
    }
    if is(verdict, number::MISSING_AVP, ApplicationServiceProviderIdentity) {
        return vec![Cell::BehindAsp];
    }
    if !is(verdict, number::AVP_NOT_ALLOWED, CcTotalOctets) {
        return Vec::new();
    }
    let is_0 = |avp: &Avp| walked.data(avp).iter().all(|&octet| octet == 0);
    let (total, directions): (Vec<&Avp>, Vec<&Avp>) = own.iter().partition(|avp| names(avp, CcTotalOctets));
    let broken = |&(number, kind): &(u32, Kind)| match number {
        number::MISSING_AVP => !found.seen.has(kind),
        _ => found.window_fault.is_some(),
    };
    let inner_totals = || inner.iter().filter(|avp| names(avp, CcTotalOctets)).map(|avp| avp.start);
    let mut cells = vec![Cell::Refused(order)];
    cells.extend(inner_totals().any(|start| start < verdict.place).then_some(Cell::RefusedInnerBefore));
    cells.extend(inner_totals().any(|start| start > verdict.place).then_some(Cell::RefusedInnerBehind));
    cells.extend(LATER.into_iter().filter(broken).map(|(number, kind)| Cell::RefusedBefore(number, kind)));
    cells.extend(total.into_iter().all(is_0).then_some(Cell::RefusedTotalOf0));
    cells.extend(directions.into_iter().all(is_0).then_some(Cell::RefusedDirectionsOf0));
    cells
}

/// The cell of a first request that has the total beside a direction with a repetition, or not at all.
fn apart(own: &[Kind], inner: &[Kind], verdict: &Verdict) -> Option<Cell> {
    let has = |kinds: &[Kind]| {
        let kinds = Kinds::of(kinds);
        (kinds.has(CcTotalOctets), kinds.has_any(Kinds::of(&DIRECTIONS)))
    };
    let accepted = *verdict == Verdict::ACCEPTED;
    match (has(own), has(inner)) {
        ((true, true), _) if verdict.number == number::AVP_OCCURS_TOO_MANY_TIMES && is_volume(verdict) => {
            Some(Cell::BehindRepetition)
        }
        ((true, false), (_, true)) if accepted => Some(Cell::DirectionInGroup),
        ((false, true), (true, _)) if accepted => Some(Cell::TotalInGroup),
        ((false, false), (true, true)) if is(verdict, number::MISSING_AVP, CcOutputOctets) => Some(Cell::BothInGroups),
        _ => None,
    }
}

fn kinds(avps: &[Avp]) -> Vec<Kind> {
    avps.iter().filter_map(|avp| Kind::of(avp.vendor, avp.code)).collect()
}

fn is_volume(verdict: &Verdict) -> bool {
    VOLUMES.into_iter().any(|kind| is(verdict, verdict.number, kind))
}
