//! The cells of error answers, request 1 of 02: by their flags, by each row of the general form and each AVP that has
//! no row there, by the exchange rules that are not asked of them, by their groups and windows, and by the order of the
//! checks. The rows are named here once more, not taken from the table that judges by them: a row too many or too few
//! there leaves a cell empty.

use crate::dictionary::{Kind, VENDOR_3GPP};
use crate::rows;
use crate::verdict::number;
use Kind::*;

/// The codes, without vendor, that stand at most once.
const SINGLE: [u32; 9] = [263, 264, 296, 268, 278, 281, 294, 279, 297];

/// The rows that have to be there, in the order in which a missing one is told.
pub(crate) const REQUIRED: [Kind; 3] = [OriginHost, OriginRealm, ResultCode];

/// Whether a kind stands at most once; any other stands in any number.
pub(crate) fn is_single(kind: Kind) -> bool {
    kind.vendor() == 0 && SINGLE.contains(&kind.code())
}

/// A thing that a run has to reach: in error answers, unless it says otherwise. "Own" is of the command's own list.
/// What a field is stands with its cell.
#[derive(Clone, Copy, Debug, PartialEq, Eq, PartialOrd, Ord)]
#[allow(missing_docs)]
pub enum Cell {
    /// Acceptance, with an own 263 or without, by P and T.
    Accepted { session: bool, p: bool, t: bool },
    /// 3008 of a command with R and E, and whether P is set.
    RequestWithE { p: bool },
    /// 3008 of a command with P and E clear, and whether R is set.
    ClearP { r: bool },
    /// 5008 at an own 263 that is not first, and whether another one follows.
    SessionLate { again: bool },
    /// The same behind 263s of vendors alone, the first of them of this vendor.
    SessionBehind(u32),
    /// Acceptance with a 263 in a group alone.
    SessionInGroup,
    /// 5005 for an own row.
    Missing(Kind),
    /// The same where the other row is missing as well.
    MissingBefore(Kind, Kind),
    /// 5009 of an own row.
    Exceeding(Kind),
    /// Acceptance with so many own AVPs of a kind that has no row or any number; 2 is two or more.
    Times(Kind, usize),
    /// Acceptance with two or more own AVPs of an unknown name.
    UnknownTwice,
    /// 5005 for 268 with an own 297.
    ExperimentalResultAlone,
    /// Acceptance with 268 and 297.
    BothResults,
    /// Acceptance with a 268 of this number.
    ResultOf(u32),
    /// Acceptance with one own 4207 or several, where this is missing: own, or in one of them.
    Policies { several: bool, lack: Kind },
    /// Acceptance with an own 4203 of this value.
    RequestType(u32),
    /// Acceptance with the own total volume beside a direction.
    TotalBesideDirection,
    /// Acceptance with an own 279 whose data are no AVPs.
    MalformedFailedAvp,
    /// One of the walk's checks.
    Walk(u32),
    /// 5004 of 277 or 4203.
    Value(Kind),
    /// The unknown AVP, own or in a group: 5001 with M, acceptance without.
    Unknown { m: bool, own: bool },
    /// The fault of a row in a group of this kind.
    Group(Kind, u32),
    /// A window, own or in such a group: acceptance if it is right, else 5004.
    Window(Option<Kind>, bool),
    /// A fault and a later one, which does not show.
    Before(Fault, Fault),
}

/// The faults whose order shows in an error answer.
#[derive(Clone, Copy, Debug, PartialEq, Eq, PartialOrd, Ord)]
pub enum Fault {
    /// One of the walk's checks.
    Walk,
    /// An own 263 that is not first.
    Session,
    /// An own AVP beyond its row.
    Exceeding,
    /// An own row that is missing.
    Missing,
    /// A row in a group.
    Group,
    /// A wrong window.
    Window,
}

/// Faults, the later one as what does not show.
const ORDERS: [(Fault, Fault); 9] = [
    (Fault::Walk, Fault::Session),
    (Fault::Walk, Fault::Window),
    (Fault::Session, Fault::Missing),
    (Fault::Exceeding, Fault::Missing),
    (Fault::Session, Fault::Group),
    (Fault::Missing, Fault::Group),
    (Fault::Exceeding, Fault::Window),
    (Fault::Missing, Fault::Window),
    (Fault::Group, Fault::Window),
];

/// The numbers of the walk's checks.
const WALK: [u32; 6] = [
    number::TOO_MANY_AVPS,
    number::INVALID_AVP_LENGTH,
    number::INVALID_AVP_BITS,
    number::AVP_UNSUPPORTED,
    number::INVALID_AVP_VALUE,
    number::GROUP_TOO_DEEP,
];

/// The numbers of 268 that are looked for: none that is assigned, of a success, of a protocol error, of failures.
pub(crate) const RESULTS: [u32; 5] = [0, 2001, 3008, 4002, 5005];

/// What BTA's exchange rules ask for beside a 4207, and in it.
pub(crate) const POLICY_LACKS: [Kind; 4] = [ReferenceId, PcrfAddress, TimeWindow, RatingGroup];

/// The groups that admit a window.
const HOLDERS: [Kind; 4] = [ProxyInfo, SupportedFeatures, TimeWindow, TransferPolicy];

impl Cell {
    /// All that have to be reached.
    pub fn all() -> Vec<Cell> {
        use Cell::*;
        let mut cells = vec![SessionInGroup, UnknownTwice, ExperimentalResultAlone, BothResults];
        cells.extend([TotalBesideDirection, MalformedFailedAvp]);
        for p in [true, false] {
            for t in [true, false] {
                cells.extend([true, false].map(|session| Accepted { session, p, t }));
            }
            cells.push(RequestWithE { p });
            cells.extend([Unknown { m: p, own: true }, Unknown { m: p, own: false }]);
        }
        cells.extend([true, false].map(|r| ClearP { r }));
        cells.extend([true, false].map(|again| SessionLate { again }));
        cells.extend([VENDOR_3GPP, VENDOR_3GPP + 1].map(SessionBehind));
        for (at, &kind) in REQUIRED.iter().enumerate() {
            cells.push(Missing(kind));
            cells.extend(REQUIRED[at + 1..].iter().map(|&other| MissingBefore(kind, other)));
        }
        for &kind in Kind::ALL {
            cells.push(if is_single(kind) { Exceeding(kind) } else { Times(kind, 2) });
        }
        for kind in [VendorSpecificApplicationId, AuthSessionState] {
            cells.extend([Times(kind, 0), Times(kind, 1)]);
        }
        cells.extend(RESULTS.map(ResultOf));
        for several in [true, false] {
            cells.extend(POLICY_LACKS.map(|lack| Policies { several, lack }));
        }
        cells.extend([0, 1].map(RequestType));
        cells.extend(WALK.map(Walk));
        cells.extend([AuthSessionState, TransferRequestType].map(Value));
        for &kind in Kind::ALL {
            if let Some(rows) = rows::of_group(kind) {
                cells.extend([number::MISSING_AVP, number::AVP_OCCURS_TOO_MANY_TIMES].map(|n| Group(kind, n)));
                cells.extend((!rows.open).then_some(Group(kind, number::AVP_NOT_ALLOWED)));
            }
        }
        for right in [true, false] {
            cells.push(Window(None, right));
            cells.extend(HOLDERS.map(|kind| Window(Some(kind), right)));
        }
        cells.extend(ORDERS.map(|(first, later)| Before(first, later)));
        cells
    }
}
