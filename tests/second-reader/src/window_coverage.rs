//! Windows as request 5 of 02 judges them: by the sides of 2036 on which their times stand, by length, by where they
//! stand, several in one command, and behind what goes before them. A run that lacks a cell has tested less than it
//! says: the cells are such that a reader with another order of times, or of windows, gives another answer in some.

use crate::dictionary::Kind;
use crate::header::Command;
use crate::record::Avp;
use crate::time::{is_right, seconds};
use crate::verdict::{number, Verdict};
use crate::walked::{holder, is, names, Walked};
use std::cmp::Ordering;
use std::iter::successors;
use Command::*;
use Kind::*;

/// Where a window's times stand. The top bit of a time is set before 7 February 2036, 06:28:16 UTC, and clear from then
/// on.
#[derive(Clone, Copy, Debug, PartialEq, Eq, PartialOrd, Ord)]
pub enum Sides {
    /// Both before that moment.
    Before,
    /// Neither before it.
    After,
    /// One before it, one not.
    Over,
}

/// How several windows stand in a command.
#[derive(Clone, Copy, Debug, PartialEq, Eq, PartialOrd, Ord)]
pub enum Arrangement {
    /// Each in a policy of the own list of an answer without E.
    Policies,
    /// One of them in another.
    Nested,
    /// Otherwise.
    Lists,
}

/// Another order of times, by which another window may be the first wrong one.
#[derive(Clone, Copy, Debug, PartialEq, Eq, PartialOrd, Ord)]
pub enum Order {
    /// Document 01's: as unsigned numbers.
    Raw,
    /// RFC 1982's: the nearer way round.
    Nearer,
}

/// Which of several windows are wrong.
#[derive(Clone, Copy, Debug, PartialEq, Eq, PartialOrd, Ord)]
pub enum Pattern {
    /// None.
    None,
    /// The first alone.
    First,
    /// The last alone.
    Last,
    /// All.
    All,
    /// The first wrong one by another order is before (less) or behind (greater) the one by this order.
    Another(Order, Ordering),
    /// One is wrong by this order, by another order none.
    NoneBy(Order),
    /// None is wrong by this order, by another order one.
    OneBy(Order),
}

/// A thing that a run has to reach: what happened to windows of a command that is accepted, or refused for one.
#[derive(Clone, Copy, Debug, PartialEq, Eq, PartialOrd, Ord)]
pub enum Cell {
    /// A window at this depth that is right, equal or reversed (its seconds are above, at or below 0).
    Judged(Sides, Ordering, u8),
    /// A window of so many seconds, near 0, half of the range and all of it.
    Length(Sides, i64),
    /// A window that starts and ends at this time, the first or last on a side.
    EqualAt(u32),
    /// A window over the turn in this group, and whether it is right.
    Within(Kind, bool),
    /// A window over the turn in such a command, a request with this 4203, and whether it is right.
    Of(Command, Option<u32>, bool),
    /// Several windows.
    Several(Arrangement, Pattern),
    /// 5004 at the end of a window that stands behind the end of a wrong one within it.
    OuterEndBehind,
    /// Acceptance of a command that has an end not later than a start in a list of no window.
    TimesOutside,
    /// The fault of an AVP behind the times of a wrong window.
    BehindWalk,
    /// The fault of a row in a command with a wrong window.
    BehindRows,
    /// An exchange rule of such a command, by number and name, where a window is wrong as well.
    BehindRule(Command, u32, Kind),
}

/// Half of the range of times, in seconds.
const HALF: i64 = 1 << 31;

/// The lengths that are looked for in windows on one side, and over the turn: 1 is over it by nothing more, and the
/// longest is the whole range.
const ON_ONE_SIDE: [i64; 2] = [1, HALF - 1];
const OVER_THE_TURN: [i64; 5] = [1, HALF - 1, HALF, HALF + 1, 2 * HALF - 1];

/// The first and the last time on each side.
const ENDS: [u32; 4] = [0x8000_0000, 0xFFFF_FFFF, 0, 0x7FFF_FFFF];

/// The groups that admit a window.
const HOLDERS: [Kind; 4] = [ProxyInfo, SupportedFeatures, TimeWindow, TransferPolicy];

/// The exchange rules before the windows: of which command, number, and the AVP that it names.
const RULES: [(Command, u32, Kind); 14] = [
    (Request, number::MISSING_AVP, ApplicationServiceProviderIdentity),
    (Request, number::MISSING_AVP, CcOutputOctets),
    (Request, number::AVP_NOT_ALLOWED, CcTotalOctets),
    (Request, number::MISSING_AVP, NumberOfUes),
    (Request, number::MISSING_AVP, TimeWindow),
    (Request, number::MISSING_AVP, ReferenceId),
    (Request, number::MISSING_AVP, TransferPolicyId),
    (Request, number::MISSING_AVP, DestinationHost),
    (Answer, number::MISSING_AVP, ResultCode),
    (Answer, number::AVP_NOT_ALLOWED, ExperimentalResult),
    (Answer, number::MISSING_AVP, ReferenceId),
    (Answer, number::MISSING_AVP, PcrfAddress),
    (Answer, number::MISSING_AVP, TimeWindow),
    (Answer, number::MISSING_AVP, RatingGroup),
];

impl Cell {
    /// All that have to be reached.
    pub fn all() -> Vec<Cell> {
        use {Cell::*, Ordering::*, Sides::*};
        let mut cells = Vec::new();
        for depth in 1..=3 {
            for sides in [Before, After] {
                cells.extend([Less, Equal, Greater].map(|order| Judged(sides, order, depth)));
            }
            cells.extend([Less, Greater].map(|order| Judged(Over, order, depth)));
        }
        for sign in [1, -1] {
            cells.extend(ON_ONE_SIDE.map(|length| Length(Before, sign * length)));
            cells.extend(ON_ONE_SIDE.map(|length| Length(After, sign * length)));
            cells.extend(OVER_THE_TURN.map(|length| Length(Over, sign * length)));
        }
        cells.extend(ENDS.map(EqualAt));
        for right in [true, false] {
            cells.extend(HOLDERS.map(|kind| Within(kind, right)));
            cells.extend([0, 1].map(|request_type| Of(Request, Some(request_type), right)));
            cells.extend([Answer, ErrorAnswer].map(|command| Of(command, None, right)));
        }
        for arrangement in [Arrangement::Policies, Arrangement::Nested, Arrangement::Lists] {
            cells.extend(Pattern::all().into_iter().map(|pattern| Several(arrangement, pattern)));
        }
        cells.extend([OuterEndBehind, TimesOutside, BehindWalk, BehindRows]);
        cells.extend(RULES.map(|(command, number, kind)| BehindRule(command, number, kind)));
        cells
    }
}

impl Pattern {
    fn all() -> Vec<Pattern> {
        let mut patterns = vec![Pattern::None, Pattern::First, Pattern::Last, Pattern::All];
        for order in [Order::Raw, Order::Nearer] {
            patterns.extend([Ordering::Less, Ordering::Greater].map(|side| Pattern::Another(order, side)));
            patterns.extend([Pattern::NoneBy(order), Pattern::OneBy(order)]);
        }
        patterns
    }
}

/// A Time-Window of the walk that has both times.
struct Window {
    depth: u8,
    /// The group that it stands in, and whether one around it is a window.
    holder: Option<Kind>,
    nested: bool,
    start: u32,
    end: u32,
    /// Where the data of its end starts.
    end_at: u32,
}

impl Window {
    fn is_wrong(&self) -> bool {
        !is_right(self.start, self.end)
    }

    fn is_wrong_by(&self, order: Order) -> bool {
        match order {
            Order::Raw => self.end <= self.start,
            Order::Nearer => self.end.wrapping_sub(self.start) as i32 <= 0,
        }
    }

    fn sides(&self) -> Sides {
        match (self.start >> 31, self.end >> 31) {
            (1, 1) => Sides::Before,
            (0, 0) => Sides::After,
            _ => Sides::Over,
        }
    }
}

/// The cells that a command with this verdict reaches.
pub(crate) fn cells(walked: &Walked, verdict: &Verdict) -> Vec<Cell> {
    let windows = windows(walked);
    let wrong = windows.iter().any(Window::is_wrong);
    let Some(found) = &walked.found else {
        return wrong.then_some(Cell::BehindWalk).into_iter().collect();
    };
    let mut cells = Vec::new();
    if *verdict == Verdict::ACCEPTED {
        windows.iter().for_each(|window| judged(window, walked, &mut cells));
        cells.extend(has_times_outside(walked).then_some(Cell::TimesOutside));
        several(&windows, walked, &mut cells);
    } else if is(verdict, number::INVALID_AVP_VALUE, TransferEndTime) {
        let fault = windows.iter().find(|window| window.end_at == verdict.place + TIME_HEADER);
        fault.into_iter().for_each(|window| judged(window, walked, &mut cells));
        let before = windows.iter().any(|window| window.is_wrong() && window.end_at < verdict.place);
        cells.extend(before.then_some(Cell::OuterEndBehind));
        several(&windows, walked, &mut cells);
    } else if wrong && found.row_fault == Some(*verdict) {
        cells.push(Cell::BehindRows);
    } else if wrong {
        let rule = RULES.iter().find(|&&(command, number, kind)| {
            command == walked.command && found.row_fault.is_none() && is(verdict, number, kind)
        });
        cells.extend(rule.map(|&(command, number, kind)| Cell::BehindRule(command, number, kind)));
    }
    cells
}

/// Whether a window of the walk, as far as it went, is wrong.
pub(crate) fn is_one_wrong(walked: &Walked) -> bool {
    windows(walked).iter().any(Window::is_wrong)
}

/// The group that each window stands in, if any.
pub(crate) fn holders(walked: &Walked) -> Vec<Option<Kind>> {
    windows(walked).iter().map(|window| window.holder).collect()
}

/// The group, if any, that the window stands in which this verdict refuses.
pub(crate) fn holder_at_fault(walked: &Walked, verdict: &Verdict) -> Option<Option<Kind>> {
    let at_fault = |window: &Window| window.end_at == verdict.place + TIME_HEADER;
    windows(walked).into_iter().find(at_fault).map(|window| window.holder)
}

/// Octets of the header of a time.
const TIME_HEADER: u32 = 12;

/// The windows in walk order.
fn windows(walked: &Walked) -> Vec<Window> {
    let avps = &walked.avps;
    let window = |(at, avp): (usize, &Avp)| {
        let below = || avps.iter().skip(at + 1).take_while(|member| member.depth > avp.depth);
        let time = |kind| below().find(|member| member.depth == avp.depth + 1 && names(member, kind));
        let (start, end) = (time(TransferStartTime)?, time(TransferEndTime)?);
        let holder = holder(avps, at);
        let nested = successors(holder, |&at| crate::walked::holder(avps, at)).any(|at| names(&avps[at], TimeWindow));
        Some(Window {
            depth: avp.depth,
            holder: holder.and_then(|at| Kind::of(avps[at].vendor, avps[at].code)),
            nested,
            start: walked.value(start),
            end: walked.value(end),
            end_at: end.start,
        })
    };
    avps.iter().enumerate().filter(|(_, avp)| names(avp, TimeWindow)).filter_map(window).collect()
}

/// Whether a list that is no window's has an end which is not later than a start.
fn has_times_outside(walked: &Walked) -> bool {
    let avps = &walked.avps;
    let outside = |kind| {
        let times = avps.iter().enumerate().filter(move |(_, avp)| names(avp, kind));
        let times = times.map(|(at, avp)| (holder(avps, at), walked.value(avp)));
        times.filter(|(holder, _)| !holder.is_some_and(|at| names(&avps[at], TimeWindow)))
    };
    let reversed = |(list, start)| outside(TransferEndTime).any(|(other, end)| other == list && !is_right(start, end));
    outside(TransferStartTime).any(reversed)
}

/// The cells of one window that is accepted or at fault.
fn judged(window: &Window, walked: &Walked, cells: &mut Vec<Cell>) {
    let (sides, length) = (window.sides(), seconds(window.start, window.end));
    cells.push(Cell::Judged(sides, length.cmp(&0), window.depth));
    let lengths = if sides == Sides::Over { &OVER_THE_TURN[..] } else { &ON_ONE_SIDE };
    if lengths.contains(&length.abs()) {
        cells.push(Cell::Length(sides, length));
    }
    if length == 0 && ENDS.contains(&window.start) {
        cells.push(Cell::EqualAt(window.start));
    }
    if sides == Sides::Over {
        cells.extend(window.holder.map(|kind| Cell::Within(kind, length > 0)));
        cells.push(Cell::Of(walked.command, walked.request_type(), length > 0));
    }
}

/// The cells of several windows of a command that is accepted or refused for one.
fn several(windows: &[Window], walked: &Walked, cells: &mut Vec<Cell>) {
    let [_, .., last] = windows else {
        return;
    };
    let policy = |window: &Window| window.depth == 2 && window.holder == Some(TransferPolicy);
    let arrangement = if windows.iter().any(|window| window.nested) {
        Arrangement::Nested
    } else if walked.command == Answer && windows.iter().all(policy) {
        Arrangement::Policies
    } else {
        Arrangement::Lists
    };
    let mut add = |pattern| cells.push(Cell::Several(arrangement, pattern));
    let first = windows.iter().position(Window::is_wrong);
    match windows.iter().filter(|window| window.is_wrong()).count() {
        0 => add(Pattern::None),
        1 if first == Some(0) => add(Pattern::First),
        1 if last.is_wrong() => add(Pattern::Last),
        wrong if wrong == windows.len() => add(Pattern::All),
        _ => {}
    }
    for order in [Order::Raw, Order::Nearer] {
        match (first, windows.iter().position(|window| window.is_wrong_by(order))) {
            (Some(first), Some(other)) if other != first => add(Pattern::Another(order, other.cmp(&first))),
            (Some(_), None) => add(Pattern::NoneBy(order)),
            (None, Some(_)) => add(Pattern::OneBy(order)),
            _ => {}
        }
    }
}
