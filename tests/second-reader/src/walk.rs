//! The walk over a command's AVPs: a group is read as a list, and a list reads its AVPs.
//!
//! Faults of single AVPs stop the walk. Row faults come after every one of those, so the walk
//! only remembers the row fault whose list starts first; likewise for windows and policies.

use crate::avp::AvpHeader;
use crate::dictionary::{Form, Kind, Kinds};
use crate::header::{Command, HEADER};
use crate::record::{Avp, MOST_AVPS};
use crate::rows::{self, missing, Members, Rows};
use crate::time;
use crate::verdict::{number, Verdict};

/// The depth at which no group may stand.
const DEEPEST: u8 = 4;

/// Where the AVPs of the walk go.
pub trait Keep {
    /// Readies room; a command of this many octets has at most one AVP for each eight.
    fn expect(&mut self, octets: usize);
    /// Takes the next AVP of the walk.
    fn keep(&mut self, avp: Avp);
}

impl Keep for Vec<Avp> {
    fn expect(&mut self, octets: usize) {
        self.reserve((octets / 8).min(MOST_AVPS));
    }

    #[inline]
    fn keep(&mut self, avp: Avp) {
        self.push(avp);
    }
}

/// Keeps nothing.
pub struct Forget;

impl Keep for Forget {
    fn expect(&mut self, _: usize) {}

    #[inline]
    fn keep(&mut self, _: Avp) {}
}

/// What a whole walk found.
#[derive(Debug, Default)]
pub struct Found {
    /// The fault of the first list, in walk order, that has one.
    pub row_fault: Option<Verdict>,
    /// The fault of the first Time-Window, in walk order, that has one.
    pub window_fault: Option<Verdict>,
    /// What the first incomplete Transfer-Policy of the command's list lacks.
    pub policy_fault: Option<Verdict>,
    /// Transfer-Policies in the command's list.
    pub policies: usize,
    /// Transfer-Request-Type of the command's list.
    pub request_type: u32,
    /// Place of Experimental-Result in the command's list.
    pub experimental_result: usize,
    /// The known AVPs of the command's list.
    pub seen: Kinds,
}

/// Walks the command that fills `octets`; the rows of its own list are those of `command`.
pub fn walk(octets: &[u8], command: Command, keep: &mut impl Keep) -> Result<Found, Verdict> {
    keep.expect(octets.len() - HEADER);
    let mut walk = Walk {
        octets,
        keep,
        count: 0,
        rows: Earliest::default(),
        windows: Earliest::default(),
        found: Found::default(),
    };
    walk.found.seen = walk.list(rows::of_command(command), 1, HEADER, octets.len())?.seen;
    walk.found.row_fault = walk.rows.fault;
    walk.found.window_fault = walk.windows.fault;
    Ok(walk.found)
}

struct Walk<'a, K> {
    octets: &'a [u8],
    keep: &'a mut K,
    count: usize,
    rows: Earliest,
    windows: Earliest,
    found: Found,
}

/// What a finished list tells the group that holds it.
struct List {
    seen: Kinds,
    start_time: u32,
    end_time: u32,
    end_time_at: usize,
}

impl<K: Keep> Walk<'_, K> {
    /// Reads the list from `from` to `to`.
    fn list(&mut self, rows: &'static Rows, depth: u8, from: usize, to: usize) -> Result<List, Verdict> {
        let order = self.count;
        let mut members = Members::of(rows);
        let mut list = List { seen: Kinds::default(), start_time: 0, end_time: 0, end_time_at: 0 };
        let mut at = from;
        while at < to {
            if self.count == MOST_AVPS {
                return Err(Verdict::unnamed(number::TOO_MANY_AVPS, at));
            }
            let header = AvpHeader::read(&self.octets[at..to], at)?;
            let refuse = |number| Err(Verdict::named(number, at, header.vendor, header.code));
            let kind = Kind::of(header.vendor, header.code);
            if header.has_wrong_bits() || (!header.m() && kind.is_some_and(Kind::must)) {
                return refuse(number::INVALID_AVP_BITS);
            }
            let start = at + header.size;
            let end = at + header.length;
            let Some(kind) = kind else {
                if header.m() {
                    return refuse(number::AVP_UNSUPPORTED);
                }
                self.keep(&header, depth, start);
                members.count_unknown(header.vendor, header.code, at);
                at += header.padded();
                continue;
            };
            let form = kind.form();
            match form {
                Form::Four => {
                    let Ok(value) = <[u8; 4]>::try_from(&self.octets[start..end]) else {
                        return refuse(number::INVALID_AVP_LENGTH);
                    };
                    let value = u32::from_be_bytes(value);
                    match kind {
                        Kind::AuthSessionState if value != 1 => return refuse(number::INVALID_AVP_VALUE),
                        Kind::TransferRequestType if value > 1 => return refuse(number::INVALID_AVP_VALUE),
                        Kind::TransferRequestType if depth == 1 => self.found.request_type = value,
                        Kind::TransferStartTime => list.start_time = value,
                        Kind::TransferEndTime => {
                            list.end_time = value;
                            list.end_time_at = at;
                        }
                        _ => {}
                    }
                }
                Form::Eight if end - start != 8 => return refuse(number::INVALID_AVP_LENGTH),
                Form::Group if depth == DEEPEST => return refuse(number::GROUP_TOO_DEEP),
                Form::Eight | Form::Octets | Form::Group => {}
            }
            self.keep(&header, depth, start);
            members.count(kind, at == from, at);
            if form == Form::Group {
                if let Some(rows) = rows::of_group(kind) {
                    self.group(kind, rows, depth, at, start, end)?;
                }
            }
            at += header.padded();
        }
        if let Some(fault) = members.fault(to) {
            self.rows.note(order, fault);
        }
        list.seen = members.seen;
        Ok(list)
    }

    /// Reads the group at `at`, which stands at `depth` and has its members from `start` to `end`.
    fn group(
        &mut self,
        kind: Kind,
        rows: &'static Rows,
        depth: u8,
        at: usize,
        start: usize,
        end: usize,
    ) -> Result<(), Verdict> {
        let order = self.count;
        let list = self.list(rows, depth + 1, start, end)?;
        match kind {
            Kind::TimeWindow if !time::is_right(list.start_time, list.end_time) => {
                let (vendor, code) = (Kind::TransferEndTime.vendor(), Kind::TransferEndTime.code());
                let fault = Verdict::named(number::INVALID_AVP_VALUE, list.end_time_at, vendor, code);
                self.windows.note(order, fault);
            }
            Kind::TransferPolicy if depth == 1 => {
                self.found.policies += 1;
                let lacks = [Kind::TimeWindow, Kind::RatingGroup].into_iter().find(|&member| !list.seen.has(member));
                if let Some(member) = lacks {
                    self.found.policy_fault.get_or_insert(missing(member, end));
                }
            }
            Kind::ExperimentalResult if depth == 1 => self.found.experimental_result = at,
            _ => {}
        }
        Ok(())
    }

    #[inline]
    fn keep(&mut self, header: &AvpHeader, depth: u8, start: usize) {
        self.count += 1;
        self.keep.keep(Avp {
            depth,
            vendor: header.vendor,
            code: header.code,
            m: header.m(),
            p: header.p(),
            start: start as u32,
            length: (header.length - header.size) as u32,
        });
    }
}

/// The fault of the list that comes first in walk order; lists end in another order.
#[derive(Default)]
struct Earliest {
    order: usize,
    fault: Option<Verdict>,
}

impl Earliest {
    #[cold]
    fn note(&mut self, order: usize, fault: Verdict) {
        if self.fault.is_none() || order < self.order {
            *self = Earliest { order, fault: Some(fault) };
        }
    }
}
