//! How often each answer occurred, by name and by depth.

use crate::avp::AvpHeader;
use crate::dictionary::{Form, Kind};
use crate::header::{Command, HEADER};
use crate::rows;
use crate::verdict::{number, Verdict};
use crate::walked::Walked;
use crate::{error_coverage, volume_coverage, window_coverage};
use std::collections::BTreeMap;
use std::fmt::{self, Display, Formatter};
use std::ops::RangeInclusive;

/// Counts of answers.
#[derive(Debug, Default)]
pub struct Coverage {
    /// Books compared.
    pub books: u64,
    /// Books that are none.
    pub not_books: u64,
    /// Books that end in a cut.
    pub cuts: u64,
    /// Commands.
    pub commands: u64,
    by_number: BTreeMap<u32, u64>,
    by_depth: BTreeMap<(u32, u8), u64>,
    by_name: BTreeMap<(u32, u32, u32), u64>,
    by_place: BTreeMap<(u32, u32), u64>,
    by_name_and_depth: BTreeMap<(Command, u32, u32, u32, u8), u64>,
    widths_by_depth: BTreeMap<u8, u64>,
    accepted_by_depth: BTreeMap<u8, u64>,
    by_volumes: BTreeMap<volume_coverage::Cell, u64>,
    by_windows: BTreeMap<window_coverage::Cell, u64>,
    by_errors: BTreeMap<error_coverage::Cell, u64>,
    accepted_by_command: BTreeMap<Command, u64>,
    most_avps: usize,
    longest: usize,
}

impl Coverage {
    /// Counts the answer to a command.
    pub fn note(&mut self, octets: &[u8], verdict: &Verdict) {
        self.commands += 1;
        *self.by_number.entry(verdict.number).or_default() += 1;
        let walked = Walked::of(octets);
        for cell in error_coverage::cells(octets, walked.as_ref(), verdict) {
            *self.by_errors.entry(cell).or_default() += 1;
        }
        if let Some(walked) = &walked {
            for cell in volume_coverage::cells(walked, verdict) {
                *self.by_volumes.entry(cell).or_default() += 1;
            }
            for cell in window_coverage::cells(walked, verdict) {
                *self.by_windows.entry(cell).or_default() += 1;
            }
        }
        match verdict.number {
            number::ACCEPTED => self.accepted(octets),
            _ if verdict.place < HEADER as u32 => {
                *self.by_place.entry((verdict.number, verdict.place)).or_default() += 1;
            }
            _ => {
                let depth = depth(octets, verdict);
                *self.by_depth.entry((verdict.number, depth)).or_default() += 1;
                if let Some(walked) = &walked {
                    let named = (walked.command, verdict.number, verdict.vendor, verdict.code, depth);
                    *self.by_name_and_depth.entry(named).or_default() += 1;
                }
                if verdict.number == number::INVALID_AVP_LENGTH && fits(octets, verdict) {
                    *self.widths_by_depth.entry(depth).or_default() += 1;
                }
            }
        }
        let named = Kind::of(verdict.vendor, verdict.code).is_some();
        let name = match verdict.number {
            number::ACCEPTED => return,
            // Unknown ones under one heading.
            _ if !named => (verdict.number, u32::MAX, u32::MAX),
            _ => (verdict.number, verdict.vendor, verdict.code),
        };
        *self.by_name.entry(name).or_default() += 1;
    }

    /// How often a number occurred.
    pub(crate) fn times(&self, number: u32) -> u64 {
        self.by_number.get(&number).copied().unwrap_or(0)
    }

    /// How often a number occurred at a depth.
    pub(crate) fn times_at(&self, number: u32, depth: u8) -> u64 {
        self.by_depth.get(&(number, depth)).copied().unwrap_or(0)
    }

    /// How often a width was not met at a depth: 5014 of an AVP that lies whole in the command.
    pub(crate) fn widths_at(&self, depth: u8) -> u64 {
        self.widths_by_depth.get(&depth).copied().unwrap_or(0)
    }

    /// How often a number occurred in such a command with this name at one of these depths.
    pub(crate) fn times_named(&self, command: Command, number: u32, kind: Kind, depths: RangeInclusive<u8>) -> u64 {
        let times = |depth| self.by_name_and_depth.get(&(command, number, kind.vendor(), kind.code(), depth));
        depths.filter_map(times).sum()
    }

    /// How often the volumes of a command were as this cell says.
    pub(crate) fn times_volumes(&self, cell: volume_coverage::Cell) -> u64 {
        self.by_volumes.get(&cell).copied().unwrap_or(0)
    }

    /// How often the windows of a command were as this cell says.
    pub(crate) fn times_windows(&self, cell: window_coverage::Cell) -> u64 {
        self.by_windows.get(&cell).copied().unwrap_or(0)
    }

    /// How often an error answer, or a command with the flags beside it, was as this cell says.
    pub(crate) fn times_errors(&self, cell: error_coverage::Cell) -> u64 {
        self.by_errors.get(&cell).copied().unwrap_or(0)
    }

    fn accepted(&mut self, octets: &[u8]) {
        let record = crate::read(octets).record;
        let deepest = record.avps.iter().map(|avp| avp.depth).max().unwrap_or(0);
        *self.accepted_by_depth.entry(deepest).or_default() += 1;
        *self.accepted_by_command.entry(Command::of(record.r, record.e)).or_default() += 1;
        self.most_avps = self.most_avps.max(record.avps.len());
        self.longest = self.longest.max(octets.len());
    }
}

impl Display for Coverage {
    fn fmt(&self, f: &mut Formatter<'_>) -> fmt::Result {
        writeln!(
            f,
            "{} books ({} no book, {} cut), {} commands",
            self.books, self.not_books, self.cuts, self.commands
        )?;
        for number in number::ALL {
            let times = self.by_number.get(&number).copied().unwrap_or(0);
            write!(f, "{number:>6} {times:>8} ")?;
            for ((_, place), times) in self.by_place.range((number, 0)..=(number, u32::MAX)) {
                write!(f, " place {place}: {times}")?;
            }
            for ((_, depth), times) in self.by_depth.range((number, 0)..=(number, u8::MAX)) {
                write!(f, " depth {depth}: {times}")?;
            }
            if number == number::ACCEPTED {
                for (depth, times) in &self.accepted_by_depth {
                    write!(f, " deepest {depth}: {times}")?;
                }
                for (command, times) in &self.accepted_by_command {
                    write!(f, "; {command:?}: {times}")?;
                }
                write!(f, "; at most {} AVPs, {} octets", self.most_avps, self.longest)?;
            }
            writeln!(f)?;
        }
        for number in [
            number::INVALID_AVP_BITS,
            number::INVALID_AVP_VALUE,
            number::MISSING_AVP,
            number::AVP_NOT_ALLOWED,
            number::AVP_OCCURS_TOO_MANY_TIMES,
            number::INVALID_AVP_LENGTH,
            number::GROUP_TOO_DEEP,
        ] {
            write!(f, "{number} by name:")?;
            let from = (number, 0, 0);
            for ((_, vendor, code), times) in self.by_name.range(from..(number + 1, 0, 0)) {
                match *vendor {
                    u32::MAX => write!(f, " unknown={times}")?,
                    0 => write!(f, " {code}={times}")?,
                    _ => write!(f, " {vendor}/{code}={times}")?,
                }
            }
            writeln!(f)?;
        }
        writeln!(f, "volumes:")?;
        for cell in volume_coverage::Cell::all() {
            writeln!(f, "{:>8}  {cell:?}", self.times_volumes(cell))?;
        }
        writeln!(f, "windows:")?;
        for cell in window_coverage::Cell::all() {
            writeln!(f, "{:>8}  {cell:?}", self.times_windows(cell))?;
        }
        writeln!(f, "error answers:")?;
        for cell in error_coverage::Cell::all() {
            writeln!(f, "{:>8}  {cell:?}", self.times_errors(cell))?;
        }
        Ok(())
    }
}

/// Whether the AVP at fault is known, has a fixed width and lies whole in the command, so that its width is at fault;
/// an AVP that only its list cuts off may pass for one.
fn fits(octets: &[u8], verdict: &Verdict) -> bool {
    let place = verdict.place as usize;
    AvpHeader::read(&octets[place..], place).is_ok_and(|header| {
        let width = match Kind::of(header.vendor, header.code).map(Kind::form) {
            Some(Form::Four) => 4,
            Some(Form::Eight) => 8,
            _ => return false,
        };
        header.length - header.size != width
    })
}

/// The depth of the AVP at fault: for 5005 that of the members of the list that lacks it.
fn depth(octets: &[u8], verdict: &Verdict) -> u8 {
    let mut found = 0;
    scan(octets, verdict, 1, HEADER, octets.len(), &mut found);
    found
}

/// Goes through the lists without judging, and takes the first that fits.
fn scan(octets: &[u8], verdict: &Verdict, depth: u8, from: usize, to: usize, found: &mut u8) {
    let place = verdict.place as usize;
    let missing = verdict.number == number::MISSING_AVP;
    let mut at = from;
    let mut has = false;
    let mut inner = Vec::new();
    while at < to {
        if at == place && !missing {
            *found = depth;
            return;
        }
        let Ok(header) = AvpHeader::read(&octets[at..to], at) else {
            break;
        };
        has |= header.vendor == verdict.vendor && header.code == verdict.code;
        let group = Kind::of(header.vendor, header.code).is_some_and(|k| rows::of_group(k).is_some());
        if group && depth < 4 {
            inner.push((at + header.size, at + header.length));
        }
        at += header.padded();
    }
    if missing && to == place && !has {
        *found = depth;
        return;
    }
    for (from, to) in inner {
        if *found == 0 {
            scan(octets, verdict, depth + 1, from, to, found);
        }
    }
}
