//! What a trial of a search reached: numbers and ordinals, names by the depths at which they stand,
//! repeated AVPs of accepted commands, and made-up records by their count, depths and the places
//! behind the count. A trial that lacks a cell has tested less than it says.

use crate::dictionary::Kind;
use crate::draft::Draft;
use crate::record::MOST_AVPS;
use std::collections::BTreeMap;
use std::fmt::{self, Display, Formatter};
use Kind::*;

/// Where a record comes from.
#[derive(Clone, Copy, Debug, PartialEq, Eq, PartialOrd, Ord)]
pub enum Origin {
    /// An accepted command.
    Command,
    /// It is made up.
    MadeUp,
}

/// How an ordinal stands to the number.
#[derive(Clone, Copy, Debug, PartialEq, Eq, PartialOrd, Ord)]
pub enum Ordinal {
    /// Below the last.
    Lower,
    /// One less: the last.
    Last,
    /// As large.
    At,
    /// One more.
    Next,
    /// One that is 0 if cut to fewer bits.
    Far,
    /// The largest ordinal.
    Largest,
}

const ORDINALS: [Ordinal; 6] =
    [Ordinal::Lower, Ordinal::Last, Ordinal::At, Ordinal::Next, Ordinal::Far, Ordinal::Largest];

impl Ordinal {
    fn of(ordinal: usize, number: usize) -> Ordinal {
        match ordinal {
            usize::MAX => Ordinal::Largest,
            _ if ordinal + 1 < number => Ordinal::Lower,
            _ if ordinal < number => Ordinal::Last,
            _ if ordinal == number => Ordinal::At,
            _ if ordinal == number + 1 => Ordinal::Next,
            _ => Ordinal::Far,
        }
    }

    /// Whether there is such an ordinal, which is tried in records of this origin.
    fn is_tried(self, origin: Origin, number: usize) -> bool {
        match self {
            Ordinal::Lower => number > 1,
            Ordinal::Last => number > 0,
            Ordinal::Far => origin == Origin::MadeUp,
            _ => true,
        }
    }
}

/// Where the AVPs of a name stand.
#[derive(Clone, Copy, Debug, PartialEq, Eq, PartialOrd, Ord)]
pub enum Standing {
    /// Nowhere, or at depth 0.
    Nowhere,
    /// At depth 1 alone.
    Own,
    /// Deeper alone.
    Deeper,
    /// At depth 1 and deeper.
    Both,
}

const STANDINGS: [Standing; 4] = [Standing::Nowhere, Standing::Own, Standing::Deeper, Standing::Both];

/// A thing that a trial has to reach.
#[derive(Clone, Copy, Debug, PartialEq, Eq, PartialOrd, Ord)]
pub enum Cell {
    /// An ordinal where there are so many of the name; 4 stands for more than 3.
    Sought(Origin, usize, Ordinal),
    /// The list of all of the name, so many; 4 stands for more than 3.
    Listed(Origin, usize),
    /// A name, by where its AVPs stand.
    Stands(Origin, Standing),
    /// An accepted command with so many of this kind in its own list; 4 stands for more than 3.
    Repeated(Kind, usize),
    /// An accepted command with several of this kind in its own list, and one in a group.
    RepeatedAndWithin(Kind),
    /// A made-up record of this count whose last place is at depth 1.
    Count(u32),
    /// The same, of a count above 257.
    CountMore,
    /// 256 of one name at depth 1.
    Most,
    /// One of the name in the last used place, at depth 1.
    LastUsed,
    /// One of the name right behind the count, at depth 1, and whether there is one before.
    RightBehind(bool),
    /// One of the name further behind the count, at depth 1, and whether there is one before.
    FarBehind(bool),
    /// One of the name at depth 1 behind a used place of depth 0.
    BehindDepth0,
    /// One of the name at this depth before one at depth 1.
    Before(u32),
    /// One of the name at this depth behind the last at depth 1.
    Behind(u32),
}

/// Numbers of AVPs, 4 for more than 3.
const MORE: usize = 4;

/// The kinds that a command's own list has in any number.
const REPEATED: [Kind; 6] = [TransferPolicy, RouteRecord, ProxyInfo, SupportedFeatures, RedirectHost, Load];

/// Counts at the limits, and depths that are not 1.
const COUNTS: [u32; 5] = [0, 255, 256, 257, u32::MAX];
const DEPTHS: [u32; 5] = [0, 2, 5, 257, u32::MAX];

impl Cell {
    /// All that have to be reached.
    pub fn all() -> Vec<Cell> {
        let mut cells = Vec::new();
        for origin in [Origin::Command, Origin::MadeUp] {
            for number in 0..=MORE {
                let tried = ORDINALS.into_iter().filter(|ordinal| ordinal.is_tried(origin, number));
                cells.extend(tried.map(|ordinal| Cell::Sought(origin, number, ordinal)));
            }
            cells.extend((0..=MORE).map(|number| Cell::Listed(origin, number)));
            cells.extend(STANDINGS.map(|standing| Cell::Stands(origin, standing)));
        }
        for kind in REPEATED {
            cells.extend((2..=MORE).map(|number| Cell::Repeated(kind, number)));
            cells.push(Cell::RepeatedAndWithin(kind));
        }
        cells.extend(COUNTS.map(Cell::Count));
        cells.extend([Cell::CountMore, Cell::Most, Cell::LastUsed, Cell::BehindDepth0]);
        for before in [true, false] {
            cells.extend([Cell::RightBehind(before), Cell::FarBehind(before)]);
        }
        cells.extend(DEPTHS.map(Cell::Before));
        cells.extend(DEPTHS.map(Cell::Behind));
        cells
    }
}

/// Counts of cells. Those that a record reaches many times are kept apart, which takes less time.
#[derive(Debug, Default)]
pub struct SearchCoverage {
    records: [u64; 2],
    sought: [[[u64; ORDINALS.len()]; MORE + 1]; 2],
    listed: [[u64; MORE + 1]; 2],
    stands: [[u64; STANDINGS.len()]; 2],
    cells: BTreeMap<Cell, u64>,
}

impl SearchCoverage {
    /// Counts a record.
    pub(super) fn note_record(&mut self, origin: Origin) {
        self.records[origin as usize] += 1;
    }

    /// The names that were counted.
    pub(super) fn names(&self) -> u64 {
        self.stands.iter().flatten().sum()
    }

    /// Counts a search for an ordinal among so many.
    pub(super) fn note_ordinal(&mut self, origin: Origin, number: usize, ordinal: usize) {
        self.sought[origin as usize][number.min(MORE)][Ordinal::of(ordinal, number) as usize] += 1;
    }

    /// Counts a list of so many.
    pub(super) fn note_list(&mut self, origin: Origin, number: usize) {
        self.listed[origin as usize][number.min(MORE)] += 1;
    }

    /// Counts a name that was looked for, by the depths of its AVPs, 0 where there is none.
    pub(super) fn note_name(&mut self, origin: Origin, name: (u32, u32), depths: impl Iterator<Item = u8>) {
        let (mut own, mut deeper) = (0, 0);
        for depth in depths {
            own += usize::from(depth == 1);
            deeper += usize::from(depth > 1);
        }
        let standing = match (own, deeper) {
            (0, 0) => Standing::Nowhere,
            (_, 0) => Standing::Own,
            (0, _) => Standing::Deeper,
            _ => Standing::Both,
        };
        self.stands[origin as usize][standing as usize] += 1;
        if own < 2 || origin == Origin::MadeUp {
            return;
        }
        if let Some(kind) = Kind::of(name.0, name.1).filter(|kind| REPEATED.contains(kind)) {
            self.count(Cell::Repeated(kind, own.min(MORE)));
            if deeper > 0 {
                self.count(Cell::RepeatedAndWithin(kind));
            }
        }
    }

    /// Counts a made-up record by its count, its depths and the places behind its count.
    pub(super) fn note_made_up(&mut self, draft: &Draft) {
        if draft.places[MOST_AVPS - 1].depth == 1 {
            if COUNTS.contains(&draft.count) {
                self.count(Cell::Count(draft.count));
            } else if draft.count > 257 {
                self.count(Cell::CountMore);
            }
        }
        let mut places: Vec<(u32, u32, usize)> =
            (0..MOST_AVPS).map(|at| (draft.places[at].vendor, draft.places[at].code, at)).collect();
        places.sort_unstable();
        for alike in places.chunk_by(|a, b| (a.0, a.1) == (b.0, b.1)) {
            let alike: Vec<usize> = alike.iter().map(|&(_, _, at)| at).collect();
            self.note_alike(draft, &alike);
        }
    }

    /// Counts the places of one name, used or not.
    fn note_alike(&mut self, draft: &Draft, alike: &[usize]) {
        let used = draft.used().len();
        let at_depth = |depth| alike.iter().copied().filter(move |&at| draft.places[at].depth == depth);
        let (own, behind): (Vec<usize>, Vec<usize>) = at_depth(1).partition(|&at| at < used);
        let last = own.last().copied();
        let is_found = last.is_some();
        let depth0 = draft.used().iter().position(|place| place.depth == 0);
        let reached = [
            (Cell::Most, own.len() == MOST_AVPS),
            (Cell::LastUsed, last.is_some_and(|last| last + 1 == used)),
            (Cell::RightBehind(is_found), behind.first() == Some(&used)),
            (Cell::FarBehind(is_found), behind.last().is_some_and(|&at| at > used)),
            (Cell::BehindDepth0, depth0.is_some_and(|depth0| last > Some(depth0))),
        ];
        reached.into_iter().filter(|reached| reached.1).for_each(|(cell, _)| self.count(cell));
        let Some(last) = last else {
            return;
        };
        for depth in DEPTHS {
            for at in at_depth(depth).filter(|&at| at < used) {
                self.count(if at < last { Cell::Before(depth) } else { Cell::Behind(depth) });
            }
        }
    }

    fn count(&mut self, cell: Cell) {
        *self.cells.entry(cell).or_default() += 1;
    }

    fn times(&self, cell: Cell) -> u64 {
        match cell {
            Cell::Sought(origin, number, ordinal) => self.sought[origin as usize][number][ordinal as usize],
            Cell::Listed(origin, number) => self.listed[origin as usize][number],
            Cell::Stands(origin, standing) => self.stands[origin as usize][standing as usize],
            _ => self.cells.get(&cell).copied().unwrap_or(0),
        }
    }

    /// The cells that were not reached, in words.
    pub fn gaps(&self) -> Vec<String> {
        let cells = Cell::all().into_iter();
        cells.filter(|&cell| self.times(cell) == 0).map(|cell| format!("searches: {cell:?}")).collect()
    }
}

impl Display for SearchCoverage {
    fn fmt(&self, f: &mut Formatter<'_>) -> fmt::Result {
        writeln!(f, "searches of {} accepted commands and {} made-up records:", self.records[0], self.records[1])?;
        for cell in Cell::all() {
            writeln!(f, "{:>8}  {cell:?}", self.times(cell))?;
        }
        Ok(())
    }
}
