//! What a trial of a link's reader reached: each answer, by what was held and how the fragment ended;
//! the lengths and length fields at the edges; each room; and runs by their cutting and their end. A
//! trial that lacks a cell has tested less than it says.

use crate::generate::runs::{Cutting, CUTTINGS};
use crate::link::{Outcome, Progress, State, Step};
use crate::verdict::number;
use std::collections::BTreeMap;
use std::fmt::{self, Display, Formatter};

/// Rooms of buffers: two that are too short, and three that are not.
pub const ROOMS: [usize; 5] = [0, 16_383, 16_384, 16_385, 20_000];

/// How what was not taken is offered again.
#[derive(Clone, Copy, Debug, PartialEq, Eq, PartialOrd, Ord)]
pub enum Offer {
    /// By itself.
    Alone,
    /// Before the next fragment.
    Before,
}

/// Both ways.
pub const OFFERS: [Offer; 2] = [Offer::Alone, Offer::Before];

/// What a state says, with the length field F in the buffer.
#[derive(Clone, Copy, Debug, PartialEq, Eq, PartialOrd, Ord)]
pub enum Held {
    /// The run has stopped, by the number 1.
    Stopped,
    /// The run has stopped, by another number.
    StoppedOtherwise,
    /// Nothing is held.
    Nothing,
    /// One to three octets.
    Head(u32),
    /// From four octets on, with F under 20.
    FieldShort,
    /// From four octets on, with F above 16,384.
    FieldLong,
    /// Four octets, short of F.
    Four,
    /// More, short of F by more than one.
    Body,
    /// One less than F.
    ButOne,
    /// As many as F.
    Whole,
    /// More than F, up to 65,535.
    Beyond,
    /// More than that.
    FarBeyond,
}

impl Held {
    fn of(state: State, field: u32) -> Held {
        match state.held {
            _ if state.stopped == 1 => Held::Stopped,
            _ if state.stopped != 0 => Held::StoppedOtherwise,
            0 => Held::Nothing,
            1..=3 => Held::Head(state.held),
            65_536.. => Held::FarBeyond,
            _ if field < 20 => Held::FieldShort,
            _ if field > 16_384 => Held::FieldLong,
            held if held == field => Held::Whole,
            held if held > field => Held::Beyond,
            held if held + 1 == field => Held::ButOne,
            4 => Held::Four,
            _ => Held::Body,
        }
    }
}

/// What came of a fragment's octets.
#[derive(Clone, Copy, Debug, PartialEq, Eq, PartialOrd, Ord)]
pub enum Fragment {
    /// It has none.
    Empty,
    /// All were taken.
    Taken,
    /// Some were not.
    Left,
}

/// Where a run ends.
#[derive(Clone, Copy, Debug, PartialEq, Eq, PartialOrd, Ord)]
pub enum End {
    /// Where a command ends, or before its first octet.
    Border,
    /// Before a command's fourth octet.
    Head,
    /// Behind its fourth octet.
    Body,
    /// At a refusal.
    Stop,
}

impl End {
    fn of(outcome: &Outcome) -> End {
        match (outcome.found.last(), outcome.rest.len()) {
            (Some(Progress::Refusal(_)), _) => End::Stop,
            (_, 0) => End::Border,
            (_, 1..=3) => End::Head,
            _ => End::Body,
        }
    }
}

/// A thing that a trial has to reach.
#[derive(Clone, Copy, Debug, PartialEq, Eq, PartialOrd, Ord)]
pub enum Cell {
    /// 7004, with this room.
    TooShort(usize, Held, Fragment),
    /// 7009.
    Due(Held, Fragment),
    /// This refusal at the fourth octet, with this many held before the call.
    Fourth(u32, u32, Fragment),
    /// A length field that the fourth octet refuses.
    Refused(u32),
    /// A command whose verdict has this number.
    Command(u32),
    /// A command of this length.
    Length(u32),
    /// An accepted command of 16,384 octets.
    Longest,
    /// A command's end, by what was held before the call.
    Ended(Held, Fragment),
    /// Unfinished, by what is held after the call.
    Unfinished(Held, Fragment),
    /// A buffer of this room that octets were taken into.
    Room(usize),
    /// A run in a cutting, and how the rest was offered.
    Run(Cutting, Offer, End),
    /// A run in a cutting with empty fragments.
    Empty(Cutting),
    /// A run after which the caller started afresh in the same buffer.
    Afresh(End),
}

impl Cell {
    /// All that have to be reached.
    pub fn all() -> Vec<Cell> {
        use Fragment::*;
        use Held::*;
        let mut cells = Vec::new();
        for fragment in [Empty, Left] {
            for room in &ROOMS[..2] {
                let states = [Nothing, Head(3), FieldShort, Stopped, StoppedOtherwise, FarBeyond];
                cells.extend(states.map(|held| Cell::TooShort(*room, held, fragment)));
            }
            let due = [Stopped, StoppedOtherwise, FieldShort, FieldLong, Whole, Beyond, FarBeyond];
            cells.extend(due.map(|held| Cell::Due(held, fragment)));
        }
        for fragment in [Taken, Left] {
            for number in [number::INVALID_MESSAGE_LENGTH, number::COMMAND_TOO_LONG] {
                cells.extend((0..4).map(|held| Cell::Fourth(number, held, fragment)));
            }
            let held = [Nothing, Head(1), Head(2), Head(3), Four, Body, ButOne];
            cells.extend(held.map(|held| Cell::Ended(held, fragment)));
        }
        for fragment in [Empty, Taken] {
            let held = [Head(1), Head(2), Head(3), Four, Body, ButOne];
            cells.extend(held.map(|held| Cell::Unfinished(held, fragment)));
        }
        cells.push(Cell::Unfinished(Nothing, Empty));
        cells.extend((0..20).chain(16_385..=16_388).chain([65_556, 16_777_215]).map(Cell::Refused));
        // A longer command is refused at its fourth octet.
        let numbers = number::ALL.into_iter().filter(|&number| number != number::COMMAND_TOO_LONG);
        cells.extend(numbers.map(Cell::Command));
        cells.extend((20..=24).chain(16_381..=16_384).map(Cell::Length));
        cells.push(Cell::Longest);
        cells.extend(ROOMS[2..].iter().copied().map(Cell::Room));
        let ends = [End::Border, End::Head, End::Body, End::Stop];
        for cutting in CUTTINGS {
            cells.extend(OFFERS.iter().flat_map(|&offer| ends.map(|end| Cell::Run(cutting, offer, end))));
            cells.push(Cell::Empty(cutting));
        }
        cells.extend(ends.map(Cell::Afresh));
        cells
    }
}

/// What is known of a call before it.
pub struct Call {
    held: Held,
    octets_held: u32,
    room: usize,
    length: usize,
}

impl Call {
    /// A call with this state, fragment and buffer.
    pub fn before(state: State, fragment: &[u8], buffer: &[u8]) -> Call {
        let held = Held::of(state, field(buffer));
        Call { held, octets_held: state.held, room: buffer.len(), length: fragment.len() }
    }
}

/// The length field in a buffer, 0 where it has no room for one.
fn field(buffer: &[u8]) -> u32 {
    buffer.first_chunk().map_or(0, |&[_, l0, l1, l2]| u32::from_be_bytes([0, l0, l1, l2]))
}

/// Counts of cells.
#[derive(Debug, Default)]
pub struct LinkCoverage {
    calls: u64,
    runs: u64,
    cells: BTreeMap<Cell, u64>,
}

impl LinkCoverage {
    /// Counts the answer to a call, which left the buffer so.
    pub fn note(&mut self, call: &Call, step: &Step, buffer: &[u8]) {
        self.calls += 1;
        let &Call { held, octets_held, room, length } = call;
        let fragment = match length {
            0 => Fragment::Empty,
            length if length == step.taken => Fragment::Taken,
            _ => Fragment::Left,
        };
        match step.progress {
            Progress::Unfinished => {
                self.count(Cell::Unfinished(Held::of(step.state, field(buffer)), fragment));
            }
            Progress::Command(verdict) => {
                let length = octets_held + step.taken as u32;
                self.count(Cell::Ended(held, fragment));
                self.count(Cell::Command(verdict.number));
                self.count(Cell::Length(length));
                if (verdict.number, length) == (number::ACCEPTED, 16_384) {
                    self.count(Cell::Longest);
                }
            }
            Progress::Refusal(verdict) => match verdict.number {
                number::OUTPUT_TOO_SHORT => self.count(Cell::TooShort(room, held, fragment)),
                number::RUN_STOPPED => self.count(Cell::Due(held, fragment)),
                number => {
                    self.count(Cell::Fourth(number, octets_held, fragment));
                    self.count(Cell::Refused(field(buffer)));
                }
            },
        }
        if step.taken > 0 {
            self.count(Cell::Room(room));
        }
    }

    /// Counts a run in a cutting.
    pub fn note_run(&mut self, cutting: Cutting, offer: Offer, with_empty: bool, outcome: &Outcome) {
        self.runs += 1;
        self.count(Cell::Run(cutting, offer, End::of(outcome)));
        if with_empty {
            self.count(Cell::Empty(cutting));
        }
    }

    /// Counts a run that the caller left.
    pub fn note_left(&mut self, outcome: &Outcome) {
        self.count(Cell::Afresh(End::of(outcome)));
    }

    fn count(&mut self, cell: Cell) {
        *self.cells.entry(cell).or_default() += 1;
    }

    /// The cells that were not reached, in words.
    pub fn gaps(&self) -> Vec<String> {
        let cells = Cell::all().into_iter();
        cells.filter(|cell| !self.cells.contains_key(cell)).map(|c| format!("{c:?}")).collect()
    }
}

impl Display for LinkCoverage {
    fn fmt(&self, f: &mut Formatter<'_>) -> fmt::Result {
        writeln!(f, "{} calls for a link, {} generated runs in a cutting", self.calls, self.runs)?;
        for cell in Cell::all() {
            let times = self.cells.get(&cell).copied().unwrap_or(0);
            writeln!(f, "{times:>8}  {cell:?}")?;
        }
        Ok(())
    }
}
