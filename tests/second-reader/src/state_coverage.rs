//! What a run of canonical forms reached: acceptance and 7004 by room, error answers, each of the
//! reader's refusals with and without room, and pairs of commands by what they differ in. A run that
//! lacks a cell has tested less than it says.

use crate::generate::drafts::{room, Room};
use crate::generate::lists::{Change, Twins, CHANGES};
use crate::meaning::padding;
use crate::verdict::number;
use crate::writer::Written;
use std::collections::BTreeMap;
use std::fmt::{self, Display, Formatter};

/// A thing that a run has to reach.
#[derive(Clone, Copy, Debug, PartialEq, Eq, PartialOrd, Ord)]
pub enum Cell {
    /// A form in this room.
    Accepted(Room),
    /// A form of a command with padding that is not 0.
    Padding,
    /// A form of a command with reserved command bits that are not 0.
    ReservedBits,
    /// A form of an error answer, and whether P is set.
    ErrorAnswer(bool),
    /// 7004.
    TooShort(Room),
    /// The reader's refusal, and whether the room is too short as well.
    Refused(u32, bool),
    /// A pair of commands that differ in this, and in padding or reserved bits.
    Twins(Change),
}

impl Cell {
    /// All that have to be reached.
    pub fn all() -> Vec<Cell> {
        let mut cells: Vec<Cell> = Room::ENOUGH.map(Cell::Accepted).into();
        cells.extend([Cell::Padding, Cell::ReservedBits]);
        cells.extend([true, false].map(Cell::ErrorAnswer));
        cells.extend(Room::TOO_SHORT.map(Cell::TooShort));
        for number in number::ALL.into_iter().filter(|&number| number != number::ACCEPTED) {
            cells.extend([true, false].map(|short| Cell::Refused(number, short)));
        }
        cells.extend(CHANGES.map(Cell::Twins));
        cells
    }
}

/// Counts of cells.
#[derive(Debug, Default)]
pub struct StateCoverage {
    commands: u64,
    pairs: u64,
    cells: BTreeMap<Cell, u64>,
}

impl StateCoverage {
    /// Counts the answer to a command with an output of this room.
    pub fn note(&mut self, octets: &[u8], output: usize, answer: &Written) {
        self.commands += 1;
        let room = room(octets.len() as u64, output);
        match answer.verdict.number {
            number::ACCEPTED => {
                self.count(Cell::Accepted(room));
                if padding(octets).into_iter().zip(octets).any(|(is, &octet)| is && octet != 0) {
                    self.count(Cell::Padding);
                }
                if octets[4] & 0x0F != 0 {
                    self.count(Cell::ReservedBits);
                }
                if octets[4] & 0x20 != 0 {
                    self.count(Cell::ErrorAnswer(octets[4] & 0x40 != 0));
                }
            }
            number::OUTPUT_TOO_SHORT => self.count(Cell::TooShort(room)),
            number => self.count(Cell::Refused(number, output < octets.len())),
        }
    }

    /// Counts a pair of commands.
    pub fn note_twins(&mut self, twins: &Twins) {
        self.pairs += 1;
        if twins.commands[0] != twins.commands[1] {
            self.count(Cell::Twins(twins.change));
        }
    }

    fn count(&mut self, cell: Cell) {
        *self.cells.entry(cell).or_default() += 1;
    }

    /// The cells that were not reached, in words.
    pub fn gaps(&self) -> Vec<String> {
        let cells = Cell::all().into_iter();
        cells.filter(|cell| !self.cells.contains_key(cell)).map(|c| format!("{c:?}")).collect()
    }
}

impl Display for StateCoverage {
    fn fmt(&self, f: &mut Formatter<'_>) -> fmt::Result {
        writeln!(f, "{} canonical forms, {} pairs of commands", self.commands, self.pairs)?;
        for cell in Cell::all() {
            let times = self.cells.get(&cell).copied().unwrap_or(0);
            writeln!(f, "{times:>8}  {cell:?}")?;
        }
        Ok(())
    }
}
