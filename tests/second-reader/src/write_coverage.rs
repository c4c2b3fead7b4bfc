//! What a run of write calls reached: each of 7006's ways, 7001 and 7004, each of the reader's
//! refusals through the writer, and acceptance, by room, and the cells of volumes, windows and error
//! answers. A run that lacks a cell has tested less than it says.

use crate::draft::{Draft, Place};
use crate::generate::drafts::{is_accepted, room, Case, Origin, Room, Way};
use crate::header::LONGEST_COMMAND;
use crate::record::MOST_AVPS;
use crate::verdict::number;
use crate::walked::Walked;
use crate::writer::{encode, length, Written};
use crate::{error_coverage, volume_coverage, window_coverage};
use std::collections::BTreeMap;
use std::fmt::{self, Display, Formatter};

/// The reader's refusals that a writer can meet. Version, length, application and command code of
/// what is written are always right (no 5011, 5015, 3007, 3001); a walk meets the draft's AVPs and
/// no others, of which there are at most 256 (no 7002), and the reader's 7001 comes as the
/// writer's. 5014 is for widths alone, 3009 for M alone.
pub const READER: [u32; 9] = [
    number::INVALID_HEADER_BITS,
    number::INVALID_AVP_BITS,
    number::AVP_UNSUPPORTED,
    number::INVALID_AVP_VALUE,
    number::MISSING_AVP,
    number::AVP_NOT_ALLOWED,
    number::AVP_OCCURS_TOO_MANY_TIMES,
    number::INVALID_AVP_LENGTH,
    number::GROUP_TOO_DEEP,
];

/// How much too long a command is.
#[derive(Clone, Copy, Debug, PartialEq, Eq, PartialOrd, Ord)]
pub enum Excess {
    /// 16,388 octets.
    Four,
    /// More.
    More,
    /// More than a 24-bit length can say.
    Beyond24Bits,
    /// More than 32 bits can say.
    Beyond32Bits,
}

/// What an accepted draft has.
#[derive(Clone, Copy, Debug, PartialEq, Eq, PartialOrd, Ord)]
pub enum Feature {
    /// Two parts that share octets.
    Overlap,
    /// A part that ends with the octets.
    PartAtTheEnd,
    /// A part of length 0 at the very end.
    EmptyPartAtTheEnd,
    /// A read group that starts outside the octets.
    GroupElsewhere,
    /// 256 AVPs.
    MostAvps,
    /// 16,384 octets.
    Longest,
    /// An AVP at depth 4.
    Depth4,
}

/// A thing that a run has to reach.
#[derive(Clone, Copy, Debug, PartialEq, Eq, PartialOrd, Ord)]
pub enum Cell {
    /// 7006 of a draft that is accepted but for this, with room for it.
    Malformed(Way),
    /// 7006 where the command is also too long.
    MalformedAndTooLong,
    /// 7006 where the room is also too short.
    MalformedAndTooShort,
    /// 7001, and whether the room is too short as well.
    TooLong(Excess, bool),
    /// 7004, and whether the reader would refuse the command as well.
    TooShort(Room, bool),
    /// The reader's refusal.
    Refused(u32, Room),
    /// Acceptance.
    Accepted(Origin, Room),
    /// Acceptance of a draft that has this.
    AcceptedWith(Feature),
    /// The reader's answer to what would be written, by its volumes.
    Volumes(volume_coverage::Cell),
    /// The same by its windows.
    Windows(window_coverage::Cell),
    /// The same of error answers.
    Errors(error_coverage::Cell),
    /// Acceptance of an error answer of this origin, and whether P is set.
    ErrorAnswer(Origin, bool),
}

impl Cell {
    /// All that have to be reached.
    pub fn all() -> Vec<Cell> {
        use Excess::*;
        use Feature::*;
        let mut cells: Vec<Cell> = Way::all().into_iter().map(Cell::Malformed).collect();
        cells.extend([Cell::MalformedAndTooLong, Cell::MalformedAndTooShort]);
        // No output has room beyond 24 bits.
        cells.extend([Four, More, Beyond24Bits, Beyond32Bits].map(|e| Cell::TooLong(e, true)));
        cells.extend([Four, More].map(|excess| Cell::TooLong(excess, false)));
        for room in Room::TOO_SHORT {
            cells.extend([true, false].map(|refused| Cell::TooShort(room, refused)));
        }
        for room in Room::ENOUGH {
            cells.extend(READER.map(|number| Cell::Refused(number, room)));
            cells.extend(Origin::SOUND.map(|origin| Cell::Accepted(origin, room)));
        }
        let features = [Overlap, PartAtTheEnd, EmptyPartAtTheEnd, GroupElsewhere, MostAvps, Longest, Depth4];
        cells.extend(features.map(Cell::AcceptedWith));
        cells.extend(volume_coverage::Cell::all().into_iter().map(Cell::Volumes));
        cells.extend(window_coverage::Cell::all().into_iter().map(Cell::Windows));
        // A draft has no 257th AVP.
        let crowded = error_coverage::Cell::Walk(number::TOO_MANY_AVPS);
        cells.extend(error_coverage::Cell::all().into_iter().filter(|&cell| cell != crowded).map(Cell::Errors));
        for p in [true, false] {
            cells.extend(Origin::SOUND.map(|origin| Cell::ErrorAnswer(origin, p)));
        }
        cells
    }
}

/// Counts of cells.
#[derive(Debug, Default)]
pub struct WriteCoverage {
    calls: u64,
    cells: BTreeMap<Cell, u64>,
    by_number: BTreeMap<u32, u64>,
}

impl WriteCoverage {
    /// Counts the answer to a case.
    pub fn note(&mut self, case: &Case, answer: &Written) {
        self.calls += 1;
        *self.by_number.entry(answer.verdict.number).or_default() += 1;
        for cell in cells(case, answer) {
            *self.cells.entry(cell).or_default() += 1;
        }
    }

    /// The cells that no case reached.
    pub fn gaps(&self) -> Vec<Cell> {
        Cell::all().into_iter().filter(|cell| !self.cells.contains_key(cell)).collect()
    }
}

fn cells(case: &Case, answer: &Written) -> Vec<Cell> {
    let (draft, octets) = (&case.draft, &case.octets);
    let length = length(draft);
    let short = (case.output.len() as u64) < length;
    let room = room(length, case.output.len());
    match answer.verdict.number {
        number::MALFORMED_DRAFT if length > LONGEST_COMMAND as u64 => {
            vec![Cell::MalformedAndTooLong]
        }
        number::MALFORMED_DRAFT if short => vec![Cell::MalformedAndTooShort],
        number::MALFORMED_DRAFT => case.way.map(Cell::Malformed).into_iter().collect(),
        number::COMMAND_TOO_LONG => vec![Cell::TooLong(excess(length), short)],
        number::OUTPUT_TOO_SHORT => vec![Cell::TooShort(room, !is_accepted(draft, octets))],
        number::ACCEPTED => {
            let features = features(draft, octets).into_iter().map(Cell::AcceptedWith);
            let error = (draft.e == 1).then_some(Cell::ErrorAnswer(case.origin, draft.p == 1));
            let accepted = [Cell::Accepted(case.origin, room)].into_iter().chain(error);
            features.chain(rules(case, answer)).chain(accepted).collect()
        }
        number => rules(case, answer).into_iter().chain([Cell::Refused(number, room)]).collect(),
    }
}

/// The cells of volumes, windows and error answers.
fn rules(case: &Case, answer: &Written) -> Vec<Cell> {
    let command = encode(&case.draft, &case.octets);
    let walked = Walked::of(&command);
    let errors = error_coverage::cells(&command, walked.as_ref(), &answer.verdict).into_iter().map(Cell::Errors);
    let Some(walked) = &walked else {
        return errors.collect();
    };
    let volumes = volume_coverage::cells(walked, &answer.verdict).into_iter().map(Cell::Volumes);
    let windows = window_coverage::cells(walked, &answer.verdict).into_iter().map(Cell::Windows);
    errors.chain(volumes).chain(windows).collect()
}

fn excess(length: u64) -> Excess {
    if length == LONGEST_COMMAND as u64 + 4 {
        Excess::Four
    } else if length < 1 << 24 {
        Excess::More
    } else if length < 1 << 32 {
        Excess::Beyond24Bits
    } else {
        Excess::Beyond32Bits
    }
}

fn features(draft: &Draft, octets: &[u8]) -> Vec<Feature> {
    let end = octets.len() as u32;
    let (groups, plain): (Vec<Place>, Vec<Place>) = draft.used().iter().partition(|place| place.is_group());
    let mut parts: Vec<(u32, u32)> =
        plain.iter().filter(|place| place.length > 0).map(|place| (place.start, place.start + place.length)).collect();
    parts.sort_unstable();
    let empty_at_end = plain.iter().any(|place| place.length == 0 && place.start == end);
    [
        (Feature::Overlap, parts.windows(2).any(|two| two[0].1 > two[1].0)),
        (Feature::PartAtTheEnd, parts.iter().any(|part| part.1 == end)),
        (Feature::EmptyPartAtTheEnd, empty_at_end),
        (Feature::GroupElsewhere, groups.iter().any(|place| place.start > end)),
        (Feature::MostAvps, draft.count as usize == MOST_AVPS),
        (Feature::Longest, length(draft) == LONGEST_COMMAND as u64),
        (Feature::Depth4, draft.used().iter().any(|place| place.depth == 4)),
    ]
    .into_iter()
    .filter_map(|(feature, has)| has.then_some(feature))
    .collect()
}

impl Display for WriteCoverage {
    fn fmt(&self, f: &mut Formatter<'_>) -> fmt::Result {
        writeln!(f, "{} write calls", self.calls)?;
        for (number, times) in &self.by_number {
            writeln!(f, "{number:>6} {times:>8}")?;
        }
        for cell in Cell::all() {
            let times = self.cells.get(&cell).copied().unwrap_or(0);
            writeln!(f, "{times:>8}  {cell:?}")?;
        }
        Ok(())
    }
}
