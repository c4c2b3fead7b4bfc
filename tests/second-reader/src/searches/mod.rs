//! Holds a search of a record (request 9 of 02) to the second one, for each name in the record and
//! some others: the answers for ordinals below the number of those AVPs and beyond, and the list of
//! their positions; on accepted commands and on made-up records.

pub mod coverage;

use crate::draft::{Draft, Place};
use crate::generate::{records, repeated, Prng};
use crate::record::{all, Record, Sought, MOST_AVPS};
use crate::shrink::ShownDraft;
use crate::{Reading, Verdict};
use coverage::{Origin, SearchCoverage};
use std::fmt::Debug;

/// A record as the search that is tried sees it.
pub trait Searched {
    /// The AVP of this ordinal among those at depth 1 with this vendor and code, and how many there are.
    fn search(&self, vendor: u32, code: u32, ordinal: usize) -> Sought;

    /// The positions of all of them, in order.
    fn all(&self, vendor: u32, code: u32) -> Vec<usize>;
}

/// Any search: the record of these numbers, as it sees it.
pub type Search<'a> = dyn FnMut(&Draft) -> Box<dyn Searched> + 'a;

/// Names that are looked for in every record: of both commands' lists, of groups alone, of no AVP,
/// and of a blank place.
const NAMES: [(u32, u32); 9] =
    [(0, 263), (0, 268), (0, 266), (0, 4203), (10415, 4203), (10415, 4205), (10415, 4207), (9, 9), (0, 0)];

/// Ordinals that are 0 or none if cut to fewer bits, for made-up records.
const FAR: [usize; 7] = [1 << 8, 1 << 16, 1 << 32, 1 << 33, 1 << 48, 1 << 63, u32::MAX as usize];

/// Tries a search on this many sound commands and made-up records; the first difference is the
/// error, with the record made small.
pub fn trial(seed: u64, commands: u64, records: u64, of: &mut Search) -> Result<SearchCoverage, String> {
    let mut prng = Prng::new(seed);
    let mut coverage = SearchCoverage::default();
    for ordinal in 1..=commands {
        let Reading { verdict, record } = crate::read(&repeated(&mut prng).encode());
        // A limit may refuse it.
        if verdict == Verdict::ACCEPTED {
            let draft = Draft::of(&record);
            compare(&record, &*of(&draft), &mut coverage)
                .map_err(|words| format!("seed {seed}, command {ordinal}: {words}\n{}", made_small(draft, of)))?;
        }
    }
    made_up(seed, records, &mut coverage, of)?;
    Ok(coverage)
}

/// Tries a search on this many made-up records.
pub fn made_up(seed: u64, records: u64, coverage: &mut SearchCoverage, of: &mut Search) -> Result<(), String> {
    let mut prng = Prng::new(seed);
    for ordinal in 1..=records {
        let draft = records::made_up(&mut prng);
        compare_made_up(&draft, coverage, of)
            .map_err(|words| format!("seed {seed}, record {ordinal}: {words}\n{}", made_small(draft, of)))?;
    }
    Ok(())
}

/// Compares a search of an accepted command's record with the second one.
pub fn compare(record: &Record, searched: &dyn Searched, coverage: &mut SearchCoverage) -> Result<(), String> {
    coverage.note_record(Origin::Command);
    each(record, [].into_iter(), searched, Origin::Command, coverage)
}

/// Compares a search of a made-up record, for the names behind its count too.
fn compare_made_up(draft: &Draft, coverage: &mut SearchCoverage, of: &mut Search) -> Result<(), String> {
    coverage.note_record(Origin::MadeUp);
    coverage.note_made_up(draft);
    let unused = draft.unused().iter().map(|place| (place.vendor, place.code));
    each(&draft.record(), unused, &*of(draft), Origin::MadeUp, coverage)
}

/// Looks for each name of the record and each other one. The second answers are taken from its list, which
/// tests/searches.rs holds its search to.
fn each(
    record: &Record,
    others: impl Iterator<Item = (u32, u32)>,
    searched: &dyn Searched,
    origin: Origin,
    coverage: &mut SearchCoverage,
) -> Result<(), String> {
    let there = record.avps.iter().map(|avp| (joined(avp.vendor, avp.code), avp.depth));
    let others = others.chain(NAMES).map(|(vendor, code)| (joined(vendor, code), 0));
    let mut names: Vec<(u64, u8)> = there.chain(others).collect();
    names.sort_unstable();
    let mut second = Vec::new();
    for alike in names.chunk_by(|a, b| a.0 == b.0) {
        let (vendor, code) = ((alike[0].0 >> 32) as u32, alike[0].0 as u32);
        second.clear();
        second.extend(all(record, vendor, code));
        let number = second.len();
        let due = Due { origin, number, turn: coverage.names() as usize % TURNS };
        for ordinal in due.ordinals() {
            let expected = Sought { position: second.get(ordinal).copied(), number };
            let answer = searched.search(vendor, code, ordinal);
            if answer != expected {
                return Err(format!("search of {vendor} {code}, ordinal {ordinal}: {}", another(&answer, &expected)));
            }
            coverage.note_ordinal(origin, number, ordinal);
        }
        if due.has_list() {
            let list = searched.all(vendor, code);
            if list != second {
                return Err(format!("all of {vendor} {code}: {}", another(&list, &second)));
            }
            coverage.note_list(origin, number);
        }
        coverage.note_name(origin, (vendor, code), alike.iter().map(|&(_, depth)| depth));
    }
    Ok(())
}

/// What is compared for a name: all in a made-up record, and in a command for a name that stands there several times.
/// Most names of a command stand there once or not at all, for which one ordinal or the list is due; if there are more
/// than eight of a name, one ordinal of eight is, and the last.
struct Due {
    origin: Origin,
    number: usize,
    turn: usize,
}

/// The turns that names take.
const TURNS: usize = 8;

/// The turn of the list.
const LIST: usize = 7;

impl Due {
    fn ordinals(&self) -> impl Iterator<Item = usize> + '_ {
        let number = self.number;
        let below = match self {
            _ if self.is_many() => (self.turn..number).step_by(TURNS),
            _ if self.is_several() || self.turn < 4 => (0..number.max(1)).step_by(1),
            _ => (0..0).step_by(1),
        };
        let last = self.is_many().then(|| number - 1);
        let beyond = [(4, number), (5, number + 1), (6, usize::MAX)].into_iter();
        let beyond = beyond.filter(|&(turn, _)| self.is_several() || self.turn == turn).map(|(_, ordinal)| ordinal);
        let far = if self.origin == Origin::MadeUp { &FAR[..] } else { &[] };
        below.chain(last).chain(beyond).chain(far.iter().copied())
    }

    fn has_list(&self) -> bool {
        self.turn == LIST || self.is_several() && !self.is_many()
    }

    fn is_several(&self) -> bool {
        self.number > 1 || self.origin == Origin::MadeUp
    }

    fn is_many(&self) -> bool {
        self.number > 8 && self.origin == Origin::Command
    }
}

fn another<T: Debug>(answer: &T, second: &T) -> String {
    format!("the answer is {answer:?}, the second reader's {second:?}")
}

fn joined(vendor: u32, code: u32) -> u64 {
    u64::from(vendor) << 32 | u64::from(code)
}

/// A record that still fails with fewer places, and how, in a few lines.
fn made_small(mut draft: Draft, of: &mut Search) -> String {
    let mut difference = |draft: &Draft| compare_made_up(draft, &mut SearchCoverage::default(), of).err();
    let mut words = difference(&draft).unwrap_or_default();
    for at in (0..MOST_AVPS).rev() {
        let (mut without, mut blank) = (draft.clone(), draft.clone());
        if at < without.used().len() {
            without.remove(at, 1);
        }
        blank.places[at] = Place::default();
        for smaller in [without, blank] {
            if let Some(found) = difference(&smaller).filter(|_| smaller != draft) {
                (draft, words) = (smaller, found);
                break;
            }
        }
    }
    format!("made small: {words}\n{}", ShownDraft(&draft))
}
