//! Holds a writer to the second writer on generated drafts and pairs of lists: answer and whole
//! output of each call, and the properties of calls and pairs.

use crate::calls::{run, Outcome, Writer};
use crate::command_line::{conclude, numbers};
use crate::generate::drafts::{case, Case};
use crate::generate::lists::{pair, Change, Pair};
use crate::generate::Prng;
use crate::properties;
use crate::shrink::{shrink, Shown};
use crate::write_coverage::WriteCoverage;
use crate::writer::{write, Written};
use std::collections::BTreeMap;
use std::fmt::{self, Display, Formatter};
use std::process::ExitCode;

/// Tries a writer as the arguments SEED DRAFTS PAIRS say, and prints what was reached. It fails at
/// the first difference, and where a cell of the table is empty.
pub fn main(writer: &mut Writer) -> ExitCode {
    let Some([seed, drafts, pairs]) = numbers() else {
        eprintln!("arguments: SEED DRAFTS PAIRS");
        return ExitCode::from(2);
    };
    conclude(trial(seed, drafts, pairs, writer), Report::gaps)
}

/// What a trial reached.
#[derive(Debug, Default)]
pub struct Report {
    calls: WriteCoverage,
    /// Pairs by change, by whether there was room, and by whether the octets are the same.
    pairs: BTreeMap<(Change, bool, bool), u64>,
    /// Answers in lists.
    answers: BTreeMap<u32, u64>,
}

impl Report {
    /// What was not reached, in words.
    pub fn gaps(&self) -> Vec<String> {
        let mut gaps: Vec<String> = self.calls.gaps().iter().map(|c| format!("{c:?}")).collect();
        let keeping = Change::KEEPING.map(|change| (change, true));
        let telling = Change::TELLING.map(|change| (change, false));
        for (change, same) in keeping.into_iter().chain(telling) {
            for room in [true, false] {
                if !self.pairs.contains_key(&(change, room, same)) {
                    gaps.push(format!("pair: {change:?}, room {room}"));
                }
            }
        }
        for number in [0, 5005, 7001, 7004, 7006] {
            if !self.answers.contains_key(&number) {
                gaps.push(format!("{number} in a list"));
            }
        }
        gaps
    }
}

impl Display for Report {
    fn fmt(&self, f: &mut Formatter<'_>) -> fmt::Result {
        write!(f, "{}", self.calls)?;
        writeln!(f, "{} pairs of lists", self.pairs.values().sum::<u64>())?;
        for ((change, room, same), times) in &self.pairs {
            let room = if *room { "room" } else { "less room" };
            let same = if *same { "same octets" } else { "other octets" };
            writeln!(f, "{times:>8}  {change:?}, {room}: {same}")?;
        }
        write!(f, "answers in lists:")?;
        for (number, times) in &self.answers {
            write!(f, " {number}={times}")?;
        }
        writeln!(f)
    }
}

/// Tries a writer on this many drafts and pairs; the first difference or broken property is the
/// error, with the draft made small.
pub fn trial(seed: u64, drafts: u64, pairs: u64, writer: &mut Writer) -> Result<Report, String> {
    let mut prng = Prng::new(seed);
    let mut report = Report::default();
    for ordinal in 1..=drafts {
        let case = case(&mut prng);
        match one(&case, writer) {
            Ok(answer) => report.calls.note(&case, &answer),
            Err(words) => {
                let small = shrink(case, |case| one(case, writer).is_err());
                let found = one(&small, writer).err().unwrap_or_default();
                let shown = Shown(&small);
                return Err(format!("seed {seed}, draft {ordinal}: {words}\nmade small: {found}\n{shown}"));
            }
        }
    }
    for ordinal in 1..=pairs {
        let pair = pair(&mut prng);
        let outcomes = both(&pair, writer).map_err(|words| format!("seed {seed}, pair {ordinal}: {words}"))?;
        let same = outcomes[0].meanings == outcomes[1].meanings;
        *report.pairs.entry((pair.change, pair.room, same)).or_default() += 1;
        for answer in outcomes.iter().flat_map(|outcome| &outcome.answers) {
            *report.answers.entry(answer.verdict.number).or_default() += 1;
        }
    }
    Ok(report)
}

/// One draft by both writers.
fn one(case: &Case, writer: &mut Writer) -> Result<Written, String> {
    let (draft, octets) = (&case.draft, &case.octets);
    let (mut ours, mut expected) = (case.output.clone(), case.output.clone());
    let answer = writer(draft, octets, &mut ours);
    let second = write(draft, octets, &mut expected);
    if answer != second {
        return Err(format!("the answer is {answer:?}, the second writer's {second:?}"));
    }
    if let Some(at) = (0..ours.len()).find(|&at| ours[at] != expected[at]) {
        return Err(format!(
            "octet {at} of the output is {:02x}, the second writer's {:02x}; {answer:?}",
            ours[at], expected[at]
        ));
    }
    properties::call(draft, octets, &case.output, &ours, &answer)?;
    Ok(answer)
}

/// One pair of lists by both writers.
fn both(pair: &Pair, writer: &mut Writer) -> Result<[Outcome; 2], String> {
    let mut ours = pair.outputs.clone();
    let mut expected = pair.outputs.clone();
    let [a, b] = &mut ours;
    let outcomes = [run(&pair.lists[0], a, writer), run(&pair.lists[1], b, writer)];
    let [c, d] = &mut expected;
    let second = [run(&pair.lists[0], c, &mut write), run(&pair.lists[1], d, &mut write)];
    if outcomes != second {
        let answers = |o: &[Outcome; 2]| o.each_ref().map(|outcome| outcome.answers.clone());
        let (ours, second) = (answers(&outcomes), answers(&second));
        return Err(format!("the answers are {ours:?}, the second writer's {second:?}"));
    }
    if ours != expected {
        return Err("the outputs are not the second writer's".into());
    }
    properties::pair(pair, &outcomes, [&ours[0], &ours[1]])?;
    Ok(outcomes)
}
