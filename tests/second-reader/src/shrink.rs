//! Makes a case that fails small, and shows it.

use crate::draft::{avps, Draft, Place};
use crate::generate::drafts::{settle, Case};
use std::fmt::{self, Display, Formatter};

/// Octets that are shown.
const SHOWN: usize = 400;

/// A case that still fails, with as little in it as small steps reach.
pub fn shrink(mut case: Case, mut fails: impl FnMut(&Case) -> bool) -> Case {
    loop {
        let before = size(&case);
        for length in [0, case.octets.len() / 2, case.octets.len().saturating_sub(1)] {
            let rest = case.octets.split_off(length.min(case.octets.len()));
            if !fails(&case) {
                case.octets.extend(rest);
            }
        }
        for step in steps(&case) {
            let (draft, output, size_before) = (case.draft.clone(), case.output.clone(), size(&case));
            step(&mut case);
            if size(&case) >= size_before || !fails(&case) {
                (case.draft, case.output) = (draft, output);
            }
        }
        if size(&case) == before {
            return case;
        }
    }
}

/// What is made less: different places, numbers, octets, the output.
fn size(case: &Case) -> (usize, u64, usize, usize) {
    let draft = &case.draft;
    let runs = draft.places.chunk_by(|a, b| a == b).count();
    let sum = |numbers: &[u32]| numbers.iter().map(|&number| u64::from(number)).sum::<u64>();
    (runs, sum(&draft.numbers()), case.octets.len(), case.output.len())
}

type Step = Box<dyn Fn(&mut Case)>;

/// Steps that leave the lent octets.
fn steps(case: &Case) -> Vec<Step> {
    let mut steps: Vec<Step> = Vec::new();
    for at in (0..case.draft.places.len()).rev() {
        let place = case.draft.places[at];
        if place == Place::default() {
            continue;
        }
        for settles in [true, false] {
            steps.push(Box::new(move |case| drop_place(case, at, settles)));
            steps.push(Box::new(move |case| set_length(case, at, 0, settles)));
            steps.push(Box::new(move |case| set_length(case, at, place.length / 2, settles)));
            if at > 0 {
                steps.push(Box::new(move |case| copy_place(case, at, settles)));
            }
        }
        steps.push(Box::new(move |case| drop_avp(case, at)));
        steps.push(Box::new(move |case| absorb(case, at)));
        steps.push(Box::new(move |case| case.draft.places[at] = Place::default()));
        steps.push(Box::new(move |case| case.draft.places[at].start = 0));
        steps.push(Box::new(move |case| case.draft.places[at].p = 0));
    }
    steps.push(Box::new(|case| {
        (case.draft.hop_by_hop, case.draft.end_to_end, case.draft.t) = (0, 0, 0);
    }));
    steps.push(Box::new(|case| case.output.truncate(case.output.len() / 2)));
    steps.push(Box::new(|case| {
        let length = crate::length(&case.draft) as usize;
        case.output.truncate(length);
    }));
    steps
}

fn drop_place(case: &mut Case, at: usize, settles: bool) {
    let draft = &mut case.draft;
    if at < draft.used().len() {
        draft.remove(at, 1);
        if settles {
            settle(draft.used_mut());
        }
    }
}

/// Drops the AVP at `at` with its members.
fn drop_avp(case: &mut Case, at: usize) {
    let draft = &mut case.draft;
    if at < draft.used().len() {
        draft.remove(at, 1 + members(draft, at));
        settle(draft.used_mut());
    }
}

/// How many places are below the one at `at`.
fn members(draft: &Draft, at: usize) -> usize {
    draft.used().get(at..).and_then(|rest| avps(rest).next()).map_or(0, |(_, members)| members.len())
}

/// Gives the octets of the AVP at `at` and of its members to a plain one before it in its list: the command is as long.
fn absorb(case: &mut Case, at: usize) {
    let draft = &mut case.draft;
    let Some((place, members)) = draft.used().get(at..).and_then(|rest| avps(rest).next()) else {
        return;
    };
    let (length, depth, gone) = (place.padded(), place.depth, 1 + members.len());
    let Some(before) = at.checked_sub(1).map(|at| &mut draft.places[at]) else {
        return;
    };
    if !before.is_group() && before.depth == depth {
        before.length = (before.padded() - before.header() + length) as u32;
        before.start = 0;
        draft.remove(at, gone);
    }
}

/// Makes the place, and those of its members, the same as the one before it: as many places are used.
fn copy_place(case: &mut Case, at: usize, settles: bool) {
    let last = at + members(&case.draft, at);
    let before = case.draft.places[at - 1];
    case.draft.places[at..=last].fill(before);
    if settles {
        settle(case.draft.used_mut());
    }
}

fn set_length(case: &mut Case, at: usize, length: u32, settles: bool) {
    case.draft.places[at].length = length;
    if settles {
        settle(case.draft.used_mut());
    }
}

/// A case in a few lines: the draft, and the octets.
pub struct Shown<'a>(pub &'a Case);

impl Display for Shown<'_> {
    fn fmt(&self, f: &mut Formatter<'_>) -> fmt::Result {
        let Case { draft, octets, output, .. } = self.0;
        write!(f, "{}", ShownDraft(draft))?;
        for (name, octets) in [("lent", octets), ("output", output)] {
            write!(f, "{name}, {} octets: ", octets.len())?;
            octets.iter().take(SHOWN).try_for_each(|octet| write!(f, "{octet:02x}"))?;
            writeln!(f, "{}", if octets.len() > SHOWN { ".." } else { "" })?;
        }
        Ok(())
    }
}

/// A draft in a few lines: the command's numbers, and the places that are not all 0.
pub struct ShownDraft<'a>(pub &'a Draft);

impl Display for ShownDraft<'_> {
    fn fmt(&self, f: &mut Formatter<'_>) -> fmt::Result {
        let draft = self.0;
        writeln!(
            f,
            "R {} P {} E {} T {} hop-by-hop {} end-to-end {} count {}",
            draft.r, draft.p, draft.e, draft.t, draft.hop_by_hop, draft.end_to_end, draft.count
        )?;
        writeln!(f, "position: depth vendor code M P start length")?;
        let mut first = 0;
        for run in draft.places.chunk_by(|a, b| a == b) {
            let last = first + run.len() - 1;
            if run[0] != Place::default() {
                write!(f, "{first}")?;
                if first < last {
                    write!(f, " to {last}")?;
                }
                write!(f, ":")?;
                run[0].numbers().iter().try_for_each(|number| write!(f, " {number}"))?;
                writeln!(f)?;
            }
            first = last + 1;
        }
        Ok(())
    }
}
