//! The rows of the mixes and of the link: each is a work of the proved reader beside the same work of the second one.
//! `growth.rs` has commands that grow, `listing.rs` the work that takes a process of its own.

use crate::commands::{by_size, Mix};
use crate::summary::Line;
use crate::turns::{each, turns, Effort, Turns};
use second_reader::link::{self, Progress, State};
use second_reader::Draft;
use std::hint::black_box;

/// The rows that `picture` draws.
pub const VERDICT_TO_RECORD: &str = "verdict against a record, new vector";
pub const RECORD_TO_RECORD: &str = "record against a record, new vector";

/// Octets of a link's fragments: what a packet of 1,500 octets carries of a TCP connection.
pub const FRAGMENT: usize = 1_448;
const LONGEST_COMMAND: usize = 16_384;

/// The lines of the mixes, and of runs of their commands from a link.
pub fn lines(mixes: &[Mix], effort: Effort) -> Vec<Line> {
    let mut lines = Vec::new();
    for mix in mixes {
        let mut rows = vec![verdicts(&mix.commands, effort)];
        rows.extend(readings(&mix.commands, effort));
        if mix.is_accepted() {
            rows.extend(records(mix, effort));
        }
        let group = mix.name();
        lines.extend(rows.into_iter().map(|(row, turns)| Line::new(&group, row, turns.ratios)));
    }
    for (size, commands) in by_size(mixes) {
        let turns = following(&commands.concat(), effort);
        lines.push(Line::new("link, in fragments of 1,448 octets", &format!("commands of {size}"), turns.ratios));
    }
    lines
}

/// A row's name, and what it came to.
type Row = (&'static str, Turns);

fn verdicts(commands: &[Vec<u8>], effort: Effort) -> Row {
    let mut reader = talazumir::Reader::new();
    let turns = each(effort, commands, |octets| reader.verdict(octets), |octets| second_reader::verdict(octets));
    ("verdict against verdict alone", turns)
}

/// What is measured beside the second reader with a record. The proved reader's verdicts have one log for all commands.
pub(crate) fn readings(commands: &[Vec<u8>], effort: Effort) -> [Row; 2] {
    let mut reader = talazumir::Reader::new();
    let verdicts = each(effort, commands, |octets| reader.verdict(octets), |octets| second_reader::read(octets));
    let records = each(effort, commands, |octets| talazumir::read(octets), |octets| second_reader::read(octets));
    [(VERDICT_TO_RECORD, verdicts), (RECORD_TO_RECORD, records)]
}

/// An accepted command as both read it.
pub struct Accepted<'a> {
    pub octets: &'a [u8],
    pub ours: talazumir::Record,
    pub theirs: second_reader::Record,
    pub draft: Draft,
    /// The name whose first AVP at depth 1 stands last.
    pub last: (u32, u32),
}

/// A name that no generated command has.
pub const ABSENT: (u32, u32) = (99, 99);

impl Accepted<'_> {
    pub fn of(octets: &[u8]) -> Accepted<'_> {
        let ours = talazumir::read(octets).expect("the proved reader accepts what the second one does");
        let theirs = second_reader::read(octets).record;
        let is_first = |&(i, avp): &(usize, &second_reader::Avp)| {
            second_reader::search(&theirs, avp.vendor, avp.code, 0).position == Some(i)
        };
        let last = theirs.avps.iter().enumerate().rfind(is_first).expect("there is a Session-Id");
        let last = (last.1.vendor, last.1.code);
        Accepted { octets, ours, draft: Draft::of(&theirs), theirs, last }
    }
}

/// What is done with the record of an accepted command, and its canonical form.
fn records(mix: &Mix, effort: Effort) -> [Row; 4] {
    let commands: Vec<Accepted> = mix.commands.iter().map(|octets| Accepted::of(octets)).collect();
    let search = |name: fn(&Accepted) -> (u32, u32)| {
        let ours = |command: &Accepted| command.ours.search(name(command).0, name(command).1, 0);
        let theirs = |command: &Accepted| second_reader::search(&command.theirs, name(command).0, name(command).1, 0);
        each(effort, &commands, ours, theirs)
    };
    let canonical = {
        let (mut our_room, mut their_room) = ([0; LONGEST_COMMAND], [0; LONGEST_COMMAND]);
        let ours = |octets: &Vec<u8>| talazumir::canonical(octets, &mut our_room);
        each(effort, &mix.commands, ours, |octets| second_reader::canonical(octets, &mut their_room))
    };
    [
        ("search for the last name", search(|command| command.last)),
        ("search for a name that is absent", search(|_| ABSENT)),
        writing(&commands, effort),
        ("canonical form", canonical),
    ]
}

pub(crate) fn writing(commands: &[Accepted], effort: Effort) -> Row {
    let (mut our_room, mut their_room) = ([0; LONGEST_COMMAND], [0; LONGEST_COMMAND]);
    let ours = |command: &Accepted| talazumir::write(&command.ours, command.octets, &mut our_room);
    let theirs = |command: &Accepted| second_reader::write(&command.draft, command.octets, &mut their_room);
    ("write of the record", each(effort, commands, ours, theirs))
}

/// A run of commands taken from a link.
fn following(run: &[u8], effort: Effort) -> Turns {
    let mut ours = talazumir::Link::new();
    let mut buffer = [0; LONGEST_COMMAND];
    turns(effort, || follow(&mut ours, run), || second_follow(&mut buffer, run))
}

fn follow(link: &mut talazumir::Link, run: &[u8]) {
    link.start_afresh();
    for verdict in link.commands(run.chunks(FRAGMENT)) {
        let _ = black_box(verdict);
    }
}

fn second_follow(buffer: &mut [u8], run: &[u8]) {
    let mut state = State::default();
    for fragment in run.chunks(FRAGMENT) {
        let mut rest = fragment;
        while !rest.is_empty() {
            let step = link::take(state, rest, buffer);
            state = step.state;
            rest = &rest[step.taken..];
            if let Progress::Refusal(_) = black_box(step.progress) {
                return;
            }
        }
    }
}
