//! Runs of commands as a link carries them, where they are cut, and states that no run leads to.

use super::prng::Prng;
use crate::header::LONGEST_COMMAND;
use crate::link::State;

/// A run, and where its parts start.
#[derive(Clone, Debug, Default)]
pub struct Run {
    /// Its octets.
    pub octets: Vec<u8>,
    /// Where a part was put that its length field, if sound, leads through.
    pub starts: Vec<usize>,
}

impl Run {
    fn push(&mut self, part: &[u8]) {
        self.starts.push(self.octets.len());
        self.octets.extend(part);
    }
}

/// Length fields at the edges: of a header and of the longest command, and ones of which less than
/// three octets would say something else.
pub fn fields() -> Vec<u32> {
    let others = [256, 5_120, 65_535, 65_536, 65_556, 81_920, 0x14_0000, 8_388_628, 16_777_215];
    (0..=40).chain(16_380..=16_388).chain(others).collect()
}

/// Commands, some of them refused; at times one with another length field, one of a length at an
/// edge, or rubbish; and at times the last one cut.
pub fn run(prng: &mut Prng) -> Run {
    let mut run = Run::default();
    for _ in 0..prng.below(6) {
        let part = match prng.below(30) {
            0 => with_field(super::command(prng), prng.pick(&fields())),
            1 => of_length(20 + prng.below(21), prng),
            2 if prng.one_in(4) => of_length(LONGEST_COMMAND - prng.below(4), prng),
            _ => super::command(prng),
        };
        run.push(&part);
    }
    match prng.below(8) {
        0 => {
            let length = prng.below(40);
            run.push(&prng.octets(length));
        }
        1 => run.push(&with_field(super::command(prng), prng.pick(&fields()))),
        2 | 3 => {
            let mut part = super::command(prng);
            let length = if prng.one_in(2) { part.len() } else { 8 };
            part.truncate(prng.below(length));
            run.push(&part);
        }
        _ => {}
    }
    run
}

/// A command, sound or not, with another length field.
pub fn with_field(mut octets: Vec<u8>, field: u32) -> Vec<u8> {
    octets[1..4].copy_from_slice(&field.to_be_bytes()[1..]);
    octets
}

/// A command of this length, as its length field says, refused in most cases.
fn of_length(length: usize, prng: &mut Prng) -> Vec<u8> {
    let mut octets = super::command(prng);
    octets.resize(length, prng.octet());
    with_field(octets, length as u32)
}

/// Where a run is cut.
#[derive(Clone, Copy, Debug, PartialEq, Eq, PartialOrd, Ord)]
pub enum Cutting {
    /// Nowhere.
    Nowhere,
    /// In a few places.
    Few,
    /// Every few octets.
    Many,
    /// In and about the first octets of its parts.
    Starts,
    /// Behind each octet.
    Octets,
}

/// All ways to cut.
pub const CUTTINGS: [Cutting; 5] = [Cutting::Nowhere, Cutting::Few, Cutting::Many, Cutting::Starts, Cutting::Octets];

/// The ends of a run's fragments, in order; one twice is an empty fragment.
pub fn ends(run: &Run, cutting: Cutting, with_empty: bool, prng: &mut Prng) -> Vec<usize> {
    let length = run.octets.len();
    let mut ends = match cutting {
        Cutting::Nowhere => vec![],
        Cutting::Few => (0..1 + prng.below(5)).map(|_| prng.below(length + 1)).collect(),
        Cutting::Many => (0..length).filter(|_| prng.one_in(9)).collect(),
        Cutting::Starts => {
            let around = run.starts.iter().flat_map(|&start| start.saturating_sub(3)..start + 7);
            around.filter(|&end| end <= length && prng.one_in(3)).collect()
        }
        Cutting::Octets => (1..length).collect(),
    };
    ends.push(length);
    if with_empty {
        let more = 1 + prng.below(3) + ends.len() / 20;
        let known = [ends.clone(), run.starts.clone(), vec![0]].concat();
        ends.extend((0..more).map(|_| prng.pick(&known)));
    }
    ends.sort_unstable();
    ends
}

/// Numbers of octets held, about a length field and at the edges of their type.
pub fn helds(field: u32) -> Vec<u32> {
    let about = (0..5).map(|more| (field + more).saturating_sub(2));
    let edges =
        [16, 19, 20, 21, 16_382, 16_383, 16_384, 16_385, 65_540, 1 << 31, (1 << 31) + 4, u32::MAX - 3, u32::MAX];
    let mut helds: Vec<u32> = (0..=8).chain(about).chain(edges).collect();
    helds.sort_unstable();
    helds.dedup();
    helds
}

/// Whether a run has stopped.
pub const STOPPED: [u32; 4] = [0, 1, 2, u32::MAX];

/// A state, and the length field in the buffer.
pub fn state(prng: &mut Prng) -> (State, u32) {
    let field = match prng.below(4) {
        0 => prng.pick(&fields()),
        1 => prng.word() >> 8,
        _ => 20 + prng.below(LONGEST_COMMAND - 19) as u32,
    };
    let held = match prng.below(8) {
        0 => prng.pick(&helds(field)),
        1 => prng.word(),
        _ => prng.below(field as usize + 3) as u32,
    };
    let stopped = if prng.one_in(8) { prng.pick(&STOPPED) } else { 0 };
    (State { held, stopped }, field)
}
