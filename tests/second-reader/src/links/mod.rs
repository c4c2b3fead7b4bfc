//! Holds a reader of a link to the second one: the answer and all memory of each call, over runs in
//! every cutting of some and many cuttings of others, and over made-up states and buffers; and each
//! cutting to the run uncut.

pub mod coverage;
mod lent;

use crate::command_line::{conclude, numbers};
use crate::generate::runs::{ends, fields, helds, run, state, with_field, Cutting, Run, CUTTINGS, STOPPED};
use crate::generate::{sound, Prng};
use crate::link::{uncut, Outcome, Progress, State, Step};
use crate::verdict::number;
use coverage::{Call, LinkCoverage, Offer, OFFERS, ROOMS};
use lent::Lent;
use std::process::ExitCode;

/// Any reader of a link; an error is what it finds wrong with itself, in words.
pub type Take<'a> = dyn FnMut(State, &[u8], &mut [u8]) -> Result<Step, String> + 'a;

/// Tries a reader as the arguments SEED RUNS STATES say, and prints what was reached. It fails at
/// the first difference, and where a cell of the table is empty.
pub fn main(take: &mut Take) -> ExitCode {
    let Some([seed, runs, states]) = numbers() else {
        eprintln!("arguments: SEED RUNS STATES");
        return ExitCode::from(2);
    };
    conclude(trial(seed, runs, states, take), LinkCoverage::gaps)
}

/// Tries a reader on every cutting of short runs, this many generated runs, states at the edges, and
/// this many generated ones; the first difference is the error.
pub fn trial(seed: u64, runs: u64, states: u64, take: &mut Take) -> Result<LinkCoverage, String> {
    let mut trial = Trial { lent: Lent::new(ROOMS[2]), coverage: LinkCoverage::default(), take };
    let mut prng = Prng::new(seed);
    trial.edge_states(&mut prng)?;
    for ordinal in 1..=states {
        trial.any_state(&mut prng).map_err(|words| format!("seed {seed}, state {ordinal}: {words}"))?;
    }
    trial.lent = Lent::new(ROOMS[2]);
    trial.short_runs(&mut prng)?;
    for ordinal in 1..=runs {
        trial.any_run(&mut prng).map_err(|words| format!("seed {seed}, run {ordinal}: {words}"))?;
    }
    Ok(trial.coverage)
}

struct Trial<'t, 'a> {
    lent: Lent,
    coverage: LinkCoverage,
    take: &'t mut Take<'a>,
}

impl Trial<'_, '_> {
    fn call(&mut self, state: State, fragment: &[u8]) -> Result<Step, String> {
        let before = Call::before(state, fragment, self.lent.buffer());
        let step = self.lent.call(state, fragment, self.take).map_err(|words| {
            let first: String = fragment.iter().take(40).map(|octet| format!("{octet:02x}")).collect();
            let (room, octets) = (self.lent.room, fragment.len());
            format!("{state:?}, room {room}, {octets} octets {first}: {words}")
        })?;
        self.coverage.note(&before, &step, self.lent.buffer());
        Ok(step)
    }

    /// A run in fragments from a fresh state, in a buffer as the runs before left it: what comes of
    /// it is what comes of the run uncut.
    fn run(&mut self, octets: &[u8], ends: &[usize], offer: Offer) -> Result<Outcome, String> {
        let words = |words| format!("{words}\nfragments end at {ends:?}, {offer:?}, of a run of {}", octets.len());
        let outcome = self.outcome(octets, ends, offer).map_err(words)?;
        let whole = uncut(octets);
        if outcome != whole {
            return Err(words(format!("the run comes to {outcome:?}, uncut to {whole:?}")));
        }
        Ok(outcome)
    }

    fn outcome(&mut self, octets: &[u8], ends: &[usize], offer: Offer) -> Result<Outcome, String> {
        let (mut state, mut taken, mut found) = (State::default(), 0, Vec::new());
        for (ordinal, &end) in (1..).zip(ends) {
            loop {
                let step = self.call(state, &octets[taken..end])?;
                state = step.state;
                taken += step.taken;
                if step.progress != Progress::Unfinished && !is_due(&step) {
                    found.push(step.progress);
                }
                // What was not taken comes alone, or before the next fragment if there is one.
                let comes_alone = offer == Offer::Alone || ordinal == ends.len();
                if !matches!(step.progress, Progress::Command(_)) || taken == end || !comes_alone {
                    break;
                }
            }
        }
        if state.stopped != 0 {
            for fragment in [&octets[taken..], &[]] {
                if !is_due(&self.call(state, fragment)?) {
                    return Err("7009 is not due behind a stop".into());
                }
            }
        }
        Ok(Outcome { found, taken, rest: self.lent.buffer()[..state.held as usize].to_vec() })
    }

    /// Every cutting of short runs, every cutting about a command's end, and every two or three cuts
    /// of some commands.
    fn short_runs(&mut self, prng: &mut Prng) -> Result<(), String> {
        let command = loop {
            let command = sound(prng).encode();
            if command.len() <= 250 {
                break command;
            }
        };
        for length in 0..=14 {
            self.each_cutting(&command[..length], 0, length)?;
        }
        let header = with_field(command[..20].to_vec(), 20);
        for field in [0, 19, 20, 21, 16_384, 16_385, 65_556, 16_777_215] {
            let second = with_field(command[..9].to_vec(), field);
            self.each_cutting(&second, 0, 9)?;
            self.each_cutting(&[&header[..], &second].concat(), 16, 27)?;
        }
        let odd = with_field([&header[..], &[1]].concat(), 21);
        let short = [&header[..], &odd, &header, &command[..7]].concat();
        for first in 0..=short.len() {
            for second in first..=short.len() {
                for third in second..=short.len() {
                    let offer = OFFERS[(first + second + third) % 2];
                    self.run(&short, &[first, second, third, short.len()], offer)?;
                }
            }
        }
        let long = [&command[..], &header, &command[..5]].concat();
        for first in 0..=long.len() {
            for second in first..=long.len() {
                self.run(&long, &[first, second, long.len()], OFFERS[(first + second) % 2])?;
            }
        }
        Ok(())
    }

    /// A run in every cutting whose cuts lie between two places, the ends of the run among them.
    fn each_cutting(&mut self, octets: &[u8], from: usize, to: usize) -> Result<(), String> {
        let places: Vec<usize> = (from.max(1)..to.min(octets.len())).collect();
        for chosen in 0..1u32 << places.len() {
            let mut ends: Vec<usize> =
                places.iter().copied().filter(|at| chosen >> (at - places[0]) & 1 == 1).collect();
            ends.push(octets.len());
            for offer in OFFERS {
                self.run(octets, &ends, offer)?;
            }
        }
        Ok(())
    }

    /// A generated run in several cuttings; at times another run stands before it in the buffer, which
    /// the caller leaves for this one.
    fn any_run(&mut self, prng: &mut Prng) -> Result<(), String> {
        let run = run(prng);
        let is_long = run.octets.len() > 3_000;
        for cutting in CUTTINGS {
            // A call costs as much as the buffer is long.
            let is_left_out = match cutting {
                Cutting::Octets => is_long && !prng.one_in(20),
                Cutting::Many => is_long && !prng.one_in(4),
                _ => false,
            };
            if is_left_out {
                continue;
            }
            if prng.one_in(3) {
                self.lent = Lent::new(prng.pick(&ROOMS[2..]));
            }
            if prng.one_in(4) {
                self.left(&run, prng)?;
            }
            let with_empty = prng.one_in(2);
            let offer = prng.pick(&OFFERS);
            let ends = ends(&run, cutting, with_empty, prng);
            let outcome = self.run(&run.octets, &ends, offer).map_err(|words| shown(&words, &run))?;
            self.coverage.note_run(cutting, offer, with_empty, &outcome);
        }
        Ok(())
    }

    /// The start of a run, after which the caller starts afresh.
    fn left(&mut self, run: &Run, prng: &mut Prng) -> Result<(), String> {
        let start = prng.pick(&[&run.starts[..], &[0]].concat());
        let end = run.octets.len().min(start + prng.below(40));
        let outcome = self.run(&run.octets[start..end], &[end - start], Offer::Alone);
        self.coverage.note_left(&outcome.map_err(|words| shown(&words, run))?);
        Ok(())
    }

    /// Every state at the edges with every length field at the edges, in buffers of each room.
    fn edge_states(&mut self, prng: &mut Prng) -> Result<(), String> {
        let fragment = prng.octets(17_000);
        for room in ROOMS {
            self.lent = Lent::new(room);
            for field in fields() {
                for held in helds(field) {
                    for stopped in STOPPED {
                        let state = State { held, stopped };
                        let short = field.wrapping_sub(held) as usize;
                        for length in [0, 1, 4, short.saturating_sub(1), short, short.saturating_add(1)] {
                            self.made_up(state, field, &fragment[..length.min(fragment.len())])?;
                        }
                    }
                }
            }
        }
        Ok(())
    }

    /// A generated state in a buffer of some room, with a fragment that may end the command.
    fn any_state(&mut self, prng: &mut Prng) -> Result<(), String> {
        if prng.one_in(50) {
            self.lent = Lent::new(prng.pick(&ROOMS));
        }
        let (state, field) = state(prng);
        let short = field.saturating_sub(state.held).min(17_000) as usize;
        let length = if prng.one_in(2) { short + prng.below(3) } else { prng.below(60) };
        let fragment = if prng.one_in(3) { run(prng).octets } else { prng.octets(length) };
        self.made_up(state, field, &fragment)
    }

    /// One call with this state, and this length field in the buffer if it has room for one.
    fn made_up(&mut self, state: State, field: u32, fragment: &[u8]) -> Result<(), String> {
        if self.lent.room >= 4 {
            self.lent.put(1, &field.to_be_bytes()[1..]);
        }
        self.call(state, fragment).map(|_| ())
    }
}

/// Whether the answer is that the run has stopped before.
fn is_due(step: &Step) -> bool {
    matches!(step.progress, Progress::Refusal(verdict) if verdict.number == number::RUN_STOPPED)
}

fn shown(words: &str, run: &Run) -> String {
    let hex: String = run.octets.iter().map(|octet| format!("{octet:02x}")).collect();
    format!("{words}\n{hex}")
}
