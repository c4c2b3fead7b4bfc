//! Two works in turn, and the ratios of their times.

use std::hint::black_box;
use std::time::{Duration, Instant};

/// How much is measured.
#[derive(Clone, Copy, Debug)]
pub struct Effort {
    /// Ratios of a row.
    pub rounds: usize,
    /// How long a turn of the second reader takes, at least.
    pub turn: Duration,
}

/// The times of some rounds.
#[derive(Clone, Debug, Default)]
pub struct Turns {
    /// Ours over theirs, of each round.
    pub ratios: Vec<f64>,
    /// The seconds of our work done once, of each round.
    pub ours: Vec<f64>,
}

/// Does both works in turn, as often as their turn wants it. A round has two turns of each, ours, theirs, theirs, ours,
/// so that each follows once on itself and once on the other; of the two the shorter one counts, which the rest of the
/// computer has disturbed less.
pub fn turns(effort: Effort, mut ours: impl FnMut(), mut theirs: impl FnMut()) -> Turns {
    ours();
    let times = times(effort.turn, &mut theirs);
    let mut turns = Turns::default();
    for _ in 0..effort.rounds {
        let first = time(times, &mut ours);
        let theirs = time(times, &mut theirs).min(time(times, &mut theirs));
        let ours = first.min(time(times, &mut ours));
        turns.ratios.push(ours / theirs);
        turns.ours.push(ours / times as f64);
    }
    turns
}

/// The same for works on each of some items.
pub fn each<T, A, B>(
    effort: Effort,
    items: &[T],
    mut ours: impl FnMut(&T) -> A,
    mut theirs: impl FnMut(&T) -> B,
) -> Turns {
    turns(effort, || over(items, &mut ours), || over(items, &mut theirs))
}

fn over<T, A>(items: &[T], work: &mut impl FnMut(&T) -> A) {
    for item in items {
        black_box(work(black_box(item)));
    }
}

/// How often a work is to be done to take this long, as a power of two. It is tried three times, since one time can be
/// long for another reason.
fn times(turn: Duration, work: &mut impl FnMut()) -> usize {
    let mut times = 1;
    while (0..3).any(|_| time(times, work) < turn.as_secs_f64()) {
        times *= 2;
    }
    times
}

/// The seconds that a work takes so many times.
fn time(times: usize, work: &mut impl FnMut()) -> f64 {
    let start = Instant::now();
    for _ in 0..times {
        work();
    }
    start.elapsed().as_secs_f64()
}
