//! Times of windows, made from the moments for which they stand: the seconds since 1900, from 2^31 on, 2^32 of them.

use super::prng::Prng;

/// The first moment that a time can say.
const FIRST: u64 = 1 << 31;

/// The moment at which the count begins anew: 7 February 2036, 06:28:16 UTC.
const TURN: u64 = 1 << 32;

/// The longest window, and half of the range.
const LONGEST: u64 = (1 << 32) - 1;
const HALF: u64 = 1 << 31;

/// Lengths at the edges: one second, about half of the range, the whole range.
const LENGTHS: [u64; 5] = [1, HALF - 1, HALF, HALF + 1, LONGEST];

/// Start and end of a right window: before 2036, behind it, or over it.
pub fn right(prng: &mut Prng) -> (u32, u32) {
    let length = match prng.below(5) {
        0 => 1,
        1..=2 => prng.pick(&LENGTHS),
        3 => 1 + prng.below(4000) as u64,
        _ => 1 + prng.bits() % LONGEST,
    };
    of_length(length, prng)
}

/// A right window of this length.
fn of_length(length: u64, prng: &mut Prng) -> (u32, u32) {
    let last = FIRST + LONGEST - length;
    let start = match prng.below(7) {
        0 => FIRST,
        1 => last,
        2 => TURN.min(last),
        3 => (TURN - 1).saturating_sub(length).max(FIRST),
        // Over the turn, at times by the least part of the window.
        4 => (TURN - 1 - prng.bits() % length.min(2)).min(last),
        5 => (TURN - 1 - prng.bits() % length.min(HALF)).min(last),
        _ => FIRST + prng.bits() % (last - FIRST + 1),
    };
    // Cut to 32 bits a moment is its time.
    (start as u32, (start + length) as u32)
}

/// Start and end of a wrong window: the same time, or a right window reversed.
pub fn wrong(prng: &mut Prng) -> (u32, u32) {
    if prng.one_in(4) {
        let any = prng.word();
        let time = prng.pick(&[0, 0x7FFF_FFFF, 0x8000_0000, u32::MAX, any]);
        return (time, time);
    }
    let (start, end) = right(prng);
    (end, start)
}

/// A window that the nearer way round takes for a right one: a right one below half of the range, or a wrong one that
/// goes back by more than that.
pub fn right_by_nearer(wrong: bool, prng: &mut Prng) -> (u32, u32) {
    let length = 1 + prng.bits() % (HALF - 1);
    let (start, end) = of_length(if wrong { HALF + length } else { length }, prng);
    if wrong {
        (end, start)
    } else {
        (start, end)
    }
}
