//! Made-up records: the numbers of accepted commands' records with some of them changed, and numbers
//! from nothing. Any numbers are a record, and a search of it has an answer.

use super::prng::Prng;
use super::sound;
use crate::draft::{Draft, Place};
use crate::record::MOST_AVPS;

/// Depths that are not 1, some of which are 1 if cut to fewer bits.
const DEPTHS: [u32; 8] = [0, 0, 2, 5, 257, 1 << 16 | 1, 1 << 31 | 1, u32::MAX];

/// A made-up record.
pub fn made_up(prng: &mut Prng) -> Draft {
    let mut draft = match prng.below(24) {
        0..=3 => few_names(prng),
        4 => wild(prng),
        _ => accepted(prng),
    };
    for _ in 0..prng.below(5) {
        change(&mut draft, prng);
    }
    draft
}

/// The record of an accepted command.
fn accepted(prng: &mut Prng) -> Draft {
    Draft::of(&crate::read(&sound(prng).encode()).record)
}

/// AVPs of few names at few depths, or all of one name at depth 1, behind the count too.
fn few_names(prng: &mut Prng) -> Draft {
    if prng.one_in(16) {
        let place = Place { depth: 1, code: 282, ..Place::default() };
        let count = prng.pick(&[255, 256, 257, u32::MAX]);
        return Draft { count, places: Box::new([place; MOST_AVPS]), ..Draft::default() };
    }
    let filled = prng.pick(&[3, 10, 40, MOST_AVPS]);
    let mut draft = Draft { count: prng.below(filled + 1) as u32, ..Draft::default() };
    for place in &mut draft.places[..filled] {
        let depth = prng.pick(&[0, 1, 1, 1, 1, 2, 3]);
        *place = Place { depth, vendor: prng.pick(&[0, 10_415]), code: prng.pick(&[1, 4207]), ..Place::default() };
    }
    draft
}

/// Any numbers.
fn wild(prng: &mut Prng) -> Draft {
    let mut draft = Draft { count: prng.below(300) as u32, ..Draft::default() };
    for place in &mut draft.places[..prng.pick(&[20, 20, 20, MOST_AVPS])] {
        let [depth, vendor, code, m, p, start, length] = [(); 7].map(|()| number(prng));
        *place = Place { depth, vendor, code, m, p, start, length };
    }
    draft
}

fn number(prng: &mut Prng) -> u32 {
    let word = prng.word();
    prng.pick(&[0, 1, 1, 1, 2, 256, 10_415, u32::MAX, word])
}

/// Changes a record in one way.
fn change(draft: &mut Draft, prng: &mut Prng) {
    // A place that is used, if one is, in most cases.
    let most = if prng.one_in(8) { MOST_AVPS } else { draft.used().len().max(1) };
    let (at, other) = (prng.below(most), prng.below(most));
    let (place, bit) = (draft.places[other], 1 << prng.below(32));
    match prng.below(10) {
        0 => draft.places[at].depth = 1,
        1 => draft.places[at].depth = prng.pick(&DEPTHS),
        2 => draft.places[at].vendor = prng.pick(&[0, 10_415, 10_416, place.vendor ^ bit]),
        3 => draft.places[at].code = prng.pick(&[place.code, place.code, place.code ^ bit]),
        4 => draft.places.swap(at, other),
        5 => named_alike(draft, place, prng),
        6 | 7 => draft.count = count(draft, prng),
        8 => fill(draft, prng),
        _ => {
            let alike = if prng.one_in(4) { MOST_AVPS } else { MOST_AVPS.min(at + prng.below(8)) };
            draft.places[at.min(alike)..alike].fill(Place { depth: 1, ..place });
        }
    }
}

/// Gives some places the name of one, and leaves their depths or makes them any.
fn named_alike(draft: &mut Draft, place: Place, prng: &mut Prng) {
    let deep = prng.one_in(2);
    for other in draft.used_mut() {
        if prng.one_in(3) {
            (other.vendor, other.code) = (place.vendor, place.code);
            if deep {
                other.depth = if prng.one_in(2) { 1 } else { prng.pick(&DEPTHS) };
            }
        }
    }
}

/// Another count.
fn count(draft: &Draft, prng: &mut Prng) -> u32 {
    let count = draft.count;
    let less = prng.below(count as usize) as u32;
    let more = count.saturating_add(1 + prng.below(12) as u32);
    let wraps = [1 << 8, 1 << 16, 1 << 31].map(|bit| count | bit);
    let near = [less, less, count.saturating_sub(1), count.saturating_add(1), more];
    let limits = [0, 255, 256, 256, 257, 257, u32::MAX, u32::MAX];
    match prng.below(4) {
        0 => prng.pick(&wraps),
        1 => prng.pick(&near),
        _ => prng.pick(&limits),
    }
}

/// Fills places behind the count with copies of used ones, most of them at depth 1.
fn fill(draft: &mut Draft, prng: &mut Prng) {
    let used = draft.used().len();
    let end = prng.pick(&[used + 1, used + 4, MOST_AVPS, MOST_AVPS]).min(MOST_AVPS);
    for at in used..end {
        draft.places[at] = draft.places[prng.below(used.max(1))];
        if !prng.one_in(4) {
            draft.places[at].depth = 1;
        }
    }
}
