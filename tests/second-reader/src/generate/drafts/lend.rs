//! Lent octets: the data of a draft's AVPs, put where a draft may have them.

use crate::draft::{avps, Draft, Place};
use crate::generate::prng::Prng;

/// The longest data that is looked for among the octets so far.
const SHORT: usize = 12;

/// The draft with its data elsewhere in new octets.
pub fn moved(draft: &Draft, octets: &[u8], prng: &mut Prng) -> (Draft, Vec<u8>) {
    let part = |place: &Place| {
        let start = place.start as usize;
        octets.get(start..start + place.length as usize).unwrap_or_default().to_vec()
    };
    let mut draft = draft.clone();
    let data: Vec<Vec<u8>> = draft.used().iter().map(part).collect();
    let octets = lend(draft.used_mut(), &data, prng);
    (draft, octets)
}

/// Octets that hold the data of each AVP that is no read group, and the starts set to it. Parts
/// come in any order, overlap where their content allows it, and have other octets between them;
/// empty parts stand anywhere, also at the very end. The starts of read groups are whatever.
pub fn lend(places: &mut [Place], data: &[Vec<u8>], prng: &mut Prng) -> Vec<u8> {
    let mut octets = Vec::new();
    let mut order: Vec<usize> = (0..places.len()).collect();
    if !prng.one_in(3) {
        prng.shuffle(&mut order);
    }
    let gaps = prng.one_in(2);
    for &at in &order {
        if !places[at].is_group() && places[at].length > 0 {
            if gaps && prng.one_in(3) {
                let more = prng.below(5);
                octets.extend(prng.octets(more));
            }
            places[at].start = put(&data[at], &mut octets, prng) as u32;
        }
    }
    if prng.one_in(3) {
        let more = prng.below(9);
        octets.extend(prng.octets(more));
    }
    let end = octets.len() as u32;
    for place in places {
        let anywhere = prng.below(end as usize + 1) as u32;
        if place.is_group() {
            place.start = prng.pick(&[0, place.start, anywhere, end + 1, u32::MAX]);
        } else if place.length == 0 {
            place.start = prng.pick(&[0, anywhere, end, end]);
        }
    }
    octets
}

/// Where the data stands in the octets: as a part of what is there, as one that continues its
/// end, or behind it.
fn put(data: &[u8], octets: &mut Vec<u8>, prng: &mut Prng) -> usize {
    if data.len() <= SHORT && !prng.one_in(3) {
        let first = octets.len().saturating_sub(200);
        if let Some(at) = octets[first..].windows(data.len()).position(|part| part == data) {
            return first + at;
        }
        let shared = (1..data.len()).rev().find(|&n| octets.ends_with(&data[..n])).unwrap_or(0);
        octets.extend(&data[shared..]);
        return octets.len() - data.len();
    }
    octets.extend(data);
    octets.len() - data.len()
}

/// Gives each read group the length of its members with padding.
pub fn settle(places: &mut [Place]) {
    for at in (0..places.len()).rev() {
        if places[at].is_group() {
            let members = avps(&places[at..]).next().map_or(&[][..], |(_, members)| members);
            let length: u64 = avps(members).map(|(member, _)| member.padded()).sum();
            places[at].length = length as u32;
        }
    }
}
