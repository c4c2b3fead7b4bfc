//! Lists of write calls with one thing changed.

use super::{insert_refusals, own, Change};
use crate::calls::{Call, Lent};
use crate::draft::{Draft, Place};
use crate::generate::drafts::{accepted, is_accepted, lend, moved, settle};
use crate::generate::prng::Prng;
use crate::header::LONGEST_COMMAND;
use crate::meaning::{padding, Meaning};
use crate::writer::write;

/// The list with one thing changed, all of its calls still accepted.
pub fn changed(change: Change, list: &[Call], prng: &mut Prng) -> Option<Vec<Call>> {
    let mut list = list.to_vec();
    match change {
        Change::Nothing => {}
        Change::Refusals => insert_refusals(&mut list, prng),
        Change::Lender if list.is_empty() => return None,
        Change::Lender => {}
        Change::Starts => {
            for call in &mut list {
                *call = own(moved(&call.draft, octets(call), prng));
            }
        }
        Change::Source => {
            for call in &mut list {
                *call = own(source(&call.draft, octets(call), prng));
            }
        }
        Change::CallOrder => {
            let at = prng.below(list.len().checked_sub(1)?);
            if list.len() < 2 || meaning(&list[at]) == meaning(&list[at + 1]) {
                return None;
            }
            list.swap(at, at + 1);
        }
        Change::Number => {
            let at = prng.below(list.len());
            if prng.one_in(2) {
                list.get(at)?;
                list.remove(at);
            } else {
                list.insert(at, own(accepted(prng)));
            }
        }
        _ => {
            let at = prng.below(list.len());
            let call = list.get(at)?;
            let (draft, octets) = draft_changed(change, &call.draft, octets(call), prng)?;
            if !is_accepted(&draft, &octets) {
                return None;
            }
            list[at] = own((draft, octets));
        }
    }
    Some(list)
}

/// The octets that a call lends, where they are its own.
pub fn octets(call: &Call) -> &[u8] {
    match &call.lent {
        Lent::Own(octets) => octets,
        Lent::Written => &[],
    }
}

fn meaning(call: &Call) -> Meaning {
    Meaning::of_draft(&call.draft, octets(call))
}

/// The draft with one thing changed that belongs to its meaning.
fn draft_changed(change: Change, draft: &Draft, octets: &[u8], prng: &mut Prng) -> Option<(Draft, Vec<u8>)> {
    let (mut draft, mut octets) = (draft.clone(), octets.to_vec());
    let used = draft.used().len();
    let at = prng.below(used);
    match change {
        Change::DataOctet => {
            let place = draft.used().get(at).filter(|place| !place.is_group() && place.length > 0)?;
            let octet = place.start as usize + prng.below(place.length as usize);
            octets[octet] ^= 1 << prng.below(8);
        }
        Change::Retransmitted => draft.t ^= 1,
        Change::Proxiable if draft.e == 1 => draft.p ^= 1,
        // Without E, P is set.
        Change::Error if draft.r == 0 && draft.p == 1 => draft.e ^= 1,
        Change::AvpFlag if prng.one_in(2) => draft.used_mut().get_mut(at)?.p ^= 1,
        Change::AvpFlag => draft.used_mut().get_mut(at)?.m ^= 1,
        Change::Identifier if prng.one_in(2) => draft.hop_by_hop ^= 1 << prng.below(32),
        Change::Identifier => draft.end_to_end ^= 1 << prng.below(32),
        Change::Name => {
            let vendor = prng.pick(&[0, 1, 10_415, u32::MAX]);
            let place = draft.used_mut().get_mut(at).filter(|place| !place.is_group())?;
            match prng.below(3) {
                0 if place.vendor != vendor => place.vendor = vendor,
                _ => place.code ^= 1 << prng.below(32),
            }
            if place.is_group() {
                return None;
            }
            settle(draft.used_mut());
        }
        Change::Split => {
            let [one, two] = draft.used().get(at..at + 2)? else {
                return None;
            };
            if one.is_group() || two.is_group() || one.length == 0 {
                return None;
            }
            let mut data: Vec<Vec<u8>> = draft.used().iter().map(|place| part(place, &octets)).collect();
            let cut = prng.below(data[at].len());
            let mut tail = data[at].split_off(cut);
            tail.append(&mut data[at + 1]);
            data[at + 1] = tail;
            for (place, data) in draft.used_mut().iter_mut().zip(&data) {
                if !place.is_group() {
                    place.length = data.len() as u32;
                }
            }
            octets = lend(draft.used_mut(), &data, prng);
            settle(draft.used_mut());
        }
        Change::AvpOrder => {
            let [one, two] = draft.used().get(at..at + 2)? else {
                return None;
            };
            let same = part(one, &octets) == part(two, &octets) && Place { start: two.start, ..*one } == *two;
            if one.is_group() || two.is_group() || one.depth != two.depth || same {
                return None;
            }
            draft.places.swap(at, at + 1);
        }
        Change::Depth => {
            let place = draft.used().get(at).filter(|place| place.depth > 1)?;
            let next = draft.used().get(at + 1).map_or(0, |next| next.depth);
            if next >= place.depth {
                return None;
            }
            draft.places[at].depth -= 1;
            settle(draft.used_mut());
        }
        _ => return None,
    }
    Some((draft, octets))
}

/// The data of a place; none of a read group.
fn part(place: &Place, octets: &[u8]) -> Vec<u8> {
    if place.is_group() {
        return Vec::new();
    }
    octets[place.start as usize..][..place.length as usize].to_vec()
}

/// What the writer writes for an accepted draft.
fn command(draft: &Draft, octets: &[u8]) -> Vec<u8> {
    let mut output = vec![0; LONGEST_COMMAND];
    let length = write(draft, octets, &mut output).length;
    output.truncate(length as usize);
    output
}

/// The record of a command with the draft's meaning that has other padding and reserved bits.
pub fn source(draft: &Draft, octets: &[u8], prng: &mut Prng) -> (Draft, Vec<u8>) {
    let mut command = command(draft, octets);
    for (at, padding) in padding(&command).into_iter().enumerate() {
        if padding {
            command[at] = prng.octet();
        }
    }
    command[4] |= prng.octet() & 0x0F;
    (Draft::of(&crate::read(&command).record), command)
}

/// The list with its first command written once more: from octets of its own, and from those that
/// the list has written.
pub fn lenders(list: &[Call], prng: &mut Prng) -> [Vec<Call>; 2] {
    let first = command(&list[0].draft, octets(&list[0]));
    let mut draft = Draft::of(&crate::read(&first).record);
    if prng.one_in(2) {
        draft.t ^= 1;
    }
    [Lent::Own(first), Lent::Written].map(|lent| {
        let mut list = list.to_vec();
        list.push(Call { draft: draft.clone(), lent });
        list
    })
}
