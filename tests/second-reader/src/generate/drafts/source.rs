//! Where drafts come from.

use super::lend::{lend, moved, settle};
use crate::dictionary::{Form, Kind};
use crate::draft::{Draft, Place};
use crate::generate::mutate;
use crate::generate::prng::Prng;
use crate::generate::tree::{Body, Node, Tree};
use crate::header::Command;
use crate::record::MOST_AVPS;

/// Where a draft comes from.
#[derive(Clone, Copy, Debug, PartialEq, Eq, PartialOrd, Ord)]
pub enum Origin {
    /// The record of an accepted command, over the command.
    Record,
    /// The same over other octets.
    Moved,
    /// Built from nothing as a command, sound or wrong.
    Built,
    /// Built from nothing, AVP by AVP.
    Random,
    /// Any numbers.
    Wild,
}

impl Origin {
    /// Those from which accepted drafts come.
    pub const SOUND: [Origin; 3] = [Origin::Record, Origin::Moved, Origin::Built];
}

/// A draft of any origin and its lent octets.
pub fn any(prng: &mut Prng) -> (Origin, Draft, Vec<u8>) {
    match prng.below(40) {
        0..=7 => {
            let (draft, octets) = record(prng);
            (Origin::Record, draft, octets)
        }
        8..=17 => {
            let (draft, octets) = record(prng);
            let (draft, octets) = moved(&draft, &octets, prng);
            (Origin::Moved, draft, octets)
        }
        18..=34 => {
            let (draft, octets) = built(prng);
            (Origin::Built, draft, octets)
        }
        35..=38 => {
            let (draft, octets) = random(prng);
            (Origin::Random, draft, octets)
        }
        _ => {
            let (draft, octets) = wild(prng);
            (Origin::Wild, draft, octets)
        }
    }
}

/// The record of an accepted command over the command, at times with octets behind it.
fn record(prng: &mut Prng) -> (Draft, Vec<u8>) {
    loop {
        let mut octets = crate::generate::sound(prng).encode();
        let reading = crate::read(&octets);
        if reading.verdict.number == 0 {
            if prng.one_in(4) {
                octets.push(prng.octet());
            }
            return (Draft::of(&reading.record), octets);
        }
    }
}

/// A command's tree, in most cases changed, as a draft.
fn built(prng: &mut Prng) -> (Draft, Vec<u8>) {
    let mut tree = crate::generate::sound(prng);
    match prng.below(8) {
        0 => {}
        1 => mutate::volumes(&mut tree, prng),
        2 if tree.command() == Command::ErrorAnswer => mutate::error_answer(&mut tree, prng),
        2 => mutate::windows(&mut tree, prng),
        3..=6 => mutate::tree(&mut tree, prng),
        _ => mutate::rules(&mut tree, prng),
    }
    of_tree(&tree, prng)
}

/// The draft that a tree stands for. What a draft cannot say is left out: wrong length fields,
/// stray octets, reserved flags, V with vendor 0.
fn of_tree(tree: &Tree, prng: &mut Prng) -> (Draft, Vec<u8>) {
    let mut avps = Vec::new();
    gather(&tree.list, 1, &mut avps);
    let count = avps.len() as u32;
    avps.truncate(MOST_AVPS);
    let (mut places, data): (Vec<Place>, Vec<Vec<u8>>) = avps.into_iter().unzip();
    let octets = lend(&mut places, &data, prng);
    let bit = |bit: u32| u32::from(tree.flags) >> bit & 1;
    let mut draft = Draft { r: bit(7), p: bit(6), e: bit(5), t: bit(4), ..Draft::default() };
    (draft.hop_by_hop, draft.end_to_end) = (tree.hop_by_hop, tree.end_to_end);
    draft.count = count;
    draft.places[..places.len()].copy_from_slice(&places);
    settle(draft.used_mut());
    (draft, octets)
}

/// The AVPs of a list and of all below it, with their data. Members of what is no read group are
/// its data, and the data of a read group are left out.
fn gather(list: &[Node], depth: u32, avps: &mut Vec<(Place, Vec<u8>)>) {
    for node in list {
        let mut place = Place {
            depth,
            vendor: node.vendor.unwrap_or(0),
            code: node.code,
            m: u32::from(node.flags >> 6 & 1),
            p: u32::from(node.flags >> 5 & 1),
            ..Place::default()
        };
        match &node.body {
            Body::Members(members) if place.is_group() => {
                avps.push((place, Vec::new()));
                gather(members, depth + 1, avps);
            }
            Body::Members(members) => {
                let data = Tree::of(0, 0, 0, members.clone()).encode().split_off(20);
                place.length = data.len() as u32;
                avps.push((place, data));
            }
            Body::Data(_) if place.is_group() => avps.push((place, Vec::new())),
            Body::Data(data) => {
                place.length = data.len() as u32;
                avps.push((place, data.clone()));
            }
        }
    }
}

/// AVPs of any names in a tree of any shape over random octets. Widths are met in most cases, and
/// groups have their members' lengths.
fn random(prng: &mut Prng) -> (Draft, Vec<u8>) {
    let room = prng.pick(&[0, 1, 7, 40, 40, 300]);
    let octets = prng.octets(room);
    let count = prng.pick(&[0, 1, 2, 3, 5, 8, 13, 40, 255, 256]);
    let mut draft = Draft { r: prng.below(2) as u32, count, ..Draft::default() };
    draft.p = (!prng.one_in(12)).into();
    draft.e = prng.one_in(4).into();
    draft.t = prng.one_in(3).into();
    (draft.hop_by_hop, draft.end_to_end) = (prng.word(), prng.word());
    let mut deepest = 1;
    for at in 0..count as usize {
        let kind = prng.pick(Kind::ALL);
        let group = at > 0 && prng.one_in(4);
        let name = if group { Kind::ProxyInfo } else { kind };
        let known = !prng.one_in(5);
        let width = match name.form() {
            Form::Four if known => 4,
            Form::Eight if known => 8,
            _ => prng.below(12),
        };
        let length = width.min(room);
        let mut place = Place {
            depth: 1 + prng.below(deepest) as u32,
            vendor: if known { name.vendor() } else { prng.pick(&[0, 1, 10_415]) },
            code: if known { name.code() } else { prng.below(9999) as u32 },
            m: u32::from(known || prng.one_in(20)),
            p: prng.below(2) as u32,
            start: prng.below(room - length + 1) as u32,
            length: length as u32,
        };
        if at == 0 && prng.one_in(2) {
            (place.vendor, place.code) = (0, Kind::SessionId.code());
        }
        deepest = (place.depth as usize + usize::from(place.is_group())).min(4);
        draft.places[at] = place;
    }
    settle(draft.used_mut());
    (draft, octets)
}

/// Any numbers, many of them near a limit.
fn wild(prng: &mut Prng) -> (Draft, Vec<u8>) {
    let room = prng.below(300);
    let octets = prng.octets(room);
    let mut draft = Draft::default();
    let number = |prng: &mut Prng| match prng.below(4) {
        0 => prng.word(),
        1 => prng.below(300) as u32,
        _ => prng.pick(&[0, 0, 1, 1, 2, 4, 5, 255, 256, 257, 10_415, 16_384, u32::MAX, 1 << 31]),
    };
    let head = [&mut draft.r, &mut draft.p, &mut draft.e, &mut draft.t];
    for field in head {
        *field = prng.pick(&[0, 1, 1, 1, 2]);
    }
    (draft.hop_by_hop, draft.end_to_end) = (prng.word(), prng.word());
    draft.count = number(prng).min(prng.pick(&[3, 256, 257, u32::MAX]));
    let used = if prng.one_in(2) { draft.used().len() } else { MOST_AVPS };
    for place in &mut draft.places[..used] {
        let mut n = || number(prng);
        *place = Place { depth: n() % 6, vendor: n(), code: n(), m: n() % 3, p: n() % 3, start: n(), length: n() };
    }
    (draft, octets)
}
