//! Makes a draft malformed in one of 7006's ways, at a place where it can be seen alone.

use super::lend::settle;
use super::limits::push;
use super::pick::{after, last_member, members, pick, some, some_group};
use super::ways::{Field, Flag, Spot, Way};
use crate::draft::{Draft, Place};
use crate::generate::prng::Prng;
use crate::record::MOST_AVPS;

/// Makes the draft malformed in one way, where the draft has what that way needs.
pub fn one(draft: &mut Draft, octets: &mut Vec<u8>, prng: &mut Prng) -> Option<Way> {
    let way = prng.pick(&Way::all());
    apply(way, draft, octets, prng).map(|()| way)
}

fn apply(way: Way, draft: &mut Draft, octets: &mut Vec<u8>, prng: &mut Prng) -> Option<()> {
    let end = octets.len() as u32;
    match way {
        Way::Count257 => {
            if draft.count as usize != MOST_AVPS {
                return None;
            }
            draft.count = 257;
        }
        Way::CountHuge => {
            let wraps = [1 << 8, 1 << 16, 1 << 24, 1 << 31].map(|more| draft.count | more);
            let limits = [258, 511, 1 << 16, u32::MAX - 1, u32::MAX];
            let count = if prng.one_in(2) { prng.pick(&wraps) } else { prng.pick(&limits) };
            if count as usize <= MOST_AVPS {
                return None;
            }
            draft.count = count;
        }
        Way::Unused(field, spot) => {
            let first = draft.used().len();
            let at = match spot {
                Spot::First => first,
                Spot::Between => first + 1 + prng.below(MOST_AVPS.saturating_sub(first + 2)),
                Spot::Last => MOST_AVPS - 1,
            };
            let place = draft.places.get_mut(at).filter(|_| at >= first)?;
            *field_of(place, field) = prng.pick(&[1, 1, 2, 256, 1 << 24, 1 << 31]);
        }
        Way::PartByOne => {
            let place = pick(draft, prng, |place| !place.is_group() && place.length > 0)?;
            if prng.one_in(3) {
                octets.truncate((place.start as usize + place.length as usize) - 1);
            } else {
                place.start = (end + 1).wrapping_sub(place.length);
            }
        }
        Way::PartByFar => {
            let place = pick(draft, prng, |place| !place.is_group())?;
            let back = 0u32.wrapping_sub(place.length);
            place.start = match prng.below(4) {
                // The sum, cut to 32 bits, lies in the octets.
                0 if place.length > 0 => back,
                1 if place.length > 0 => back + prng.below(octets.len()).min(place.length as usize - 1) as u32,
                2 => 1 << 31,
                _ => u32::MAX - prng.below(4) as u32,
            };
        }
        Way::EmptyPartBehind => {
            let place = pick(draft, prng, |place| !place.is_group() && place.length == 0)?;
            place.start = prng.pick(&[end + 1, end + 1, end + 2, u32::MAX, 1 << 31]);
        }
        Way::FirstDepth0 => draft.used_mut().first_mut()?.depth = 0,
        Way::FirstDepth2 => draft.used_mut().first_mut()?.depth = prng.pick(&[2, 2, 3, 4]),
        Way::Depth0 => draft.used_mut().get_mut(1..).and_then(|later| some(later, prng, |_| true))?.depth = 0,
        Way::JumpByTwo => {
            let at = after(draft, prng, |a, b| a.is_group() && a.depth < 3 && b.depth == a.depth + 1)?;
            draft.places[at].depth += 1;
            settled(draft, prng);
        }
        Way::DeeperAfterPlain => {
            let at = after(draft, prng, |a, b| !a.is_group() && a.depth < 4 && b.depth <= a.depth)?;
            draft.places[at].depth = draft.places[at - 1].depth + 1;
            settled(draft, prng);
        }
        Way::Depth5 => {
            if draft.count as usize + 12 > MOST_AVPS {
                return None;
            }
            for depth in 1..=4 {
                for (depth, code) in [(depth, 284), (depth + 1, 280), (depth + 1, 33)] {
                    push(draft, Place { depth, code, m: 1, ..Place::default() });
                }
            }
            settle(draft.used_mut());
        }
        Way::GroupShort => {
            let group = pick(draft, prng, |place| place.is_group() && place.length > 0)?;
            group.length -= prng.pick(&[1, 4, group.length, group.length]).min(group.length);
        }
        Way::GroupLong => {
            let group = pick(draft, prng, |place| place.is_group())?;
            let more = prng.pick(&[1, 3, 4, 8, 1 << 8, 1 << 16, 1 << 24, 1 << 31]);
            group.length = group.length.wrapping_add(more);
        }
        Way::GroupWithoutPadding => {
            let at = some_group(draft, prng, |_, last| last.padded() != last.header() + u64::from(last.length))?;
            let padding = last_member(draft, at).map(|last| last.padded() - last.header() - u64::from(last.length))?;
            let group = &mut draft.places[at];
            group.length = group.length.wrapping_sub(padding as u32);
        }
        Way::GroupStale => stale(draft, prng)?,
        Way::Flag(flag) => {
            let flag = match flag {
                Flag::R => &mut draft.r,
                Flag::P => &mut draft.p,
                Flag::E => &mut draft.e,
                Flag::T => &mut draft.t,
                Flag::AvpM => &mut pick(draft, prng, |_| true)?.m,
                Flag::AvpP => &mut pick(draft, prng, |_| true)?.p,
            };
            // The lowest bit stays, so that cut to it the flag is as it was.
            *flag = (*flag & 1) | prng.pick(&[2, 2, 4, 0x80, 1 << 8, 1 << 31, u32::MAX - 1]);
        }
    }
    Some(())
}

fn field_of(place: &mut Place, field: Field) -> &mut u32 {
    match field {
        Field::Depth => &mut place.depth,
        Field::Vendor => &mut place.vendor,
        Field::Code => &mut place.code,
        Field::M => &mut place.m,
        Field::P => &mut place.p,
        Field::Start => &mut place.start,
        Field::Length => &mut place.length,
    }
}

/// Changes a group's members and not its length: a member is longer, gone, or no member any more.
fn stale(draft: &mut Draft, prng: &mut Prng) -> Option<()> {
    let at = some_group(draft, prng, |_, _| true)?;
    let member = at + 1 + prng.below(members(draft, at));
    let place = &mut draft.places[member];
    match prng.below(3) {
        0 if !place.is_group() => {
            let shorter = prng.pick(&[4, 8, 1]).min(place.length);
            let padded = place.padded();
            place.length -= shorter;
            if place.padded() == padded {
                return None;
            }
        }
        1 => {
            let last = at + members(draft, at);
            draft.places[last].depth = draft.places[at].depth;
        }
        _ => {
            let below = members(draft, member);
            let used = draft.used_mut();
            used[member..].rotate_left(1 + below);
            let left = used.len() - 1 - below;
            used[left..].fill(Place::default());
            draft.count = left as u32;
        }
    }
    Some(())
}

/// In half of the cases, gives groups lengths that fit the changed depths.
fn settled(draft: &mut Draft, prng: &mut Prng) {
    if prng.one_in(2) {
        settle(draft.used_mut());
    }
}
