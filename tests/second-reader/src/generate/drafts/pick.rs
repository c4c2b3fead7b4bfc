//! Picking a place of a draft.

use crate::draft::{avps, Draft, Place};
use crate::generate::prng::Prng;

/// How many places stand below the one at `at`.
pub fn members(draft: &Draft, at: usize) -> usize {
    avps(&draft.used()[at..]).next().map_or(0, |(_, members)| members.len())
}

/// The last direct member of the group at `at`.
pub fn last_member(draft: &Draft, at: usize) -> Option<&Place> {
    let (_, members) = avps(&draft.used()[at..]).next()?;
    avps(members).last().map(|(last, _)| last)
}

/// The position of a read group with a last member that is wanted.
pub fn some_group(draft: &Draft, prng: &mut Prng, wanted: impl Fn(&Place, &Place) -> bool) -> Option<usize> {
    let group = |&at: &usize| {
        let group = &draft.places[at];
        group.is_group() && last_member(draft, at).is_some_and(|last| wanted(group, last))
    };
    let groups: Vec<usize> = (0..draft.used().len()).filter(group).collect();
    groups.get(prng.below(groups.len())).copied()
}

/// A position whose place, with the one before it, is wanted.
pub fn after(draft: &Draft, prng: &mut Prng, wanted: impl Fn(&Place, &Place) -> bool) -> Option<usize> {
    let used = draft.used();
    let there: Vec<usize> = (1..used.len()).filter(|&at| wanted(&used[at - 1], &used[at])).collect();
    there.get(prng.below(there.len())).copied()
}

/// One of the used places that are wanted.
pub fn pick<'a>(draft: &'a mut Draft, prng: &mut Prng, wanted: impl Fn(&Place) -> bool) -> Option<&'a mut Place> {
    some(draft.used_mut(), prng, wanted)
}

pub fn some<'a>(places: &'a mut [Place], prng: &mut Prng, wanted: impl Fn(&Place) -> bool) -> Option<&'a mut Place> {
    let mut there: Vec<&mut Place> = places.iter_mut().filter(|place| wanted(place)).collect();
    let at = prng.below(there.len());
    if there.is_empty() {
        None
    } else {
        Some(there.swap_remove(at))
    }
}
