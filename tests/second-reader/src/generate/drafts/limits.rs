//! Drafts at the limits of count and length.

use super::lend::settle;
use crate::draft::{Draft, Place};
use crate::generate::prng::Prng;
use crate::header::LONGEST_COMMAND;
use crate::record::MOST_AVPS;
use crate::writer::length;

/// A Route-Record with M, which both commands' lists admit in any number.
fn route_record(start: u32, length: u32) -> Place {
    Place { depth: 1, vendor: 0, code: 282, m: 1, p: 0, start, length }
}

/// Adds empty Route-Records until 256 places, or nearly so many, are used.
pub fn crowd(draft: &mut Draft, prng: &mut Prng) {
    let goal = MOST_AVPS - prng.pick(&[0, 0, 0, 1, 2]);
    while draft.count < goal as u32 {
        push(draft, route_record(0, 0));
    }
}

/// Adds a group in a group in a group, and in that one a fourth, which has no members: deeper ones no draft can have.
pub fn deepen(draft: &mut Draft) {
    for depth in 1..=3 {
        for (depth, code) in [(depth, 284), (depth + 1, 280), (depth + 1, 33)] {
            push(draft, Place { depth, code, m: 1, ..Place::default() });
        }
    }
    push(draft, Place { depth: 4, code: 284, m: 1, ..Place::default() });
    settle(draft.used_mut());
}

/// Makes the command just as long as it may be, just longer, or longer by far: so that an AVP's
/// length leaves 24 bits, or the command's 32.
pub fn lengthen(draft: &mut Draft, octets: &mut Vec<u8>, prng: &mut Prng) {
    if draft.count as usize >= MOST_AVPS {
        return;
    }
    let now = length(draft);
    match prng.below(400) {
        0 => {
            // Cut to 24 bits, the AVP's length is one that may be.
            let data = (1 << 24) + prng.pick(&[0, 1, 4]);
            octets.resize(data as usize, 0);
            push(draft, route_record(0, data));
        }
        1..=2 => {
            // Cut to 32 bits, the command is as long as it was.
            let free = MOST_AVPS as u64 - u64::from(draft.count);
            let each = (1u64 << 32) / free / 4 * 4;
            let last = (1u64 << 32) - (free - 1) * each;
            if free > 100 {
                octets.resize(octets.len().max(last as usize), 0);
                (1..free).for_each(|_| push(draft, route_record(0, (each - 8) as u32)));
                push(draft, route_record(0, (last - 8) as u32));
            }
        }
        3..=30 => {
            // Long by overlapping parts alone.
            let all = octets.len() as u32;
            while draft.count < MOST_AVPS as u32 && length(draft) < 1 << 20 && all > 0 {
                push(draft, route_record(0, all));
            }
        }
        _ => {
            let goal = LONGEST_COMMAND as u64 + prng.pick(&[0, 0, 0, 4, 4, 8, 1000]);
            if now + 8 <= goal {
                let data = (goal - now - 8) as usize;
                let padding = if data == 0 { 0 } else { prng.below(4) };
                let start = octets.len();
                octets.resize(start + data, prng.octet());
                push(draft, route_record(start as u32, (data - padding) as u32));
            }
        }
    }
}

/// Adds an AVP at the end of the command's own list.
pub fn push(draft: &mut Draft, place: Place) {
    if let Some(free) = draft.places.get_mut(draft.count as usize) {
        *free = place;
        draft.count += 1;
    }
}
