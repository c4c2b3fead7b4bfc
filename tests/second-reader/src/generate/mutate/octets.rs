//! Changes of the octets.

use crate::generate::prng::Prng;

/// Changes the octets in one way.
pub fn octets(mut octets: Vec<u8>, prng: &mut Prng) -> Vec<u8> {
    match prng.below(8) {
        0 | 1 => {
            let at = prng.below(octets.len());
            octets[at] = prng.octet();
        }
        2 | 3 => {
            let at = prng.below(octets.len());
            octets[at] ^= 1 << prng.below(8);
        }
        4 => {
            octets.truncate(prng.below(octets.len() / 4) * 4 + 4);
            set_length(&mut octets);
        }
        5 => {
            let more = 4 * (1 + prng.below(5));
            octets.extend(prng.octets(more));
            set_length(&mut octets);
        }
        6 => {
            let at = prng.below(20);
            octets[at] ^= 1 << prng.below(8);
        }
        _ => {
            let length = octets.len() + 1 + prng.below(7);
            octets.resize(length, 0);
            set_length(&mut octets);
        }
    }
    octets
}

/// Makes the length field and the number of octets agree.
pub fn fit(mut octets: Vec<u8>, prng: &mut Prng) -> Vec<u8> {
    if octets.len() < 20 {
        octets.resize(20, 0);
        set_length(&mut octets);
    }
    let length = u32::from_be_bytes([0, octets[1], octets[2], octets[3]]) as usize;
    if (20..20_000).contains(&length) {
        let more = length.saturating_sub(octets.len());
        octets.extend(prng.octets(more));
        octets.truncate(length);
    } else {
        set_length(&mut octets);
    }
    octets
}

fn set_length(octets: &mut [u8]) {
    let length = (octets.len() as u32).to_be_bytes();
    if let Some(field) = octets.get_mut(1..4) {
        field.copy_from_slice(&length[1..]);
    }
}
