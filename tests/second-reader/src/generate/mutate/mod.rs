//! Ways to make a command wrong.

mod errors;
mod fields;
mod limits;
mod members;
mod octets;
mod pick;
mod windows;

pub use errors::error_answer;
pub use members::volumes;
pub use octets::{fit, octets};
pub use windows::windows;

use super::prng::Prng;
use super::tree::Tree;
use crate::header::Command;

/// Changes the tree in one way.
pub fn tree(tree: &mut Tree, prng: &mut Prng) {
    if tree.command() == Command::ErrorAnswer && prng.one_in(2) {
        return error_answer(tree, prng);
    }
    match prng.below(46) {
        0 => fields::header(tree, prng),
        1..=3 => members::drop_any(tree, prng),
        4..=6 => members::drop_ruled(tree, prng),
        7..=8 => members::double(tree, prng),
        9 => members::swap(tree, prng),
        10 => members::move_elsewhere(tree, prng),
        11..=12 => fields::rename(tree, prng),
        13..=15 => fields::flags(tree, prng),
        16..=18 => fields::length(tree, prng),
        19..=20 => fields::width(tree, prng),
        21..=22 => fields::value(tree, prng),
        23..=25 => windows::window(tree, prng),
        26..=27 => limits::nest(tree, prng),
        28 => limits::crowd(tree, prng),
        29..=30 => limits::stray(tree, prng),
        31 => limits::lose_padding(tree, prng),
        32..=34 => members::intrude(tree, prng),
        35 => members::session(tree, prng),
        36 => members::outcome(tree, prng),
        37 if prng.one_in(2) => members::empty_group(tree, prng),
        37 => members::thin(tree, prng),
        38 => tree.flags ^= 0x80,
        39..=41 => members::volumes(tree, prng),
        42..=44 => windows(tree, prng),
        _ if prng.one_in(6) => limits::too_long(tree, prng),
        _ => members::policies(tree, prng),
    }
}

/// Breaks several rows or exchange rules, so that their order shows.
pub fn rules(tree: &mut Tree, prng: &mut Prng) {
    for _ in 0..2 + prng.below(4) {
        if tree.command() == Command::ErrorAnswer && prng.one_in(2) {
            error_answer(tree, prng);
            continue;
        }
        match prng.below(14) {
            0 | 1 => members::drop_any(tree, prng),
            2 => members::drop_ruled(tree, prng),
            3 | 4 => members::double(tree, prng),
            5 => members::move_elsewhere(tree, prng),
            6 | 7 => windows::window(tree, prng),
            8 => members::intrude(tree, prng),
            9 => members::session(tree, prng),
            10 if prng.one_in(2) => members::empty_group(tree, prng),
            10 => members::thin(tree, prng),
            11 => members::volumes(tree, prng),
            12 => windows(tree, prng),
            _ => members::policies(tree, prng),
        }
    }
}
