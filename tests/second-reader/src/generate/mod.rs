//! Generates commands and books from a seed: sound ones of every shape, and ones made wrong.

mod books;
pub mod drafts;
mod errors;
mod fill;
pub mod lists;
mod mutate;
mod prng;
pub mod records;
pub mod runs;
mod sound;
mod times;
mod tree;

pub use books::{book, sweep};
pub use prng::Prng;
pub use tree::{Body, Node, Tree};

/// A sound command.
pub fn sound(prng: &mut Prng) -> Tree {
    sound::command(prng)
}

/// A sound command with several AVPs of a kind in its own list.
pub fn repeated(prng: &mut Prng) -> Tree {
    sound::repeated(prng)
}

/// The octets of a command: sound, or made wrong in one or a few ways. The length field, where it
/// is at least 20, is the number of octets.
pub fn command(prng: &mut Prng) -> Vec<u8> {
    let mut tree = sound::command(prng);
    match prng.below(20) {
        0..=6 => return tree.encode(),
        7..=14 => mutate::tree(&mut tree, prng),
        15..=16 => mutate::rules(&mut tree, prng),
        17..=18 => {
            for _ in 0..2 + prng.below(3) {
                mutate::tree(&mut tree, prng);
            }
        }
        _ => return mutate::fit(mutate::octets(tree.encode(), prng), prng),
    }
    let octets = tree.encode();
    if prng.one_in(12) {
        return mutate::fit(mutate::octets(octets, prng), prng);
    }
    octets
}
