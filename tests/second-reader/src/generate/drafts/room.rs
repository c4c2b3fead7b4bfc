//! Outputs of every room, with old content.

use crate::draft::Draft;
use crate::generate::prng::Prng;
use crate::header::LONGEST_COMMAND;
use crate::writer::length;

/// An output's room beside the command's length.
#[derive(Clone, Copy, Debug, PartialEq, Eq, PartialOrd, Ord)]
pub enum Room {
    /// No room at all.
    None,
    /// Less than the command, by more than one octet.
    Short,
    /// One octet less than the command.
    OneShort,
    /// As long as the command.
    Exact,
    /// One octet more.
    OneMore,
    /// More.
    More,
}

impl Room {
    /// Rooms in which a command does not lie.
    pub const TOO_SHORT: [Room; 3] = [Room::None, Room::Short, Room::OneShort];
    /// Rooms in which a command lies.
    pub const ENOUGH: [Room; 3] = [Room::Exact, Room::OneMore, Room::More];
}

/// How an output's room stands to a command's length.
pub fn room(length: u64, room: usize) -> Room {
    match room as u64 {
        0 => Room::None,
        room if room + 1 < length => Room::Short,
        room if room < length => Room::OneShort,
        room if room == length => Room::Exact,
        room if room == length + 1 => Room::OneMore,
        _ => Room::More,
    }
}

/// An output of any room for a command of this length.
pub fn output(length: usize, prng: &mut Prng) -> Vec<u8> {
    let room = match prng.below(16) {
        0 => 0,
        1 => length.saturating_sub(1),
        2 => prng.below(length),
        3 => prng.pick(&[19, 20, 4, 1]),
        4..=7 => length,
        8..=9 => length + 1,
        10 if prng.one_in(8) => LONGEST_COMMAND + prng.below(9),
        _ => length + prng.below(70),
    };
    prng.octets(room)
}

/// An output of any room for a draft; one that is too long gets rooms as if it were not.
pub fn draft_output(draft: &Draft, prng: &mut Prng) -> Vec<u8> {
    output(length(draft).min(LONGEST_COMMAND as u64 + 8) as usize, prng)
}
