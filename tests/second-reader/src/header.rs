//! The command header: 20 octets.

use crate::verdict::{number, Verdict};

/// Octets of a command header.
pub const HEADER: usize = 20;
/// The longest command that is read.
pub const LONGEST_COMMAND: usize = 16_384;
/// Background-Data-Transfer.
pub const COMMAND_CODE: u32 = 8_388_723;
/// The Nt application.
pub const APPLICATION: u32 = 16_777_348;

const R: u8 = 0x80;
const P: u8 = 0x40;
const E: u8 = 0x20;
const T: u8 = 0x10;

/// What a command is: each has rows and exchange rules of its own.
#[derive(Clone, Copy, Debug, PartialEq, Eq, PartialOrd, Ord)]
pub enum Command {
    /// BTR: R set.
    Request,
    /// BTA: R and E clear.
    Answer,
    /// An answer with E, request 1 of 02.
    ErrorAnswer,
}

impl Command {
    /// All of them.
    pub const ALL: [Command; 3] = [Command::Request, Command::Answer, Command::ErrorAnswer];

    /// What R and E say.
    pub const fn of(r: bool, e: bool) -> Command {
        match (r, e) {
            (true, _) => Command::Request,
            (false, false) => Command::Answer,
            (false, true) => Command::ErrorAnswer,
        }
    }
}

/// What a sound header says.
#[derive(Clone, Copy, Debug)]
pub struct Header {
    pub r: bool,
    pub p: bool,
    pub e: bool,
    pub t: bool,
    pub hop_by_hop: u32,
    pub end_to_end: u32,
}

impl Header {
    /// What the command is.
    pub const fn command(&self) -> Command {
        Command::of(self.r, self.e)
    }
}

/// The header of the command that fills `octets`, or its refusal.
#[inline]
pub fn read(octets: &[u8]) -> Result<Header, Verdict> {
    let refuse = |number, place| Err(Verdict::unnamed(number, place));
    let Some(head) = octets.first_chunk::<HEADER>() else {
        return refuse(number::INVALID_MESSAGE_LENGTH, 0);
    };
    let word = |at: usize| u32::from_be_bytes([head[at], head[at + 1], head[at + 2], head[at + 3]]);
    let length = (word(0) & 0xFF_FFFF) as usize;
    let flags = head[4];
    if head[0] != 1 {
        return refuse(number::UNSUPPORTED_VERSION, 0);
    }
    if length < HEADER || !length.is_multiple_of(4) || length != octets.len() {
        return refuse(number::INVALID_MESSAGE_LENGTH, 1);
    }
    if length > LONGEST_COMMAND {
        return refuse(number::COMMAND_TOO_LONG, 1);
    }
    if word(8) != APPLICATION {
        return refuse(number::APPLICATION_UNSUPPORTED, 8);
    }
    if word(4) & 0xFF_FFFF != COMMAND_CODE {
        return refuse(number::COMMAND_UNSUPPORTED, 5);
    }
    // P may be clear in an error answer alone.
    if flags & (R | E) == R | E || flags & (P | E) == 0 {
        return refuse(number::INVALID_HEADER_BITS, 4);
    }
    Ok(Header {
        r: flags & R != 0,
        p: flags & P != 0,
        e: flags & E != 0,
        t: flags & T != 0,
        hop_by_hop: word(12),
        end_to_end: word(16),
    })
}
