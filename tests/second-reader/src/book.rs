//! A book of commands and its listing.

use crate::verdict::number;

/// The most octets of a book, its head among them.
pub const LONGEST_BOOK: usize = 65_536;
const HEAD: &[u8; 5] = b"NTB\x00\x01";
const SHORTEST_COMMAND: usize = 20;

/// What stands at an offset of a book.
#[derive(Clone, Copy, Debug, PartialEq, Eq)]
pub enum Piece<'a> {
    /// A command, as its length field cuts it.
    Command {
        /// Its first octet in the book.
        offset: usize,
        /// Its octets.
        octets: &'a [u8],
    },
    /// No command can be cut here; nothing follows.
    Cut {
        /// First octet that is in no command.
        offset: usize,
    },
}

/// The pieces of a book; none if it is not a book.
pub fn pieces(book: &[u8]) -> Option<impl Iterator<Item = Piece<'_>>> {
    if book.len() > LONGEST_BOOK {
        return None;
    }
    Some(Pieces { book, rest: book.strip_prefix(HEAD)? })
}

struct Pieces<'a> {
    book: &'a [u8],
    rest: &'a [u8],
}

impl<'a> Iterator for Pieces<'a> {
    type Item = Piece<'a>;

    fn next(&mut self) -> Option<Piece<'a>> {
        let rest = self.rest;
        if rest.is_empty() {
            return None;
        }
        let offset = self.book.len() - rest.len();
        let command = rest.first_chunk::<4>().and_then(|&[_, l0, l1, l2]| {
            let length = u32::from_be_bytes([0, l0, l1, l2]) as usize;
            if length < SHORTEST_COMMAND {
                return None;
            }
            rest.split_at_checked(length)
        });
        Some(match command {
            Some((octets, rest)) => {
                self.rest = rest;
                Piece::Command { offset, octets }
            }
            None => {
                self.rest = &[];
                Piece::Cut { offset }
            }
        })
    }
}

/// The listing of a book, as the program `verdicts` prints it.
pub fn listing(book: &[u8]) -> Vec<u8> {
    let Some(pieces) = pieces(book) else {
        return b"not a book\n".to_vec();
    };
    let mut text = b"NTB 1\n".to_vec();
    let (mut commands, mut acceptances) = (0, 0);
    for piece in pieces {
        match piece {
            Piece::Command { offset, octets } => {
                commands += 1;
                let verdict = crate::verdict(octets);
                if verdict.number == number::ACCEPTED {
                    acceptances += 1;
                }
                let fields = [verdict.number, verdict.place, verdict.vendor, verdict.code];
                decimal(&mut text, commands);
                text.push(b' ');
                decimal(&mut text, offset as u32);
                for field in fields {
                    text.push(b' ');
                    decimal(&mut text, field);
                }
                text.push(b'\n');
            }
            Piece::Cut { offset } => {
                decimal(&mut text, commands + 1);
                text.push(b' ');
                decimal(&mut text, offset as u32);
                text.extend_from_slice(b" cut\n");
                return text;
            }
        }
    }
    text.extend_from_slice(b"end ");
    decimal(&mut text, commands);
    text.push(b' ');
    decimal(&mut text, acceptances);
    text.push(b'\n');
    text
}

/// Appends a number in decimal.
fn decimal(text: &mut Vec<u8>, mut number: u32) {
    let mut digits = [0; 10];
    let mut first = digits.len();
    loop {
        first -= 1;
        digits[first] = b'0' + (number % 10) as u8;
        number /= 10;
        if number == 0 {
            break;
        }
    }
    text.extend_from_slice(&digits[first..]);
}
