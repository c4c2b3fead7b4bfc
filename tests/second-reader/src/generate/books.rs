//! Books: sound ones, cut ones, wrong heads, and ones that are too long.

use super::prng::Prng;
use crate::book::LONGEST_BOOK;

const HEAD: &[u8; 5] = b"NTB\x00\x01";

/// A book, or what looks like one.
pub fn book(prng: &mut Prng) -> Vec<u8> {
    let kind = prng.below(60);
    let goal = match kind {
        0 => 0,
        1..=5 => prng.below(4000),
        _ => LONGEST_BOOK,
    };
    let mut book = HEAD.to_vec();
    while book.len() < goal {
        let mut command = super::command(prng);
        if kind == 6 && prng.one_in(20) {
            // The length field now leads elsewhere.
            let at = 1 + prng.below(3);
            command[at] ^= 1 << prng.below(8);
        }
        if book.len() + command.len() > LONGEST_BOOK {
            break;
        }
        book.extend(command);
    }
    match kind {
        7 | 8 => book.truncate(prng.below(book.len())),
        9 => {
            let more = 1 + prng.below(25);
            book.extend(prng.octets(more));
        }
        10 => {
            let at = prng.below(5);
            book[at] ^= 1 << prng.below(8);
        }
        11 => book.truncate(prng.below(6)),
        12..=14 => fill(&mut book, LONGEST_BOOK, prng),
        15 => fill(&mut book, LONGEST_BOOK + 1, prng),
        16 => {
            let length = LONGEST_BOOK + 2 + prng.below(9000);
            fill(&mut book, length, prng);
        }
        17 => book.extend_from_slice(&[1, 0, 0, prng.below(20) as u8, 0xC0, 0x80, 0, 0x73]),
        _ => {}
    }
    book
}

/// Books that hold every command which differs from this one in a single octet, the length field
/// aside.
pub fn sweep(command: &[u8]) -> Vec<Vec<u8>> {
    let mut books = Vec::new();
    let mut book = HEAD.to_vec();
    for at in (0..command.len()).filter(|at| !(1..4).contains(at)) {
        for change in 1..=255 {
            if book.len() + command.len() > LONGEST_BOOK {
                books.push(std::mem::replace(&mut book, HEAD.to_vec()));
            }
            let changed = book.len() + at;
            book.extend_from_slice(command);
            book[changed] ^= change;
        }
    }
    books.push(book);
    books
}

/// Brings the book to exactly this length, in most cases with one more command.
fn fill(book: &mut Vec<u8>, length: usize, prng: &mut Prng) {
    let more = length.saturating_sub(book.len());
    let mut last = super::command(prng);
    last.resize(more, 0);
    if more >= 4 {
        last[1..4].copy_from_slice(&(more as u32).to_be_bytes()[1..]);
    }
    book.extend(last);
}
