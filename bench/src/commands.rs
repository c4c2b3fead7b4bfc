//! The commands of the bench: generated ones of three sizes, with requests, answers and refused ones apart; runs and
//! books of them; and S made longer.

use ::commands::S;
use second_reader::generate::{command, Prng};
use second_reader::LONGEST_BOOK;
use std::iter;
use std::ops::RangeInclusive;

/// The sizes: a name, and the lengths of the commands.
const SIZES: [(&str, RangeInclusive<usize>); 3] =
    [("about 160 octets", 120..=240), ("about 1,000 octets", 800..=1200), ("near 16,384 octets", 12000..=16384)];

/// Commands of a mix.
const COMMANDS: usize = 64;

/// What the commands of a mix have in common beside their size.
#[derive(Clone, Copy, Debug, PartialEq, Eq)]
pub enum Sort {
    AcceptedRequest,
    AcceptedAnswer,
    /// Refused behind the header, so that it is no matter of twenty octets.
    Refused,
}

const SORTS: [Sort; 3] = [Sort::AcceptedRequest, Sort::AcceptedAnswer, Sort::Refused];

/// Commands of one size and sort.
pub struct Mix {
    pub size: &'static str,
    pub sort: Sort,
    pub commands: Vec<Vec<u8>>,
    lengths: RangeInclusive<usize>,
}

impl Mix {
    pub fn name(&self) -> String {
        let sort = match self.sort {
            Sort::AcceptedRequest => "accepted requests",
            Sort::AcceptedAnswer => "accepted answers",
            Sort::Refused => "refused",
        };
        format!("{}, {sort}", self.size)
    }

    pub fn is_accepted(&self) -> bool {
        self.sort != Sort::Refused
    }
}

/// The sort of a command; none if its header is refused.
fn sort(octets: &[u8]) -> Option<Sort> {
    const R: u8 = 0x80;
    let verdict = second_reader::verdict(octets);
    if verdict.number != 0 {
        return (verdict.place >= 20).then_some(Sort::Refused);
    }
    Some(if octets[4] & R != 0 { Sort::AcceptedRequest } else { Sort::AcceptedAnswer })
}

/// The mixes of a seed, by size and then by sort.
pub fn mixes(seed: u64) -> Vec<Mix> {
    let mut mixes = Vec::new();
    for (size, lengths) in SIZES {
        mixes.extend(SORTS.map(|sort| Mix { size, sort, commands: Vec::new(), lengths: lengths.clone() }));
    }
    let mut prng = Prng::new(seed);
    while mixes.iter().any(|mix| mix.commands.len() < COMMANDS) {
        let octets = command(&mut prng);
        let wanted = |mix: &Mix| mix.commands.len() < COMMANDS && mix.lengths.contains(&octets.len());
        if mixes.iter().any(wanted) {
            let sort = sort(&octets);
            if let Some(mix) = mixes.iter_mut().find(|mix| wanted(mix) && Some(mix.sort) == sort) {
                mix.commands.push(octets);
            }
        }
    }
    mixes
}

/// The commands of each size, those of the three sorts in turn, with the size's name.
pub fn by_size(mixes: &[Mix]) -> Vec<(&'static str, Vec<&[u8]>)> {
    mixes
        .chunks(SORTS.len())
        .map(|mixes| {
            let in_turn = (0..COMMANDS).flat_map(|i| mixes.iter().map(move |mix| &mix.commands[i][..]));
            (mixes[0].size, in_turn.collect())
        })
        .collect()
}

/// The books that are listed, with their names: one without commands, and one of the commands of each size.
pub fn books(mixes: &[Mix]) -> Vec<(String, Vec<u8>)> {
    let of_size = |(size, commands): (_, Vec<_>)| (format!("65,536 octets, commands of {size}"), book(&commands));
    let empty = ("no command".to_string(), book(&[]));
    iter::once(empty).chain(by_size(mixes).into_iter().map(of_size)).collect()
}

/// A book of these commands, again and again until none of them fits any more.
pub fn book(commands: &[&[u8]]) -> Vec<u8> {
    let mut book = b"NTB\x00\x01".to_vec();
    loop {
        let length = book.len();
        for command in commands {
            if book.len() + command.len() <= LONGEST_BOOK {
                book.extend_from_slice(command);
            }
        }
        if book.len() == length {
            return book;
        }
    }
}

/// The octets of commands that grow by their data, from S's own to the longest command's.
pub const LENGTHS: [usize; 8] = [160, 320, 640, 1_280, 2_560, 5_120, 10_240, 16_384];

/// The AVPs of commands that grow by them, from S's own to the most.
pub const AVPS: [usize; 6] = [11, 16, 32, 64, 128, 256];

/// S with as long a Session-Id as makes it this many octets long: the AVPs of S, and more data.
pub fn of_length(octets: usize) -> Vec<u8> {
    let mut list = ::commands::s_list();
    list[0] = avp(263, &vec![b's'; octets - S.len() + list[0].len() - 8]);
    with_length([S[..20].to_vec(), list.concat()].concat())
}

/// S with as many Route-Records as make it this many AVPs.
pub fn of_avps(avps: usize) -> Vec<u8> {
    with_length([S.to_vec(), avp(282, &[b'r'; 32]).repeat(avps - AVPS[0])].concat())
}

/// An AVP without vendor and with M, whose data needs no padding.
fn avp(code: u32, data: &[u8]) -> Vec<u8> {
    let length = 8 + data.len() as u32;
    [&code.to_be_bytes(), &(0x40 << 24 | length).to_be_bytes(), data].concat()
}

/// A command with the length field that it should have.
fn with_length(mut octets: Vec<u8>) -> Vec<u8> {
    let length = octets.len() as u32;
    octets[1..4].copy_from_slice(&length.to_be_bytes()[1..]);
    octets
}
