//! The proved reader and writer of Nt commands (TS 29.154, Background-Data-Transfer request and answer, and the error
//! answers to the request) as safe Rust.
//!
//! The answers come from the archive that `rt lib` in `crates/boundary` proves and builds; this crate only hands over
//! slices and arrays. `include/talazumir.h` has the table of verdict numbers, and the stack that each call takes: 56
//! KiB at most. The archive is the one in the repository's `crates/boundary/out`, or in the folder that
//! `TALAZUMIR_ARCHIVE_DIR` names at the build.
//!
//! ```
//! // A header alone lacks its Session-Id (263) at octet 20.
//! let octets = [1, 0, 0, 20, 0xC0, 0x80, 0, 0x73, 1, 0, 0, 0x84, 0, 0, 0, 1, 0, 0, 0, 2];
//! let refusal = talazumir::read(&octets).unwrap_err();
//! assert_eq!((refusal.number, refusal.place, refusal.vendor, refusal.code), (5005, 20, 0, 263));
//! ```
//!
//! A record over lent octets is a draft, which [`write()`] turns into a command; `examples/rewrite.rs` reads a command,
//! gives it another hop-by-hop identifier and writes it. [`canonical`] writes a command in the one form that all
//! commands of its meaning share; `examples/states.rs` keeps a set of states by it. [`Link`] puts commands together
//! from the fragments of a capture, which end anywhere; `examples/link.rs` reads one from standard input. [`seconds`]
//! gives the seconds of a time window, also across 2036.
//!
//! [`Record::search`] finds the nth AVP with a vendor and code in the command's own list, and says how many there are;
//! [`Record::all`] goes through them. `examples/policies.rs` lists the Transfer-Policies of an answer so.

#![deny(unsafe_code)]

use lent::LOG_NUMBERS;
use std::fmt;

#[allow(unsafe_code)]
mod boundary;
#[cfg(doctest)]
mod ignored;
pub mod lent;
pub mod link;

pub use link::Link;

/// Room for AVPs in a record; a count above it is read as it.
pub const MOST_AVPS: usize = 256;

/// The numbers of a record: seven for the command, then seven for each position.
pub const RECORD_NUMBERS: usize = 7 + 7 * MOST_AVPS;

/// What comes back for a command or a draft.
#[must_use = "it may be a refusal"]
#[repr(C)]
#[derive(Clone, Copy, Debug, PartialEq, Eq, Hash)]
pub struct Verdict {
    /// 0 where it is accepted, else the number of the refusal.
    pub number: u32,
    /// The first octet of the AVP at fault, or the end of the list that lacks an AVP (5005).
    pub place: u32,
    /// The Vendor-Id of the AVP at fault, 0 where it has none.
    pub vendor: u32,
    /// The code of the AVP at fault.
    pub code: u32,
}

impl Verdict {
    /// Whether the command or the draft is accepted.
    pub fn is_accepted(&self) -> bool {
        self.number == 0
    }
}

impl fmt::Display for Verdict {
    /// Number, place, vendor and code, as in a line of a book's listing.
    fn fmt(&self, f: &mut fmt::Formatter<'_>) -> fmt::Result {
        write!(f, "{} {} {} {}", self.number, self.place, self.vendor, self.code)
    }
}

impl std::error::Error for Verdict {}

/// What comes back for a draft, or for a command's canonical form.
#[must_use = "it may be a refusal, which leaves the output as it was"]
#[repr(C)]
#[derive(Clone, Copy, Debug, PartialEq, Eq, Hash)]
pub struct Written {
    /// The answer; 7006, 7004 and the writer's 7001 have place, vendor and code 0.
    pub verdict: Verdict,
    /// How many octets were written, 0 with a refusal.
    pub length: u32,
}

impl Written {
    /// Whether the draft, or the command, is accepted.
    pub fn is_accepted(&self) -> bool {
        self.verdict.is_accepted()
    }
}

/// An AVP of a record.
#[derive(Clone, Copy, Debug, PartialEq, Eq, Hash)]
pub struct Avp {
    /// 1 in the command's own list, one more in each group.
    pub depth: u32,
    /// The Vendor-Id, 0 where V is clear.
    pub vendor: u32,
    /// The AVP code.
    pub code: u32,
    /// The M flag.
    pub m: bool,
    /// The P flag.
    pub p: bool,
    /// Where the data starts, counted from the command's start.
    pub start: u32,
    /// The length of the data.
    pub length: u32,
}

/// What comes back for a search.
#[derive(Clone, Copy, Debug, PartialEq, Eq, Hash)]
pub struct Sought {
    /// The position of the AVP found; none exactly where the ordinal is not below the number.
    pub position: Option<usize>,
    /// How many AVPs with the vendor and code there are at depth 1, found or not.
    pub number: usize,
}

/// The record of a command, as the numbers that cross the boundary. Records are not compared: two commands of different
/// meaning can have the same numbers, since the data octets are not among them. [`canonical`] names a state.
#[derive(Clone, Debug)]
pub struct Record {
    numbers: Box<[u32; RECORD_NUMBERS]>,
}

impl Record {
    /// The record that these numbers stand for; a flag is set exactly where its number is 1.
    pub fn from_numbers(numbers: [u32; RECORD_NUMBERS]) -> Record {
        Record { numbers: Box::new(numbers) }
    }

    /// The numbers: R, P, E, T, hop-by-hop, end-to-end, count; then for each of 256 positions depth, vendor, code, M,
    /// P, start and length.
    pub fn numbers(&self) -> &[u32; RECORD_NUMBERS] {
        &self.numbers
    }

    /// The same numbers, to be changed. Any numbers are a record; [`write()`] says which are a command.
    pub fn numbers_mut(&mut self) -> &mut [u32; RECORD_NUMBERS] {
        &mut self.numbers
    }

    /// The R flag: a request.
    pub fn is_request(&self) -> bool {
        self.numbers[0] == 1
    }

    /// The P flag: proxiable.
    pub fn is_proxiable(&self) -> bool {
        self.numbers[1] == 1
    }

    /// The E flag: of an accepted command, that it is an error answer.
    pub fn is_error(&self) -> bool {
        self.numbers[2] == 1
    }

    /// The T flag: potentially retransmitted.
    pub fn is_retransmitted(&self) -> bool {
        self.numbers[3] == 1
    }

    /// The hop-by-hop identifier.
    pub fn hop_by_hop(&self) -> u32 {
        self.numbers[4]
    }

    /// Sets the hop-by-hop identifier.
    pub fn set_hop_by_hop(&mut self, identifier: u32) {
        self.numbers[4] = identifier;
    }

    /// The end-to-end identifier.
    pub fn end_to_end(&self) -> u32 {
        self.numbers[5]
    }

    /// How many positions are used; a count above 256 is read as 256.
    pub fn count(&self) -> usize {
        MOST_AVPS.min(self.numbers[6] as usize)
    }

    /// The AVPs in walk order: a group, then its members.
    pub fn avps(&self) -> impl Iterator<Item = Avp> + '_ {
        self.numbers[7..].chunks_exact(7).take(self.count()).map(|n| Avp {
            depth: n[0],
            vendor: n[1],
            code: n[2],
            m: n[3] == 1,
            p: n[4] == 1,
            start: n[5],
            length: n[6],
        })
    }

    /// The data of the AVP at a position, as that part of `octets`; the empty part at its start where the position is
    /// unused or the part does not lie in `octets`.
    pub fn data<'a>(&self, position: usize, octets: &'a [u8]) -> &'a [u8] {
        let part = boundary::data(&self.numbers, position, octets);
        &octets[part.start..part.start + part.length]
    }

    /// Of the AVPs at depth 1 with this vendor and code, the one that has exactly as many of them before it at depth 1
    /// as the ordinal says, the first for 0; and how many there are. Any ordinal has an answer, for whatever numbers
    /// the record holds. Only used positions count, and each call looks at all of them.
    ///
    /// ```
    /// // The octets of an answer with three Transfer-Policies (10415, 4207): the second, and a fourth.
    /// let record = talazumir::read(&commands::THREE_POLICIES)?;
    /// let second = record.search(10415, 4207, 1);
    /// assert_eq!((second.position, second.number), (Some(15), 3));
    /// let fourth = record.search(10415, 4207, 3);
    /// assert_eq!((fourth.position, fourth.number), (None, 3));
    /// # Ok::<(), talazumir::Verdict>(())
    /// ```
    pub fn search(&self, vendor: u32, code: u32, ordinal: usize) -> Sought {
        let sought = boundary::search(&self.numbers, vendor, code, ordinal);
        let position = sought.position as usize;
        Sought { position: (position < MOST_AVPS).then_some(position), number: sought.number as usize }
    }

    /// The positions of all AVPs at depth 1 with this vendor and code, in order. This call is one
    /// [`search`](Record::search), for their number, and each item is another; a search looks at all used positions, so
    /// 256 AVPs with one name take 257 times 256 looks. An item that is skipped is searched for too: one call of
    /// `search` finds the nth alone.
    ///
    /// ```
    /// // The same answer.
    /// let record = talazumir::read(&commands::THREE_POLICIES)?;
    /// let policies = record.all(10415, 4207);
    /// assert_eq!(policies.len(), 3);
    /// assert_eq!(policies.collect::<Vec<_>>(), [9, 15, 23]);
    /// # Ok::<(), talazumir::Verdict>(())
    /// ```
    pub fn all(&self, vendor: u32, code: u32) -> impl DoubleEndedIterator<Item = usize> + ExactSizeIterator + '_ {
        let number = self.search(vendor, code, 0).number;
        (0..number).map(move |ordinal| {
            self.search(vendor, code, ordinal).position.expect("a search below the number finds one")
        })
    }
}

/// The record of an accepted command, or the verdict that refuses it. An error answer, which has E set and R clear, is
/// judged by the general form of RFC 6733, clause 7.2, and may have P clear.
///
/// ```
/// // An error answer with P clear: Origin-Host (264) "h", Origin-Realm (296) "r" and Result-Code (268) 3002.
/// let octets = [
///     1, 0, 0, 56, 0x20, 0x80, 0, 0x73, 1, 0, 0, 0x84, 0, 0, 0, 1, 0, 0, 0, 2,
///     0, 0, 1, 8, 0x40, 0, 0, 9, b'h', 0, 0, 0,
///     0, 0, 1, 40, 0x40, 0, 0, 9, b'r', 0, 0, 0,
///     0, 0, 1, 12, 0x40, 0, 0, 12, 0, 0, 11, 186,
/// ];
/// let record = talazumir::read(&octets)?;
/// assert!(record.is_error() && !record.is_request() && !record.is_proxiable());
/// let result = record.search(0, 268, 0).position.expect("an error answer has a Result-Code");
/// assert_eq!(record.data(result, &octets), 3002_u32.to_be_bytes());
/// # Ok::<(), talazumir::Verdict>(())
/// ```
pub fn read(octets: &[u8]) -> Result<Record, Verdict> {
    let (verdict, numbers) = boundary::read(octets);
    if verdict.is_accepted() {
        Ok(Record { numbers })
    } else {
        Err(verdict)
    }
}

/// Writes a draft, which is the record over the lent octets, as a command to the start of the output. The first that
/// applies is the answer: 7006 for a malformed draft, 7001 for a command of more than 16,384 octets, 7004 for one that
/// is longer than the output, then the refusal that [`read`] gives to the command. A refusal leaves the whole output as
/// it was, an acceptance what lies past the length.
///
/// `include/talazumir.h` says when a draft is malformed. The record of an accepted command over the command's octets,
/// given room, is accepted.
pub fn write(record: &Record, octets: &[u8], out: &mut [u8]) -> Written {
    boundary::write(&record.numbers, octets, out)
}

/// Writes a command in its canonical form to the start of the output: its own record, written over its octets, so that
/// padding and reserved bits are 0. The refusal that [`read`] gives to the command is the answer, else 7004 where the
/// output is shorter than the command. A refusal leaves the whole output as it was, an acceptance what lies past the
/// length.
///
/// The form is an accepted command with the command's meaning and length, and its own form. Two accepted commands have
/// the same form exactly where they have the same meaning, that is, where they agree in every octet outside padding and
/// the four reserved command bits: so it names a state.
///
/// ```
/// // A refusal, here of a header without its Session-Id (263), leaves the output as it was.
/// let octets = [1, 0, 0, 20, 0xC0, 0x80, 0, 0x73, 1, 0, 0, 0x84, 0, 0, 0, 1, 0, 0, 0, 2];
/// let mut out = [0xEE; 20];
/// let written = talazumir::canonical(&octets, &mut out);
/// assert_eq!((written.verdict.number, written.length), (5005, 0));
/// assert_eq!(out, [0xEE; 20]);
/// ```
pub fn canonical(octets: &[u8], out: &mut [u8]) -> Written {
    boundary::canonical(octets, out)
}

/// The number of seconds from one Time value (RFC 6733, clause 4.3.1) to another, each as [`u32::from_be_bytes`] makes
/// it of the data of a Transfer-Start-Time (4206) or a Transfer-End-Time (4205). From 2,147,483,648 on a value counts
/// from the beginning of 1900, below from 7 February 2036, 06:28:16 UTC. The number is 0 exactly for equal values,
/// negative for a reversed window, and between -4,294,967,295 and 4,294,967,295. A Time-Window (4204) is right exactly
/// where the number is above 0; else it is refused with 5004.
///
/// ```
/// // 7 February 2036, from midnight to midnight.
/// assert_eq!(talazumir::seconds(4_294_944_000, 63_104), 86_400);
/// assert_eq!(talazumir::seconds(63_104, 4_294_944_000), -86_400);
/// ```
pub fn seconds(start: u32, end: u32) -> i64 {
    boundary::seconds(start, end)
}

/// Judges commands one after the other with one log, which is scratch memory, and makes no record.
#[derive(Clone, Debug)]
pub struct Reader {
    log: Box<[u32; LOG_NUMBERS]>,
}

impl Reader {
    /// A reader with a blank log.
    pub fn new() -> Reader {
        Reader { log: Box::new([0; LOG_NUMBERS]) }
    }

    /// The verdict of a command. It does not depend on the commands judged before.
    pub fn verdict(&mut self, octets: &[u8]) -> Verdict {
        lent::verdict(octets, &mut self.log)
    }
}

impl Default for Reader {
    fn default() -> Reader {
        Reader::new()
    }
}
