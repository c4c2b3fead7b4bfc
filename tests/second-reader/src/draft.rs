//! A draft for the writer: the numbers of a record, which may be any, over lent octets.

use crate::avp::padded;
use crate::dictionary::{Form, Kind};
use crate::record::{Avp, Record, MOST_AVPS};

/// The numbers of a record: seven for the command, then seven for each place.
pub const RECORD_NUMBERS: usize = 7 + 7 * MOST_AVPS;

/// A place for one AVP; all 0 where it is unused.
#[derive(Clone, Copy, Debug, Default, PartialEq, Eq, Hash)]
pub struct Place {
    /// 1 in the command's own list, one more in each group.
    pub depth: u32,
    /// 0 for none.
    pub vendor: u32,
    /// The AVP code.
    pub code: u32,
    /// The M flag, 1 if set.
    pub m: u32,
    /// The P flag, 1 if set.
    pub p: u32,
    /// First octet of the data in the lent octets; free for a read group.
    pub start: u32,
    /// Octets of the data, of a read group those of its members with padding.
    pub length: u32,
}

/// The numbers of a record. The default is the empty record.
#[derive(Clone, Debug, PartialEq, Eq, Hash)]
pub struct Draft {
    /// Request.
    pub r: u32,
    /// Proxiable.
    pub p: u32,
    /// Error.
    pub e: u32,
    /// Potentially retransmitted.
    pub t: u32,
    /// Hop-by-hop identifier.
    pub hop_by_hop: u32,
    /// End-to-end identifier.
    pub end_to_end: u32,
    /// How many places are used.
    pub count: u32,
    /// The places, in walk order.
    pub places: Box<[Place; MOST_AVPS]>,
}

impl Place {
    /// Whether this names a read group.
    pub fn is_group(&self) -> bool {
        Kind::of(self.vendor, self.code).is_some_and(|kind| kind.form() == Form::Group)
    }

    /// Octets of the AVP's header.
    pub fn header(&self) -> u64 {
        if self.vendor == 0 {
            8
        } else {
            12
        }
    }

    /// Octets of the whole AVP with its padding.
    pub fn padded(&self) -> u64 {
        padded((self.header() + u64::from(self.length)) as usize) as u64
    }

    /// The seven numbers in the record's order.
    pub fn numbers(&self) -> [u32; 7] {
        [self.depth, self.vendor, self.code, self.m, self.p, self.start, self.length]
    }
}

impl Default for Draft {
    fn default() -> Draft {
        Draft::of(&Record::default())
    }
}

impl Draft {
    /// The draft that is this record; of more than 256 AVPs it has places for the first 256.
    pub fn of(record: &Record) -> Draft {
        let mut places = Box::new([Place::default(); MOST_AVPS]);
        for (place, avp) in places.iter_mut().zip(&record.avps) {
            *place = Place::from(avp);
        }
        Draft {
            r: record.r.into(),
            p: record.p.into(),
            e: record.e.into(),
            t: record.t.into(),
            hop_by_hop: record.hop_by_hop,
            end_to_end: record.end_to_end,
            count: record.avps.len() as u32,
            places,
        }
    }

    /// The record that these numbers are: a flag is set where its number is 1, and a count above 256
    /// is read as 256.
    pub fn record(&self) -> Record {
        Record {
            r: self.r == 1,
            p: self.p == 1,
            e: self.e == 1,
            t: self.t == 1,
            hop_by_hop: self.hop_by_hop,
            end_to_end: self.end_to_end,
            avps: self.used().iter().map(Avp::from).collect(),
        }
    }

    /// The used places, of a count above 256 all.
    pub fn used(&self) -> &[Place] {
        &self.places[..self.count.min(MOST_AVPS as u32) as usize]
    }

    /// The used places, to be changed.
    pub fn used_mut(&mut self) -> &mut [Place] {
        &mut self.places[..self.count.min(MOST_AVPS as u32) as usize]
    }

    /// The places from the count on.
    pub fn unused(&self) -> &[Place] {
        &self.places[self.used().len()..]
    }

    /// Removes this many used places from `at` on.
    pub(crate) fn remove(&mut self, at: usize, number: usize) {
        self.places[at..].rotate_left(number);
        self.places[MOST_AVPS - number..].fill(Place::default());
        self.count -= number as u32;
    }

    /// All numbers: R, P, E, T, both identifiers and the count, then each place's seven.
    pub fn numbers(&self) -> [u32; RECORD_NUMBERS] {
        let mut numbers = [0; RECORD_NUMBERS];
        let (head, places) = numbers.split_at_mut(7);
        head.copy_from_slice(&[self.r, self.p, self.e, self.t, self.hop_by_hop, self.end_to_end, self.count]);
        for (numbers, place) in places.chunks_exact_mut(7).zip(self.places.iter()) {
            numbers.copy_from_slice(&place.numbers());
        }
        numbers
    }
}

impl From<&Avp> for Place {
    fn from(avp: &Avp) -> Place {
        Place {
            depth: avp.depth.into(),
            vendor: avp.vendor,
            code: avp.code,
            m: avp.m.into(),
            p: avp.p.into(),
            start: avp.start,
            length: avp.length,
        }
    }
}

impl From<&Place> for Avp {
    /// A depth above 255 becomes 255, so that it is never taken for 1.
    fn from(place: &Place) -> Avp {
        Avp {
            depth: u8::try_from(place.depth).unwrap_or(u8::MAX),
            vendor: place.vendor,
            code: place.code,
            m: place.m == 1,
            p: place.p == 1,
            start: place.start,
            length: place.length,
        }
    }
}

/// The AVPs of one list, each with the places below it. `places` are those of the list and of all
/// below it, as the depths form a tree.
pub fn avps(places: &[Place]) -> impl Iterator<Item = (&Place, &[Place])> {
    let mut rest = places;
    std::iter::from_fn(move || {
        let (first, behind) = rest.split_first()?;
        let below = behind.iter().take_while(|place| place.depth > first.depth).count();
        let (members, next) = behind.split_at(below);
        rest = next;
        Some((first, members))
    })
}
