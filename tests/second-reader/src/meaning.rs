//! The meaning of an accepted command, read from its octets, and of an accepted draft; and when two
//! commands agree.

use crate::avp::AvpHeader;
use crate::dictionary::{Form, Kind};
use crate::draft::{Draft, Place};
use crate::header::HEADER;

/// What two commands or drafts have in common where 01 counts them as one.
#[derive(Clone, Debug, PartialEq, Eq, Hash)]
pub struct Meaning {
    /// R, P, E, T.
    pub flags: [bool; 4],
    /// Hop-by-hop and end-to-end identifier.
    pub identifiers: [u32; 2],
    /// The AVPs in walk order.
    pub avps: Vec<Item>,
}

/// An AVP of a meaning.
#[derive(Clone, Debug, PartialEq, Eq, Hash)]
pub struct Item {
    /// 1 in the command's own list.
    pub depth: u32,
    /// Vendor and code.
    pub name: (u32, u32),
    /// M and P.
    pub flags: [bool; 2],
    /// Octets of the data.
    pub length: u32,
    /// The data of what is no read group.
    pub data: Option<Vec<u8>>,
}

impl Meaning {
    /// The meaning of a command; only accepted ones have one.
    pub fn of_command(octets: &[u8]) -> Option<Meaning> {
        if crate::verdict(octets).number != 0 {
            return None;
        }
        let word = |at: usize| octets[at..at + 4].iter().fold(0, |word, &octet| word << 8 | u32::from(octet));
        let mut avps = Vec::new();
        walk(octets, |at, depth, header, group| {
            let data = &octets[at + header.size..at + header.length];
            avps.push(Item {
                depth,
                name: (header.vendor, header.code),
                flags: [header.m(), header.p()],
                length: data.len() as u32,
                data: (!group).then(|| data.to_vec()),
            });
        });
        Some(Meaning {
            flags: [0x80, 0x40, 0x20, 0x10].map(|bit| octets[4] & bit != 0),
            identifiers: [word(12), word(16)],
            avps,
        })
    }

    /// The meaning of a draft that the writer accepts.
    pub fn of_draft(draft: &Draft, octets: &[u8]) -> Meaning {
        let item = |place: &Place| Item {
            depth: place.depth,
            name: (place.vendor, place.code),
            flags: [place.m == 1, place.p == 1],
            length: place.length,
            data: (!place.is_group()).then(|| octets[place.start as usize..][..place.length as usize].to_vec()),
        };
        Meaning {
            flags: [draft.r, draft.p, draft.e, draft.t].map(|flag| flag == 1),
            identifiers: [draft.hop_by_hop, draft.end_to_end],
            avps: draft.used().iter().map(item).collect(),
        }
    }
}

/// Whether two accepted commands agree: equally long, and the same in each octet that is padding
/// in neither, of the header's flags octet only in R, P, E, T.
pub fn agree(a: &[u8], b: &[u8]) -> bool {
    let (padding_a, padding_b) = (padding(a), padding(b));
    a.len() == b.len()
        && (0..a.len()).all(|at| {
            let counts = if at == 4 { 0xF0 } else { 0xFF };
            padding_a[at] || padding_b[at] || (a[at] ^ b[at]) & counts == 0
        })
}

/// Which octets of an accepted command are padding.
pub fn padding(octets: &[u8]) -> Vec<bool> {
    let mut padding = vec![false; octets.len()];
    walk(octets, |at, _, header, _| {
        padding[at + header.length..at + header.padded()].fill(true);
    });
    padding
}

/// Goes through the AVPs of an accepted command in walk order: place, depth, header, and whether
/// it is a read group.
fn walk(octets: &[u8], mut visit: impl FnMut(usize, u32, &AvpHeader, bool)) {
    let mut ends = vec![octets.len()];
    let mut at = HEADER;
    loop {
        while ends.last() == Some(&at) {
            ends.pop();
        }
        let Some(&end) = ends.last() else {
            return;
        };
        let Ok(header) = AvpHeader::read(&octets[at..end], at) else {
            return;
        };
        let group = Kind::of(header.vendor, header.code).is_some_and(|k| k.form() == Form::Group);
        visit(at, ends.len() as u32, &header, group);
        if group {
            ends.push(at + header.length);
            at += header.size;
        } else {
            at += header.padded();
        }
    }
}
