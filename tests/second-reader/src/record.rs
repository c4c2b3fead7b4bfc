//! What an accepted command is read as.

/// The most AVPs that a record has room for.
pub const MOST_AVPS: usize = 256;

/// One AVP of the walk.
#[derive(Clone, Copy, Debug, Default, PartialEq, Eq)]
pub struct Avp {
    /// 1 in the command's own list, one more in each group.
    pub depth: u8,
    /// 0 where V is clear.
    pub vendor: u32,
    /// The AVP code.
    pub code: u32,
    /// The M flag.
    pub m: bool,
    /// The P flag.
    pub p: bool,
    /// First octet of the data, counted from the command's start.
    pub start: u32,
    /// Octets of the data.
    pub length: u32,
}

/// A command's header and AVPs, in walk order. The default is the empty record.
#[derive(Clone, Debug, Default, PartialEq, Eq)]
pub struct Record {
    /// Request.
    pub r: bool,
    /// Proxiable.
    pub p: bool,
    /// Error.
    pub e: bool,
    /// Potentially retransmitted.
    pub t: bool,
    /// Hop-by-hop identifier.
    pub hop_by_hop: u32,
    /// End-to-end identifier.
    pub end_to_end: u32,
    /// The AVPs.
    pub avps: Vec<Avp>,
}

impl Record {
    /// Makes this the empty record and keeps its room.
    pub(crate) fn clear(&mut self) {
        let mut avps = std::mem::take(&mut self.avps);
        avps.clear();
        *self = Record { avps, ..Record::default() };
    }

    /// The AVPs, of more than 256 the first 256.
    fn used(&self) -> &[Avp] {
        &self.avps[..self.avps.len().min(MOST_AVPS)]
    }
}

/// The data of the AVP at `position` as a part of `octets`; the empty part at their start if the
/// position is unused or the part does not lie there.
pub fn data<'a>(record: &Record, position: usize, octets: &'a [u8]) -> &'a [u8] {
    let part = |avp: &Avp| {
        let start = avp.start as usize;
        octets.get(start..start.checked_add(avp.length as usize)?)
    };
    record.used().get(position).and_then(part).unwrap_or(&octets[..0])
}

/// What a search gives.
#[derive(Clone, Copy, Debug, PartialEq, Eq)]
pub struct Sought {
    /// The position of the one that was asked for, if there is one.
    pub position: Option<usize>,
    /// How many there are.
    pub number: usize,
}

/// Of the AVPs at depth 1 with this vendor and code, the one with so many of them before it, and
/// how many there are.
pub fn search(record: &Record, vendor: u32, code: u32, ordinal: usize) -> Sought {
    let mut sought = Sought { position: None, number: 0 };
    for (position, avp) in record.used().iter().enumerate() {
        if avp.depth == 1 && avp.vendor == vendor && avp.code == code {
            if sought.number == ordinal {
                sought.position = Some(position);
            }
            sought.number += 1;
        }
    }
    sought
}

/// The positions of all AVPs at depth 1 with this vendor and code, in order.
pub fn all(record: &Record, vendor: u32, code: u32) -> impl Iterator<Item = usize> + '_ {
    let is_one = move |avp: &Avp| avp.depth == 1 && avp.vendor == vendor && avp.code == code;
    record.used().iter().enumerate().filter(move |(_, avp)| is_one(avp)).map(|(position, _)| position)
}
