//! A command as the coverage of volumes, windows and error answers sees it: its AVPs, and what a whole walk finds.

use crate::dictionary::{Form, Kind};
use crate::header::{self, Command};
use crate::record::Avp;
use crate::verdict::Verdict;
use crate::walk::{walk, Found};

/// A command whose header is sound.
pub struct Walked<'a> {
    /// The command.
    pub octets: &'a [u8],
    /// What it is.
    pub command: Command,
    /// The AVPs up to the one that stops the walk, if one does.
    pub avps: Vec<Avp>,
    /// What a walk to the end found.
    pub found: Option<Found>,
}

impl Walked<'_> {
    /// Walks a command, unless its header is refused.
    pub fn of(octets: &[u8]) -> Option<Walked<'_>> {
        let command = header::read(octets).ok()?.command();
        let mut avps = Vec::new();
        let found = walk(octets, command, &mut avps).ok();
        Some(Walked { octets, command, avps, found })
    }

    /// The Transfer-Request-Type of a request, where its list has one.
    pub fn request_type(&self) -> Option<u32> {
        let found = self.found.as_ref()?;
        (self.command == Command::Request && found.seen.has(Kind::TransferRequestType)).then_some(found.request_type)
    }

    /// The data of an AVP.
    pub fn data(&self, avp: &Avp) -> &[u8] {
        &self.octets[avp.start as usize..][..avp.length as usize]
    }

    /// The value of an AVP that has four octets.
    pub fn value(&self, avp: &Avp) -> u32 {
        self.data(avp).try_into().map_or(0, u32::from_be_bytes)
    }

    /// Whether a place lies in a read group.
    pub fn is_within(&self, place: u32) -> bool {
        self.avps.iter().any(|avp| {
            let group = Kind::of(avp.vendor, avp.code).is_some_and(|kind| kind.form() == Form::Group);
            group && (avp.start..avp.start + avp.length).contains(&place)
        })
    }
}

/// The first octet of an AVP.
pub fn place(avp: &Avp) -> u32 {
    avp.start - if avp.vendor == 0 { 8 } else { 12 }
}

/// The position of the group that an AVP stands in.
pub fn holder(avps: &[Avp], at: usize) -> Option<usize> {
    avps[..at].iter().rposition(|before| before.depth < avps[at].depth)
}

/// Whether this is the named AVP.
pub fn names(avp: &Avp, kind: Kind) -> bool {
    (avp.vendor, avp.code) == (kind.vendor(), kind.code())
}

/// Whether a verdict has this number and names this AVP.
pub fn is(verdict: &Verdict, number: u32, kind: Kind) -> bool {
    (verdict.number, verdict.vendor, verdict.code) == (number, kind.vendor(), kind.code())
}
