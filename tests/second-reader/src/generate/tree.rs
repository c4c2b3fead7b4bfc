//! A command as a tree, which may be wrong in many ways, and its octets.

use crate::avp::padded;
use crate::header::{Command, APPLICATION, COMMAND_CODE, HEADER};

/// What an AVP holds.
#[derive(Clone, Debug)]
pub enum Body {
    /// Plain data.
    Data(Vec<u8>),
    /// Members of a read group.
    Members(Vec<Node>),
}

/// One AVP.
#[derive(Clone, Debug)]
pub struct Node {
    /// Vendor; V is set exactly if there is one, also if it is 0.
    pub vendor: Option<u32>,
    /// AVP code.
    pub code: u32,
    /// All flags but V.
    pub flags: u8,
    /// The content.
    pub body: Body,
    /// Stray octets behind the content.
    pub tail: Vec<u8>,
    /// A length field that is not the honest one.
    pub length: Option<u32>,
    /// What the padding holds.
    pub padding: [u8; 3],
    /// Leaves out the AVP's own padding.
    pub unpadded: bool,
}

/// One command.
#[derive(Clone, Debug)]
pub struct Tree {
    /// Version octet.
    pub version: u8,
    /// Flags octet.
    pub flags: u8,
    /// Command code, 24 bits.
    pub code: u32,
    /// Application.
    pub application: u32,
    /// Hop-by-hop identifier.
    pub hop_by_hop: u32,
    /// End-to-end identifier.
    pub end_to_end: u32,
    /// The command's own list.
    pub list: Vec<Node>,
    /// Stray octets behind the list.
    pub tail: Vec<u8>,
}

impl Node {
    /// Appends the AVP's octets.
    fn encode(&self, out: &mut Vec<u8>) {
        let at = out.len();
        out.extend_from_slice(&self.code.to_be_bytes());
        out.extend_from_slice(&[self.flags, 0, 0, 0]);
        if let Some(vendor) = self.vendor {
            out[at + 4] |= 0x80;
            out.extend_from_slice(&vendor.to_be_bytes());
        }
        match &self.body {
            Body::Data(data) => out.extend_from_slice(data),
            Body::Members(members) => members.iter().for_each(|member| member.encode(out)),
        }
        out.extend_from_slice(&self.tail);
        let honest = out.len() - at;
        let length = self.length.unwrap_or(honest as u32);
        out[at + 5..at + 8].copy_from_slice(&length.to_be_bytes()[1..]);
        if !self.unpadded {
            out.extend_from_slice(&self.padding[..padded(honest) - honest]);
        }
    }

    /// This AVP and all below it.
    pub fn count(&self) -> usize {
        1 + match &self.body {
            Body::Data(_) => 0,
            Body::Members(members) => members.iter().map(Node::count).sum(),
        }
    }
}

impl Tree {
    /// A command with a sound header and this list.
    pub fn of(flags: u8, hop_by_hop: u32, end_to_end: u32, list: Vec<Node>) -> Tree {
        Tree {
            version: 1,
            flags,
            code: COMMAND_CODE,
            application: APPLICATION,
            hop_by_hop,
            end_to_end,
            list,
            tail: Vec::new(),
        }
    }

    /// What the command is by R and E.
    pub fn command(&self) -> Command {
        Command::of(self.flags & 0x80 != 0, self.flags & 0x20 != 0)
    }

    /// The command's octets, a multiple of four of them unless a mutation says otherwise.
    pub fn encode(&self) -> Vec<u8> {
        let mut out = vec![0; HEADER];
        for node in &self.list {
            node.encode(&mut out);
        }
        out.extend_from_slice(&self.tail);
        out.resize(padded(out.len()), 0);
        let length = (out.len() as u32).to_be_bytes();
        out[0] = self.version;
        out[1..4].copy_from_slice(&length[1..]);
        out[4] = self.flags;
        out[5..8].copy_from_slice(&self.code.to_be_bytes()[1..]);
        out[8..12].copy_from_slice(&self.application.to_be_bytes());
        out[12..16].copy_from_slice(&self.hop_by_hop.to_be_bytes());
        out[16..20].copy_from_slice(&self.end_to_end.to_be_bytes());
        out
    }

    /// All AVPs.
    pub fn count(&self) -> usize {
        self.list.iter().map(Node::count).sum()
    }
}
