//! A command, its verdict, and what the wrong readers ask of both.

use second_reader::{number, verdict, Verdict};
use std::ops::Range;

pub const TGPP: u32 = 10_415;
pub const R: u8 = 0x80;
pub const P: u8 = 0x40;
pub const E: u8 = 0x20;
pub const T: u8 = 0x10;

/// The groups that are read.
const GROUPS: [(u32, u32); 6] = [(0, 260), (0, 297), (0, 284), (TGPP, 628), (TGPP, 4204), (TGPP, 4207)];

/// A command with the second reader's verdict on it.
pub struct Judged {
    pub octets: Vec<u8>,
    pub verdict: Verdict,
}

/// An AVP of a list: its name, its first octet, and where its data are.
pub struct Avp {
    pub name: (u32, u32),
    pub at: usize,
    pub data: Range<usize>,
}

/// The AVPs of a list, as far as their lengths lead.
pub fn avps(octets: &[u8], list: Range<usize>) -> Vec<Avp> {
    let word = |at: usize| octets[at..at + 4].iter().fold(0, |word, &octet| word << 8 | u32::from(octet));
    let mut avps = Vec::new();
    let mut at = list.start;
    while at + 12 <= list.end || at + 8 <= list.end && octets[at + 4] & 0x80 == 0 {
        let (vendor, size) = if octets[at + 4] & 0x80 == 0 { (0, 8) } else { (word(at + 8), 12) };
        let end = at + (word(at + 4) & 0xFF_FFFF) as usize;
        if end < at + size || end > list.end {
            break;
        }
        avps.push(Avp { name: (vendor, word(at)), at, data: at + size..end });
        at = end.next_multiple_of(4);
    }
    avps
}

/// The AVPs of a list and of the groups in it, in the order of the walk.
fn walk(octets: &[u8], list: Range<usize>) -> Vec<Avp> {
    let mut all = Vec::new();
    for avp in avps(octets, list) {
        let members = GROUPS.contains(&avp.name).then(|| avp.data.clone());
        all.push(avp);
        all.extend(members.into_iter().flat_map(|members| walk(octets, members)));
    }
    all
}

impl Judged {
    pub fn flags(&self) -> u8 {
        self.octets.get(4).copied().unwrap_or(0)
    }

    /// An error answer whose header passes.
    pub fn is_error_answer(&self) -> bool {
        self.flags() & (R | E) == E && (self.verdict == Verdict::ACCEPTED || self.verdict.place >= 20)
    }

    pub fn is_accepted(&self) -> bool {
        self.is_error_answer() && self.verdict == Verdict::ACCEPTED
    }

    /// An error answer with this refusal of the AVP without vendor of this code.
    pub fn is(&self, number: u32, code: u32) -> bool {
        self.is_error_answer() && self.names(number, 0, code)
    }

    pub fn names(&self, number: u32, vendor: u32, code: u32) -> bool {
        (self.verdict.number, self.verdict.vendor, self.verdict.code) == (number, vendor, code)
    }

    pub fn own(&self) -> Vec<Avp> {
        avps(&self.octets, 20..self.octets.len())
    }

    /// The AVPs of this name in the command's own list.
    pub fn all(&self, vendor: u32, code: u32) -> Vec<Avp> {
        self.own().into_iter().filter(|avp| avp.name == (vendor, code)).collect()
    }

    /// The first AVP without vendor of this code in the own list of an accepted error answer.
    pub fn accepted(&self, code: u32) -> Option<Avp> {
        self.all(0, code).into_iter().next().filter(|_| self.is_accepted())
    }

    pub fn has(&self, vendor: u32, code: u32) -> bool {
        !self.all(vendor, code).is_empty()
    }

    /// The verdict on the command with these flags changed.
    pub fn with_flags(&self, set: u8, clear: u8) -> Verdict {
        self.with(4, &[self.flags() & !clear | set])
    }

    /// The verdict on the command with these octets at a place.
    pub fn with(&self, at: usize, to: &[u8]) -> Verdict {
        let mut octets = self.octets.clone();
        octets[at..at + to.len()].copy_from_slice(to);
        verdict(&octets)
    }

    /// The verdict on the command with these AVPs under another code.
    pub fn renamed(&self, avps: &[Avp], code: u32) -> Verdict {
        let mut octets = self.octets.clone();
        for avp in avps {
            octets[avp.at..avp.at + 4].copy_from_slice(&u32::to_be_bytes(code));
        }
        verdict(&octets)
    }

    /// The verdict on the command with an AVP without vendor of this code and of four octets behind it, where it has
    /// room for one; the end of the command's own list is told as without it.
    pub fn completed(&self, code: u32) -> Option<Verdict> {
        let mut octets = self.octets.clone();
        octets.extend([code.to_be_bytes(), [0x40, 0, 0, 12], [0; 4]].concat());
        let length = (octets.len() as u32).to_be_bytes();
        octets[1..4].copy_from_slice(&length[1..]);
        let mut verdict = verdict(&octets);
        if verdict.place == octets.len() as u32 {
            verdict.place = self.octets.len() as u32;
        }
        (![number::COMMAND_TOO_LONG, number::TOO_MANY_AVPS].contains(&verdict.number)).then_some(verdict)
    }

    /// The first 263 in a group.
    pub fn inner_session(&self) -> Option<Avp> {
        let own: Vec<usize> = self.own().iter().map(|avp| avp.at).collect();
        let all = walk(&self.octets, 20..self.octets.len());
        all.into_iter().find(|avp| avp.name == (0, 263) && !own.contains(&avp.at))
    }

    /// 5005 at the command's end.
    pub fn missing(&self, vendor: u32, code: u32) -> Verdict {
        Verdict::named(number::MISSING_AVP, self.octets.len(), vendor, code)
    }

    /// Whether one of its own policies lacks this.
    pub fn lacks_in_policy(&self, name: (u32, u32)) -> bool {
        let has = |policy: &Avp| avps(&self.octets, policy.data.clone()).iter().any(|avp| avp.name == name);
        self.all(TGPP, 4207).iter().any(|policy| !has(policy))
    }

    /// The rows that are missing.
    pub fn lacks(&self) -> Vec<u32> {
        [264, 296, 268].into_iter().filter(|&code| !self.has(0, code)).collect()
    }

    /// Where the window at fault stands in the command's own list, if it does.
    pub fn is_own_window(&self) -> bool {
        self.all(TGPP, 4204).iter().any(|window| {
            avps(&self.octets, window.data.clone()).iter().any(|time| time.at == self.verdict.place as usize)
        })
    }
}
