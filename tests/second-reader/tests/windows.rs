//! Request 5 of 02: the laws of the seconds between two times, and readers and writers that are wrong in their windows
//! alone, each of which shows in generated commands and drafts.

use commands::S;
use second_reader::generate::{command, Prng};
use second_reader::time::seconds;
use second_reader::trial::trial;
use second_reader::{number, verdict, write, Draft, Verdict, Written};
use std::iter::successors;
use std::ops::Range;

const TGPP: u32 = 10_415;
const SEED: u64 = 20_261_115;

/// The longest window, and half of the range.
const LONGEST: i64 = 4_294_967_295;
const HALF: i64 = 2_147_483_648;

/// Times at the ends of the range, at the turn and about the middle of each side.
const TIMES: [u32; 15] = [
    0,
    1,
    2,
    0x3FFF_FFFF,
    0x4000_0000,
    0x4000_0001,
    0x7FFF_FFFE,
    0x7FFF_FFFF,
    0x8000_0000,
    0x8000_0001,
    0xBFFF_FFFF,
    0xC000_0000,
    0xC000_0001,
    0xFFFF_FFFE,
    0xFFFF_FFFF,
];

/// S with a window of these times behind: 204 octets.
fn s_with(start: u32, end: u32) -> Vec<u8> {
    let avp = |code: u8, length: u8| [0, 0, 0x10, code, 0xC0, 0, 0, length, 0, 0, 0x28, 0xAF];
    let times = [&avp(0x6E, 16)[..], &start.to_be_bytes(), &avp(0x6D, 16), &end.to_be_bytes()];
    let mut octets = [&S[..], &avp(0x6C, 44), &times.concat()].concat();
    octets[3] = 204;
    octets
}

/// Pairs and a third: of the times above, and random ones.
fn times() -> impl Iterator<Item = [u32; 3]> {
    let mut prng = Prng::new(SEED);
    let random: Vec<[u32; 3]> = (0..100_000).map(|_| [prng.word(), prng.word(), prng.word()]).collect();
    let triples = |a| TIMES.into_iter().flat_map(move |b| TIMES.map(|c| [a, b, c]));
    TIMES.into_iter().flat_map(triples).chain(random)
}

#[test]
fn seconds_by_the_paper() {
    assert_eq!(seconds(4_294_967_295, 0), 1);
    assert_eq!(seconds(2_147_483_647, 2_147_483_648), -LONGEST);
    assert_eq!(seconds(2_147_483_648, 2_147_483_647), LONGEST);
    assert_eq!(seconds(0, 4_294_967_295), -1);
    // Over half of the range the nearer way round is the other one.
    assert_eq!(seconds(0xC000_0000, 0x4000_0001), HALF + 1);
}

#[test]
fn laws_of_seconds() {
    for [a, b, c] in times() {
        let between = seconds(a, b);
        assert_eq!(between == 0, a == b, "{a:08X} {b:08X}");
        assert_eq!(between, -seconds(b, a), "{a:08X} {b:08X}");
        assert_eq!(between + seconds(b, c), seconds(a, c), "{a:08X} {b:08X} {c:08X}");
        assert!((-LONGEST..=LONGEST).contains(&between), "{a:08X} {b:08X}");
        // The end is the start and so many seconds, the carry dropped.
        assert_eq!(a.wrapping_add(between as u32), b, "{a:08X} {b:08X}");
        let expected = if between > 0 { Verdict::ACCEPTED } else { Verdict::named(5004, 188, TGPP, 4205) };
        assert_eq!(verdict(&s_with(a, b)), expected, "{a:08X} {b:08X}");
    }
}

/// A window: its depth, whether it stands in a window, where its end stands among all octets or places, and its times.
#[derive(Clone, Copy, Default)]
struct Window {
    depth: u32,
    nested: bool,
    end_at: usize,
    start: u32,
    end: u32,
}

impl Window {
    fn seconds(&self) -> i64 {
        seconds(self.start, self.end)
    }

    fn is_right(&self) -> bool {
        self.seconds() > 0
    }

    /// Whether the end is greater where both have this added, the carry dropped.
    fn is_right_by(&self, more: u32) -> bool {
        self.start.wrapping_add(more) < self.end.wrapping_add(more)
    }

    fn is_right_by_nearer(&self) -> bool {
        self.end.wrapping_sub(self.start) as i32 > 0
    }
}

/// Whether the window at a position among those of a command is taken for a right one.
type Rule = fn(&[Window], usize) -> bool;

/// The rules of readers that are wrong in one thing.
const WRONG: [(&str, Rule); 17] = [
    ("raw numbers", |all, at| all[at].is_right_by(0)),
    ("the nearer way round", |all, at| all[at].is_right_by_nearer()),
    ("equal times pass", |all, at| all[at].seconds() >= 0),
    ("the command's own list alone", |all, at| all[at].is_right() || all[at].depth > 1),
    ("the last wrong one", |all, at| all[at].is_right() || all[at + 1..].iter().any(|later| !later.is_right())),
    ("no window at depth 3", |all, at| all[at].is_right() || all[at].depth > 2),
    ("no window in a window", |all, at| all[at].is_right() || all[at].nested),
    ("groups alone", |all, at| all[at].is_right() || all[at].depth == 1),
    ("the first window alone", |all, at| all[at].is_right() || at > 0),
    ("the wrong one whose end stands first", |all, at| {
        all[at].is_right() || all.iter().any(|other| !other.is_right() && other.end_at < all[at].end_at)
    }),
    ("raw numbers as well", |all, at| all[at].is_right() && all[at].is_right_by(0)),
    ("or raw numbers", |all, at| all[at].is_right() || all[at].is_right_by(0)),
    ("below half of the range", |all, at| all[at].is_right() && all[at].seconds() < HALF),
    ("at most half of the range", |all, at| all[at].is_right() && all[at].seconds() <= HALF),
    ("one less added", |all, at| all[at].is_right_by(0x7FFF_FFFF)),
    ("one more added", |all, at| all[at].is_right_by(0x8000_0001)),
    ("the carry kept at the largest", |all, at| {
        all[at].start.saturating_add(0x8000_0000) < all[at].end.saturating_add(0x8000_0000)
    }),
];

/// Whether the windows decide: the command is accepted, or refused for one of them.
fn by_windows(verdict: &Verdict) -> bool {
    *verdict == Verdict::ACCEPTED || (verdict.number, verdict.code) == (number::INVALID_AVP_VALUE, 4205)
}

/// The times of a window that the second reader takes for right, or for wrong.
fn stand_in(right: bool) -> [u32; 2] {
    if right {
        [0, 1]
    } else {
        [1, 0]
    }
}

/// The verdict of a reader that has another rule, which is the second reader's on times that stand in for these.
fn verdict_by(rule: Rule, octets: &[u8]) -> Verdict {
    let second = verdict(octets);
    if !by_windows(&second) {
        return second;
    }
    let mut windows = Vec::new();
    gather(octets, 20..octets.len(), (1, false), &mut windows);
    let all: Vec<Window> = windows.iter().map(|&(window, _)| window).collect();
    let mut changed = octets.to_vec();
    for (at, (_, places)) in windows.into_iter().enumerate() {
        for (place, time) in places.into_iter().zip(stand_in(rule(&all, at))) {
            changed[place..place + 4].copy_from_slice(&time.to_be_bytes());
        }
    }
    verdict(&changed)
}

/// The windows of a list at this depth, within a window or not, in walk order with the places of their times; and the
/// places of the list's own times.
fn gather(
    octets: &[u8],
    list: Range<usize>,
    (depth, nested): (u32, bool),
    windows: &mut Vec<(Window, [usize; 2])>,
) -> [usize; 2] {
    let word = |at: usize| octets[at..at + 4].iter().fold(0, |word, &octet| word << 8 | u32::from(octet));
    let mut times = [0; 2];
    let mut at = list.start;
    while at < list.end {
        let v = octets[at + 4] & 0x80 != 0;
        let (vendor, data) = if v { (word(at + 8), at + 12) } else { (0, at + 8) };
        let end = at + (word(at + 4) & 0xFF_FFFF) as usize;
        match (vendor, word(at)) {
            (TGPP, 4206) => times[0] = data,
            (TGPP, 4205) => times[1] = data,
            (TGPP, 4204) => {
                let own = windows.len();
                windows.push(Default::default());
                let places = gather(octets, data..end, (depth + 1, true), windows);
                let (start, end) = (word(places[0]), word(places[1]));
                windows[own] = (Window { depth, nested, end_at: places[1], start, end }, places);
            }
            (0, 260 | 297 | 284) | (TGPP, 628 | 4207) => {
                gather(octets, data..end, (depth + 1, nested), windows);
            }
            _ => {}
        }
        at = end.next_multiple_of(4);
    }
    times
}

/// The answer of a writer that has another rule, which is the second writer's on times that stand in for the draft's.
fn write_by(rule: Rule, draft: &Draft, octets: &[u8], output: &mut [u8]) -> Written {
    let second = write(draft, octets, output);
    if !by_windows(&second.verdict) {
        return second;
    }
    let windows: Vec<_> = (0..draft.used().len()).filter_map(|at| of_draft(draft, octets, at)).collect();
    let all: Vec<Window> = windows.iter().map(|&(window, _)| window).collect();
    let mut changed = draft.clone();
    for (at, (_, places)) in windows.into_iter().enumerate() {
        for (place, time) in places.into_iter().zip(stand_in(rule(&all, at))) {
            changed.places[place].start = octets.len() as u32 + 4 * time;
        }
    }
    let lent = [octets, &0u32.to_be_bytes(), &1u32.to_be_bytes()].concat();
    let other = write(&changed, &lent, &mut vec![0; output.len()]);
    if other.verdict == second.verdict {
        second
    } else {
        other
    }
}

/// The window at this position of a draft, and the positions of its times.
fn of_draft(draft: &Draft, octets: &[u8], at: usize) -> Option<(Window, [usize; 2])> {
    let places = draft.used();
    let is = |at: usize, code| (places[at].vendor, places[at].code) == (TGPP, code);
    let depth = places[at].depth;
    let below = places[at + 1..].iter().take_while(|place| place.depth > depth).count();
    let time = |code| (at + 1..=at + below).find(|&member| places[member].depth == depth + 1 && is(member, code));
    let (start_at, end_at) = (time(4206)?, time(4205)?);
    let value = |at: usize| {
        let data = &octets[places[at].start as usize..][..4];
        data.iter().fold(0, |word, &octet| word << 8 | u32::from(octet))
    };
    let holder = |&at: &usize| places[..at].iter().rposition(|place| place.depth < places[at].depth);
    let nested = successors(holder(&at), holder).any(|holder| is(holder, 4204));
    let window = Window { depth, nested, end_at, start: value(start_at), end: value(end_at) };
    is(at, 4204).then_some((window, [start_at, end_at]))
}

#[test]
fn wrong_readers() {
    let mut prng = Prng::new(SEED);
    let commands: Vec<Vec<u8>> = (0..30_000).map(|_| command(&mut prng)).collect();
    let seen = |rule: Rule| commands.iter().filter(|octets| verdict_by(rule, octets) != verdict(octets)).count();
    assert_eq!(seen(|all, at| all[at].is_right()), 0);
    for (name, rule) in WRONG {
        let seen = seen(rule);
        assert!(seen >= 10, "{name}: seen in {seen} commands");
    }
}

#[test]
fn wrong_writers() {
    let passes = trial(SEED, 30_000, 0, &mut |draft: &Draft, octets: &[u8], output: &mut [u8]| {
        write_by(|all, at| all[at].is_right(), draft, octets, output)
    });
    assert_eq!(passes.err(), None);
    for (name, rule) in WRONG {
        let words = trial(SEED, 30_000, 0, &mut |draft: &Draft, octets: &[u8], output: &mut [u8]| {
            write_by(rule, draft, octets, output)
        });
        let words = words.err().unwrap_or_else(|| panic!("{name}: not found"));
        assert!(words.lines().count() < 30, "{name}: {words}");
    }
}
