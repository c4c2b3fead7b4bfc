//! Request 1 of 02 through the writer: error answers by hand, and writers that are wrong in one thing about them, each
//! of which shows in generated drafts.

use second_reader::meaning::{agree, Meaning};
use second_reader::trial::trial;
use second_reader::{number, read, write, Draft, Place, Verdict, Written};

const SEED: u64 = 20_261_115;
const DRAFTS: u64 = 30_000;

/// Flags 20: 264 "o", 296 "r", 268 of 3008.
const ERROR_ANSWER: [u8; 56] = [
    1, 0, 0, 56, 0x20, 0x80, 0, 0x73, 1, 0, 0, 0x84, 0, 0, 0, 1, 0, 0, 0, 2, // header
    0, 0, 1, 8, 0x40, 0, 0, 9, b'o', 0, 0, 0, // Origin-Host
    0, 0, 1, 0x28, 0x40, 0, 0, 9, b'r', 0, 0, 0, // Origin-Realm
    0, 0, 1, 0x0C, 0x40, 0, 0, 12, 0, 0, 0x0B, 0xC0, // Result-Code
];

const LENT: [u8; 6] = [0, 0, 0x0B, 0xC0, b'o', b'r'];

/// The draft of `ERROR_ANSWER` over `LENT`, with these flags.
fn draft(r: u32, p: u32, e: u32) -> Draft {
    let place = |code, start, length| Place { depth: 1, code, m: 1, start, length, ..Place::default() };
    let mut draft = Draft { r, p, e, hop_by_hop: 1, end_to_end: 2, count: 3, ..Draft::default() };
    draft.places[..3].copy_from_slice(&[place(264, 4, 1), place(296, 5, 1), place(268, 0, 4)]);
    draft
}

/// `ERROR_ANSWER` with these flags.
fn with_flags(flags: u8) -> Vec<u8> {
    let mut octets = ERROR_ANSWER.to_vec();
    octets[4] = flags;
    octets
}

/// What the writer says and leaves in this room.
fn written(draft: &Draft, room: usize) -> ([u32; 5], Vec<u8>) {
    let mut output = vec![0xA5; room];
    let answer = write(draft, &LENT, &mut output);
    assert!(output[answer.length as usize..].iter().all(|&octet| octet == 0xA5));
    output.truncate(answer.length as usize);
    let Verdict { number, place, vendor, code } = answer.verdict;
    ([number, place, vendor, code, answer.length], output)
}

#[test]
fn by_hand() {
    for (p, flags) in [(1, 0x60), (0, 0x20)] {
        let expected = with_flags(flags);
        assert_eq!(written(&draft(0, p, 1), 56), ([0, 0, 0, 0, 56], expected.clone()));
        assert_eq!(written(&draft(0, p, 1), 55), ([7004, 0, 0, 0, 0], Vec::new()));
        assert_eq!(Meaning::of_command(&expected), Some(Meaning::of_draft(&draft(0, p, 1), &LENT)));
        let mut retransmitted = draft(0, p, 1);
        retransmitted.t = 1;
        assert_eq!(written(&retransmitted, 56).1, with_flags(flags | 0x10));
        // The record, which has E and this P, is a draft of the same command, reserved bits and padding 0.
        let mut other = with_flags(flags | 0x0F);
        other[29..32].fill(0xFF);
        let mut output = [0; 56];
        let answer = write(&Draft::of(&read(&other).record), &other, &mut output);
        assert_eq!((answer, output.to_vec()), (Written { verdict: Verdict::ACCEPTED, length: 56 }, expected));
        // R and E; P clear without E.
        assert_eq!(written(&draft(1, p, 1), 56).0, [3008, 4, 0, 0, 0]);
        assert_eq!(written(&draft(p, 0, 0), 56).0, [3008, 4, 0, 0, 0]);
        // No AVP; 263 for 264, first and late; a flag that fits no bit.
        assert_eq!(written(&Draft { p, e: 1, ..Draft::default() }, 20).0, [5005, 20, 0, 264, 0]);
        let mut session = draft(0, p, 1);
        session.places[0].code = 263;
        assert_eq!(written(&session, 56).0, [5005, 56, 0, 264, 0]);
        session.places.swap(0, 1);
        assert_eq!(written(&session, 56).0, [5008, 32, 0, 263, 0]);
        assert_eq!(written(&draft(0, p, 2), 56).0, [7006, 0, 0, 0, 0]);
    }
    // Without E as before.
    assert_eq!(written(&draft(0, 1, 0), 56).0, [5005, 56, 0, 263, 0]);
}

#[test]
fn meanings() {
    // An answer that has both forms: 263 and, behind the three, 260 with 266 and 277.
    let group = [0, 0, 1, 4, 0x40, 0, 0, 20, 0, 0, 1, 10, 0x40, 0, 0, 12, 0, 0, 0, 1];
    let more = [&group[..], &[0, 0, 1, 0x15, 0x40, 0, 0, 12, 0, 0, 0, 1]].concat();
    let session = [0, 0, 1, 7, 0x40, 0, 0, 9, b's', 0, 0, 0];
    let commands = [0x40, 0x60, 0x20].map(|flags| {
        let mut octets = [&with_flags(flags)[..20], &session, &ERROR_ANSWER[20..], &more].concat();
        octets[3] = 100;
        octets
    });
    // P and E belong to the meaning, reserved bits do not.
    for (a, b) in [(0, 1), (0, 2), (1, 2)] {
        let meanings = [a, b].map(|at: usize| Meaning::of_command(&commands[at]));
        assert!(meanings[0].is_some() && meanings[1].is_some());
        assert!(meanings[0] != meanings[1] && !agree(&commands[a], &commands[b]));
    }
    let mut reserved = commands[2].clone();
    reserved[4] = 0x2A;
    assert_eq!(Meaning::of_command(&reserved), Meaning::of_command(&commands[2]));
}

/// Expects the trial to find this writer wrong, and to show a small draft.
fn found(name: &str, mut writer: impl FnMut(&Draft, &[u8], &mut [u8]) -> Written) {
    let words = trial(SEED, DRAFTS, 0, &mut writer).err();
    let words = words.unwrap_or_else(|| panic!("{name}: not found"));
    assert!(words.lines().count() < 30, "{name}: {words}");
}

fn is_error_answer(draft: &Draft) -> bool {
    (draft.r, draft.e) == (0, 1)
}

/// Makes another draft of one.
type Repair = fn(&mut Draft);

#[test]
fn writers_of_another_draft() {
    let repairs: [(&str, Repair); 7] = [
        ("P set in error answers", |draft| draft.p |= u32::from(is_error_answer(draft))),
        ("P clear in error answers", |draft| draft.p &= !u32::from(is_error_answer(draft))),
        ("E lost in answers", |draft| draft.e &= !u32::from(is_error_answer(draft))),
        ("E lost with R", |draft| draft.e &= !u32::from((draft.r, draft.e) == (1, 1))),
        ("R lost with E", |draft| draft.r &= !u32::from((draft.r, draft.e) == (1, 1))),
        ("P set where it is clear", |draft| draft.p |= u32::from(draft.p == 0)),
        ("a late 263 put first", |draft| {
            let late = draft.used().iter().position(|place| (place.depth, place.vendor, place.code) == (1, 0, 263));
            if is_error_answer(draft) {
                draft.places[..=late.unwrap_or(0)].rotate_right(1);
            }
        }),
    ];
    for (name, repair) in repairs {
        found(name, |draft, octets, output| {
            let mut draft = draft.clone();
            repair(&mut draft);
            write(&draft, octets, output)
        });
    }
}

/// Expects the trial to miss what the writer says of error answers with this number and, where one is given, code.
fn missed(number: u32, code: Option<u32>, wanted: fn(&Draft) -> bool) {
    found(&format!("{number} {code:?}"), |draft, octets, output| {
        let before = output.to_vec();
        let mut answer = write(draft, octets, output);
        let is = answer.verdict.number == number && code.is_none_or(|code| answer.verdict.code == code);
        if is && is_error_answer(draft) && wanted(draft) {
            output.copy_from_slice(&before);
            answer = Written { verdict: Verdict::unnamed(number::INVALID_HEADER_BITS, 4), length: 0 };
        }
        answer
    });
}

#[test]
fn writers_with_another_answer() {
    missed(0, None, |draft| draft.p == 0);
    missed(0, None, |draft| draft.p == 1);
    missed(0, None, |draft| draft.t == 1);
    missed(0, None, |draft| draft.used().iter().all(|place| (place.depth, place.code) != (1, 263)));
    missed(0, None, |draft| draft.used().iter().filter(|place| place.code == 4207).count() > 1);
    missed(0, None, |draft| draft.used().iter().any(|place| (place.depth, place.code) == (1, 297)));
    for code in [264, 296, 268] {
        missed(number::MISSING_AVP, Some(code), |_| true);
    }
    for code in [263, 264, 296, 268, 278, 281, 294, 279, 297] {
        missed(number::AVP_OCCURS_TOO_MANY_TIMES, Some(code), |_| true);
    }
    missed(number::AVP_NOT_ALLOWED, Some(263), |_| true);
    missed(number::INVALID_AVP_VALUE, Some(4205), |_| true);
    missed(number::INVALID_AVP_VALUE, Some(277), |_| true);
    missed(number::AVP_UNSUPPORTED, None, |_| true);
}
