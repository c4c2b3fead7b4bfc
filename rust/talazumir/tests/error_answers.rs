//! Request 1 of 02 through the safe functions: an error answer read and written with all 16 combinations of R, P, E and
//! T, the sample book of error answers, and the record of the one with every row.

use commands::S;
use talazumir::{read, write, Reader, Record, Verdict, RECORD_NUMBERS};

const BOOK: &[u8] = include_bytes!("../../../books/error-answers.ntb");
const LISTING: &str = include_str!("../../../books/error-answers.listing");

/// Command flags with E and without R.
const OF_ERROR_ANSWERS: [u8; 4] = [0x20, 0x30, 0x60, 0x70];
/// Those with R and E, and those with neither P nor E.
const REFUSED: [u8; 8] = [0xA0, 0xB0, 0xE0, 0xF0, 0x00, 0x10, 0x80, 0x90];
/// Those of an answer and of a request, which both want a Session-Id (263) first.
const OF_OTHERS: [u8; 4] = [0x40, 0x50, 0xC0, 0xD0];

fn refusal(number: u32, place: u32, vendor: u32, code: u32) -> Verdict {
    Verdict { number, place, vendor, code }
}

/// The book's first command, which has 264, 296 and 268, with these flags.
fn shortest(flags: u8) -> [u8; 56] {
    let mut octets: [u8; 56] = BOOK[5..61].try_into().expect("56 octets");
    octets[4] = flags;
    octets
}

/// R, P, E and T.
fn bits(flags: u8) -> [bool; 4] {
    [0x80, 0x40, 0x20, 0x10].map(|bit| flags & bit != 0)
}

/// The record of the book's first command with these flags in it.
fn draft(flags: u8) -> Record {
    let mut record = read(&shortest(0x60)).expect("the book's first command is accepted");
    record.numbers_mut()[..4].copy_from_slice(&bits(flags).map(u32::from));
    record
}

fn assert_flags(record: &Record, flags: u8) {
    let of_record = [record.is_request(), record.is_proxiable(), record.is_error(), record.is_retransmitted()];
    assert_eq!(of_record, bits(flags), "{flags:02X}");
}

#[test]
fn p_and_t_are_free_beside_e() {
    for flags in OF_ERROR_ANSWERS {
        let record = read(&shortest(flags)).expect("an error answer");
        assert_flags(&record, flags);
        assert_eq!((record.hop_by_hop(), record.end_to_end()), (1, 2));
        assert_eq!(record.avps().map(|avp| (avp.depth, avp.code)).collect::<Vec<_>>(), [(1, 264), (1, 296), (1, 268)]);
    }
}

#[test]
fn other_flags_make_no_error_answer() {
    for flags in REFUSED {
        assert_eq!(read(&shortest(flags)).unwrap_err(), refusal(3008, 4, 0, 0), "{flags:02X}");
    }
    for flags in OF_OTHERS {
        assert_eq!(read(&shortest(flags)).unwrap_err(), refusal(5005, 56, 0, 263), "{flags:02X}");
    }
    // S, a request, as an error answer lacks a Result-Code (268).
    let mut octets = S;
    octets[4] = 0x60;
    assert_eq!(read(&octets).unwrap_err(), refusal(5005, 160, 0, 268));
}

#[test]
fn the_sample_book_has_the_verdicts_of_its_listing() {
    let mut reader = Reader::new();
    let (mut ordinal, mut accepted, mut at) = (0, 0, 5);
    let mut lines = vec![String::from("NTB 1")];
    while at < BOOK.len() {
        let length = u32::from_be_bytes([0, BOOK[at + 1], BOOK[at + 2], BOOK[at + 3]]) as usize;
        let verdict = reader.verdict(&BOOK[at..at + length]);
        ordinal += 1;
        accepted += u32::from(verdict.is_accepted());
        lines.push(format!("{ordinal} {at} {verdict}"));
        at += length;
    }
    lines.push(format!("end {ordinal} {accepted}"));
    assert_eq!(lines, LISTING.lines().collect::<Vec<_>>());
}

#[test]
fn a_failed_avp_is_data() {
    // The fifth command has each row; its Failed-AVP (279) holds an AVP of length 7.
    let octets = &BOOK[241..469];
    let record = read(octets).expect("an error answer with each row");
    let codes = [263, 264, 296, 268, 278, 281, 294, 279, 297, 266, 298, 284, 280, 33, 284, 280, 33, 282];
    assert_eq!(record.avps().map(|avp| avp.code).collect::<Vec<_>>(), codes);
    assert_eq!(record.search(0, 279, 0).position, Some(7));
    assert_eq!(record.data(7, octets), [0, 0, 1, 7, 0x40, 0, 0, 7]);
    assert_eq!(record.all(0, 284).collect::<Vec<_>>(), [11, 14]);
}

#[test]
fn drafts_of_error_answers_are_written() {
    for flags in OF_ERROR_ANSWERS {
        let mut out = [0xA5; 60];
        let written = write(&draft(flags), &shortest(0x60), &mut out);
        assert_eq!((written.verdict.number, written.length), (0, 56), "{flags:02X}");
        assert_eq!((&out[..56], &out[56..]), (&shortest(flags)[..], &[0xA5; 4][..]));
        assert_flags(&read(&out[..56]).expect("what is written is accepted"), flags);
    }
}

#[test]
fn refused_drafts_leave_the_output() {
    let refused = |record: &Record| {
        let mut out = [0xA5; 60];
        let written = write(record, &shortest(0x60), &mut out);
        assert_eq!((written.length, out), (0, [0xA5; 60]));
        written.verdict
    };
    for flags in REFUSED {
        assert_eq!(refused(&draft(flags)), refusal(3008, 4, 0, 0), "{flags:02X}");
    }
    for flags in OF_OTHERS {
        assert_eq!(refused(&draft(flags)), refusal(5005, 56, 0, 263), "{flags:02X}");
    }
    // Without its last AVP, the Result-Code (268); without any.
    let mut record = draft(0x20);
    record.numbers_mut()[6] = 2;
    record.numbers_mut()[21..28].fill(0);
    assert_eq!(refused(&record), refusal(5005, 44, 0, 268));
    let mut numbers = [0; RECORD_NUMBERS];
    numbers[2] = 1;
    assert_eq!(refused(&Record::from_numbers(numbers)), refusal(5005, 20, 0, 264));
}
