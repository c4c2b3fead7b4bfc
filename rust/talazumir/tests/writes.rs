//! Document 01's writer through the safe function: S written from its record and from a draft of other octets, what is
//! written past the length, and each sort of refusal, request 2 of 02 among them.

use commands::S;
use talazumir::{read, write, Record, Verdict, Written, RECORD_NUMBERS};

fn refused(number: u32, place: u32, vendor: u32, code: u32) -> Written {
    Written { verdict: Verdict { number, place, vendor, code }, length: 0 }
}

/// The answer of a refused write into this room, which leaves the output.
fn refusal(numbers: [u32; RECORD_NUMBERS], octets: &[u8], room: usize) -> Written {
    let mut out = vec![0xA5; room];
    let written = write(&Record::from_numbers(numbers), octets, &mut out);
    assert!(!written.is_accepted() && out.iter().all(|&octet| octet == 0xA5));
    written
}

fn s_numbers() -> [u32; RECORD_NUMBERS] {
    *read(&S).expect("S is accepted").numbers()
}

#[test]
fn a_record_over_its_command_is_written() {
    // Padding and reserved bits of the source are lost.
    let mut source = S;
    source[4] |= 0x0F;
    source[29..32].fill(0xFF);
    let record = read(&source).expect("padding and reserved bits are ignored");
    let mut out = [0xA5; 170];
    let written = write(&record, &source, &mut out);
    assert!(written.is_accepted());
    assert_eq!((written.length, &out[..160], &out[160..]), (160, &S[..], &[0xA5; 10][..]));
}

#[test]
fn a_draft_over_other_octets_is_written() {
    // Position 0 is 263: its data now are four octets elsewhere.
    let octets = [&S[..], &[9, 8, 7, 6]].concat();
    let mut record = Record::from_numbers(s_numbers());
    record.set_hop_by_hop(0x0102_0304);
    record.numbers_mut()[12..14].copy_from_slice(&[160, 4]);
    let mut expected = S;
    expected[12..16].copy_from_slice(&[1, 2, 3, 4]);
    expected[27..32].copy_from_slice(&[12, 9, 8, 7, 6]);
    let mut out = [0; 160];
    let written = write(&record, &octets, &mut out);
    assert_eq!((written.verdict.number, written.length, out), (0, 160, expected));
}

#[test]
fn refusals_leave_the_output() {
    for room in [0, 20, 159] {
        assert_eq!(refusal(s_numbers(), &S, room), refused(7004, 0, 0, 0));
    }
    assert_eq!(refusal([u32::MAX; RECORD_NUMBERS], &S, 200), refused(7006, 0, 0, 0));
    // Empty octets; flags that are no bit, a count, depths, a group's length, a part that leaves the octets, the last
    // place.
    assert_eq!(refusal(s_numbers(), &[], 200), refused(7006, 0, 0, 0));
    for (at, number) in [(0, 2), (3, 2), (6, 257), (7, 0), (7, 2), (20, 11), (20, 13), (82, 160), (1792, 1), (1798, 1)]
    {
        let mut numbers = s_numbers();
        numbers[at] = number;
        assert_eq!(refusal(numbers, &S, 200), refused(7006, 0, 0, 0));
    }
    // Position 0 of 16,228 octets makes the command 16,384 long; with one more it is too long.
    let octets = [&S[..], &[0; 16_300]].concat();
    let mut numbers = s_numbers();
    numbers[12..14].copy_from_slice(&[160, 16_228]);
    assert!(write(&Record::from_numbers(numbers), &octets, &mut vec![0; 16_384]).is_accepted());
    numbers[13] += 1;
    assert_eq!(refusal(numbers, &octets, 0), refused(7001, 0, 0, 0));
    // What the reader refuses: no AVP at all, and a 4203 with the value of 4208.
    let mut numbers = [0; RECORD_NUMBERS];
    numbers[..2].fill(1);
    assert_eq!(refusal(numbers, &[], 20), refused(5005, 20, 0, 263));
    let mut numbers = s_numbers();
    numbers[7 + 7 * 7 + 5] = 156;
    assert_eq!(refusal(numbers, &S, 160), refused(5004, 100, 10415, 4203));
}

#[test]
fn a_total_beside_a_direction_is_refused() {
    // On commands of a sample book. The first has 414 at 132 and, at 148 and position 10, 412, which becomes 421; the
    // third has these octets.
    const BOOK: &[u8] = include_bytes!("../../../books/volumes.ntb");
    let (first, third) = (&BOOK[5..229], &BOOK[437..661]);
    let mut numbers = *read(first).expect("two directions are accepted").numbers();
    numbers[7 + 7 * 10 + 2] = 421;
    let expected = refused(5008, 148, 0, 421);
    assert_eq!(refusal(numbers, first, 224), expected);
    assert_eq!(read(third).err(), Some(expected.verdict));
}
