//! Request 5 of 02 through the boundary: its figures, and windows across 2036 read and written.

use talazumir::{read, seconds, write, Record};

/// 7 February 2036, from midnight to midnight.
const DAY: (u32, u32) = (4_294_944_000, 63_104);

/// S with a window of that day, the first command of the sample book: 4206 at 172 and position 12, 4205 at 188 and
/// position 13, each with 12 octets of header.
const BOOK: &[u8] = include_bytes!("../../../books/windows.ntb");

fn command() -> &'static [u8] {
    &BOOK[5..209]
}

#[test]
fn the_figures_of_the_request() {
    assert_eq!(seconds(4_294_967_295, 0), 1);
    assert_eq!(seconds(2_147_483_647, 2_147_483_648), -4_294_967_295);
    assert_eq!(seconds(2_147_483_648, 2_147_483_647), 4_294_967_295);
    assert_eq!(seconds(DAY.0, DAY.1), 86_400);
    assert_eq!(seconds(DAY.1, DAY.0), -86_400);
}

#[test]
fn seconds_of_a_record_are_those_of_its_times() {
    let record = read(command()).expect("a window over 7 February 2036 is accepted");
    let time = |position| u32::from_be_bytes(record.data(position, command()).try_into().unwrap());
    assert_eq!((time(12), time(13)), DAY);
}

#[test]
fn a_draft_with_its_times_exchanged_is_refused() {
    let mut numbers = *read(command()).expect("a window over 7 February 2036 is accepted").numbers();
    numbers.swap(7 + 7 * 12 + 5, 7 + 7 * 13 + 5);
    let mut out = [0xEE; 204];
    let written = write(&Record::from_numbers(numbers), command(), &mut out);
    let verdict = written.verdict;
    assert_eq!((verdict.number, verdict.place, verdict.vendor, verdict.code), (5004, 188, 10415, 4205));
    assert_eq!(out, [0xEE; 204]);
    assert_eq!(read(&BOOK[209..413]).unwrap_err(), verdict);
}
