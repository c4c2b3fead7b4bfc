//! Document 01's commands at the edges through the safe functions: S, S without its last AVP, H and variants of H.

use commands::S;
use talazumir::{read, Avp, Reader, Record, Sought, Verdict, RECORD_NUMBERS};

const H: [u8; 20] = [1, 0, 0, 20, 0xC0, 0x80, 0, 0x73, 1, 0, 0, 0x84, 0, 0, 0, 1, 0, 0, 0, 2];

/// S without its last AVP, 4208 at 144.
fn shorter() -> Vec<u8> {
    let mut octets = S[..144].to_vec();
    octets[3] = 144;
    octets
}

fn refusal(number: u32, place: u32, vendor: u32, code: u32) -> Verdict {
    Verdict { number, place, vendor, code }
}

#[test]
fn s_is_accepted_with_eleven_avps() {
    let record = read(&S).expect("S is accepted");
    assert!(record.is_request() && record.is_proxiable() && !record.is_error() && !record.is_retransmitted());
    assert_eq!((record.hop_by_hop(), record.end_to_end(), record.count()), (1, 2, 11));
    let codes: Vec<u32> = record.avps().map(|a| a.code).collect();
    assert_eq!(codes, [263, 260, 266, 277, 264, 296, 283, 4203, 293, 4202, 4208]);
    let depths: Vec<u32> = record.avps().map(|a| a.depth).collect();
    assert_eq!(depths, [1, 1, 2, 1, 1, 1, 1, 1, 1, 1, 1]);
    let last = Avp { depth: 1, vendor: 10415, code: 4208, m: true, p: false, start: 156, length: 4 };
    assert_eq!(record.avps().last(), Some(last));
}

#[test]
fn data_is_a_part_of_the_slice_or_empty() {
    let record = read(&S).expect("S is accepted");
    assert_eq!(record.data(0, &S), b"s");
    assert_eq!(record.data(10, &S), [0, 0, 0, 7]);
    assert!(record.data(10, &S[..159]).is_empty());
    assert!(record.data(11, &S).is_empty());
    assert!(record.data(usize::MAX, &S).is_empty());
    assert!(record.data(0, &[]).is_empty());
}

#[test]
fn search_looks_at_depth_1() {
    let record = read(&S).expect("S is accepted");
    assert_eq!(record.search(10415, 4203, 0), Sought { position: Some(7), number: 1 });
    assert_eq!(record.search(10415, 4203, 1), Sought { position: None, number: 1 });
    assert_eq!(record.search(0, 4203, 0), Sought { position: None, number: 0 });
    assert_eq!(record.search(0, 266, 0), Sought { position: None, number: 0 });
}

#[test]
fn any_numbers_are_a_record() {
    let record = Record::from_numbers([u32::MAX; RECORD_NUMBERS]);
    assert_eq!(record.count(), 256);
    assert!(record.data(255, &H).is_empty());
    assert_eq!(record.search(u32::MAX, u32::MAX, 0), Sought { position: None, number: 0 });
    assert!(!record.is_request());
}

#[test]
fn refusals_have_number_place_vendor_and_code() {
    assert_eq!(read(&shorter()).unwrap_err(), refusal(5005, 144, 10415, 4208));
    assert_eq!(read(&[]).unwrap_err(), refusal(5015, 0, 0, 0));
    let mut reader = Reader::new();
    assert!(reader.verdict(&S).is_accepted());
    assert_eq!(reader.verdict(&H), refusal(5005, 20, 0, 263));
    let edges = [
        (0, 2, refusal(5011, 0, 0, 0)),
        (3, 24, refusal(5015, 1, 0, 0)),
        (11, 0x82, refusal(3007, 8, 0, 0)),
        (4, 0xE0, refusal(3008, 4, 0, 0)),
        // an error answer, by request 1 of 02
        (4, 0x60, refusal(5005, 20, 0, 264)),
    ];
    for (at, octet, expected) in edges {
        let mut octets = H;
        octets[at] = octet;
        assert_eq!(reader.verdict(&octets), expected);
    }
    assert!(reader.verdict(&S).is_accepted());
}
