//! The canonical form of a command through the safe function: one for all commands of a meaning, another for another,
//! and what each room and each refusal leaves.

use commands::S;
use talazumir::{canonical, read, Verdict, Written};

/// The padding of S behind each AVP of one octet.
const PADDING: [std::ops::Range<usize>; 6] = [29..32, 73..76, 85..88, 97..100, 125..128, 141..144];

fn form(octets: &[u8]) -> Vec<u8> {
    let mut out = vec![0xA5; octets.len()];
    let written = canonical(octets, &mut out);
    assert_eq!((written.verdict.number, written.length as usize), (0, octets.len()));
    out
}

#[test]
fn padding_and_reserved_bits_are_no_part_of_a_state() {
    assert_eq!(form(&S), S);
    for padding in PADDING {
        for at in padding {
            let mut octets = S;
            octets[at] = 0xFF;
            octets[4] |= 0x0F;
            assert_eq!(form(&octets), S, "octet {at}");
        }
    }
}

#[test]
fn each_other_bit_of_an_accepted_command_is() {
    let is_padding = |at: usize| PADDING.iter().any(|padding| padding.contains(&at));
    let mut accepted = 0;
    for at in (0..S.len()).filter(|&at| !is_padding(at)) {
        for bit in 0..8 {
            let mut octets = S;
            octets[at] ^= 1 << bit;
            if read(&octets).is_ok() && (at != 4 || bit > 3) {
                assert_ne!(form(&octets), S, "bit {bit} of octet {at}");
                accepted += 1;
            }
        }
    }
    // T; both identifiers; P of the 11 AVPs; the octet of each of the 6 strings; 266 and 4208, of any value; and each
    // string's length made 3, so that two octets of padding become data.
    assert_eq!(accepted, 1 + 64 + 11 + 6 * 8 + 32 + 32 + 6);
}

#[test]
fn rooms_and_refusals() {
    for room in [0, 20, 159] {
        let mut out = vec![0xA5; room];
        let no_room = Written { verdict: Verdict { number: 7004, place: 0, vendor: 0, code: 0 }, length: 0 };
        assert_eq!(canonical(&S, &mut out), no_room);
        assert!(out.iter().all(|&octet| octet == 0xA5));
        // The reader's refusal comes before 7004.
        let mut octets = S;
        octets[115] = 2;
        let refused = Written { verdict: Verdict { number: 5004, place: 100, vendor: 10415, code: 4203 }, length: 0 };
        assert_eq!(canonical(&octets, &mut out), refused);
        assert!(out.iter().all(|&octet| octet == 0xA5));
    }
    let mut out = [0xA5; 170];
    assert_eq!(canonical(&S, &mut out).length, 160);
    assert_eq!((&out[..160], &out[160..]), (&S[..], &[0xA5; 10][..]));
    let mut none = [];
    assert_eq!(canonical(&[], &mut none).verdict.number, 5015);
}
