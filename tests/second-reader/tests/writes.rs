//! The writer: what it writes, each of 7006's conditions, the order of refusals, and the limits.
//! Expected octets and numbers are 01's and 02's, by hand.

use commands::S;
use second_reader::{read, verdict, write, Draft, Place, Written};

const TGPP: u32 = 10_415;

/// What the lent octets of `s_draft` hold: each part once, out of the command's order.
const LENT: &[u8; 21] = b"fedrhs\0\0\0\x07\0\0\0\x01\0\0\x28\xAF???";

fn place(depth: u32, vendor: u32, code: u32, start: u32, length: u32) -> Place {
    Place { depth, vendor, code, m: 1, p: 0, start, length }
}

fn draft(places: &[Place]) -> Draft {
    let mut draft = Draft { r: 1, p: 1, hop_by_hop: 1, end_to_end: 2, ..Draft::default() };
    draft.count = places.len() as u32;
    draft.places[..places.len()].copy_from_slice(places);
    draft
}

/// S over LENT.
fn s_places() -> Vec<Place> {
    vec![
        place(1, 0, 263, 5, 1),
        place(1, 0, 260, 0, 12),
        place(2, 0, 266, 14, 4),
        place(1, 0, 277, 10, 4),
        place(1, 0, 264, 4, 1),
        place(1, 0, 296, 3, 1),
        place(1, 0, 283, 2, 1),
        place(1, TGPP, 4203, 10, 4),
        place(1, 0, 293, 1, 1),
        place(1, TGPP, 4202, 0, 1),
        place(1, TGPP, 4208, 6, 4),
    ]
}

fn s_draft() -> Draft {
    draft(&s_places())
}

/// S with these places behind its own.
fn s_with(places: &[Place]) -> Draft {
    draft(&[&s_places(), places].concat())
}

/// Writes into an output of this room that holds 0xA5; a refusal leaves all of it, an acceptance
/// what lies past the length.
fn written(draft: &Draft, octets: &[u8], room: usize) -> ([u32; 5], Vec<u8>) {
    let mut output = vec![0xA5; room];
    let Written { verdict, length } = write(draft, octets, &mut output);
    assert!(output[length as usize..].iter().all(|&octet| octet == 0xA5));
    output.truncate(length as usize);
    ([verdict.number, verdict.place, verdict.vendor, verdict.code, length], output)
}

/// The answer with room for any command.
fn answer(draft: &Draft, octets: &[u8]) -> [u32; 5] {
    written(draft, octets, 20_000).0
}

const ACCEPTED_S: [u32; 5] = [0, 0, 0, 0, 160];
const MALFORMED: [u32; 5] = [7006, 0, 0, 0, 0];
const TOO_LONG: [u32; 5] = [7001, 0, 0, 0, 0];
const TOO_SHORT: [u32; 5] = [7004, 0, 0, 0, 0];

#[test]
fn s_is_written() {
    assert_eq!(verdict(&S).number, 0);
    for room in [160, 161, 500] {
        assert_eq!(written(&s_draft(), LENT, room), (ACCEPTED_S, S.to_vec()));
    }
    for room in [0, 19, 20, 156, 159] {
        assert_eq!(written(&s_draft(), LENT, room), (TOO_SHORT, Vec::new()));
    }
    assert_eq!(written(&Draft::of(&read(&S).record), &S, 160), (ACCEPTED_S, S.to_vec()));
}

#[test]
fn padding_and_reserved_bits_are_0() {
    let mut other = S;
    other[4] |= 0x0F;
    other[29..32].fill(0xFF);
    other[141..144].copy_from_slice(b"pad");
    assert_eq!(verdict(&other).number, 0);
    assert_eq!(written(&Draft::of(&read(&other).record), &other, 160), (ACCEPTED_S, S.to_vec()));
}

#[test]
fn flags_are_written() {
    let mut draft = s_draft();
    draft.t = 1;
    (draft.hop_by_hop, draft.end_to_end) = (0xFFFF_FFFF, 0x0102_0304);
    draft.places[0].p = 1;
    let mut expected = S.to_vec();
    expected[4] = 0xD0;
    expected[12..20].copy_from_slice(&[0xFF, 0xFF, 0xFF, 0xFF, 1, 2, 3, 4]);
    expected[24] = 0x60;
    assert_eq!(written(&draft, LENT, 160), (ACCEPTED_S, expected));
    // An unknown AVP of a vendor, without M, of three octets and one octet of padding.
    let unknown = Place { m: 0, p: 1, ..place(1, 9, 0xFFFF_FFFF, 18, 3) };
    let mut expected = S.to_vec();
    expected[3] = 176;
    expected.extend([0xFF, 0xFF, 0xFF, 0xFF, 0xA0, 0, 0, 15, 0, 0, 0, 9, b'?', b'?', b'?', 0]);
    assert_eq!(written(&s_with(&[unknown]), LENT, 200), ([0, 0, 0, 0, 176], expected));
}

#[test]
fn counts_and_unused_places() {
    let mut changed = s_draft();
    for count in [257, 258, 0x0100_000B, u32::MAX] {
        changed.count = count;
        assert_eq!(answer(&changed, LENT), MALFORMED);
    }
    // The last AVP is now in an unused place.
    changed.count = 10;
    assert_eq!(answer(&changed, LENT), MALFORMED);
    for at in [11, 12, 100, 255] {
        for field in 0..7 {
            let mut changed = s_draft();
            let mut numbers = [0; 7];
            numbers[field] = 1;
            let [depth, vendor, code, m, p, start, length] = numbers;
            changed.places[at] = Place { depth, vendor, code, m, p, start, length };
            assert_eq!(answer(&changed, LENT), MALFORMED);
        }
    }
    // Count 0 is a tree.
    assert_eq!(answer(&draft(&[]), LENT), [5005, 20, 0, 263, 0]);
}

#[test]
fn parts() {
    let behind = |start, length| s_with(&[place(1, 0, 282, start, length)]);
    for (start, length) in [(21, 0), (20, 1), (0, 21), (7, 14)] {
        assert_eq!(answer(&behind(start, length), LENT)[0], 0, "{start} {length}");
    }
    let far = [(u32::MAX, 0), (u32::MAX, 1), (0, u32::MAX), (u32::MAX, u32::MAX), (1 << 31, 1 << 31)];
    for (start, length) in [(22, 0), (21, 1), (0, 22), (8, 14), (5, u32::MAX - 4)].into_iter().chain(far) {
        assert_eq!(answer(&behind(start, length), LENT), MALFORMED, "{start} {length}");
    }
    assert_eq!(answer(&s_draft(), &LENT[..17]), MALFORMED);
    // A read group's start is free.
    let mut draft = s_draft();
    draft.places[1].start = u32::MAX;
    assert_eq!(written(&draft, &LENT[..18], 160), (ACCEPTED_S, S.to_vec()));
}

#[test]
fn depths() {
    let with_depth = |at: usize, depth| {
        let mut draft = s_draft();
        draft.places[at].depth = depth;
        answer(&draft, LENT)
    };
    for (at, depth) in [(0, 0), (0, 2), (0, 4), (2, 0), (10, 0), (2, 3), (2, 5), (1, 2), (3, 3), (10, 2)] {
        assert_eq!(with_depth(at, depth), MALFORMED, "{at} {depth}");
    }
    // 277 in the 260: the group's length is not that of its members.
    assert_eq!(with_depth(3, 2), MALFORMED);
    let mut draft = s_draft();
    draft.places[3].depth = 2;
    draft.places[1].length = 24;
    assert_eq!(answer(&draft, LENT), [5005, 160, 0, 277, 0]);
}

/// Three groups of 280, 33 and the next, with these places in the last.
fn nested(last: &[Place]) -> Vec<Place> {
    let length = last.iter().map(|place| place.padded() as u32).sum::<u32>();
    let mut places = Vec::new();
    for depth in 1..=3 {
        let below = (3 - depth) * 32;
        places.push(place(depth, 0, 284, 0, below + 24 + length));
        places.push(place(depth + 1, 0, 280, 0, 1));
        places.push(place(depth + 1, 0, 33, 1, 1));
    }
    places.extend(last);
    places
}

#[test]
fn depth_4_and_5() {
    assert_eq!(answer(&s_with(&nested(&[])), LENT), [0, 0, 0, 0, 160 + 96]);
    assert_eq!(answer(&s_with(&nested(&[place(4, 0, 282, 3, 2)])), LENT), [0, 0, 0, 0, 160 + 108]);
    // A read group at depth 4: 7003 with length 0, else it has no members of that length.
    let group = |length| s_with(&nested(&[place(4, 0, 284, 0, length)]));
    assert_eq!(answer(&group(0), LENT), [7003, 160 + 96, 0, 284, 0]);
    assert_eq!(answer(&group(12), LENT), MALFORMED);
    let deeper = [place(4, 0, 284, 0, 12), place(5, 0, 280, 0, 1)];
    assert_eq!(answer(&s_with(&nested(&deeper)), LENT), MALFORMED);
}

#[test]
fn group_lengths() {
    // 280 of one octet, then 33 of two: 12 and 12 octets.
    let group = |length| s_with(&[place(1, 0, 284, 0, length), place(2, 0, 280, 0, 1), place(2, 0, 33, 0, 2)]);
    assert_eq!(answer(&group(24), LENT), [0, 0, 0, 0, 192]);
    for length in [0, 12, 20, 22, 23, 25, 28, u32::MAX] {
        assert_eq!(answer(&group(length), LENT), MALFORMED, "{length}");
    }
    // A group without members, and an inner group that is wrong though the outer one is right.
    assert_eq!(answer(&s_with(&[place(1, 0, 284, 0, 0)]), LENT), [5005, 168, 0, 280, 0]);
    let inner = |length| {
        let outer = place(1, 0, 284, 0, 24 + 8 + length);
        let inner = place(2, 0, 284, 0, length);
        let leaf = |depth, code| place(depth, 0, code, 0, 1);
        s_with(&[outer, leaf(2, 280), leaf(2, 33), inner, leaf(3, 280), leaf(3, 33)])
    };
    assert_eq!(answer(&inner(24), LENT), [0, 0, 0, 0, 160 + 64]);
    assert_eq!(answer(&inner(28), LENT), MALFORMED);
    // What is no read group has any length and no members.
    assert_eq!(answer(&s_with(&[place(1, 0, 279, 0, 13)]), LENT)[0], 0);
    assert_eq!(answer(&s_with(&[place(1, 0, 279, 0, 12), place(2, 0, 280, 0, 1)]), LENT), MALFORMED);
}

#[test]
fn flags_that_fit_no_bit() {
    for flag in [2, 255, 256, u32::MAX] {
        let changes: [fn(&mut Draft) -> &mut u32; 6] = [
            |draft| &mut draft.r,
            |draft| &mut draft.p,
            |draft| &mut draft.e,
            |draft| &mut draft.t,
            |draft| &mut draft.places[10].m,
            |draft| &mut draft.places[1].p,
        ];
        for change in changes {
            let mut draft = s_draft();
            *change(&mut draft) = flag;
            assert_eq!(answer(&draft, LENT), MALFORMED);
        }
    }
}

#[test]
fn limits() {
    let octets = [LENT.to_vec(), vec![7; 20_000]].concat();
    let long = |length: u32| s_with(&[place(1, 0, 282, 21, length - 160 - 8)]);
    assert_eq!(answer(&long(16_384), &octets), [0, 0, 0, 0, 16_384]);
    assert_eq!(answer(&long(16_383), &octets), [0, 0, 0, 0, 16_384]);
    assert_eq!(answer(&long(16_385), &octets), TOO_LONG);
    assert_eq!(answer(&long(16_388), &octets), TOO_LONG);
    assert_eq!(written(&long(16_388), &octets, 0).0, TOO_LONG);
    assert_eq!(written(&long(16_384), &octets, 16_383).0, TOO_SHORT);
    // Many overlapping parts, together longer than any output.
    assert_eq!(answer(&s_with(&[place(1, 0, 282, 0, 20_000); 245]), &octets), TOO_LONG);
    // 256 AVPs.
    assert_eq!(answer(&s_with(&[place(1, 0, 282, 0, 0); 245]), &octets), [0, 0, 0, 0, 160 + 245 * 8]);
}

#[test]
fn order() {
    // 7006, then 7001, then 7004, then the reader's.
    let octets = vec![0; 20_000];
    let long = place(1, 0, 282, 0, 17_000);
    let mut malformed = draft(&[long]);
    malformed.t = 2;
    assert_eq!(written(&malformed, &octets, 0).0, MALFORMED);
    assert_eq!(written(&draft(&[long]), &octets, 20).0, TOO_LONG);
    assert_eq!(written(&draft(&[]), &octets, 19).0, TOO_SHORT);
    assert_eq!(written(&draft(&[]), &octets, 20).0, [5005, 20, 0, 263, 0]);
}

#[test]
fn what_the_reader_refuses() {
    let changed = |change: fn(&mut Draft)| {
        let mut draft = s_draft();
        change(&mut draft);
        answer(&draft, LENT)
    };
    assert_eq!(changed(|draft| draft.p = 0), [3008, 4, 0, 0, 0]);
    assert_eq!(changed(|draft| draft.e = 1), [3008, 4, 0, 0, 0]);
    // An error answer, which has no 268.
    assert_eq!(changed(|draft| (draft.r, draft.e) = (0, 1)), [5005, 160, 0, 268, 0]);
    assert_eq!(changed(|draft| draft.places[10].m = 0), [3009, 144, TGPP, 4208, 0]);
    assert_eq!(changed(|draft| draft.places[10].vendor = 0), [5001, 144, 0, 4208, 0]);
    assert_eq!(changed(|draft| draft.places[10].length = 3), [5014, 144, TGPP, 4208, 0]);
    assert_eq!(changed(|draft| draft.places[7].start = 6), [5004, 100, TGPP, 4203, 0]);
    assert_eq!(changed(|draft| draft.places[8].code = 282), [5005, 160, 0, 293, 0]);
    assert_eq!(changed(|draft| draft.places.swap(0, 3)), [5008, 52, 0, 263, 0]);
    assert_eq!(answer(&s_with(&[place(1, 0, 283, 0, 0)]), LENT), [5009, 160, 0, 283, 0]);
}

/// The octets of LENT, then eight of 0.
fn lent_with_0() -> Vec<u8> {
    [&LENT[..], &[0; 8]].concat()
}

/// S with 4203 as given by its start in `lent_with_0`, then 532, 4209, a window from 0 to 7 and these: 236 octets
/// without them.
fn request(type_start: u32, more: &[Place]) -> Draft {
    let mut places = s_places();
    places[7].start = type_start;
    places.extend([place(1, TGPP, 532, 0, 1), place(1, TGPP, 4209, 6, 4), place(1, TGPP, 4204, 0, 32)]);
    places.extend([place(2, TGPP, 4206, 21, 4), place(2, TGPP, 4205, 6, 4)]);
    draft(&[&places, more].concat())
}

#[test]
fn total_beside_a_direction() {
    let (zero, one) = (21, 10);
    let volume = |depth, code| place(depth, 0, code, 21, 8);
    let (total, output, input) = (volume(1, 421), volume(1, 414), volume(1, 412));
    for alone in [&[total][..], &[output], &[input], &[input, output]] {
        let length = 236 + 16 * alone.len() as u32;
        assert_eq!(answer(&request(zero, alone), &lent_with_0()), [0, 0, 0, 0, length]);
    }
    // The place is that in the octets that would be written.
    for (together, place) in [
        (&[total, output][..], 236),
        (&[output, total], 252),
        (&[total, input], 236),
        (&[input, total], 252),
        (&[input, total, output], 252),
        (&[output, input, total], 268),
    ] {
        let length = 236 + 16 * together.len();
        let first = request(zero, together);
        assert_eq!(written(&first, &lent_with_0(), length).0, [5008, place, 0, 421, 0]);
        assert_eq!(written(&first, &lent_with_0(), length - 1).0, TOO_SHORT);
        assert_eq!(answer(&request(one, together), &lent_with_0()), [0, 0, 0, 0, length as u32]);
    }
    // In a group it does not count: 284 of 280, 33 and the total.
    let group = [place(1, 0, 284, 0, 40), place(2, 0, 280, 0, 1), place(2, 0, 33, 1, 1), volume(2, 421)];
    let within = request(zero, &[&group[..], &[output]].concat());
    assert_eq!(answer(&within, &lent_with_0()), [0, 0, 0, 0, 236 + 48 + 16]);
}

/// Lent octets with these times at 21 and 25, and S with a window of them behind.
fn window(start: u32, end: u32) -> (Draft, Vec<u8>) {
    let times = [place(1, TGPP, 4204, 0, 32), place(2, TGPP, 4206, 21, 4), place(2, TGPP, 4205, 25, 4)];
    (s_with(&times), [&LENT[..], &start.to_be_bytes(), &end.to_be_bytes()].concat())
}

#[test]
fn windows() {
    for (start, end, right) in [
        (10, 11, true),
        (11, 10, false),
        (0, 0, false),
        (0x7FFF_FFFF, 0x7FFF_FFFF, false),
        (0x8000_0000, 0x8000_0000, false),
        (0xFFFF_FFFF, 0xFFFF_FFFF, false),
        // Over the moment of 7 February 2036, 06:28:16 UTC, and back.
        (0xFFFF_FFFF, 0, true),
        (0, 0xFFFF_FFFF, false),
        // The whole range, and its half.
        (0x8000_0000, 0x7FFF_FFFF, true),
        (0x7FFF_FFFF, 0x8000_0000, false),
        (0xC000_0000, 0x4000_0000, true),
        (0x4000_0000, 0xC000_0000, false),
    ] {
        let (draft, octets) = window(start, end);
        let expected = if right { [0, 0, 0, 0, 204] } else { [5004, 188, TGPP, 4205, 0] };
        let (answer, command) = written(&draft, &octets, 204);
        assert_eq!(answer, expected, "{start:08X} to {end:08X}");
        assert_eq!(written(&draft, &octets, 203).0, TOO_SHORT);
        if right {
            assert_eq!([&command[184..188], &command[200..204]], [start.to_be_bytes(), end.to_be_bytes()]);
        }
    }
}
