//! Every case of 01's "Commands at the edges", its worked book, the readings, and the rules of 02.

use commands::{s_list, S};
use second_reader::time::seconds;
use second_reader::{all, data, listing, number, read, search, verdict, Avp, Draft, Record, Sought, Verdict};
use std::slice::from_ref;

const TGPP: u32 = 10_415;

fn avp(vendor: u32, code: u32, flags: u8, content: &[u8]) -> Vec<u8> {
    let mut out = code.to_be_bytes().to_vec();
    let header = if vendor == 0 { 8 } else { 12 };
    let flags = if vendor == 0 { flags } else { flags | 0x80 };
    out.extend(((u32::from(flags) << 24) | (header + content.len()) as u32).to_be_bytes());
    if vendor != 0 {
        out.extend(vendor.to_be_bytes());
    }
    out.extend(content);
    while !out.len().is_multiple_of(4) {
        out.push(0);
    }
    out
}

fn plain(code: u32, content: &[u8]) -> Vec<u8> {
    avp(0, code, 0x40, content)
}

fn tgpp(code: u32, content: &[u8]) -> Vec<u8> {
    avp(TGPP, code, 0x40, content)
}

fn four(value: u32) -> [u8; 4] {
    value.to_be_bytes()
}

fn command(flags: u8, avps: &[Vec<u8>]) -> Vec<u8> {
    let avps = avps.concat();
    let mut out = (0x0100_0000 | (20 + avps.len()) as u32).to_be_bytes().to_vec();
    out.extend((u32::from(flags) << 24 | 8_388_723).to_be_bytes());
    out.extend(four(16_777_348));
    out.extend([0, 0, 0, 1, 0, 0, 0, 2]);
    out.extend(avps);
    out
}

fn h() -> Vec<u8> {
    command(0xC0, &[])
}

fn window(start: u32, end: u32) -> Vec<u8> {
    tgpp(4204, &[tgpp(4206, &four(start)), tgpp(4205, &four(end))].concat())
}

/// A group of one-octet members and these, 32 octets without them.
fn proxy(inner: &[Vec<u8>]) -> Vec<u8> {
    plain(284, &[vec![plain(280, b"h"), plain(33, b"s")], inner.to_vec()].concat().concat())
}

/// A volume of 0: 16 octets.
fn volume(code: u32) -> Vec<u8> {
    plain(code, &[0; 8])
}

/// S with 4203 = 0, then 532 at 160, 4209 at 176 and a window at 192: 236 octets, and a volume alone is missing.
fn volumeless() -> Vec<Vec<u8>> {
    let mut list = s_list();
    list[6] = tgpp(4203, &four(0));
    list.extend([tgpp(532, b"a"), tgpp(4209, &four(1)), window(1, 2)]);
    list
}

fn answer_list() -> Vec<Vec<u8>> {
    vec![
        plain(263, b"s"),
        plain(260, &plain(266, &four(TGPP))),
        plain(277, &four(1)),
        plain(264, b"o"),
        plain(296, b"r"),
        plain(268, &four(2001)),
    ]
}

fn policy(members: &[Vec<u8>]) -> Vec<u8> {
    tgpp(4207, &[vec![tgpp(4208, &four(1))], members.to_vec()].concat().concat())
}

/// Judges by both ways in, which must agree; a refusal has the empty record.
fn judge(octets: &[u8]) -> (u32, u32, u32, u32) {
    let reading = read(octets);
    assert_eq!(reading.verdict, verdict(octets));
    if reading.verdict.number != 0 {
        assert_eq!(reading.record, Record::default());
    }
    let Verdict { number, place, vendor, code } = reading.verdict;
    (number, place, vendor, code)
}

fn changed(mut octets: Vec<u8>, at: usize, to: &[u8]) -> Vec<u8> {
    octets[at..at + to.len()].copy_from_slice(to);
    octets
}

fn h_with(avp: &[u8]) -> Vec<u8> {
    command(0xC0, &[avp.to_vec()])
}

#[test]
fn header_edges() {
    assert_eq!(judge(&[]), (5015, 0, 0, 0));
    assert_eq!(judge(&h()[..19]), (5015, 0, 0, 0));
    assert_eq!(judge(&h()), (5005, 20, 0, 263));
    assert_eq!(judge(&changed(h(), 0, &[2])), (5011, 0, 0, 0));
    assert_eq!(judge(&changed(h(), 1, &[0, 0, 24])), (5015, 1, 0, 0));
    assert_eq!(judge(&changed(h(), 1, &[0, 0, 16])), (5015, 1, 0, 0));
    assert_eq!(judge(&changed(h(), 8, &four(16_777_346))), (3007, 8, 0, 0));
    assert_eq!(judge(&changed(h(), 5, &[0, 0, 1])), (3001, 5, 0, 0));
    assert_eq!(judge(&changed(changed(h(), 5, &[0, 0, 1]), 8, &four(1))), (3007, 8, 0, 0));
    assert_eq!(judge(&changed(h(), 4, &[0xE0])), (3008, 4, 0, 0));
    assert_eq!(judge(&changed(h(), 4, &[0x60])), (5005, 20, 0, 264));
    assert_eq!(judge(&changed(h(), 4, &[0x20])), (5005, 20, 0, 264));
    assert_eq!(judge(&changed(h(), 4, &[0x80])), (3008, 4, 0, 0));
    assert_eq!(judge(&changed(h(), 4, &[0xDF])), (5005, 20, 0, 263));
}

#[test]
fn avp_edges() {
    let raw = |flags: u8, length: u8, code: u32| {
        let mut avp = four(code).to_vec();
        avp.extend([flags, 0, 0, length]);
        h_with(&avp)
    };
    assert_eq!(judge(&raw(0x40, 7, 263)), (5014, 20, 0, 263));
    assert_eq!(judge(&raw(0x41, 8, 263)), (3009, 20, 0, 263));
    assert_eq!(judge(&raw(0x40, 8, 9999)), (5001, 20, 0, 9999));
    assert_eq!(judge(&raw(0x00, 8, 9999)), (5005, 28, 0, 263));
    assert_eq!(judge(&raw(0xC0, 8, 263)), (5014, 20, 0, 263));
    assert_eq!(judge(&raw(0x00, 8, 263)), (3009, 20, 0, 263));
    assert_eq!(judge(&h_with(&[0, 0, 1, 7])), (5014, 20, 0, 0));
    // V with 12 octets left and a length below 12: both names.
    let low = changed(avp(TGPP, 4203, 0x40, b""), 7, &[11]);
    assert_eq!(judge(&h_with(&low)), (5014, 20, TGPP, 4203));
    // V with vendor 0.
    let zero = changed(avp(TGPP, 9999, 0, b""), 8, &four(0));
    assert_eq!(judge(&h_with(&zero)), (3009, 20, 0, 9999));
    // 4203 without V is unknown.
    assert_eq!(judge(&h_with(&plain(4203, &four(1)))), (5001, 20, 0, 4203));
    // A width.
    assert_eq!(judge(&h_with(&plain(277, &[0; 8]))), (5014, 20, 0, 277));
    assert_eq!(judge(&h_with(&plain(414, &[0; 4]))), (5014, 20, 0, 414));
}

#[test]
fn s_and_its_neighbours() {
    assert_eq!(judge(&S), (0, 0, 0, 0));
    let record = read(&S).record;
    assert_eq!(record.avps.len(), 11);
    assert_eq!((record.r, record.p, record.e, record.t), (true, true, false, false));
    assert_eq!((record.hop_by_hop, record.end_to_end), (1, 2));
    assert_eq!(record.avps[2], Avp { depth: 2, vendor: 0, code: 266, m: true, p: false, start: 48, length: 4 });
    let mut list = s_list();
    list.pop();
    assert_eq!(judge(&command(0xC0, &list)), (5005, 144, TGPP, 4208));
    let mut list = s_list();
    list[6] = tgpp(4203, &four(2));
    assert_eq!(judge(&command(0xC0, &list)), (5004, 100, TGPP, 4203));
}

/// Start, end and the seconds between them, by hand.
const WINDOWS: [(u32, u32, i64); 22] = [
    (10, 11, 1),
    (10, 10, 0),
    // Over the moment of 7 February 2036, 06:28:16 UTC.
    (4_294_967_295, 0, 1),
    (0xFFFF_FFFE, 1, 3),
    // From 1 January to 1 March 2036: 60 days.
    (4_291_747_200, 1_963_904, 5_184_000),
    // From the first moment to the last.
    (2_147_483_648, 2_147_483_647, 4_294_967_295),
    // The longest ones before the turn and behind it.
    (0x8000_0000, 0xFFFF_FFFF, 2_147_483_647),
    (0x0000_0000, 0x7FFF_FFFF, 2_147_483_647),
    // The range's half, and a second less and more.
    (0xC000_0000, 0x3FFF_FFFF, 2_147_483_647),
    (0xC000_0000, 0x4000_0000, 2_147_483_648),
    (0xC000_0000, 0x4000_0001, 2_147_483_649),
    (0x8000_0000, 0x0000_0000, 2_147_483_648),
    (0x8000_0000, 0x0000_0001, 2_147_483_649),
    (0xFFFF_FFFF, 0x7FFF_FFFF, 2_147_483_648),
    (0xFFFF_FFFE, 0x7FFF_FFFF, 2_147_483_649),
    // Next to the ends.
    (0x8000_0000, 0x8000_0001, 1),
    (0x7FFF_FFFE, 0x7FFF_FFFF, 1),
    (0x8000_0001, 0x7FFF_FFFE, 4_294_967_293),
    (0, 0, 0),
    (0x7FFF_FFFF, 0x7FFF_FFFF, 0),
    (0x8000_0000, 0x8000_0000, 0),
    (0xFFFF_FFFF, 0xFFFF_FFFF, 0),
];

/// A Supported-Features with these behind its own members, 56 octets without them.
fn features(inner: &[Vec<u8>]) -> Vec<u8> {
    let own = vec![plain(266, &four(1)), tgpp(629, &four(1)), tgpp(630, &four(1))];
    tgpp(628, &[own, inner.to_vec()].concat().concat())
}

/// A right window with these behind its own members, 44 octets without them.
fn outer(inner: &[Vec<u8>]) -> Vec<u8> {
    tgpp(4204, &[vec![tgpp(4206, &four(1)), tgpp(4205, &four(2))], inner.to_vec()].concat().concat())
}

#[test]
fn windows() {
    for (start, end, between) in WINDOWS {
        for (start, end, between) in [(start, end, between), (end, start, -between)] {
            assert_eq!(seconds(start, end), between, "{start:08X} to {end:08X}");
            // In the command's own list, in each group that admits others, and in a group of a group.
            let one = window(start, end);
            for (holder, at) in [
                (one.clone(), 0),
                (proxy(from_ref(&one)), 32),
                (features(from_ref(&one)), 56),
                (policy(from_ref(&one)), 28),
                (outer(from_ref(&one)), 44),
                (proxy(&[features(from_ref(&one))]), 32 + 56),
                (outer(&[policy(from_ref(&one))]), 44 + 28),
            ] {
                let expected = if between > 0 { (0, 0, 0, 0) } else { (5004, 160 + at + 28, TGPP, 4205) };
                assert_eq!(judge_with(&s_list(), &[holder]), expected, "{start:08X} to {end:08X} at {at}");
            }
        }
    }
}

/// The place of the 4205 at fault in an answer whose policies have these windows: 4202 at 100, 2207 at 116, then the
/// policies of 84 octets from 132 on, each with its 4205 56 octets behind its start.
fn place_among(windows: &[(u32, u32)]) -> Option<u32> {
    let mut list = answer_list();
    list.extend([tgpp(4202, b"i"), avp(TGPP, 2207, 0, b"a")]);
    list.extend(windows.iter().map(|&(start, end)| policy(&[window(start, end), plain(432, &four(1))])));
    match judge(&command(0x40, &list)) {
        (0, 0, 0, 0) => None,
        (5004, place, TGPP, 4205) => Some(place),
        other => panic!("{other:?}"),
    }
}

#[test]
fn first_wrong_window() {
    let (over, back) = ((0xFFFF_FFFF, 0), (0, 0xFFFF_FFFF));
    let (whole, reverse) = ((0x8000_0000, 0x7FFF_FFFF), (0x7FFF_FFFF, 0x8000_0000));
    let [first, second, third] = [Some(188), Some(272), Some(356)];
    for (windows, expected) in [
        (&[(1, 2), (2, 3)][..], None),
        (&[(1, 1), (2, 3)], first),
        (&[(1, 2), (3, 2)], second),
        (&[(1, 1), (3, 2)], first),
        (&[(1, 2), (2, 3), (3, 3)], third),
        (&[(1, 2), (2, 2), (3, 3)], second),
        // As numbers alone another one would be named, or one where there is none, or none.
        (&[over, (3, 2)], second),
        (&[whole, reverse], second),
        (&[over, whole, (2, 2)], third),
        (&[reverse, whole], first),
        (&[back, (3, 2)], first),
        (&[(1, 2), reverse, (3, 2)], second),
        (&[over, whole], None),
        (&[(1, 2), back], second),
        (&[back, reverse], first),
    ] {
        assert_eq!(place_among(windows), expected, "{windows:08X?}");
    }
}

#[test]
fn window_in_a_window() {
    let nested = |start: u32, end: u32, inner: Vec<u8>| {
        let outer = tgpp(4204, &[inner, tgpp(4205, &four(end)), tgpp(4206, &four(start))].concat());
        judge_with(&s_list(), &[outer])
    };
    // The outer one starts first, though it ends last. Its 4205 stands behind the inner one.
    let (of_outer, of_inner) = ((5004, 160 + 12 + 44, TGPP, 4205), (5004, 160 + 12 + 28, TGPP, 4205));
    assert_eq!(nested(1, 1, window(5, 5)), of_outer);
    assert_eq!(nested(0x7FFF_FFFF, 0x8000_0000, window(5, 5)), of_outer);
    assert_eq!(nested(0, 0xFFFF_FFFF, window(0xFFFF_FFFF, 0)), of_outer);
    assert_eq!(nested(0xFFFF_FFFF, 0, window(5, 5)), of_inner);
    assert_eq!(nested(0x8000_0000, 0x7FFF_FFFF, window(0x7FFF_FFFF, 0x8000_0000)), of_inner);
    assert_eq!(nested(0xFFFF_FFFF, 0, window(0x8000_0000, 0x7FFF_FFFF)), (0, 0, 0, 0));
}

#[test]
fn window_in_its_order() {
    // A wrong window in a group of 76 octets, behind each of the other rules.
    let wrong = proxy(&[window(0x7FFF_FFFF, 0x8000_0000)]);
    let without = |list: Vec<Vec<u8>>, gone: usize| {
        let list = list.into_iter().enumerate();
        list.filter(|&(at, _)| at != gone).map(|(_, avp)| avp).collect::<Vec<_>>()
    };
    let end = |length: u32| length + 76;
    for (gone, length, vendor, code) in [(8, 144, TGPP, 4202), (9, 144, TGPP, 4208), (7, 148, 0, 293)] {
        assert_eq!(judge_with(&without(s_list(), gone), from_ref(&wrong)), (5005, end(length), vendor, code));
    }
    assert_eq!(judge_with(&volumeless(), from_ref(&wrong)), (5005, end(236), 0, 414));
    assert_eq!(judge_with(&volumeless(), &[wrong.clone(), volume(421), volume(412)]), (5008, end(236), 0, 421));
    let ready = [volumeless(), vec![volume(421)]].concat();
    for (gone, length, code) in [(10, 236, 532), (11, 236, 4209), (12, 208, 4204)] {
        assert_eq!(judge_with(&without(ready.clone(), gone), from_ref(&wrong)), (5005, end(length), TGPP, code));
    }
    assert_eq!(judge_with(&ready, from_ref(&wrong)), (5004, 252 + 32 + 28, TGPP, 4205));
    // Behind the rows, and behind the walk.
    assert_eq!(judge_with(&ready, &[wrong.clone(), tgpp(4204, b"")]), (5009, end(252), TGPP, 4204));
    assert_eq!(judge_with(&ready, &[wrong.clone(), proxy(&[tgpp(4204, b"")])]), (5005, end(252) + 44, TGPP, 4206));
    assert_eq!(judge_with(&ready, &[wrong.clone(), plain(277, &four(0))]), (5004, end(252), 0, 277));
    // In an answer: 100 octets, then the window.
    let answer = |more: &[Vec<u8>]| judge(&command(0x40, &[&answer_list(), from_ref(&wrong), more].concat()));
    let result = plain(297, &[plain(266, &four(1)), plain(298, &four(1))].concat());
    assert_eq!(judge(&command(0x40, &[&answer_list()[..5], from_ref(&wrong)].concat())), (5005, end(88), 0, 268));
    assert_eq!(answer(&[result]), (5008, end(100), 0, 297));
    let (reference, group) = (tgpp(4202, b"i"), plain(432, &four(1)));
    let whole = policy(&[window(1, 2), group.clone()]);
    assert_eq!(answer(from_ref(&whole)), (5005, end(184), TGPP, 4202));
    assert_eq!(answer(&[reference.clone(), whole.clone(), whole]), (5005, end(100) + 16 + 168, TGPP, 2207));
    assert_eq!(answer(&[reference.clone(), policy(from_ref(&group))]), (5005, end(100) + 16 + 40, TGPP, 4204));
    assert_eq!(answer(&[reference, policy(&[window(1, 2)])]), (5005, end(100) + 16 + 72, 0, 432));
    assert_eq!(answer(&[]), (5004, 100 + 32 + 28, TGPP, 4205));
}

#[test]
fn times_outside_a_window() {
    let times = [tgpp(4206, &four(2)), tgpp(4205, &four(1))];
    assert_eq!(judge_with(&s_list(), &times), (0, 0, 0, 0));
    assert_eq!(judge_with(&s_list(), &[proxy(&times)]), (0, 0, 0, 0));
    assert_eq!(judge_with(&s_list(), &[policy(&times)]), (0, 0, 0, 0));
    // Of a group within the window.
    assert_eq!(judge_with(&s_list(), &[outer(&[proxy(&times)])]), (0, 0, 0, 0));
    // Another vendor's 4204, and one in Failed-AVP, is no window.
    assert_eq!(judge_with(&s_list(), &[avp(9, 4204, 0, &times.concat())]), (0, 0, 0, 0));
    assert_eq!(judge_with(&s_list(), &[plain(279, &window(2, 1))]), (0, 0, 0, 0));
}

#[test]
fn limits() {
    let crowded = |more: usize| {
        let mut list = s_list();
        list.extend(std::iter::repeat_n(plain(282, b""), more));
        command(0xC0, &list)
    };
    assert_eq!(judge(&crowded(245)), (0, 0, 0, 0));
    assert_eq!(read(&crowded(245)).record.avps.len(), 256);
    assert_eq!(judge(&crowded(246)), (7002, 160 + 245 * 8, 0, 0));
    // Stray octets after 256 AVPs are a 257th.
    let mut stray = crowded(245);
    stray.extend([0; 4]);
    let length = stray.len() as u32;
    assert_eq!(judge(&changed(stray, 1, &four(length)[1..])), (7002, 160 + 245 * 8, 0, 0));
    let long = |length: usize| {
        let mut list = s_list();
        list.push(plain(282, &vec![0; length - 160 - 8]));
        command(0xC0, &list)
    };
    assert_eq!(judge(&long(16_384)), (0, 0, 0, 0));
    assert_eq!(judge(&long(16_388)), (7001, 1, 0, 0));
}

#[test]
fn depth() {
    let with = |group: Vec<u8>| {
        let mut list = s_list();
        list.push(group);
        command(0xC0, &list)
    };
    let three = |inner: &[Vec<u8>]| proxy(&[proxy(&[proxy(inner)])]);
    assert_eq!(judge(&with(three(&[]))), (0, 0, 0, 0));
    assert_eq!(judge(&with(three(&[plain(284, b"")]))), (7003, 160 + 3 * 32, 0, 284));
}

#[test]
fn rows() {
    // 263 not first; twice; none.
    let mut list = s_list();
    list.swap(0, 1);
    assert_eq!(judge(&command(0xC0, &list)), (5008, 40, 0, 263));
    let mut list = s_list();
    list.push(plain(263, b"s"));
    assert_eq!(judge(&command(0xC0, &list)), (5009, 160, 0, 263));
    assert_eq!(judge(&command(0xC0, &s_list()[1..])), (5005, 148, 0, 263));
    // A row fault of the command's list goes before one of a group, and a later 5014 before both.
    let mut list = s_list();
    list[1] = plain(260, b"");
    assert_eq!(judge(&command(0xC0, &list)), (5005, 40, 0, 266));
    list.push(plain(277, &four(1)));
    assert_eq!(judge(&command(0xC0, &list)), (5009, 148, 0, 277));
    list.push(plain(277, b"123"));
    assert_eq!(judge(&command(0xC0, &list)), (5014, 160, 0, 277));
    // An outer group's fault goes before an inner one's.
    let mut list = s_list();
    list.push(plain(284, &[plain(284, b""), plain(280, b"h")].concat()));
    assert_eq!(judge(&command(0xC0, &list)), (5005, 160 + 28, 0, 33));
    // Nothing else in 260.
    let mut list = s_list();
    let members = [plain(266, &four(1)), avp(0, 9999, 0, b"")].concat();
    list[1] = plain(260, &members);
    assert_eq!(judge(&command(0xC0, &list)), (5008, 52, 0, 9999));
}

#[test]
fn requests() {
    let mut list = s_list();
    list[6] = tgpp(4203, &four(0));
    for (row, vendor, code) in [
        (tgpp(532, b"a"), TGPP, 532),
        (volume(421), 0, 414),
        (tgpp(4209, &four(1)), TGPP, 4209),
        (window(1, 2), TGPP, 4204),
    ] {
        let octets = command(0xC0, &list);
        assert_eq!(judge(&octets), (5005, octets.len() as u32, vendor, code));
        list.push(row);
    }
    assert_eq!(judge(&command(0xC0, &list)), (0, 0, 0, 0));
    for (row, vendor, code) in [(8, TGPP, 4202), (9, TGPP, 4208), (7, 0, 293)] {
        let mut list = s_list();
        list.remove(row);
        let octets = command(0xC0, &list);
        assert_eq!(judge(&octets), (5005, octets.len() as u32, vendor, code));
    }
}

/// Judges a list with these behind it.
fn judge_with(list: &[Vec<u8>], more: &[Vec<u8>]) -> (u32, u32, u32, u32) {
    judge(&command(0xC0, &[list, more].concat()))
}

#[test]
fn total_beside_a_direction() {
    for alone in [&[414][..], &[412], &[414, 412], &[421]] {
        let volumes: Vec<_> = alone.iter().map(|&code| volume(code)).collect();
        assert_eq!(judge_with(&volumeless(), &volumes), (0, 0, 0, 0), "{alone:?}");
    }
    for (together, place) in [
        (&[421, 414][..], 236),
        (&[414, 421], 252),
        (&[421, 412], 236),
        (&[412, 421], 252),
        (&[421, 414, 412], 236),
        (&[421, 412, 414], 236),
        (&[414, 421, 412], 252),
        (&[412, 421, 414], 252),
        (&[414, 412, 421], 268),
        (&[412, 414, 421], 268),
    ] {
        let volumes: Vec<_> = together.iter().map(|&code| volume(code)).collect();
        assert_eq!(judge_with(&volumeless(), &volumes), (5008, place, 0, 421), "{together:?}");
        // Presence counts, not the value.
        let volumes: Vec<_> = together.iter().map(|&code| plain(code, &[0xFF; 8])).collect();
        assert_eq!(judge_with(&volumeless(), &volumes), (5008, place, 0, 421), "{together:?}");
        // No rule of a request with 4203 = 1.
        assert_eq!(judge_with(&s_list(), &volumes), (0, 0, 0, 0), "{together:?}");
    }
    // At the list's start and at its end.
    for (first, last, place) in [(421, 414, 32), (414, 421, 252)] {
        let mut list = volumeless();
        list.insert(1, volume(first));
        assert_eq!(judge_with(&list, &[volume(last)]), (5008, place, 0, 421));
    }
}

#[test]
fn total_beside_a_direction_in_its_order() {
    let both = [volume(421), volume(414)];
    let without = |gone: &[usize]| {
        let list = volumeless().into_iter().enumerate();
        list.filter(|(at, _)| !gone.contains(at)).map(|(_, avp)| avp).collect::<Vec<_>>()
    };
    // Behind 532, before 4209, 4204 and a wrong window.
    let (asp, ues, time) = (10, 11, 12);
    assert_eq!(judge_with(&without(&[asp]), &both), (5005, 220 + 32, TGPP, 532));
    assert_eq!(judge_with(&without(&[ues]), &both), (5008, 220, 0, 421));
    assert_eq!(judge_with(&without(&[time]), &both), (5008, 192, 0, 421));
    assert_eq!(judge_with(&without(&[ues, time]), &both), (5008, 176, 0, 421));
    assert_eq!(judge_with(&[without(&[time]), vec![window(2, 1)]].concat(), &both), (5008, 236, 0, 421));
    // Behind the rows.
    assert_eq!(judge_with(&volumeless(), &[volume(414), volume(421), volume(421)]), (5009, 268, 0, 421));
    assert_eq!(judge_with(&volumeless(), &[both.concat(), plain(284, b"")]), (5005, 276, 0, 280));
}

#[test]
fn total_and_direction_in_two_lists() {
    for direction in [412, 414] {
        let (total, direction) = (volume(421), volume(direction));
        for (own, inner) in [(&total, &direction), (&direction, &total)] {
            assert_eq!(judge_with(&volumeless(), &[own.clone(), proxy(from_ref(inner))]), (0, 0, 0, 0));
            assert_eq!(judge_with(&volumeless(), &[proxy(&[proxy(from_ref(inner))]), own.clone()]), (0, 0, 0, 0));
        }
        let inner = proxy(&[total.clone(), direction.clone()]);
        assert_eq!(judge_with(&volumeless(), from_ref(&inner)), (5005, 236 + 64, 0, 414));
        assert_eq!(judge_with(&volumeless(), &[inner, total.clone()]), (0, 0, 0, 0));
        // The place is that of the command's own 421, also with another one in a group before it or behind it.
        let inner = proxy(from_ref(&total));
        let behind = [total.clone(), direction.clone(), inner.clone()];
        assert_eq!(judge_with(&volumeless(), &behind), (5008, 236, 0, 421));
        assert_eq!(judge_with(&volumeless(), &[inner, direction.clone(), total.clone()]), (5008, 300, 0, 421));
        // Failed-AVP is not looked into, and another vendor's 421 is another AVP.
        assert_eq!(judge_with(&volumeless(), &[direction.clone(), plain(279, &total)]), (0, 0, 0, 0));
        assert_eq!(judge_with(&volumeless(), &[direction.clone(), avp(TGPP, 421, 0, &[0; 8])]), (0, 0, 0, 0));
        // No rule of an answer.
        assert_eq!(judge(&command(0x40, &[answer_list(), vec![total, direction]].concat())), (0, 0, 0, 0));
    }
}

#[test]
fn answers() {
    assert_eq!(judge(&command(0x40, &answer_list())), (0, 0, 0, 0));
    assert_eq!(judge(&command(0x50, &answer_list())), (0, 0, 0, 0));
    let mut list = answer_list();
    list.pop();
    let octets = command(0x40, &list);
    assert_eq!(judge(&octets), (5005, octets.len() as u32, 0, 268));
    let mut list = answer_list();
    let place = command(0x40, &list).len() as u32;
    list.push(plain(297, &[plain(266, &four(1)), plain(298, &four(1))].concat()));
    assert_eq!(judge(&command(0x40, &list)), (5008, place, 0, 297));

    let mut list = answer_list();
    list.push(policy(&[]));
    let end = command(0x40, &list).len() as u32;
    assert_eq!(judge(&command(0x40, &list)), (5005, end, TGPP, 4202));
    list.push(tgpp(4202, b"i"));
    assert_eq!(judge(&command(0x40, &list)), (5005, end, TGPP, 4204));
    list[6] = policy(&[window(1, 2)]);
    let end = command(0x40, &list[..7]).len() as u32;
    assert_eq!(judge(&command(0x40, &list)), (5005, end, 0, 432));
    list[6] = policy(&[window(1, 2), plain(432, &four(1))]);
    assert_eq!(judge(&command(0x40, &list)), (0, 0, 0, 0));
    list.push(policy(&[plain(432, &four(1))]));
    let end = command(0x40, &list).len() as u32;
    assert_eq!(judge(&command(0x40, &list)), (5005, end, TGPP, 2207));
    list.push(avp(TGPP, 2207, 0, b"a"));
    assert_eq!(judge(&command(0x40, &list)), (5005, end, TGPP, 4204));
}

#[test]
fn looks_right_and_is_not() {
    // A group's length that leaves out its last member's padding.
    let mut list = s_list();
    let mut group = plain(284, &[plain(33, b"long"), plain(280, b"h")].concat());
    group[7] -= 3;
    list.push(group);
    assert_eq!(judge(&command(0xC0, &list)), (5014, 180, 0, 280));
    // Failed-AVP is not looked into.
    let mut list = answer_list();
    list.push(plain(279, &[0xFF; 9]));
    assert_eq!(judge(&command(0x40, &list)), (0, 0, 0, 0));
}

#[test]
fn record_parts() {
    let mut record = read(&S).record;
    assert_eq!(data(&record, 2, &S), four(TGPP));
    assert_eq!(data(&record, 1, &S).len(), 12);
    assert_eq!(data(&record, 11, &S), b"");
    assert_eq!(data(&record, 10, &S[..159]), b"");
    record.avps[3].start = u32::MAX;
    record.avps[3].length = u32::MAX;
    assert_eq!(data(&record, 3, &S), b"");
    // A count above 256 is read as 256.
    record.avps.resize(256, Avp::default());
    record.avps.push(Avp { depth: 1, vendor: 0, code: 5, m: false, p: false, start: 0, length: 1 });
    assert_eq!(search(&record, 0, 5, 0), sought(None, 0));
    assert_eq!(data(&record, 256, &S), b"");
}

fn sought(position: impl Into<Option<usize>>, number: usize) -> Sought {
    Sought { position: position.into(), number }
}

/// These positions are the list, and the answers for the ordinals below their number; for others there is none.
fn finds(record: &Record, vendor: u32, code: u32, positions: &[usize]) {
    let number = positions.len();
    for (ordinal, &position) in positions.iter().enumerate() {
        assert_eq!(search(record, vendor, code, ordinal), sought(position, number), "{vendor} {code} {ordinal}");
    }
    for ordinal in [number, number + 1, number + 2, usize::MAX] {
        assert_eq!(search(record, vendor, code, ordinal), sought(None, number), "{vendor} {code} {ordinal}");
    }
    assert_eq!(all(record, vendor, code).collect::<Vec<_>>(), positions, "{vendor} {code}");
}

#[test]
fn nth_of_a_kind() {
    let record = read(&S).record;
    finds(&record, 0, 263, &[0]);
    finds(&record, TGPP, 4208, &[10]);
    // In a group alone, of another vendor, and nowhere.
    finds(&record, 0, 266, &[]);
    finds(&record, 0, 4208, &[]);
    finds(&record, 9, 9, &[]);
    finds(&Record::default(), 0, 263, &[]);

    // Seven AVPs, 4202 and 2207, then policies at 9, 20 and 30: a 284 with a fourth one stands between the first two,
    // and the second one holds a fifth.
    let offered = |more: &[Vec<u8>]| policy(&[vec![window(1, 2), plain(432, &four(1))], more.to_vec()].concat());
    let mut list = answer_list();
    list.extend([tgpp(4202, b"i"), avp(TGPP, 2207, 0, b"a"), offered(&[])]);
    list.extend([proxy(&[policy(&[])]), offered(&[policy(&[])]), plain(282, b"r"), plain(282, b"q"), offered(&[])]);
    let reading = read(&command(0x40, &list));
    assert_eq!((reading.verdict, reading.record.avps.len()), (Verdict::ACCEPTED, 36));
    let record = reading.record;
    finds(&record, TGPP, 4207, &[9, 20, 30]);
    finds(&record, 0, 282, &[28, 29]);
    finds(&record, 0, 284, &[15]);
    finds(&record, TGPP, 4204, &[]);
    finds(&record, TGPP, 4208, &[]);
    finds(&record, 0, 432, &[]);
}

#[test]
fn nth_of_any_record() {
    let places = |depths: &[u8]| depths.iter().map(|&depth| Avp { depth, code: 5, ..Avp::default() }).collect();
    let mut record = Record { avps: places(&[0, 1, 2, 0, 1, 5, 255, 1]), ..Record::default() };
    finds(&record, 0, 5, &[1, 4, 7]);
    finds(&record, 5, 0, &[]);
    record.avps[4].vendor = 1;
    finds(&record, 0, 5, &[1, 7]);
    finds(&record, 1, 5, &[4]);
    // A count above 256 is read as 256.
    for number in [255, 256, 257, 300] {
        record.avps = places(&vec![1; number]);
        finds(&record, 0, 5, &(0..number.min(256)).collect::<Vec<_>>());
    }
}

#[test]
fn nth_of_any_numbers() {
    let mut draft = Draft::default();
    for (place, depth) in draft.places.iter_mut().zip([1, 257, u32::MAX, 0, 1, 1 << 31 | 1, 1]) {
        (place.depth, place.code) = (depth, 5);
    }
    for (count, positions) in [(0, &[][..]), (1, &[0]), (4, &[0]), (5, &[0, 4]), (6, &[0, 4]), (7, &[0, 4, 6])] {
        draft.count = count;
        finds(&draft.record(), 0, 5, positions);
    }
    for count in [255, 256, 257, u32::MAX] {
        draft.count = count;
        finds(&draft.record(), 0, 5, &[0, 4, 6]);
        finds(&draft.record(), 0, 0, &[]);
    }
}

#[test]
fn books() {
    let book = |commands: &[Vec<u8>]| [b"NTB\x00\x01".to_vec(), commands.concat()].concat();
    assert_eq!(listing(&book(&[h()])), b"NTB 1\n1 5 5005 20 0 263\nend 1 0\n");
    let two = listing(&book(&[S.to_vec(), h()]));
    assert_eq!(two, b"NTB 1\n1 5 0 0 0 0\n2 165 5005 20 0 263\nend 2 1\n");
    assert_eq!(listing(&book(&[])), b"NTB 1\nend 0 0\n");
    for stray in [vec![1], vec![1, 0, 0], vec![1, 0, 0, 19], vec![1, 0, 0, 20, 0, 0]] {
        assert_eq!(listing(&book(&[h(), stray])), b"NTB 1\n1 5 5005 20 0 263\n2 25 cut\n");
    }
    for other in [&b""[..], b"NTB", b"NTB\x00\x02", b"NTb\x00\x01"] {
        assert_eq!(listing(other), b"not a book\n");
    }
    let odd = changed([h(), vec![0]].concat(), 3, &[21]);
    assert_eq!(listing(&book(&[odd])), b"NTB 1\n1 5 5015 1 0 0\nend 1 0\n");
    let full = changed(vec![1; 65_531], 0, &four(0x0100_0000 | 65_531));
    assert_eq!(listing(&book(from_ref(&full))), b"NTB 1\n1 5 5015 1 0 0\nend 1 0\n");
    assert_eq!(listing(&book(&[full, vec![0]])), b"not a book\n");
}

#[test]
fn generated() {
    use second_reader::coverage::Coverage;
    use second_reader::generate::{command, sound, Prng};
    let mut prng = Prng::new(7);
    for _ in 0..20_000 {
        let octets = sound(&mut prng).encode();
        let number = judge(&octets).0;
        let limit = [number::COMMAND_TOO_LONG, number::TOO_MANY_AVPS].contains(&number);
        assert!(number == 0 || limit, "{number}: {octets:02X?}");
    }
    let mut coverage = Coverage::default();
    for _ in 0..100_000 {
        let octets = command(&mut prng);
        judge(&octets);
        coverage.note(&octets, &verdict(&octets));
    }
    assert_eq!(coverage.gaps(), Vec::<String>::new());
}
