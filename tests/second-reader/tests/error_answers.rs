//! Request 1 of 02: answers with E, judged by the general form of RFC 6733 clause 7.2. Expected outcomes are the
//! papers', by hand.

use second_reader::{listing, read, verdict, Record, Verdict};
use std::collections::BTreeSet;
use std::slice::from_ref;

const TGPP: u32 = 10_415;
const ACCEPTED: (u32, u32, u32, u32) = (0, 0, 0, 0);

fn avp(vendor: u32, code: u32, flags: u8, content: &[u8]) -> Vec<u8> {
    let (header, v) = if vendor == 0 { (8, 0) } else { (12, 0x80) };
    let mut out = code.to_be_bytes().to_vec();
    out.extend((u32::from(flags | v) << 24 | (header + content.len()) as u32).to_be_bytes());
    if vendor != 0 {
        out.extend(vendor.to_be_bytes());
    }
    out.extend(content);
    out.resize(out.len().next_multiple_of(4), 0);
    out
}

fn plain(code: u32, content: &[u8]) -> Vec<u8> {
    avp(0, code, 0x40, content)
}

fn tgpp(code: u32, content: &[u8]) -> Vec<u8> {
    avp(TGPP, code, 0x40, content)
}

fn four(value: u32) -> [u8; 4] {
    value.to_be_bytes()
}

fn command(flags: u8, avps: &[Vec<u8>]) -> Vec<u8> {
    let avps = avps.concat();
    let mut out = (0x0100_0000 | (20 + avps.len()) as u32).to_be_bytes().to_vec();
    out.extend((u32::from(flags) << 24 | 8_388_723).to_be_bytes());
    out.extend(four(16_777_348));
    out.extend([0, 0, 0, 1, 0, 0, 0, 2]);
    out.extend(avps);
    out
}

/// 264 at 20, 296 at 32 and 268 at 44, of 12 octets each: 56 octets.
fn base() -> Vec<Vec<u8>> {
    vec![plain(264, b"o"), plain(296, b"r"), plain(268, &four(3008))]
}

/// 12 octets.
fn session() -> Vec<u8> {
    plain(263, b"s")
}

/// 32 octets: 266 and 298 of 12.
fn result() -> Vec<u8> {
    plain(297, &[plain(266, &four(1)), plain(298, &four(1))].concat())
}

/// 44 octets, its 4205 at 28.
fn window(start: u32, end: u32) -> Vec<u8> {
    tgpp(4204, &[tgpp(4206, &four(start)), tgpp(4205, &four(end))].concat())
}

/// 32 octets and these behind.
fn proxy(inner: &[Vec<u8>]) -> Vec<u8> {
    plain(284, &[plain(280, b"h"), plain(33, b"s"), inner.concat()].concat())
}

/// 28 octets and these behind.
fn policy(inner: &[Vec<u8>]) -> Vec<u8> {
    tgpp(4207, &[tgpp(4208, &four(1)), inner.concat()].concat())
}

fn judge(octets: &[u8]) -> (u32, u32, u32, u32) {
    let reading = read(octets);
    assert_eq!(reading.verdict, verdict(octets));
    if reading.verdict.number != 0 {
        assert_eq!(reading.record, Record::default());
    }
    let Verdict { number, place, vendor, code } = reading.verdict;
    (number, place, vendor, code)
}

/// An error answer with this list, P set and clear, T set and clear: the answer is the same.
fn of_list(list: &[Vec<u8>]) -> (u32, u32, u32, u32) {
    let [first, others @ ..] = [0x60, 0x20, 0x70, 0x30].map(|flags| judge(&command(flags, list)));
    assert_eq!(others, [first; 3]);
    first
}

/// The 56 octets and these behind.
fn with(more: &[Vec<u8>]) -> (u32, u32, u32, u32) {
    of_list(&[&base(), more].concat())
}

#[test]
fn flags() {
    let h = |flags| judge(&command(flags, &[]));
    // 01's case 60 by 02, and the same with P clear, with T and with reserved bits.
    for flags in [0x60, 0x20, 0x70, 0x30, 0x6F, 0x2F] {
        assert_eq!(h(flags), (5005, 20, 0, 264), "{flags:02X}");
        assert_eq!(judge(&command(flags, &base())), ACCEPTED, "{flags:02X}");
        let record = read(&command(flags, &base())).record;
        assert_eq!((record.r, record.p, record.e, record.t), (false, flags & 0x40 != 0, true, flags & 0x10 != 0));
    }
    // R with E, P set or clear; P clear without E, in a request and in an answer.
    for flags in [0xE0, 0xA0, 0xF0, 0xB0, 0x80, 0x90, 0x00, 0x10, 0x0F] {
        assert_eq!(h(flags), (3008, 4, 0, 0), "{flags:02X}");
        assert_eq!(judge(&command(flags, &base())), (3008, 4, 0, 0), "{flags:02X}");
    }
    // As before without E: BTA's and BTR's first row is missing.
    for flags in [0x40, 0x50, 0xC0, 0xD0] {
        assert_eq!(h(flags), (5005, 20, 0, 263), "{flags:02X}");
        assert_eq!(judge(&command(flags, &base())), (5005, 56, 0, 263), "{flags:02X}");
    }
    // Application and command code go before the flags.
    for flags in [0x20, 0x60, 0xA0, 0xE0] {
        let mut octets = command(flags, &[]);
        octets[7] ^= 1;
        assert_eq!(judge(&octets), (3001, 5, 0, 0));
        octets[11] ^= 1;
        assert_eq!(judge(&octets), (3007, 8, 0, 0));
    }
}

#[test]
fn rows() {
    let [host, realm, code] = [0, 1, 2].map(|at| base()[at].clone());
    let mut reversed = base();
    reversed.reverse();
    assert_eq!(of_list(&reversed), ACCEPTED);
    // What is missing, in the order 264, 296, 268.
    for (list, missing) in [
        (&[][..], 264),
        (&[&realm, &code], 264),
        (&[&host, &code], 296),
        (&[&host, &realm], 268),
        (&[&realm], 264),
        (&[&code], 264),
        (&[&host], 296),
    ] {
        let list: Vec<Vec<u8>> = list.iter().copied().cloned().collect();
        assert_eq!(of_list(&list), (5005, 20 + 12 * list.len() as u32, 0, missing), "{missing}");
    }
    // What exceeds its row.
    for (at, code) in [(0, 264), (1, 296), (2, 268)] {
        assert_eq!(with(&[base()[at].clone()]), (5009, 56, 0, code));
    }
    for one in [plain(278, &four(1)), plain(281, b"m"), avp(0, 294, 0, b"h"), plain(279, b"f"), result()] {
        let (code, place) = (u32::from(one[2]) << 8 | u32::from(one[3]), 56 + one.len() as u32);
        assert_eq!(with(from_ref(&one)), ACCEPTED, "{code}");
        assert_eq!(with(&[one.clone(), one.clone()]), (5009, place, 0, code), "{code}");
        assert_eq!(with(&[one.clone(), proxy(&[]), one]), (5009, place + 32, 0, code), "{code}");
    }
}

#[test]
fn session_id() {
    let of = |list: &[&[Vec<u8>]]| of_list(&list.concat());
    let (base, one) = (base(), [session()]);
    assert_eq!(of(&[&one, &base]), ACCEPTED);
    assert_eq!(of(&[&base]), ACCEPTED);
    assert_eq!(of(&[&[proxy(&[])], &base]), ACCEPTED);
    // Late, also as the last, and with another one behind it, which is not looked at.
    assert_eq!(of(&[&base[..1], &one, &base[1..]]), (5008, 32, 0, 263));
    assert_eq!(of(&[&base, &one]), (5008, 56, 0, 263));
    assert_eq!(of(&[&base, &one, &one]), (5008, 56, 0, 263));
    // Twice, which needs the first one to be first.
    assert_eq!(of(&[&one, &one, &base]), (5009, 32, 0, 263));
    assert_eq!(of(&[&one, &base, &one]), (5009, 68, 0, 263));
    // In a group it is like any other, and another vendor's is another AVP, of 16 octets.
    assert_eq!(of(&[&base, &[proxy(&[session(), session()])]]), ACCEPTED);
    assert_eq!(of(&[&one, &base, &[proxy(&one)]]), ACCEPTED);
    let other = [avp(9, 263, 0, b"s")];
    assert_eq!(of(&[&base, &other, &other]), ACCEPTED);
    assert_eq!(of(&[&other, &one, &base]), (5008, 36, 0, 263));
}

/// Each of the 38 names without a row once: groups with right members, right windows, 277 of 1.
fn without_row() -> Vec<Vec<u8>> {
    let features = tgpp(628, &[plain(266, &four(1)), tgpp(629, &four(1)), tgpp(630, &four(1))].concat());
    let mut names = vec![plain(260, &plain(266, &four(1))), features, window(1, 2), policy(&[])];
    names.extend([plain(277, &four(1)), tgpp(4203, &four(0))]);
    names.extend([258, 259, 261, 262, 266, 298, 301, 432].map(|code| plain(code, &four(7))));
    names.extend([412, 414, 421].map(|code| plain(code, &[7; 8])));
    names.extend([33, 280, 282, 283, 292, 293, 621, 623, 650].map(|code| plain(code, b"x")));
    names.extend([515, 516, 629, 630, 4205, 4206, 4208, 4209].map(|code| tgpp(code, &four(7))));
    names.extend([532, 2207, 4201, 4202].map(|code| tgpp(code, b"x")));
    names
}

#[test]
fn any_others() {
    let mut others = without_row();
    let distinct: BTreeSet<&[u8]> = others.iter().map(|one| &one[..4]).collect();
    assert_eq!((others.len(), distinct.len()), (38, 38));
    others.extend([proxy(&[]), tgpp(4203, &four(1))]);
    others.extend([avp(0, 9999, 0, b"?"), avp(TGPP, 263, 0, b"?"), avp(0, 4207, 0, b"?")]);
    for one in &others {
        for number in 0..4 {
            assert_eq!(with(&vec![one.clone(); number]), ACCEPTED, "{one:02X?}");
        }
    }
    assert_eq!(with(&others), ACCEPTED);
    // The walk's checks stay: the unknown one with M, values, bits, widths.
    assert_eq!(with(&[plain(9999, b"")]), (5001, 56, 0, 9999));
    assert_eq!(with(&[proxy(&[plain(9999, b"")])]), (5001, 56 + 32, 0, 9999));
    for value in [0, 2, 0x0100_0001] {
        assert_eq!(with(&[plain(277, &four(value))]), (5004, 56, 0, 277));
        assert_eq!(with(&[proxy(&[plain(277, &four(value))])]), (5004, 56 + 32, 0, 277));
    }
    assert_eq!(with(&[tgpp(4203, &four(2))]), (5004, 56, TGPP, 4203));
    assert_eq!(with(&[avp(0, 278, 0, &four(1))]), (3009, 56, 0, 278));
    assert_eq!(with(&[plain(278, b"123")]), (5014, 56, 0, 278));
    assert_eq!(with(&[vec![0; 4]]), (5014, 56, 0, 0));
}

#[test]
fn no_exchange_rule_of_an_answer() {
    // 268 beside 297, and 297 alone: 20 + 12 + 12 + 32 octets.
    assert_eq!(with(&[result()]), ACCEPTED);
    assert_eq!(of_list(&[base()[0].clone(), base()[1].clone(), result()]), (5005, 76, 0, 268));
    // The value of 268 is not judged.
    for value in [0, 2001, 3001, 5012, u32::MAX] {
        assert_eq!(of_list(&[base()[0].clone(), base()[1].clone(), plain(268, &four(value))]), ACCEPTED);
    }
    // Policies without 4202 and 2207, and without 4204 or 432 in them.
    let (time, group) = (window(1, 2), plain(432, &four(1)));
    for one in [policy(&[]), policy(from_ref(&time)), policy(from_ref(&group)), policy(&[time, group])] {
        for number in 1..4 {
            assert_eq!(with(&vec![one.clone(); number]), ACCEPTED);
            assert_eq!(with(&[vec![tgpp(4202, b"i")], vec![one.clone(); number]].concat()), ACCEPTED);
            assert_eq!(with(&[vec![tgpp(2207, b"a")], vec![one.clone(); number]].concat()), ACCEPTED);
        }
    }
    // Nor one of a request: 4203 without what it asks for, and the total beside a direction.
    let volumes = [421, 412, 414].map(|code| plain(code, &[0; 8]));
    for value in [0, 1] {
        assert_eq!(with(&[&[tgpp(4203, &four(value))], &volumes[..]].concat()), ACCEPTED);
    }
}

#[test]
fn windows() {
    for (start, end, right) in [(1, 2, true), (2, 2, false), (2, 1, false), (u32::MAX, 0, true), (0, u32::MAX, false)] {
        let one = window(start, end);
        for (avps, at) in [
            (vec![one.clone()], 28),
            (vec![window(1, 2), one.clone()], 44 + 28),
            (vec![policy(from_ref(&one))], 28 + 28),
            (vec![policy(&[]), policy(from_ref(&one))], 28 + 28 + 28),
            (vec![proxy(from_ref(&one))], 32 + 28),
            (vec![proxy(&[policy(from_ref(&one))])], 32 + 28 + 28),
        ] {
            let expected = if right { ACCEPTED } else { (5004, 56 + at, TGPP, 4205) };
            assert_eq!(with(&avps), expected, "{start:08X} to {end:08X} at {at}");
        }
        // No read group, so no window.
        assert_eq!(with(&[plain(279, &one), avp(9, 4204, 0, &one)]), ACCEPTED);
    }
    // The first wrong one in walk order.
    assert_eq!(with(&[policy(&[window(2, 1)]), window(2, 1)]), (5004, 56 + 28 + 28, TGPP, 4205));
}

#[test]
fn groups() {
    let (vendor, code) = (plain(266, &four(1)), plain(298, &four(1)));
    assert_eq!(with(&[plain(260, b"")]), (5005, 64, 0, 266));
    assert_eq!(with(&[plain(260, &[vendor.clone(), avp(0, 9999, 0, b"")].concat())]), (5008, 76, 0, 9999));
    assert_eq!(with(&[plain(260, &[vendor.clone(), session()].concat())]), (5008, 76, 0, 263));
    assert_eq!(with(&[plain(260, &[vendor.clone(), vendor.clone()].concat())]), (5009, 76, 0, 266));
    assert_eq!(with(&[plain(297, &vendor)]), (5005, 76, 0, 298));
    assert_eq!(with(&[plain(297, &[vendor, code.clone(), code].concat())]), (5009, 88, 0, 298));
    assert_eq!(with(&[plain(284, &plain(280, b"h"))]), (5005, 76, 0, 33));
    assert_eq!(with(&[tgpp(628, b"")]), (5005, 68, 0, 266));
    assert_eq!(with(&[tgpp(4204, &tgpp(4206, &four(1)))]), (5005, 84, TGPP, 4205));
    assert_eq!(with(&[tgpp(4207, b"")]), (5005, 68, TGPP, 4208));
    assert_eq!(with(&[policy(&[window(1, 2), window(1, 2)])]), (5009, 56 + 28 + 44, TGPP, 4204));
    // Failed-AVP is not looked into.
    assert_eq!(with(&[plain(279, &[0xFF; 9])]), ACCEPTED);
    assert_eq!(with(&[plain(279, &plain(9999, b""))]), ACCEPTED);
    // Depth, number and length.
    assert_eq!(with(&[proxy(&[proxy(&[proxy(&[])])])]), ACCEPTED);
    assert_eq!(with(&[proxy(&[proxy(&[proxy(&[plain(284, b"")])])])]), (7003, 56 + 3 * 32, 0, 284));
    assert_eq!(with(&vec![plain(282, b""); 253]), ACCEPTED);
    assert_eq!(with(&vec![plain(282, b""); 254]), (7002, 56 + 253 * 8, 0, 0));
    assert_eq!(with(&[plain(282, &[0; 16_384 - 64])]), ACCEPTED);
    assert_eq!(with(&[plain(282, &[0; 16_388 - 64])]), (7001, 1, 0, 0));
}

#[test]
fn order() {
    let [host, realm, code] = [0, 1, 2].map(|at| base()[at].clone());
    let (text, wrong, empty) = (plain(281, b"m"), window(2, 1), plain(284, b""));
    // A member before a missing row: a late 263 and a second 296, where 264 is missing.
    assert_eq!(of_list(&[realm.clone(), code.clone(), session()]), (5008, 44, 0, 263));
    assert_eq!(of_list(&[realm.clone(), realm.clone(), code.clone()]), (5009, 32, 0, 296));
    // Of two members the first.
    assert_eq!(with(&[session(), text.clone(), text.clone()]), (5008, 56, 0, 263));
    assert_eq!(with(&[text.clone(), text.clone(), session()]), (5009, 68, 0, 281));
    // The command's own list before a group in it.
    assert_eq!(of_list(&[empty.clone(), realm.clone(), code]), (5005, 52, 0, 264));
    assert_eq!(with(&[empty.clone(), session()]), (5008, 64, 0, 263));
    assert_eq!(with(&[empty.clone(), text.clone(), text]), (5009, 76, 0, 281));
    // A window last: behind a missing row, a late 263 and a group.
    assert_eq!(of_list(&[host, realm, wrong.clone()]), (5005, 88, 0, 268));
    assert_eq!(with(&[wrong.clone(), session()]), (5008, 100, 0, 263));
    assert_eq!(with(&[wrong.clone(), empty]), (5005, 108, 0, 280));
    // The walk before all of them.
    assert_eq!(of_list(&[session(), session(), wrong.clone(), plain(277, &four(0))]), (5004, 88, 0, 277));
    assert_eq!(of_list(&[wrong, session(), vec![0; 4]]), (5014, 76, 0, 0));
}

#[test]
fn book() {
    let commands = [0x60, 0x20, 0xA0].map(|flags| command(flags, &base()));
    let book = [b"NTB\x00\x01".to_vec(), commands.concat(), command(0x60, &[])].concat();
    let expected = b"NTB 1\n1 5 0 0 0 0\n2 61 0 0 0 0\n3 117 3008 4 0 0\n4 173 5005 20 0 264\nend 4 2\n";
    assert_eq!(listing(&book), expected);
}
