//! Request 9 of 02 through the safe functions: the nth AVP with a vendor and code at depth 1 and the number of them, in
//! answers with Transfer-Policies, in the longest command, and in records of whatever numbers.

use commands::{L, THREE_POLICIES};
use talazumir::{read, Record, Sought, MOST_AVPS, RECORD_NUMBERS};

const COUNT: usize = 6;
const VENDOR_3GPP: u32 = 10415;
const POLICY: (u32, u32) = (VENDOR_3GPP, 4207);

/// Ordinals below no number, among them such as would be 0, 1 or 2 if only their low octets counted.
const FAR: [usize; 8] = [256, 257, 65_536, 1 << 32, (1 << 32) + 1, (1 << 32) + 2, 1 << 63, usize::MAX];

/// The index of a position's depth; its vendor and code stand behind.
fn depth_of(position: usize) -> usize {
    7 + 7 * position
}

fn three_policies() -> [u32; RECORD_NUMBERS] {
    *read(&THREE_POLICIES).expect("three policies are accepted").numbers()
}

/// That the AVPs with this name stand at these positions and nowhere else: by each ordinal, by those just above and far
/// above, and all at once.
fn assert_found(record: &Record, (vendor, code): (u32, u32), positions: &[usize]) {
    let number = positions.len();
    for (ordinal, &position) in positions.iter().enumerate() {
        let due = Sought { position: Some(position), number };
        assert_eq!(record.search(vendor, code, ordinal), due, "{vendor} {code}, ordinal {ordinal}");
    }
    for ordinal in (number..number + 3).chain(FAR) {
        let due = Sought { position: None, number };
        assert_eq!(record.search(vendor, code, ordinal), due, "{vendor} {code}, ordinal {ordinal}");
    }
    assert_eq!(record.all(vendor, code).collect::<Vec<_>>(), positions, "{vendor} {code}");
}

/// The same of the record of these numbers.
fn assert_numbers_found(numbers: [u32; RECORD_NUMBERS], name: (u32, u32), positions: &[usize]) {
    assert_found(&Record::from_numbers(numbers), name, positions);
}

#[test]
fn the_policies_of_an_answer() {
    let record = read(&THREE_POLICIES).expect("three policies are accepted");
    assert_eq!(record.search(10415, 4207, 0), Sought { position: Some(9), number: 3 });
    assert_eq!(record.search(10415, 4207, 1), Sought { position: Some(15), number: 3 });
    assert_eq!(record.search(10415, 4207, 2), Sought { position: Some(23), number: 3 });
    assert_eq!(record.search(10415, 4207, 3), Sought { position: None, number: 3 });
    assert_eq!(record.search(10415, 4207, usize::MAX), Sought { position: None, number: 3 });
    assert_found(&record, POLICY, &[9, 15, 23]);
    assert_found(&record, (0, 263), &[0]);
    assert_found(&record, (VENDOR_3GPP, 2207), &[8]);
}

#[test]
fn a_name_is_vendor_and_code() {
    let record = read(&THREE_POLICIES).expect("three policies are accepted");
    for name in [(0, 4207), (10414, 4207), (10415, 263), (0, 0), (u32::MAX, u32::MAX)] {
        assert_found(&record, name, &[]);
    }
}

#[test]
fn names_that_stand_only_deeper() {
    let record = read(&THREE_POLICIES).expect("three policies are accepted");
    for name in [(0, 266), (0, 432), (VENDOR_3GPP, 515), (VENDOR_3GPP, 4204), (VENDOR_3GPP, 4206), (VENDOR_3GPP, 4208)]
    {
        assert_found(&record, name, &[]);
    }
}

#[test]
fn names_that_stand_at_depth_1_and_deeper() {
    // The row of any other AVP admits these in an answer: the first policy's window before it, at 132; its
    // Transfer-Policy-Id and an AVP 4207 without vendor and M behind it, at 216; and the window again at the end.
    let (window, id) = (&THREE_POLICIES[160..204], &THREE_POLICIES[144..160]);
    let other = [0, 0, 0x10, 0x6F, 0, 0, 0, 8];
    let parts = [&THREE_POLICIES[..132], window, &THREE_POLICIES[132..216], id, &other, &THREE_POLICIES[216..], window];
    let mut octets = parts.concat();
    octets[1..4].copy_from_slice(&[0, 0x02, 0x10]);
    let record = read(&octets).expect("other AVPs are admitted");
    // Windows with their members at 9 and 34; policies at 12, 20 and 28, with 5, 7 and 5 AVPs in them.
    assert_eq!(record.count(), 37);
    assert_found(&record, (VENDOR_3GPP, 4204), &[9, 34]);
    assert_found(&record, POLICY, &[12, 20, 28]);
    assert_found(&record, (VENDOR_3GPP, 4208), &[18]);
    assert_found(&record, (0, 4207), &[19]);
    assert_found(&record, (VENDOR_3GPP, 4206), &[]);
}

#[test]
fn a_refused_command_has_none() {
    // An answer without its PCRF-Address, from 116 to 132: the numbers of a refusal are all 0.
    let mut octets = [&THREE_POLICIES[..116], &THREE_POLICIES[132..]].concat();
    octets[3] = 0x90;
    let refusal = read(&octets).unwrap_err();
    assert_eq!((refusal.number, refusal.place, refusal.vendor, refusal.code), (5005, 400, 10415, 2207));
    for name in [POLICY, (0, 0)] {
        assert_numbers_found([0; RECORD_NUMBERS], name, &[]);
    }
}

#[test]
fn counts_of_whatever_number() {
    // The first position that is not used, and what is left of 9, 15 and 23.
    for (count, positions) in [
        (0, &[][..]),
        (9, &[]),
        (10, &[9]),
        (15, &[9]),
        (16, &[9, 15]),
        (23, &[9, 15]),
        (24, &[9, 15, 23]),
        (256, &[9, 15, 23]),
        (257, &[9, 15, 23]),
        (300, &[9, 15, 23]),
        (u32::MAX, &[9, 15, 23]),
    ] {
        let mut numbers = three_policies();
        numbers[COUNT] = count;
        assert_numbers_found(numbers, POLICY, positions);
        // Unused positions have depth 0, vendor 0 and code 0.
        assert_numbers_found(numbers, (0, 0), &[]);
    }
}

#[test]
fn an_avp_behind_the_count() {
    for (count, positions) in [
        (29, &[9, 15, 23][..]),
        (255, &[9, 15, 23]),
        (256, &[9, 15, 23, 255]),
        (300, &[9, 15, 23, 255]),
        (u32::MAX, &[9, 15, 23, 255]),
    ] {
        let mut numbers = three_policies();
        numbers[COUNT] = count;
        numbers[depth_of(255)..][..3].copy_from_slice(&[1, 10415, 4207]);
        assert_numbers_found(numbers, POLICY, positions);
    }
}

#[test]
fn depths_of_whatever_number() {
    for depth in [0, 2, 3, 257, u32::MAX] {
        let mut numbers = three_policies();
        numbers[depth_of(15)] = depth;
        assert_numbers_found(numbers, POLICY, &[9, 23]);
        numbers[depth_of(9)] = depth;
        assert_numbers_found(numbers, POLICY, &[23]);
        numbers[depth_of(23)] = depth;
        assert_numbers_found(numbers, POLICY, &[]);
    }
    // The Transfer-Policy-Ids of the first and the third policy, at 10 and 28, at depth 1.
    let mut numbers = three_policies();
    numbers[depth_of(10)] = 1;
    numbers[depth_of(28)] = 1;
    assert_numbers_found(numbers, (VENDOR_3GPP, 4208), &[10, 28]);
}

#[test]
fn as_many_of_one_name_as_there_is_room_for() {
    // L: 239 Route-Records (282) from position 11 on.
    let record = read(&L).expect("L is accepted");
    assert_found(&record, (0, 282), &(11..250).collect::<Vec<_>>());
    let positions: Vec<usize> = (0..MOST_AVPS).collect();
    let mut numbers = [0; RECORD_NUMBERS];
    for &position in &positions {
        numbers[depth_of(position)..][..3].copy_from_slice(&[1, 10415, 4207]);
    }
    for count in [256, 257, u32::MAX] {
        numbers[COUNT] = count;
        assert_numbers_found(numbers, POLICY, &positions);
    }
    numbers[COUNT] = 255;
    assert_numbers_found(numbers, POLICY, &positions[..255]);
}

#[test]
fn all_knows_its_length_and_goes_both_ways() {
    let record = read(&THREE_POLICIES).expect("three policies are accepted");
    let mut policies = record.all(10415, 4207);
    assert_eq!((policies.len(), policies.size_hint()), (3, (3, Some(3))));
    assert_eq!((policies.next_back(), policies.len()), (Some(23), 2));
    assert_eq!((policies.next(), policies.len()), (Some(9), 1));
    assert_eq!((policies.next(), policies.next(), policies.next_back()), (Some(15), None, None));
    assert_eq!(policies.len(), 0);
    assert_eq!(record.all(10415, 4207).rev().collect::<Vec<_>>(), [23, 15, 9]);
    assert_eq!(record.all(10415, 4208).len(), 0);
}
