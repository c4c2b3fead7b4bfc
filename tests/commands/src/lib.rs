//! Commands that several tests use, from the files of hex digits beside this crate's `src`.

/// Document 01's S (Commands at the edges): an accepted request.
pub const S: [u8; 160] = octets(include_str!("../S.hex"));

/// S with Route-Records up to the longest command: 250 AVPs, accepted.
pub static L: [u8; 16_384] = octets(include_str!("../L.hex"));

/// An accepted answer with three Transfer-Policies, at 132, 216 and 332: 29 AVPs.
pub const THREE_POLICIES: [u8; 416] = octets(include_str!("../three-policies.hex"));

/// Where the AVPs of S's own list start, and its end.
const PLACES: [usize; 11] = [20, 32, 52, 64, 76, 88, 100, 116, 128, 144, 160];

/// The AVPs of S's own list, each with what it holds and its padding: 263, 260, 277, 264, 296, 283, 4203, 293, 4202,
/// 4208.
pub fn s_list() -> Vec<Vec<u8>> {
    PLACES.windows(2).map(|places| S[places[0]..places[1]].to_vec()).collect()
}

/// The octets that a text stands for, two hex digits each. Blanks, and what stands behind a # on its line, are no part
/// of it.
const fn octets<const N: usize>(text: &str) -> [u8; N] {
    let text = text.as_bytes();
    let mut octets = [0; N];
    let (mut at, mut digits, mut comment) = (0, 0, false);
    while at < text.len() {
        comment = text[at] == b'#' || (comment && text[at] != b'\n');
        if !comment && !text[at].is_ascii_whitespace() {
            octets[digits / 2] = octets[digits / 2] * 16 + digit(text[at]);
            digits += 1;
        }
        at += 1;
    }
    assert!(digits == 2 * N, "a file of hex digits has another length");
    octets
}

const fn digit(letter: u8) -> u8 {
    match (letter as char).to_digit(16) {
        Some(digit) => digit as u8,
        None => panic!("a file of hex digits has another letter"),
    }
}

#[cfg(test)]
mod tests {
    use super::*;

    #[test]
    fn s_is_the_first_command_of_the_sample_book() {
        let book = include_bytes!("../../../books/sample.ntb");
        assert_eq!(book[5..165], S);
    }

    #[test]
    fn s_is_its_header_and_its_list() {
        let codes = s_list().iter().map(|avp| u32::from_be_bytes([avp[0], avp[1], avp[2], avp[3]])).collect::<Vec<_>>();
        assert_eq!(codes, [263, 260, 277, 264, 296, 283, 4203, 293, 4202, 4208]);
        assert_eq!([S[..20].to_vec(), s_list().concat()].concat(), S);
    }

    #[test]
    fn l_is_s_with_route_records() {
        let record =
            |length: u8| [&[0, 0, 0x01, 0x1A, 0x40, 0, 0, 8 + length][..], &vec![b'r'; length.into()]].concat();
        let mut expected = [S.to_vec(), record(60).repeat(238), record(32)].concat();
        expected[1..4].copy_from_slice(&[0, 0x40, 0]);
        assert_eq!(L[..], expected);
    }

    #[test]
    fn the_three_policies_are_where_they_are_said_to_be() {
        for (at, octet) in [(100, 0x6A), (132, 0x6F), (160, 0x6C), (216, 0x6F), (332, 0x6F)] {
            assert_eq!(THREE_POLICIES[at..at + 5], [0, 0, 0x10, octet, 0xC0], "octet {at}");
        }
        assert_eq!(THREE_POLICIES[1..4], [0, 1, 0xA0]);
    }
}
