//! Two commands for each name: S and an error answer with one more AVP behind it, for every code up to [`LAST_CODE`],
//! without vendor and with each of [`VENDORS`], with M and without, and with data of each of [`LENGTHS`]. So every
//! place of a table by codes is looked at, each name of one vendor is tried with another, and each width is met and
//! missed.

use commands::S;

/// Behind the last code of the dictionary.
const LAST_CODE: u32 = 4300;
/// 3GPP, and a vendor that the dictionary lacks.
const VENDORS: [Option<u32>; 3] = [None, Some(10_415), Some(10_414)];
/// None, and the widths of the dictionary.
const LENGTHS: [usize; 3] = [0, 4, 8];

/// Flags 20: Origin-Host, Origin-Realm and Result-Code.
const ERROR_ANSWER: [u8; 56] = [
    1, 0, 0, 56, 0x20, 0x80, 0, 0x73, 1, 0, 0, 0x84, 0, 0, 0, 1, 0, 0, 0, 2, // header
    0, 0, 1, 8, 0x40, 0, 0, 9, b'o', 0, 0, 0, // 264
    0, 0, 1, 0x28, 0x40, 0, 0, 9, b'r', 0, 0, 0, // 296
    0, 0, 1, 0x0C, 0x40, 0, 0, 12, 0, 0, 0x0B, 0xC0, // 268
];

/// The commands.
pub fn commands() -> impl Iterator<Item = Vec<u8>> {
    let names = (0..=LAST_CODE).flat_map(|code| VENDORS.map(|vendor| (code, vendor)));
    names.flat_map(|(code, vendor)| {
        let forms = [true, false].into_iter().flat_map(|m| LENGTHS.map(|length| (m, length)));
        forms.flat_map(move |(m, length)| [&S[..], &ERROR_ANSWER].map(|command| with(command, code, vendor, m, length)))
    })
}

/// The command with an AVP behind it whose data are zeros.
fn with(command: &[u8], code: u32, vendor: Option<u32>, m: bool, length: usize) -> Vec<u8> {
    let header = if vendor.is_some() { 12 } else { 8 };
    let flags = u8::from(vendor.is_some()) << 7 | u8::from(m) << 6;
    let mut octets = command.to_vec();
    octets.extend(code.to_be_bytes());
    octets.extend([flags, 0, 0, (header + length) as u8]);
    octets.extend(vendor.map(u32::to_be_bytes).into_iter().flatten());
    octets.resize(octets.len() + length, 0);
    let size = (octets.len() as u32).to_be_bytes();
    octets[1..4].copy_from_slice(&size[1..]);
    octets
}
