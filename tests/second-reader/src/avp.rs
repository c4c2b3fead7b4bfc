//! The AVP header: 8 octets, or 12 with a vendor.

use crate::verdict::{number, Verdict};

const V: u8 = 0x80;
const M: u8 = 0x40;
const P: u8 = 0x20;
const RESERVED: u8 = 0x1F;

/// An AVP header whose AVP, with its padding, lies within its list.
#[derive(Clone, Copy, Debug)]
pub struct AvpHeader {
    pub vendor: u32,
    pub code: u32,
    flags: u8,
    /// Octets of this header: 8 or 12.
    pub size: usize,
    /// Header and data, not padding.
    pub length: usize,
}

impl AvpHeader {
    /// Reads the header at the start of `rest`, which is what is left of the innermost list;
    /// `place` is where that is in the command.
    #[inline]
    pub fn read(rest: &[u8], place: usize) -> Result<AvpHeader, Verdict> {
        let refuse = |vendor, code| Err(Verdict::named(number::INVALID_AVP_LENGTH, place, vendor, code));
        let Some(&[c0, c1, c2, c3, flags, l0, l1, l2]) = rest.first_chunk::<8>() else {
            return refuse(0, 0);
        };
        let code = u32::from_be_bytes([c0, c1, c2, c3]);
        let length = u32::from_be_bytes([0, l0, l1, l2]) as usize;
        let (size, vendor) = if flags & V == 0 {
            (8, 0)
        } else if let Some(&[.., v0, v1, v2, v3]) = rest.first_chunk::<12>() {
            (12, u32::from_be_bytes([v0, v1, v2, v3]))
        } else {
            return refuse(0, code);
        };
        if length < size || padded(length) > rest.len() {
            return refuse(vendor, code);
        }
        Ok(AvpHeader { vendor, code, flags, size, length })
    }

    /// The M flag.
    pub fn m(&self) -> bool {
        self.flags & M != 0
    }

    /// The P flag.
    pub fn p(&self) -> bool {
        self.flags & P != 0
    }

    /// Whether the flags are wrong whatever the AVP is: a reserved one, or V with vendor 0.
    pub fn has_wrong_bits(&self) -> bool {
        self.flags & RESERVED != 0 || (self.flags & V != 0 && self.vendor == 0)
    }

    /// Header, data and padding.
    pub fn padded(&self) -> usize {
        padded(self.length)
    }
}

/// A length with its padding: the least multiple of four that is no smaller.
pub fn padded(length: usize) -> usize {
    length.div_ceil(4) * 4
}

#[cfg(test)]
mod tests {
    use super::padded;

    #[test]
    fn padded_is_the_least_multiple_of_four_that_is_no_smaller() {
        // Every value of the length field.
        for length in 0..1 << 24 {
            assert_eq!(Some(padded(length)), (length..).find(|n| n % 4 == 0), "{length}");
        }
    }
}
