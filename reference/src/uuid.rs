//! UUIDs of version 7, as RFC 9562 has them: 16 octets, or a text of 32 hexadecimal digits and 4 hyphens.

/// The number of the version (section 4.2).
const VERSION: u8 = 7;
/// The variant of RFC 9562, its two bits (section 4.1).
const VARIANT: u8 = 0b10;

/// Whether 16 octets are a UUID of version 7 with the variant of RFC 9562.
pub(crate) fn is_version_7(octets: &[u8]) -> bool {
    version(octets) == VERSION && variant(octets) == VARIANT
}

/// Whether a UUID text is that of such a UUID and has no upper-case digit.
pub(crate) fn is_version_7_text(text: &[u8]) -> bool {
    octets_of(text).is_some_and(|octets| is_version_7(&octets))
}

/// The version: bits 48 to 51, the four highest of octet 6.
fn version(octets: &[u8]) -> u8 {
    octets[6] >> 4
}

/// The variant: bits 64 and 65, the two highest of octet 8.
fn variant(octets: &[u8]) -> u8 {
    octets[8] >> 6
}

/// The octets of a UUID text, if it has no upper-case digit.
fn octets_of(text: &[u8]) -> Option<[u8; 16]> {
    let mut digits = text.iter().filter(|&&byte| byte != b'-');
    let bits = digits.try_fold(0, |bits: u128, &digit| Some(bits << 4 | value(digit)?))?;
    Some(bits.to_be_bytes())
}

/// The value of a hexadecimal digit, if it is a lower-case one.
fn value(digit: u8) -> Option<u128> {
    match digit {
        b'0'..=b'9' => Some(u128::from(digit - b'0')),
        b'a'..=b'f' => Some(u128::from(digit - b'a' + 10)),
        _ => None,
    }
}
