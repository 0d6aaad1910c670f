//! Numbers and texts of CBOR in deterministic encoding.

use crate::words::{same, word};

/// The least numbers that need 1, 2, 4 and 8 bytes.
const LEAST: [u64; 4] = [24, 1 << 8, 1 << 16, 1 << 32];
/// A text with a head of one byte is shorter.
const SHORT: usize = 24;
/// For each length of a short text the bits of three words that are 0 where it is ASCII.
const HIGH_BITS: [[u64; 3]; SHORT] = high_bits();

/// The highest bit of each byte of a text of each length.
const fn high_bits() -> [[u64; 3]; SHORT] {
    let mut bits = [[0; 3]; SHORT];
    let mut length = 0;
    while length < SHORT {
        let mut at = 0;
        while at < length {
            bits[length][at / 8] |= 0x80 << (8 * (at % 8));
            at += 1;
        }
        length += 1;
    }
    bits
}

/// The number under a key whose last byte is the head of a number of four bytes, and what follows; under any other head too.
#[inline(always)]
pub(crate) fn number_under<'a, const N: usize, const L: usize>(
    bytes: &'a [u8],
    key: &[u8; N],
) -> Option<(u64, &'a [u8])> {
    let start = bytes.first_chunk::<L>()?;
    let number = start.last_chunk::<4>()?;
    if !same(start.first_chunk::<N>()?, key) {
        return any_number_under(bytes, key);
    }
    let number = u64::from(u32::from_be_bytes(*number));
    (number >= LEAST[2]).then_some((number, &bytes[L..]))
}

/// The unsigned integer of any length at the start of nine bytes, and its length.
#[cold]
#[inline(never)]
fn any_number_under<'a, const N: usize>(bytes: &'a [u8], key: &[u8; N]) -> Option<(u64, &'a [u8])> {
    let (start, rest) = bytes.split_at_checked(N - 1)?;
    if *start != key[..N - 1] {
        return None;
    }
    let [first, number @ ..] = *rest.first_chunk::<9>()?;
    if first < 24 {
        return Some((u64::from(first), &rest[1..]));
    }
    let width = usize::from(first - 24);
    let least = *LEAST.get(width)?;
    let number = u64::from_be_bytes(number) >> (64 - (8 << width));
    (number >= least).then_some((number, rest.get(1 + (1 << width)..)?))
}

/// Passes the text at the start of the bytes, whose length is from LEAST to MOST, and answers with what follows it, which is at least 32 bytes.
#[inline(always)]
pub(crate) fn text<const LEAST: u8, const MOST: usize>(bytes: &[u8]) -> Option<&[u8]> {
    let (&head, rest) = bytes.split_first()?;
    let length = head.wrapping_sub(0x60);
    if length >= 24 {
        return long_text::<MOST>(bytes);
    }
    if length < LEAST {
        return None;
    }
    let start = rest.first_chunk::<SHORT>()?;
    let [first, second, third] = HIGH_BITS[usize::from(length)];
    let high_bits = word(start, 0) & first | word(start, 8) & second | word(start, 16) & third;
    if high_bits != 0 && !is_utf8(&start[..usize::from(length)]) {
        return None;
    }
    Some(&rest[usize::from(length)..])
}

/// Whether the bytes are valid UTF-8.
#[cold]
#[inline(never)]
fn is_utf8(bytes: &[u8]) -> bool {
    std::str::from_utf8(bytes).is_ok()
}

/// Passes a text of at least 24 bytes.
#[inline(never)]
fn long_text<const MOST: usize>(bytes: &[u8]) -> Option<&[u8]> {
    let (length, rest) = match *bytes {
        [0x78, length @ 24..=255, ref rest @ ..] => (usize::from(length), rest),
        [0x79, 1, 0, ref rest @ ..] => (256, rest),
        _ => return None,
    };
    let (text, after) = rest.split_at_checked(length)?;
    let sound = length <= MOST && (text.is_ascii() || std::str::from_utf8(text).is_ok());
    sound.then_some(after)
}

/// Passes a map from text of 1 to 64 bytes to text of 0 to 256 with ascending keys and at most MOST pairs, fewer than 24, and answers
/// with their number and what follows.
#[inline(never)]
pub(crate) fn pairs<const MOST: u8>(bytes: &[u8]) -> Option<(u8, &[u8])> {
    let (&head, mut rest) = bytes.split_first()?;
    let count = head.wrapping_sub(0xa0);
    if count > MOST {
        return None;
    }
    let mut last: &[u8] = &[];
    for _ in 0..count {
        let after = text::<1, 64>(rest)?;
        let key = &rest[..rest.len() - after.len()];
        if key <= last {
            return None;
        }
        last = key;
        rest = text::<0, 256>(after)?;
    }
    Some((count, rest))
}
