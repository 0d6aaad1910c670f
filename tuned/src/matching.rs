//! Matching: the levels of a pattern against those of a resource id.

use crate::resource::TERMINAL_LENGTH;

/// Where the levels begin, after a terminal id and a slash.
const START: usize = TERMINAL_LENGTH + 1;
/// How many bytes are compared at a time.
const WORD: usize = 8;
/// A slash in each byte of a word.
const SLASHES: u64 = 0x2f2f_2f2f_2f2f_2f2f;
/// The lowest bit of each byte of a word.
const LOW_BITS: u64 = 0x0101_0101_0101_0101;
/// The highest bit of each byte of a word.
const HIGH_BITS: u64 = 0x8080_8080_8080_8080;

/// How many levels are matched by equal names, if the levels of a well-formed pattern match those of a well-formed resource id. The
/// terminal ids are not compared.
///
/// Up to a level of the pattern that is "*" or "**" the two must be the same, and a name has no star: so they are compared up to the
/// first byte in which they differ, which must be a star, and then from the next level on.
#[inline(always)]
pub(crate) fn names_matched(pattern: &[u8], resource: &[u8]) -> Option<u8> {
    let at = START + same_length(pattern, START, resource, START)?;
    match pattern.get(at) {
        Some(b'*') | None => names_from(pattern, resource, at),
        Some(_) => None,
    }
}

/// The same where the two are the same up to a place at which the pattern has a star or its end.
#[inline(never)]
fn names_from(pattern: &[u8], resource: &[u8], same: usize) -> Option<u8> {
    let (mut at, mut place) = (same, same);
    let mut stars = 0;
    loop {
        match pattern.get(at..)? {
            [b'*', b'*'] => return Some(levels_in(pattern) - stars - 1),
            [b'*', ..] => {
                stars += 1;
                at += 1;
                place += name_length(resource.get(place..)?);
            }
            [] if place == resource.len() => return Some(levels_in(pattern) - stars),
            _ => return None,
        }
        let same = same_length(pattern, at, resource, place)?;
        (at, place) = (at + same, place + same);
    }
}

/// How many bytes two texts have in common from places on before which at least eight bytes lie.
#[inline(always)]
fn same_length(one: &[u8], at: usize, other: &[u8], place: usize) -> Option<usize> {
    let (left, other_left) = (one.get(at..)?, other.get(place..)?);
    let (words, _) = left.as_chunks::<WORD>();
    let (other_words, _) = other_left.as_chunks::<WORD>();
    let mut same = 0;
    for (one, other) in words.iter().zip(other_words) {
        let unlike = u64::from_le_bytes(*one) ^ u64::from_le_bytes(*other);
        if unlike != 0 {
            return Some(same + unlike.trailing_zeros() as usize / 8);
        }
        same += WORD;
    }
    let most = left.len().min(other_left.len());
    if same == most {
        return Some(most);
    }
    // the last words, without the bytes that were compared or lie before the places
    let last = u64::from_le_bytes(*one.get(..at + most)?.last_chunk()?);
    let other_last = u64::from_le_bytes(*other.get(..place + most)?.last_chunk()?);
    let unlike = (last ^ other_last) >> (8 * (WORD - (most - same)));
    let more = unlike.trailing_zeros() as usize / 8;
    Some(most.min(same + more))
}

/// The length of the name that a text begins with.
#[inline(always)]
fn name_length(text: &[u8]) -> usize {
    let (words, rest) = text.as_chunks::<WORD>();
    let mut length = 0;
    for word in words {
        let slashes = slashes_in(u64::from_le_bytes(*word));
        if slashes != 0 {
            return length + slashes.trailing_zeros() as usize / 8;
        }
        length += WORD;
    }
    let place = rest.iter().position(|&byte| byte == b'/');
    length + place.unwrap_or(rest.len())
}

/// The highest bit of each byte of a word that is a slash.
#[inline(always)]
fn slashes_in(word: u64) -> u64 {
    let unlike = word ^ SLASHES;
    !(((unlike & !HIGH_BITS) + !HIGH_BITS) | unlike) & HIGH_BITS
}

/// How many levels a pattern has: as many as slashes. The words are taken from its end; a terminal id has no slash.
#[inline(always)]
fn levels_in(pattern: &[u8]) -> u8 {
    let mut counts = 0;
    let mut left = pattern;
    while left.len() > TERMINAL_LENGTH {
        let Some((rest, word)) = left.split_last_chunk::<WORD>() else {
            break;
        };
        counts += slashes_in(u64::from_le_bytes(*word)) >> 7;
        left = rest;
    }
    (counts.wrapping_mul(LOW_BITS) >> 56) as u8
}
