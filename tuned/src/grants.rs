//! The grants of a descriptor.

use crate::resource::{is_pattern_of, MOST_BYTES, TERMINAL_LENGTH};
use crate::strings::pairs;
use crate::words::{after, same, word};

/// The length of a terminal id and the slash after it, with which a pattern begins.
const START_LENGTH: usize = TERMINAL_LENGTH + 1;
/// The key of the modes, after the head of the grant's map and before the head of their array.
const MODES_KEY: u64 = u64::from_le_bytes(*b"\0\x65modes\0");
/// The bytes of the key among these eight.
const MODES_KEY_BYTES: u64 = u64::from_le_bytes(*b"\0\xff\xff\xff\xff\xff\xff\0");

/// A grant.
pub(crate) struct Grant<'a> {
    /// The modes, as 1, 2, 4 and 8.
    pub(crate) mask: u8,
    /// How many pairs the constraints have.
    pub(crate) pairs: u8,
    /// The pattern.
    pub(crate) pattern: &'a [u8],
}

/// What all grants are.
pub(crate) struct Summary<'a> {
    /// The union of their masks.
    pub(crate) mask: u8,
    /// The terminal id that their patterns share.
    pub(crate) terminal: &'a [u8; TERMINAL_LENGTH],
}

/// Reads an array of 1 to 256 grants, hands each over, and answers with what they are and what follows.
#[inline(always)]
pub(crate) fn read_grants<'a>(
    bytes: &'a [u8],
    mut seen: impl FnMut(&Grant<'a>),
) -> Option<(Summary<'a>, &'a [u8])> {
    let (count, mut rest) = match *bytes {
        [head @ 0x81..=0x97, ref rest @ ..] => (u32::from(head - 0x80), rest),
        [0x98, count @ 24..=255, ref rest @ ..] => (u32::from(count), rest),
        [0x99, 1, 0, ref rest @ ..] => (256, rest),
        _ => return None,
    };
    let mut mask = 0;
    let mut shared: Option<&[u8; START_LENGTH]> = None;
    for _ in 0..count {
        let (grant, after) = read_grant(rest)?;
        let start = grant.pattern.first_chunk()?;
        if !is_pattern_of(grant.pattern, shared.get_or_insert(start)) {
            return None;
        }
        mask |= grant.mask;
        seen(&grant);
        rest = after;
    }
    let (terminal, b"/") = shared?.split_first_chunk()? else {
        return None;
    };
    Some((Summary { mask, terminal }, rest))
}

/// Reads a grant but for the form of its pattern, and answers with it and what follows.
#[inline(always)]
fn read_grant(bytes: &[u8]) -> Option<(Grant<'_>, &[u8])> {
    let (head, rest) = bytes.split_first_chunk()?;
    let head = u64::from_le_bytes(*head);
    if head & MODES_KEY_BYTES != MODES_KEY {
        return None;
    }
    let (mask, rest) = read_modes((head >> 56) as u8, rest)?;
    let (pairs, rest) = match head as u8 {
        0xa2 => (0, rest),
        0xa3 => pairs::<8>(after(rest, b"\x6bconstraints")?)?,
        _ => return None,
    };
    let (pattern, rest) = read_pattern(rest)?;
    let grant = Grant {
        mask,
        pairs,
        pattern,
    };
    Some((grant, rest))
}

/// Reads modes after the head of their array, none twice, and answers with their mask and what follows.
#[inline(always)]
fn read_modes(head: u8, bytes: &[u8]) -> Option<(u8, &[u8])> {
    let (mut mask, mut rest) = read_mode(bytes)?;
    if head == 0x81 {
        return Some((mask, rest));
    }
    if !(0x82..=0x84).contains(&head) {
        return None;
    }
    for _ in 0x81..head {
        let (mode, after) = read_mode(rest)?;
        if mask & mode != 0 {
            return None;
        }
        mask |= mode;
        rest = after;
    }
    Some((mask, rest))
}

/// Reads a pattern after its key but for its form, and answers with it and what follows.
#[inline(always)]
fn read_pattern(bytes: &[u8]) -> Option<(&[u8], &[u8])> {
    let (key, rest) = bytes.split_first_chunk::<19>()?;
    if !same(key.first_chunk::<16>()?, b"\x70resource_patter") {
        return None;
    }
    if key[16..18] == *b"n\x78" {
        return rest.split_at_checked(usize::from(key[18]));
    }
    if key[16..] != *b"n\x79\x01" {
        return None;
    }
    let (0, rest) = rest.split_first()? else {
        return None;
    };
    rest.split_at_checked(MOST_BYTES)
}

/// Reads a mode, after which at least five bytes follow, and answers with its bit of a mask and what follows.
#[inline(always)]
fn read_mode(bytes: &[u8]) -> Option<(u8, &[u8])> {
    let name = word(bytes.first_chunk::<10>()?, 0);
    if name & 0xff_ffff_ffff == u64::from_le_bytes(*b"\x64read\0\0\0") {
        Some((1, &bytes[5..]))
    } else if name & 0xffff_ffff_ffff == u64::from_le_bytes(*b"\x65write\0\0") {
        Some((2, &bytes[6..]))
    } else if name == u64::from_le_bytes(*b"\x67execute") {
        Some((4, &bytes[8..]))
    } else if name == u64::from_le_bytes(*b"\x69configu") && bytes[8..10] == *b"re" {
        Some((8, &bytes[10..]))
    } else {
        None
    }
}
