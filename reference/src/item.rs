//! Items of CBOR in deterministic encoding: heads, numbers, strings, and the heads of arrays and maps.

use crate::answer::{DONE, INVALID_STRUCTURE};

/// The major type of an unsigned integer.
pub(crate) const UNSIGNED: u8 = 0;
/// The major type of a byte string.
pub(crate) const BYTE_STRING: u8 = 2;
/// The major type of a text.
pub(crate) const TEXT: u8 = 3;
/// The major type of an array.
pub(crate) const ARRAY: u8 = 4;
/// The major type of a map.
pub(crate) const MAP: u8 = 5;

/// What reading an item answers.
#[derive(Clone, Copy, Debug, Default, PartialEq, Eq)]
pub struct Item {
    /// 0, or 1 where no allowed item is at the place.
    pub answer: u64,
    /// CBOR's major type: 0, 2, 3, 4 or 5.
    pub kind: u64,
    /// The value, the length of a string, or the count of an array or a map.
    pub number: u64,
    /// Where a string's content starts; 0 where there is no string.
    pub content_at: u64,
    /// How many bytes a string's content has.
    pub content_len: u64,
    /// The place after the item; of an array or a map, after its head.
    pub next: u64,
}

/// A head: its major type, its number, and the place after it.
pub(crate) struct Head {
    pub(crate) major: u8,
    pub(crate) number: u64,
    pub(crate) after: usize,
}

/// Reads the item at the place.
pub fn item_read(bytes: &[u8], place: u64) -> Item {
    let refused = Item {
        answer: INVALID_STRUCTURE,
        ..Item::default()
    };
    usize::try_from(place)
        .ok()
        .and_then(|at| item_at(bytes, at))
        .unwrap_or(refused)
}

/// The item at a place, if there is an allowed one.
fn item_at(bytes: &[u8], at: usize) -> Option<Item> {
    let head = head_at(bytes, at)?;
    let item = Item {
        answer: DONE,
        kind: u64::from(head.major),
        number: head.number,
        next: head.after as u64,
        ..Item::default()
    };
    match head.major {
        UNSIGNED | ARRAY | MAP => Some(item),
        BYTE_STRING | TEXT => {
            let content = content_of(bytes, &head)?;
            Some(Item {
                content_at: head.after as u64,
                content_len: head.number,
                next: (head.after + content.len()) as u64,
                ..item
            })
        }
        _ => None,
    }
}

/// The content of the string with the head, if it lies inside the bytes and a text is valid UTF-8.
pub(crate) fn content_of<'a>(bytes: &'a [u8], head: &Head) -> Option<&'a [u8]> {
    let length = usize::try_from(head.number).ok()?;
    let content = bytes[head.after..].get(..length)?;
    if head.major == TEXT {
        std::str::from_utf8(content).ok()?;
    }
    Some(content)
}

/// The head at a place, if it is definite and in its shortest form.
#[inline]
pub(crate) fn head_at(bytes: &[u8], at: usize) -> Option<Head> {
    let first = *bytes.get(at)?;
    let (major, info) = (first >> 5, first & 31);
    let after = at + 1;
    let (number, after) = match info {
        0..=23 => (u64::from(info), after),
        24 => (number_at(bytes, after, 1, 24)?, after + 1),
        25 => (number_at(bytes, after, 2, 1 << 8)?, after + 2),
        26 => (number_at(bytes, after, 4, 1 << 16)?, after + 4),
        27 => (number_at(bytes, after, 8, 1 << 32)?, after + 8),
        _ => return None,
    };
    Some(Head {
        major,
        number,
        after,
    })
}

/// The big-endian number of so many bytes at a place, if it is not below the least that needs them.
fn number_at(bytes: &[u8], at: usize, width: usize, least: u64) -> Option<u64> {
    let number = big_endian(bytes[at..].get(..width)?);
    (number >= least).then_some(number)
}

/// The number that at most 8 bytes spell, the highest first.
pub(crate) fn big_endian(bytes: &[u8]) -> u64 {
    bytes
        .iter()
        .fold(0, |number, &byte| number << 8 | u64::from(byte))
}
