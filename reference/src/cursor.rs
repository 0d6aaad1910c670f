//! A cursor that reads the items of a descriptor one after another and stops at the first that isn't as asked for.

use std::ops::RangeInclusive;

use crate::item::{content_of, head_at, ARRAY, BYTE_STRING, MAP, TEXT, UNSIGNED};

/// A string's content and where it lies.
#[derive(Clone, Copy)]
pub(crate) struct Part<'a> {
    pub(crate) at: usize,
    pub(crate) content: &'a [u8],
}

impl Part<'_> {
    /// The place as a number.
    pub(crate) fn place(&self) -> u64 {
        self.at as u64
    }

    /// The length as a number.
    pub(crate) fn length(&self) -> u64 {
        self.content.len() as u64
    }
}

/// Bytes and the place of the next item.
#[derive(Clone, Copy)]
pub(crate) struct Cursor<'a> {
    pub(crate) bytes: &'a [u8],
    pub(crate) at: usize,
}

impl<'a> Cursor<'a> {
    /// The number of the next head, which must have the major type.
    #[inline]
    fn number(&mut self, major: u8) -> Option<u64> {
        let head = head_at(self.bytes, self.at).filter(|head| head.major == major)?;
        self.at = head.after;
        Some(head.number)
    }

    /// The next unsigned integer.
    pub(crate) fn unsigned(&mut self) -> Option<u64> {
        self.number(UNSIGNED)
    }

    /// The count of the next array, which must be in the range.
    pub(crate) fn array(&mut self, counts: RangeInclusive<u64>) -> Option<u64> {
        self.number(ARRAY).filter(|count| counts.contains(count))
    }

    /// The count of pairs of the next map.
    pub(crate) fn map(&mut self) -> Option<u64> {
        self.number(MAP)
    }

    /// The next text, whose length must be in the range.
    pub(crate) fn text(&mut self, lengths: RangeInclusive<u64>) -> Option<Part<'a>> {
        self.string(TEXT, lengths)
    }

    /// The next byte string, whose length must be in the range.
    pub(crate) fn byte_string(&mut self, lengths: RangeInclusive<u64>) -> Option<Part<'a>> {
        self.string(BYTE_STRING, lengths)
    }

    /// The next string of the major type, whose length must be in the range.
    fn string(&mut self, major: u8, lengths: RangeInclusive<u64>) -> Option<Part<'a>> {
        let head = head_at(self.bytes, self.at)
            .filter(|head| head.major == major && lengths.contains(&head.number))?;
        let content = content_of(self.bytes, &head)?;
        self.at = head.after + content.len();
        Some(Part {
            at: head.after,
            content,
        })
    }

    /// Passes the encoded key if it is next, and says whether it was.
    pub(crate) fn takes(&mut self, key: &[u8]) -> bool {
        let there = self.bytes[self.at..].starts_with(key);
        if there {
            self.at += key.len();
        }
        there
    }

    /// Passes the encoded key, which must be next.
    pub(crate) fn key(&mut self, key: &[u8]) -> Option<()> {
        self.takes(key).then_some(())
    }

    /// Passes a map from text of 1 to 64 bytes to text of 0 to 256 with ascending keys and at most so many pairs, and answers their count.
    pub(crate) fn pairs(&mut self, most: u64) -> Option<u64> {
        let count = self.map().filter(|&count| count <= most)?;
        let mut last: &[u8] = &[];
        for _ in 0..count {
            let start = self.at;
            self.text(1..=64)?;
            let key = &self.bytes[start..self.at];
            if key <= last {
                return None;
            }
            last = key;
            self.text(0..=256)?;
        }
        Some(count)
    }
}
