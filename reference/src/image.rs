//! The stored image: a table of contents of rows, then the bodies.

use std::collections::HashSet;

use crate::answer::{BAD_IMAGE, DESCRIPTOR_NOT_FOUND, DONE, MALFORMED_ARGUMENTS, OUTPUT_TOO_SHORT};
use crate::descriptor::{read, Reading};
use crate::edition::{Edition, EDITION_1, EDITION_2, HEADER, ROW_START};
use crate::item::big_endian;

/// What looking for a body answers.
#[derive(Clone, Copy, Debug, Default, PartialEq, Eq)]
pub struct Stored {
    /// 0, 15, 16 or 7, the first of these that applies.
    pub answer: u64,
    /// Where the body lies in the image.
    pub body_at: u64,
    /// How many bytes the body has.
    pub body_len: u64,
}

/// What a call that writes to the start of a buffer answers.
#[derive(Clone, Copy, Debug, Default, PartialEq, Eq)]
pub struct Written {
    /// 0, or the number of the first step that fails.
    pub answer: u64,
    /// How many bytes were written; 0 with a refusal.
    pub len: u64,
}

/// An image: its edition and its rows in their order.
pub(crate) struct Image<'a> {
    pub(crate) edition: &'static Edition,
    pub(crate) rows: Vec<Row<'a>>,
}

/// A row: its body, how that reads, and the moment at which it was last used, 0 where the edition has none.
#[derive(Clone, Copy)]
pub(crate) struct Row<'a> {
    pub(crate) body: &'a [u8],
    pub(crate) reading: Reading<'a>,
    pub(crate) last_used: u64,
}

/// Makes a new image of no bodies: 0 or 17.
pub fn image_new(image: &mut [u8]) -> u64 {
    match image.first_chunk_mut() {
        Some(header) => {
            *header = EDITION_2.header(0);
            DONE
        }
        None => OUTPUT_TOO_SHORT,
    }
}

/// Looks for the body with the id in the image, of either edition.
pub fn image_find(image: &[u8], id: &[u8]) -> Stored {
    let refused = |answer| Stored {
        answer,
        ..Stored::default()
    };
    if id.len() != 16 {
        return refused(MALFORMED_ARGUMENTS);
    }
    let Some(image) = Image::of(image) else {
        return refused(BAD_IMAGE);
    };
    match image.find(id) {
        Some(index) => Stored {
            answer: DONE,
            body_at: image.body_place(index) as u64,
            body_len: image.rows[index].body.len() as u64,
        },
        None => refused(DESCRIPTOR_NOT_FOUND),
    }
}

/// Writes an image of edition 1 as one of edition 2, with the moment 0 in each row, to a second buffer: 16, then 17, else 0 and its
/// length.
pub fn image_upgrade(old: &[u8], image: &mut [u8]) -> Written {
    let refused = |answer| Written { answer, len: 0 };
    let Some(old) = Image::of_edition(&EDITION_1, old) else {
        return refused(BAD_IMAGE);
    };
    let new = Image {
        edition: &EDITION_2,
        ..old
    };
    let written = new.bytes();
    let Some(start) = image.get_mut(..written.len()) else {
        return refused(OUTPUT_TOO_SHORT);
    };
    start.copy_from_slice(&written);
    Written {
        answer: DONE,
        len: written.len() as u64,
    }
}

impl<'a> Image<'a> {
    /// The image that the bytes hold, if it is sound.
    pub(crate) fn of(bytes: &'a [u8]) -> Option<Image<'a>> {
        let (edition, count) = Edition::of(bytes)?;
        let mut body_at = edition.row_place(count);
        let table = bytes.get(HEADER..body_at)?;
        let mut rows = Vec::with_capacity(count);
        let mut ids = HashSet::with_capacity(count);
        for written in table.chunks(edition.row) {
            let row = sound_row(edition, bytes, written, body_at)?;
            if !ids.insert(row.reading.id()) {
                return None;
            }
            body_at += row.body.len();
            rows.push(row);
        }
        Some(Image { edition, rows })
    }

    /// The image that the bytes hold, if it is sound and of the edition.
    pub(crate) fn of_edition(edition: &Edition, bytes: &'a [u8]) -> Option<Image<'a>> {
        Image::of(bytes).filter(|image| image.edition == edition)
    }

    /// The index of the row with the id.
    pub(crate) fn find(&self, id: &[u8]) -> Option<usize> {
        self.rows.iter().position(|row| row.reading.id() == id)
    }

    /// The place of the body of the row with the index; with the number of rows, the place after the last body.
    fn body_place(&self, index: usize) -> usize {
        let before = self.rows[..index].iter().map(|row| row.body.len());
        self.edition.row_place(self.rows.len()) + before.sum::<usize>()
    }

    /// The bytes of the image.
    pub(crate) fn bytes(&self) -> Vec<u8> {
        let mut body_at = self.edition.row_place(self.rows.len());
        let mut bytes = Vec::with_capacity(self.body_place(self.rows.len()));
        bytes.extend(self.edition.header(self.rows.len()));
        bytes.resize(body_at, 0);
        let table = bytes[HEADER..].chunks_mut(self.edition.row);
        for (row, written) in self.rows.iter().zip(table) {
            written[..ROW_START].copy_from_slice(&row.start(body_at));
            self.edition.set_moment(written, row.last_used);
            body_at += row.body.len();
        }
        self.rows.iter().for_each(|row| bytes.extend(row.body));
        bytes
    }
}

impl Row<'_> {
    /// The part of the row that both editions have, where its body lies at the place; places and lengths of an image are far below
    /// 2^32.
    fn start(&self, body_at: usize) -> [u8; ROW_START] {
        let mut start = [0; ROW_START];
        start[..16].copy_from_slice(self.reading.id());
        start[16..20].copy_from_slice(&(body_at as u32).to_be_bytes());
        start[20..24].copy_from_slice(&(self.body.len() as u32).to_be_bytes());
        start[24] = self.reading.numbers.mask as u8;
        start
    }
}

/// The row that a row of the table describes, if it is sound and its body starts at the place.
fn sound_row<'a>(
    edition: &Edition,
    bytes: &'a [u8],
    written: &[u8],
    body_at: usize,
) -> Option<Row<'a>> {
    let length = big_endian(&written[20..24]) as usize;
    let body = bytes[body_at..].get(..length)?;
    let row = Row {
        body,
        reading: read(body).ok()?,
        last_used: edition.moment_of(written),
    };
    (written[..ROW_START] == row.start(body_at)).then_some(row)
}
