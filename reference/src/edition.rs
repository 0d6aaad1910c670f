//! The editions of the stored image: how long a row is, how many there may be, and where the moment of a row lies.

use crate::item::big_endian;

/// The length of the header.
pub(crate) const HEADER: usize = 8;
/// The length of the part of a row that both editions have: id, body offset, body length, mask, zero.
pub(crate) const ROW_START: usize = 32;
/// The length of a moment.
pub(crate) const MOMENT: usize = 8;
/// The edition of the modes, which is the same in both.
const MODE_EDITION: u16 = 1;

/// An edition of the image.
#[derive(Debug, PartialEq, Eq)]
pub(crate) struct Edition {
    /// The number that the header begins with.
    number: u16,
    /// The length of a row.
    pub(crate) row: usize,
    /// The most rows.
    pub(crate) most_rows: usize,
    /// Where in a row the moment lies at which it was last used, in seconds; none where a row has no such moment.
    moment: Option<usize>,
}

/// The edition of old images, to which nothing is added.
pub(crate) static EDITION_1: Edition = Edition {
    number: 1,
    row: ROW_START,
    most_rows: 64,
    moment: None,
};

/// The edition of new images.
pub(crate) static EDITION_2: Edition = Edition {
    number: 2,
    row: ROW_START + MOMENT,
    most_rows: 1024,
    moment: Some(ROW_START),
};

impl Edition {
    /// The edition and the number of rows by the header that the bytes begin with, if it is sound.
    pub(crate) fn of(bytes: &[u8]) -> Option<(&'static Edition, usize)> {
        let header: [u8; HEADER] = *bytes.first_chunk()?;
        let rows = big_endian(&header[4..6]) as usize;
        [&EDITION_1, &EDITION_2]
            .into_iter()
            .find(|edition| rows <= edition.most_rows && header == edition.header(rows))
            .map(|edition| (edition, rows))
    }

    /// The header of an image with so many rows.
    pub(crate) fn header(&self, rows: usize) -> [u8; HEADER] {
        let numbers = [self.number, MODE_EDITION, rows as u16, 0].map(u16::to_be_bytes);
        let mut header = [0; HEADER];
        header.copy_from_slice(numbers.as_flattened());
        header
    }

    /// The place of the row with the index; with the number of rows, that of the first body.
    pub(crate) fn row_place(&self, index: usize) -> usize {
        HEADER + self.row * index
    }

    /// The place of the moment of the row with the index, if it has one.
    pub(crate) fn moment_place(&self, index: usize) -> Option<usize> {
        self.moment.map(|at| self.row_place(index) + at)
    }

    /// The moment of a row of the table; 0 where it has none.
    pub(crate) fn moment_of(&self, row: &[u8]) -> u64 {
        self.moment.map_or(0, |at| big_endian(&row[at..][..MOMENT]))
    }

    /// Sets the moment of a row of the table, if it has one.
    pub(crate) fn set_moment(&self, row: &mut [u8], moment: u64) {
        if let Some(at) = self.moment {
            row[at..][..MOMENT].copy_from_slice(&moment.to_be_bytes());
        }
    }
}
