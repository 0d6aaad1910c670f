//! The stored image: its table of contents, and the check of its bodies.

use crate::body::mask_of;
use crate::ids;

/// The length of the header.
const HEADER: usize = 8;
/// The length of a row of edition 1, and in edition 2 the place of a row's moment.
const OLD_ROW: usize = 32;
/// The length of a row of edition 2.
const NEW_ROW: usize = 40;

/// The row that is asked for.
pub(crate) struct Held<'a> {
    /// Its body, which is not checked yet.
    pub(crate) body: &'a [u8],
    /// The mask that the body must have, if it is below 16.
    pub(crate) mask: u64,
    /// The place of its moment, if it has one.
    pub(crate) moment_at: Option<usize>,
}

/// The row with the id, if it is held; none at all where the image is not sound, whatever the body of that row is.
pub(crate) fn find<'a>(image: &'a [u8], id: &[u8; 16]) -> Option<Option<Held<'a>>> {
    let (header, rest) = image.split_first_chunk::<HEADER>()?;
    let [0, edition, 0, 1, high, low, 0, 0] = *header else {
        return None;
    };
    let count = usize::from(u16::from_be_bytes([high, low]));
    match edition {
        1 if count <= 64 => find_in::<OLD_ROW>(rest, count, id),
        2 if count <= 1024 => find_in::<NEW_ROW>(rest, count, id),
        _ => None,
    }
}

/// The same for what follows the header of an image with so many rows.
fn find_in<'a, const ROW: usize>(
    bytes: &'a [u8],
    count: usize,
    id: &[u8; 16],
) -> Option<Option<Held<'a>>> {
    let (table, rest) = bytes.split_at_checked(ROW * count)?;
    let (rows, _) = table.as_chunks::<ROW>();
    let mut bodies = Bodies {
        rest,
        at: HEADER + table.len(),
    };
    let Some(place) = ids::find(rows, id)? else {
        bodies.check(rows)?;
        return Some(None);
    };
    let (before, [row, after @ ..]) = rows.split_at_checked(place)? else {
        return None;
    };
    bodies.check(before)?;
    let body = bodies.next(row)?;
    bodies.check(after)?;
    Some(Some(Held {
        body,
        mask: mask_word(row),
        moment_at: (ROW > OLD_ROW).then_some(HEADER + ROW * place + OLD_ROW),
    }))
}

/// The bodies that are left, and where the next lies.
struct Bodies<'a> {
    rest: &'a [u8],
    at: usize,
}

impl<'a> Bodies<'a> {
    /// The next body, which is that of the row.
    #[inline(always)]
    fn next<const ROW: usize>(&mut self, row: &[u8; ROW]) -> Option<&'a [u8]> {
        let place = u32::from_be_bytes(*row[16..].first_chunk()?) as usize;
        let length = u32::from_be_bytes(*row[20..].first_chunk()?) as usize;
        if place != self.at {
            return None;
        }
        let (body, rest) = self.rest.split_at_checked(length)?;
        self.rest = rest;
        self.at += length;
        Some(body)
    }

    /// Checks that the next bodies are those of the rows, and passes them.
    #[inline(always)]
    fn check<const ROW: usize>(&mut self, rows: &[[u8; ROW]]) -> Option<()> {
        for row in rows {
            let body = self.next(row)?;
            let mask = mask_of(body, row.first_chunk()?)?;
            if mask_word(row) != u64::from(mask) {
                return None;
            }
        }
        Some(())
    }
}

/// The mask of a row, and zeros above it where the bytes after it are zero.
#[inline(always)]
fn mask_word<const ROW: usize>(row: &[u8; ROW]) -> u64 {
    u64::from_le_bytes(*row[24..].first_chunk().expect("a row has a mask"))
}
