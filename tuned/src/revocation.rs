//! The revocation list: rows of an id (16) and the moment from which on it is revoked (8).

use crate::words::word;

/// The length of a row.
const ROW: usize = 24;

/// Whether the bytes are whole rows.
#[inline(always)]
pub(crate) fn is_list(bytes: &[u8]) -> bool {
    bytes.len() % ROW == 0
}

/// How many rows are looked at together.
const GROUP: usize = 8;

/// Whether some row has the id and a moment that is not after now. Of most rows only the second half of the id is looked at, which in
/// ids of version 7 is random.
#[inline(never)]
pub(crate) fn is_revoked(bytes: &[u8], id: &[u8; 16], now: u64) -> bool {
    let (rows, _) = bytes.as_chunks::<ROW>();
    let (groups, rest) = rows.as_chunks::<GROUP>();
    let half = word(id, 8);
    let revoked = |rows: &[[u8; ROW]]| rows.iter().any(|row| revokes(row, id, now));
    for group in groups {
        let mut alike = false;
        for row in group {
            alike |= word(row, 8) == half;
        }
        if alike && revoked(group) {
            return true;
        }
    }
    revoked(rest)
}

/// Whether a row has the id and a moment that is not after now.
#[inline(always)]
fn revokes(row: &[u8; ROW], id: &[u8; 16], now: u64) -> bool {
    row.first_chunk() == Some(id) && moment_of(row) <= now
}

/// The moment of a row.
#[inline(always)]
fn moment_of(row: &[u8; ROW]) -> u64 {
    u64::from_be_bytes(*row.last_chunk().expect("a row has a moment"))
}
