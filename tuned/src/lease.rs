//! The lease table: its rows as bytes, their limits, and what a row says at a clock.

use crate::ids;
use crate::words::word;

/// The length of a row: an id (16), a flag (1), zero (7), and five numbers (8 each).
const ROW: usize = 64;
/// The last moment, in milliseconds, that the clock and a last sync may have.
pub(crate) const LAST_MOMENT: u64 = 1 << 53;
/// Both lengths of a lease, its ttl and its grace, are below so many seconds.
const LENGTHS_END: u64 = 1 << 32;
/// The most milliseconds of a future skew and of a tolerance: a day.
const MOST_ALLOWED: u64 = 86_400_000;
/// How many milliseconds a second has.
const SECOND: i64 = 1000;

/// A row of the table.
pub(crate) struct Lease<'a>(&'a [u8; ROW]);

/// What a lease is at a clock, with the margin where the answer has it.
pub(crate) enum State {
    Revoked,
    Future,
    Active(i64),
    Stale(i64),
    Expired,
}

/// The row with the id, if there is one; none at all where the bytes are no table of whole rows of the form, with different ids.
#[inline(always)]
pub(crate) fn find<'a>(table: &'a [u8], id: &[u8; 16]) -> Option<Option<Lease<'a>>> {
    if table.is_empty() {
        return Some(None);
    }
    find_in(table, id)
}

/// The same for a table that is not empty. Rows with ascending ids have different ones.
#[inline(never)]
fn find_in<'a>(table: &'a [u8], id: &[u8; 16]) -> Option<Option<Lease<'a>>> {
    let (rows, []) = table.as_chunks::<ROW>() else {
        return None;
    };
    let mut last = id_number(rows.first()?).wrapping_sub(1);
    let mut sound = true;
    let mut left = rows.iter();
    let ascending = left.all(|row| {
        sound &= is_row(row);
        let before = std::mem::replace(&mut last, id_number(row));
        before < last
    });
    for row in left {
        sound &= is_row(row);
    }
    if !sound {
        return None;
    }
    let place = if ascending {
        let asked = u128::from_be_bytes(*id);
        rows.binary_search_by_key(&asked, id_number).ok()
    } else {
        ids::find(rows, id)?
    };
    Some(place.map(|place| Lease(&rows[place])))
}

/// The id of a row as a number, by which rows ascend.
#[inline(always)]
fn id_number(row: &[u8; ROW]) -> u128 {
    u128::from_be_bytes(*row.first_chunk().expect("a row has an id"))
}

/// The number at a place of a row.
#[inline(always)]
fn number(row: &[u8; ROW], at: usize) -> u64 {
    u64::from_be_bytes(*row[at..].first_chunk().expect("a row has the number"))
}

/// Whether a row has a flag of 0 or 1, zeros after it, and each number within its limit.
#[inline(always)]
fn is_row(row: &[u8; ROW]) -> bool {
    (word(row, 16) <= 1)
        & (number(row, 24) <= LAST_MOMENT)
        & ((number(row, 32) | number(row, 40)) < LENGTHS_END)
        & (number(row, 48) <= MOST_ALLOWED)
        & (number(row, 56) <= MOST_ALLOWED)
}

impl Lease<'_> {
    /// What the lease is at a clock in milliseconds, which is at most the last moment, as each number is within its limit.
    pub(crate) fn state(&self, now_ms: u64) -> State {
        let [now, last_sync, ttl, grace, skew, tolerance] = [
            now_ms,
            number(self.0, 24),
            number(self.0, 32),
            number(self.0, 40),
            number(self.0, 48),
            number(self.0, 56),
        ]
        .map(|number| number as i64);
        let margin = last_sync + ttl * SECOND + tolerance - now;
        if self.0[16] == 1 {
            State::Revoked
        } else if now < last_sync - skew {
            State::Future
        } else if margin >= 0 {
            State::Active(margin)
        } else if margin + grace * SECOND >= 0 {
            State::Stale(margin)
        } else {
            State::Expired
        }
    }
}
