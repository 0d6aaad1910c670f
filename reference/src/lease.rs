//! The lease table: its rows as bytes, their limits, and what a row says at a clock.

use crate::item::big_endian;

/// The length of a row: an id (16), a flag (1), zero (7), and five numbers (8 each).
const ROW: usize = 64;
/// The last moment, in milliseconds, that the clock and a last sync may have.
const LAST_MOMENT: u64 = 1 << 53;
/// Both lengths of a lease, its ttl and its grace, are below so many seconds.
const LENGTHS_END: u64 = 1 << 32;
/// The most milliseconds of a future skew and of a tolerance: a day.
const MOST_ALLOWED: u64 = 86_400_000;
/// How many milliseconds a second has.
const SECOND: u64 = 1000;

/// A lease table whose rows all have their form, with different ids.
pub(crate) struct Table<'a> {
    rows: &'a [u8],
}

/// The numbers of a row.
struct Row {
    /// 0, or 1 where the lease is revoked.
    flag: u8,
    /// The moment of the last sync, in milliseconds.
    last_sync: u64,
    /// How long the lease is active after a sync, in seconds.
    ttl: u64,
    /// How long it is stale after that, in seconds.
    grace: u64,
    /// How far the clock may be behind the last sync, in milliseconds.
    skew: u64,
    /// What both lengths are extended by, in milliseconds.
    tolerance: u64,
}

/// What a lease is at a clock, with the margin where the answer has it.
#[derive(Clone, Copy, Debug, PartialEq, Eq)]
pub(crate) enum State {
    Revoked,
    Future,
    Active(i64),
    Stale(i64),
    Expired,
}

/// The clock in seconds: that in milliseconds, divided by 1,000 and rounded down.
pub(crate) fn seconds_clock(now_ms: u64) -> u64 {
    now_ms / SECOND
}

/// Whether a clock in milliseconds is within its bound.
pub(crate) fn is_clock(now_ms: u64) -> bool {
    now_ms <= LAST_MOMENT
}

impl<'a> Table<'a> {
    /// The table that the bytes are, if they are whole rows of the form, and no id recurs.
    pub(crate) fn of(rows: &'a [u8]) -> Option<Table<'a>> {
        let mut whole = rows.chunks_exact(ROW);
        let formed = whole.remainder().is_empty() && whole.all(is_row);
        (formed && !an_id_recurs(rows)).then_some(Table { rows })
    }

    /// What the lease of the id is at a clock in milliseconds, if the table has a row for it.
    pub(crate) fn state(&self, id: &[u8], now_ms: u64) -> Option<State> {
        let row = self.rows.chunks(ROW).find(|row| &row[..16] == id)?;
        Some(Row::of(row).state(now_ms))
    }
}

/// Whether a row has a flag of 0 or 1, zeros after it, and each number within its limit.
fn is_row(bytes: &[u8]) -> bool {
    let row = Row::of(bytes);
    row.flag <= 1
        && bytes[17..24].iter().all(|&byte| byte == 0)
        && row.last_sync <= LAST_MOMENT
        && row.ttl < LENGTHS_END
        && row.grace < LENGTHS_END
        && row.skew <= MOST_ALLOWED
        && row.tolerance <= MOST_ALLOWED
}

/// Whether two rows have one id: then two that stand side by side have when the ids are sorted.
fn an_id_recurs(rows: &[u8]) -> bool {
    let mut ids: Vec<&[u8]> = rows.chunks(ROW).map(|row| &row[..16]).collect();
    ids.sort_unstable();
    ids.windows(2).any(|two| two[0] == two[1])
}

impl Row {
    /// The numbers that 64 bytes spell.
    fn of(bytes: &[u8]) -> Row {
        let number = |at: usize| big_endian(&bytes[at..at + 8]);
        Row {
            flag: bytes[16],
            last_sync: number(24),
            ttl: number(32),
            grace: number(40),
            skew: number(48),
            tolerance: number(56),
        }
    }

    /// What the lease is at a clock in milliseconds. The sums are over whole numbers: the earliest clock may be below 0.
    fn state(&self, now_ms: u64) -> State {
        let [now, last_sync, skew, tolerance] =
            [now_ms, self.last_sync, self.skew, self.tolerance].map(i128::from);
        let [ttl, grace] = [self.ttl, self.grace].map(|n| i128::from(n) * i128::from(SECOND));
        let earliest = last_sync - skew;
        let last_active = last_sync + ttl + tolerance;
        let margin = i64::try_from(last_active - now).expect("each term is below 2^54");
        if self.flag == 1 {
            State::Revoked
        } else if now < earliest {
            State::Future
        } else if now <= last_active {
            State::Active(margin)
        } else if now <= last_active + grace {
            State::Stale(margin)
        } else {
            State::Expired
        }
    }
}
