//! Wrong lease steps, which a comparison has to notice. The steps are written once more here, so that each can be got wrong.

use reference::Request;

use super::gate::{Gate, Ordinary};
use super::lease_row::{LAST_MOMENT, LENGTHS_END, MOST_ALLOWED};
use super::slip_list::slips;

slips! {
    /// A slip that an implementation of the lease steps might make.
    enum LeaseSlip, all in LEASE_SLIPS {
        /// The ttl is taken as milliseconds.
        TtlUnscaled,
        /// The grace is taken as milliseconds.
        GraceUnscaled,
        /// A lease is active up to last sync + ttl.
        ActiveWithoutTolerance,
        /// A lease is stale up to last sync + ttl + grace.
        StaleWithoutTolerance,
        /// The skew is taken for the tolerance, and the tolerance for the skew.
        AllowancesExchanged,
        /// Last sync - skew wraps below 0.
        SkewWraps,
        /// The first moment that is not too early is too early.
        FutureAtItsBound,
        /// The last active moment is stale.
        ActiveOneShort,
        /// The last stale moment is expired.
        StaleOneShort,
        /// Revoked is tested after future.
        RevokedAfterFuture,
        /// Revoked is tested after active.
        RevokedAfterActive,
        /// Active is tested before future.
        ActiveBeforeFuture,
        /// Stale is tested before future, and so before active.
        StaleBeforeFuture,
        /// The lease steps come before that of the signature.
        BeforeSignature,
        /// The lease steps are those of the first row, whichever id it has.
        OfFirstRow,
        /// An id without a row is refused as expired.
        AbsentExpired,
        /// A grant has no margin.
        NoMarginOnGrant,
        /// 24 has no margin.
        NoMarginOnStale,
        /// The margin of 24 has no sign.
        MarginWithoutSign,
        /// The margin leaves the tolerance out.
        MarginWithoutTolerance,
        /// 25 has a margin.
        MarginOnExpired,
        /// 24 has the grant's numbers.
        GrantOnStale,
        /// A part of a row at the table's end is left out.
        PartOfRowPassed,
        /// A flag above 1 is read as 1.
        FlagNotChecked,
        /// The seven bytes after the flag may be anything.
        ZerosNotChecked,
        /// Of the seven bytes after the flag only the first is looked at.
        LaterZerosNotChecked,
        /// Each number's limit is refused too.
        LimitsRefused,
        /// One more than each number's limit is allowed too.
        LimitsPassed,
        /// The form of a row is looked at where it has the id that is asked for.
        FormOfAskedOnly,
        /// Two rows with one id are refused where it is the one that is asked for.
        DuplicatesOfAskedOnly,
        /// Two rows with one id are refused where they stand side by side.
        DuplicatesAdjacentOnly,
        /// Of two rows with one id the first counts.
        DuplicatesPassed,
        /// The clock's bound is looked at where the table has a row.
        ClockBoundOfRowsOnly,
        /// The clock in seconds is rounded up.
        ClockRoundedUp,
    }
}

use LeaseSlip::*;

/// The numbers of a decision by an implementation with a slip; without one it is as the ordinary one. The image changes where the
/// request is granted.
pub fn request(slip: Option<LeaseSlip>, image: &mut [u8], with: &Request) -> Vec<u64> {
    let is = |other| slip == Some(other);
    let bound_passed = is(ClockBoundOfRowsOnly) && with.leases.is_empty();
    if !is_table(slip, with) || with.now_ms > LAST_MOMENT && !bound_passed {
        return vec![15, 0, 0, 0, 0];
    }
    let mut without = *with;
    without.leases = &[];
    // the ordinary implementation takes no later clock; at the last one it answers something else than 15
    without.now_ms = with.now_ms.min(LAST_MOMENT);
    if is(ClockRoundedUp) {
        without.now_ms = (with.now_ms.div_ceil(1000) * 1000).min(LAST_MOMENT);
    }
    let mut after = image.to_vec();
    let decision = Ordinary.request(&mut after, &without);
    if is(BeforeSignature) && decision[0] == 4 {
        without.verdict = 0;
        let leased = with_lease(slip, Ordinary.request(&mut after, &without), with);
        return if leased[0] == 0 { decision } else { leased };
    }
    let decision = with_lease(slip, decision, with);
    if decision[0] == 0 {
        image.copy_from_slice(&after);
    }
    decision
}

/// A decision without leases, and the lease steps after it.
fn with_lease(slip: Option<LeaseSlip>, mut decision: Vec<u64>, with: &Request) -> Vec<u64> {
    let is = |other| slip == Some(other);
    let mut rows = rows_of(with.leases);
    let row = rows.find(|row| row.id[..] == *with.id || is(OfFirstRow));
    if decision[0] != 0 || row.is_none() && !is(AbsentExpired) {
        return decision;
    }
    let (answer, margin) = row.map_or((25, 0), |row| row.answer(slip, with.now_ms));
    if answer != 0 && !(answer == 24 && is(GrantOnStale)) {
        decision = vec![0; 5];
    }
    decision[0] = answer;
    let shown = match answer {
        0 => !is(NoMarginOnGrant),
        24 => !is(NoMarginOnStale),
        25 => is(MarginOnExpired),
        _ => false,
    };
    if shown {
        decision[4] = margin as u64;
    }
    decision
}

/// Whether the lease table of a request has its form.
fn is_table(slip: Option<LeaseSlip>, with: &Request) -> bool {
    let is = |other| slip == Some(other);
    let asked = |row: &Row| row.id[..] == *with.id;
    let rows: Vec<Row> = rows_of(with.leases).collect();
    let twice = |one: usize, other: usize| {
        let counts = !is(DuplicatesOfAskedOnly) || asked(&rows[one]);
        let near = !is(DuplicatesAdjacentOnly) || one + 1 == other;
        counts && near && rows[one].id == rows[other].id
    };
    let mut pairs =
        (0..rows.len()).flat_map(|one| (one + 1..rows.len()).map(move |two| (one, two)));
    let part = with.leases.chunks_exact(64).remainder();
    let whole = part.is_empty() || is(PartOfRowPassed);
    let unlooked = |row: &Row| is(FormOfAskedOnly) && !asked(row);
    whole
        && rows.iter().all(|row| unlooked(row) || row.is_formed(slip))
        && (is(DuplicatesPassed) || !pairs.any(|(one, other)| twice(one, other)))
}

/// The whole rows of a table.
fn rows_of(table: &[u8]) -> impl Iterator<Item = Row<'_>> {
    table.chunks_exact(64).map(Row::of)
}

/// A row as it is read.
struct Row<'a> {
    id: &'a [u8; 16],
    flag: u8,
    zero: &'a [u8],
    numbers: [u64; 5],
}

impl Row<'_> {
    fn of(row: &[u8]) -> Row<'_> {
        let number = |place| row[24 + 8 * place..][..8].try_into().expect("8 bytes");
        Row {
            id: row.first_chunk().expect("16 bytes"),
            flag: row[16],
            zero: &row[17..24],
            numbers: std::array::from_fn(|place| u64::from_be_bytes(number(place))),
        }
    }

    /// Whether the row has its form.
    fn is_formed(&self, slip: Option<LeaseSlip>) -> bool {
        let is = |other| slip == Some(other);
        let last_length = LENGTHS_END - 1;
        let limits = [
            LAST_MOMENT,
            last_length,
            last_length,
            MOST_ALLOWED,
            MOST_ALLOWED,
        ];
        let mut with_limits = self.numbers.into_iter().zip(limits);
        let zeros = match slip {
            Some(ZerosNotChecked) => 0,
            Some(LaterZerosNotChecked) => 1,
            _ => 7,
        };
        (self.flag <= 1 || is(FlagNotChecked))
            && self.zero[..zeros].iter().all(|&byte| byte == 0)
            && with_limits.all(|(number, limit)| match slip {
                Some(LimitsRefused) => number < limit,
                Some(LimitsPassed) => number <= limit + 1,
                _ => number <= limit,
            })
    }

    /// The answer of the lease steps, and the margin.
    fn answer(&self, slip: Option<LeaseSlip>, now_ms: u64) -> (u64, i64) {
        let is = |other| slip == Some(other);
        let now = i128::from(now_ms);
        let [last_sync, ttl, grace, mut skew, mut tolerance] = self.numbers.map(i128::from);
        if is(AllowancesExchanged) {
            (skew, tolerance) = (tolerance, skew);
        }
        let ttl = if is(TtlUnscaled) { ttl } else { 1000 * ttl };
        let grace = if is(GraceUnscaled) {
            grace
        } else {
            1000 * grace
        };
        let unless = |slip| if is(slip) { 0 } else { tolerance };
        let last_active = last_sync + ttl + unless(ActiveWithoutTolerance);
        let last_stale = last_sync + ttl + grace + unless(StaleWithoutTolerance);
        let margin = last_sync + ttl + unless(MarginWithoutTolerance) - now;
        let one = |slip| i128::from(is(slip));
        let wrapped = is(SkewWraps) && last_sync < skew;
        let mut steps = [
            (self.flag != 0, 26),
            (
                now < last_sync - skew + one(FutureAtItsBound) || wrapped,
                23,
            ),
            (now <= last_active - one(ActiveOneShort), 0),
            (now <= last_stale - one(StaleOneShort), 24),
            (true, 25),
        ];
        match slip {
            Some(RevokedAfterFuture) => steps.swap(0, 1),
            Some(RevokedAfterActive) => steps[..3].rotate_left(1),
            Some(ActiveBeforeFuture) => steps.swap(1, 2),
            Some(StaleBeforeFuture) => steps[1..4].rotate_right(1),
            _ => {}
        }
        let answer = steps
            .into_iter()
            .find(|step| step.0)
            .map_or(25, |step| step.1);
        let margin = if is(MarginWithoutSign) {
            margin.abs()
        } else {
            margin
        };
        (answer, margin as i64)
    }
}
