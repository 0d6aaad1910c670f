//! Leases: clocks around each boundary, limits of each number, each byte of a row, tables of many rows in several orders, ids that
//! recur, and random tables.

use super::requests::Asked;
use crate::compare::Compare;
use crate::encoder::{image, Model, Row};
use crate::lease_row::{lease_table, LeaseRow, LAST_MOMENT, LENGTHS_END, MOST_ALLOWED};
use crate::random::Random;

/// All cases of leases.
pub fn run(compare: &mut Compare, random: &mut Random, rounds: usize) {
    let host = Host::new();
    boundaries(compare, &host);
    below_zero(compare, &host);
    last_clocks(compare, &host);
    limits(compare, &host);
    row_bytes(compare, &host);
    lengths(compare, &host);
    ids_that_recur(compare, &host);
    for _ in 0..rounds / 100 + 1 {
        many_rows(compare, &host, random);
    }
    for _ in 0..4 * rounds {
        random_table(compare, &host, random);
    }
}

/// Requests for three descriptors: valid from 2,000 to 3,000, for 90 days from 0 on, and around the last second of the clock.
struct Host {
    usual: Asked,
    early: Asked,
    late: Asked,
}

impl Host {
    fn new() -> Host {
        let valid = |number, not_before, not_after| Model {
            issued_at: 0,
            not_before,
            not_after,
            ..Model::plain().numbered(number)
        };
        let last = LAST_MOMENT / 1000;
        let models = [
            valid(0x33, 2000, 3000),
            valid(0x22, 0, 7_776_000),
            valid(0x44, last - 10, last + 10),
        ];
        let bytes = image(&models.each_ref().map(Row::of));
        let [usual, early, late] = models.map(|model| Asked::of(&model, bytes.clone()));
        Host { usual, early, late }
    }
}

/// A request at a clock, with a table.
fn ask(compare: &mut Compare, asked: &Asked, now_ms: u64, leases: &[u8]) {
    let mut asked = asked.clone();
    asked.now_ms = now_ms;
    asked.leases = leases.to_vec();
    asked.run(compare);
}

/// An id near that of a request.
fn other_id(asked: &Asked, number: u64) -> Vec<u8> {
    let mut id = asked.id.clone();
    id[8..].copy_from_slice(&(0x1000 + number).to_be_bytes());
    id
}

/// Rows of other ids, some of which are revoked.
fn others(asked: &Asked, count: u64) -> Vec<LeaseRow> {
    let other = |number| LeaseRow {
        flag: (number % 2) as u8,
        ..LeaseRow::synced(&other_id(asked, number), 2_000_000)
    };
    (0..count).map(other).collect()
}

/// Clocks around each boundary of leases of several lengths, revoked or not, with each verdict, and beside another row.
fn boundaries(compare: &mut Compare, host: &Host) {
    let lengths = [
        [100, 50, 20, 30],
        [0, 0, 0, 0],
        [0, 1, 0, 0],
        [1, 0, 0, 0],
        [0, 0, 5, 0],
        [0, 0, 0, 5],
        [1, 1, 1, 1],
        [300, 60, 5000, 2000],
        [600, 100, 100_000, 90_000],
    ];
    for [ttl, grace, skew, tolerance] in lengths {
        let row = LeaseRow {
            ttl,
            grace,
            skew,
            tolerance,
            ..LeaseRow::synced(&host.usual.id, 2_200_000)
        };
        let last_active = row.last_sync + 1000 * ttl + tolerance;
        let edges = [
            row.last_sync - skew,
            row.last_sync,
            row.last_sync + ttl,
            last_active - tolerance,
            last_active,
            last_active + grace,
            last_active + 1000 * grace - tolerance,
            last_active + 1000 * grace,
        ];
        for now_ms in edges.iter().flat_map(|edge| edge - 2..=edge + 2) {
            for (flag, verdict) in [(0, 0), (1, 0), (0, 1), (1, 1), (0, 2)] {
                let row = LeaseRow {
                    flag,
                    ..row.clone()
                };
                let mut asked = host.usual.clone();
                asked.verdict = verdict;
                ask(compare, &asked, now_ms, &row.bytes());
                let beside = [&others(&asked, 1)[..], &[row]].concat();
                ask(compare, &asked, now_ms, &lease_table(&beside));
            }
        }
    }
}

/// Last syncs before the skew has passed, and the first clocks.
fn below_zero(compare: &mut Compare, host: &Host) {
    for last_sync in [0, 1, 19, 20, 21, 22, 1000] {
        for skew in [0, 20, MOST_ALLOWED] {
            for now_ms in [0, 1, 2, 999, 1000, 100_030, 100_031, 101_031, 200_000] {
                let row = LeaseRow {
                    skew,
                    ..LeaseRow::synced(&host.early.id, last_sync)
                };
                ask(compare, &host.early, now_ms, &row.bytes());
            }
        }
    }
}

/// Clocks around 2^53 and above, without a table, with a row of another id, and with rows whose numbers are at their limits.
fn last_clocks(compare: &mut Compare, host: &Host) {
    let at_limits = |last_sync| LeaseRow {
        ttl: LENGTHS_END - 1,
        grace: LENGTHS_END - 1,
        skew: MOST_ALLOWED,
        tolerance: MOST_ALLOWED,
        ..LeaseRow::synced(&host.late.id, last_sync)
    };
    let synced = |last_sync| LeaseRow::synced(&host.late.id, last_sync).bytes();
    let tables = [
        Vec::new(),
        lease_table(&others(&host.late, 2)),
        synced(LAST_MOMENT),
        synced(LAST_MOMENT - 100_030),
        synced(LAST_MOMENT - 150_030),
        synced(LAST_MOMENT - 150_031),
        synced(0),
        at_limits(LAST_MOMENT).bytes(),
        at_limits(LAST_MOMENT - 1000 * (LENGTHS_END - 1)).bytes(),
        at_limits(0).bytes(),
    ];
    for table in tables {
        let near = (0..6).map(|n| LAST_MOMENT - 3 + n);
        let far = [1 << 54, 1 << 63, u64::MAX - 1, u64::MAX];
        for now_ms in near.chain(far) {
            ask(compare, &host.late, now_ms, &table);
        }
    }
}

/// A number of a row, and its limit, which is allowed.
type Limit = (fn(&mut LeaseRow) -> &mut u64, u64);

/// The numbers of a row with their limits.
const LIMITS: [Limit; 5] = [
    (|row| &mut row.last_sync, LAST_MOMENT),
    (|row| &mut row.ttl, LENGTHS_END - 1),
    (|row| &mut row.grace, LENGTHS_END - 1),
    (|row| &mut row.skew, MOST_ALLOWED),
    (|row| &mut row.tolerance, MOST_ALLOWED),
];

/// Each number of the row of the id, and of a row of another id before and after it, around its limit and at each power of two.
fn limits(compare: &mut Compare, host: &Host) {
    let now_ms = 2_500_000;
    for (field, limit) in LIMITS {
        let near = (0..5).map(|n| limit - 2 + n);
        let powers = (0..64).map(|bit| 1 << bit);
        for number in near.chain(powers).chain([0, u64::MAX]) {
            let asked = &host.usual;
            let mut rows = others(asked, 2);
            rows.insert(1, LeaseRow::synced(&asked.id, now_ms));
            for at in 0..rows.len() {
                let mut changed = rows.clone();
                *field(&mut changed[at]) = number;
                ask(compare, asked, now_ms, &lease_table(&changed));
            }
        }
    }
}

/// Each byte of the row of the id and of another row with other values.
fn row_bytes(compare: &mut Compare, host: &Host) {
    let asked = &host.usual;
    let rows = [
        &others(asked, 1)[..],
        &[LeaseRow::synced(&asked.id, 2_400_000)],
    ]
    .concat();
    let table = lease_table(&rows);
    for at in 0..table.len() {
        let byte = table[at];
        for other in [0, 1, 2, 3, 0x7f, 0x80, 0xff, byte ^ 1, byte.wrapping_add(1)] {
            let mut changed = table.clone();
            changed[at] = other;
            ask(compare, asked, 2_500_000, &changed);
        }
    }
}

/// Tables cut to each length.
fn lengths(compare: &mut Compare, host: &Host) {
    let asked = &host.usual;
    let row = LeaseRow::synced(&asked.id, 2_400_000);
    for at in 0..3 {
        let mut rows = others(asked, 2);
        rows.insert(at, row.clone());
        let table = lease_table(&rows);
        for length in 0..=table.len() {
            ask(compare, asked, 2_450_000, &table[..length]);
        }
    }
}

/// Each two rows of a table with one id, and one row at all its places.
fn ids_that_recur(compare: &mut Compare, host: &Host) {
    let asked = &host.usual;
    for count in [2, 3, 5, 8, 17] {
        let mut rows = others(asked, count - 1);
        rows.push(LeaseRow::synced(&asked.id, 2_400_000));
        for turn in 0..rows.len() {
            rows.rotate_left(1);
            ask(compare, asked, 2_450_000, &lease_table(&rows));
            for other in 0..rows.len() {
                let mut twice = rows.clone();
                twice[turn].id = rows[other].id.clone();
                ask(compare, asked, 2_450_000, &lease_table(&twice));
            }
        }
    }
}

/// How many orders of rows there are.
const ORDERS: usize = 4;

/// Puts rows in ascending or descending order of ids, in two ascending runs, or in a random order.
fn put_in_order(rows: &mut [LeaseRow], order: usize, random: &mut Random) {
    rows.sort_by(|one, other| one.id.cmp(&other.id));
    match order {
        0 => {}
        1 => rows.reverse(),
        2 => rows.rotate_left(random.below(rows.len() + 1)),
        _ => (1..rows.len()).for_each(|at| rows.swap(at, random.below(at + 1))),
    }
}

/// Tables of 200 to 1,024 rows in each order, with the id or without; then one id twice, side by side and far apart, and a malformed
/// row.
fn many_rows(compare: &mut Compare, host: &Host, random: &mut Random) {
    let asked = &host.usual;
    for order in 0..ORDERS {
        let count = *random.pick(&[200, 256, 1000, 1023, 1024]);
        let mut rows = others(asked, count - 1);
        if random.once_in(2) {
            rows.iter_mut().for_each(|row| row.id = random.bytes(16));
        }
        let row = LeaseRow::synced(&asked.id, 2_400_000);
        rows.push(row.clone());
        put_in_order(&mut rows, order, random);
        ask(compare, asked, 2_450_000, &lease_table(&rows));
        let place = random.below(rows.len() - 1);
        for other in [place + 1, random.below(rows.len()), rows.len() - 1, 0] {
            let mut twice = rows.clone();
            twice[place].id = rows[other].id.clone();
            ask(compare, asked, 2_450_000, &lease_table(&twice));
        }
        let mut without = rows.clone();
        without.retain(|other| other.id != row.id);
        ask(compare, asked, 2_450_000, &lease_table(&without));
        rows[place].flag = 2;
        ask(compare, asked, 2_450_000, &lease_table(&rows));
    }
}

/// A table of at most 20 rows in some order, of which one often has the id, with a last sync from which on the clock is near a
/// boundary; seldom with a row twice, a damaged row or another length.
fn random_table(compare: &mut Compare, host: &Host, random: &mut Random) {
    let asked = *random.pick(&[&host.usual, &host.usual, &host.early, &host.late]);
    let now_ms = any_clock(asked, random);
    let mut rows: Vec<LeaseRow> = (0..random.below(20))
        .map(|_| any_row(&other_id(asked, random.below(4000) as u64), now_ms, random))
        .collect();
    rows.sort_by(|one, other| one.id.cmp(&other.id));
    rows.dedup_by(|one, other| one.id == other.id);
    if !random.once_in(5) {
        rows.push(any_row(&asked.id, now_ms, random));
    }
    if !rows.is_empty() && random.once_in(8) {
        let copied = random.pick(&rows).id.clone();
        rows.push(any_row(&copied, now_ms, random));
    }
    let order = random.below(ORDERS);
    put_in_order(&mut rows, order, random);
    if !rows.is_empty() && random.once_in(8) {
        let place = random.below(rows.len());
        damage(&mut rows[place], random);
    }
    let mut table = lease_table(&rows);
    if random.once_in(16) {
        table.truncate(random.below(table.len() + 1));
    }
    let mut asked = asked.clone();
    asked.verdict = u64::from(random.once_in(10));
    ask(compare, &asked, now_ms, &table);
}

/// A clock in the period of the request's descriptor or around it, seldom past its bound.
fn any_clock(asked: &Asked, random: &mut Random) -> u64 {
    let first = asked.now_ms;
    match random.below(16) {
        0 => random.edge(),
        1 => LAST_MOMENT - 2 + random.below(5) as u64,
        2 => (first + random.below(5) as u64).saturating_sub(2),
        _ => first + random.below(10_000) as u64,
    }
}

/// A row of numbers within their limits.
fn any_row(id: &[u8], now_ms: u64, random: &mut Random) -> LeaseRow {
    let lengths = [0, 1, 2, 100, 1999, 86_400, LENGTHS_END - 1];
    let allowances = [0, 1, 20, 1000, 999_999, MOST_ALLOWED];
    let mut row = LeaseRow {
        flag: u8::from(random.once_in(8)),
        ttl: *random.pick(&lengths),
        grace: *random.pick(&lengths),
        skew: *random.pick(&allowances),
        tolerance: *random.pick(&allowances),
        ..LeaseRow::synced(id, 0)
    };
    let length = 1000 * row.ttl + row.tolerance;
    let near = match random.below(4) {
        0 => now_ms.saturating_add(row.skew),
        1 => now_ms.saturating_sub(length),
        2 => now_ms.saturating_sub(length + 1000 * row.grace),
        _ => now_ms,
    };
    let near = near.saturating_add(random.below(5) as u64);
    row.last_sync = near.saturating_sub(2).min(LAST_MOMENT);
    row
}

/// Breaks one rule of a row's form, or just not.
fn damage(row: &mut LeaseRow, random: &mut Random) {
    match random.below(3) {
        0 => row.flag = *random.pick(&[0, 1, 2, 3, 128, 255]),
        1 => row.zero[random.below(7)] = *random.pick(&[0, 1, 128, 255]),
        _ => {
            let (field, limit) = *random.pick(&LIMITS);
            let over = limit + random.below(2) as u64;
            *field(row) = if random.once_in(4) {
                random.edge()
            } else {
                over
            };
        }
    }
}
