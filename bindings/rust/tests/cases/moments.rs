//! The last-used moments of rows: clocks around them, refusals of each step, each row of an image, and both editions.

use super::images::EDITIONS;
use super::requests::Asked;
use crate::compare::Compare;
use crate::encoder::{image, image_of, revocation, Model, Row, OTHER_TERMINAL};
use crate::lease_row::{LeaseRow, LAST_MOMENT};
use crate::random::Random;

/// All cases of moments.
pub fn run(compare: &mut Compare, random: &mut Random, rounds: usize) {
    around_the_clock(compare);
    each_row(compare);
    refusals(compare);
    last_clocks(compare);
    for _ in 0..rounds {
        one_after_another(compare, random);
    }
}

/// Descriptors with the numbers from 0 on, valid from 2,000 to 3,000.
fn models(count: u64) -> Vec<Model> {
    let model = |number| Model::plain().numbered_by_turns(number);
    (0..count).map(model).collect()
}

/// Moments around a clock in seconds, at the ends, and with the clock's bytes the other way round.
fn moments_near(now: u64) -> [u64; 10] {
    [
        0,
        1,
        now - 1,
        now,
        now + 1,
        1000 * now,
        now.swap_bytes(),
        now + (1 << 32),
        1 << 63,
        u64::MAX,
    ]
}

/// A row with each moment, at each clock around a second and with sessions of several lengths.
fn around_the_clock(compare: &mut Compare) {
    let model = Model::plain();
    for now in [2000, 2001, 2500, 2999] {
        for last_used in moments_near(now) {
            for edition in EDITIONS {
                let bytes = image_of(edition, &[Row::used(&model, last_used)]);
                let mut asked = Asked::of(&model, bytes);
                for milliseconds in [0, 1, 500, 999] {
                    asked.now_ms = 1000 * now + milliseconds;
                    asked.run(compare);
                }
            }
        }
    }
}

/// A request for each row of an image, with rows before and after it and bytes after the last body; then once more.
fn each_row(compare: &mut Compare) {
    for count in [1, 2, 3, 10] {
        let models = models(count);
        for edition in EDITIONS {
            let used = models.iter().zip(2490..);
            let rows: Vec<Row> = used.map(|(model, at)| Row::used(model, at)).collect();
            let bytes = [image_of(edition, &rows), vec![0x5a; 50]].concat();
            for model in &models {
                let mut asked = Asked::of(model, bytes.clone());
                asked.now_ms = 2_495_000;
                asked.image = asked.run(compare);
                asked.now_ms = 2_494_999;
                asked.run(compare);
            }
        }
    }
}

/// A request that each step refuses, for a row that was last used at 0.
fn refusals(compare: &mut Compare) {
    let model = Model::plain();
    let changes: [fn(&mut Asked); 16] = [
        |_| {},
        |a| a.verdict = 3,
        |a| a.image.truncate(60),
        |a| a.id[15] ^= 1,
        |a| a.revoked = revocation(&a.id, 2500),
        |a| a.now_ms = 1_999_999,
        |a| a.now_ms = 3_000_000,
        |a| a.fay[39] ^= 1,
        |a| a.terminal = OTHER_TERMINAL.into(),
        |a| a.mode = 1,
        |a| a.verdict = 2,
        |a| a.verdict = 1,
        |a| a.leases = LeaseRow::synced(&a.id, 2_500_021).bytes(),
        |a| a.leases = LeaseRow::synced(&a.id, 2_399_969).bytes(),
        |a| a.leases = LeaseRow::synced(&a.id, 2_349_969).bytes(),
        |a| {
            a.leases = LeaseRow {
                flag: 1,
                ..LeaseRow::synced(&a.id, 2_500_000)
            }
            .bytes()
        },
    ];
    for edition in EDITIONS {
        for last_used in [0, 2499, 2500, 2501] {
            for change in changes {
                let rows = [Row::used(&model, last_used), Row::of(&models(2)[1])];
                let mut asked = Asked::of(&model, image_of(edition, &rows));
                asked.now_ms = 2_500_000;
                change(&mut asked);
                asked.run(compare);
            }
        }
    }
}

/// Clocks at their bound, for a descriptor that is valid then.
fn last_clocks(compare: &mut Compare) {
    let last = LAST_MOMENT / 1000;
    let model = Model {
        not_before: last - 10,
        not_after: last + 10,
        ..Model::plain()
    };
    for last_used in moments_near(last) {
        let mut asked = Asked::of(&model, image(&[Row::used(&model, last_used)]));
        for now_ms in [LAST_MOMENT - 1000, LAST_MOMENT, LAST_MOMENT + 1] {
            asked.now_ms = now_ms;
            asked.run(compare);
        }
    }
}

/// Requests for the rows of one image, at clocks that go forwards and backwards.
fn one_after_another(compare: &mut Compare, random: &mut Random) {
    let models = models(random.between(1, 5) as u64);
    let rows: Vec<Row> = models
        .iter()
        .map(|model| Row::used(model, 1_990 + random.below(1_020) as u64))
        .collect();
    let mut bytes = image_of(*random.pick(&[1, 2, 2]), &rows);
    bytes.extend(random.bytes(20));
    for _ in 0..6 {
        let mut asked = Asked::of(random.pick(&models), bytes);
        asked.now_ms = 1_990_000 + random.below(1_020_000) as u64;
        asked.verdict = u64::from(random.once_in(6));
        if random.once_in(3) {
            let synced = asked.now_ms - 100_000 - random.below(60_000) as u64;
            asked.leases = LeaseRow::synced(&asked.id, synced).bytes();
        }
        bytes = asked.run(compare);
    }
}
