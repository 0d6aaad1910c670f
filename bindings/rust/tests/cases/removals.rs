//! Removal: which expired rows a submission removes, in each order of moments, with buffers of each length at which one row more has
//! to go, and in long sequences of submissions and requests on one buffer.

use reference::Submission;

use super::requests::Asked;
use crate::compare::Compare;
use crate::encoder::{grant, image, Model, Row, NEW_ROW};
use crate::random::Random;

/// The clock of most submissions here.
const NOW: u64 = 2500;
/// The end of a period that is over.
const PAST: u64 = 2400;
/// The end of a period that isn't.
const AHEAD: u64 = 2600;

/// All cases of removal.
pub fn run(compare: &mut Compare, random: &mut Random, rounds: usize) {
    every_order(compare, random);
    every_length(compare, random);
    ends_of_periods(compare);
    every_two_moments(compare);
    held_ids(compare);
    one_body_for_many(compare, random);
    for _ in 0..rounds / 10 + 1 {
        random_image(compare, random);
        sequence(compare, random);
    }
}

/// A descriptor with a number, the end of its period and so many grants beside the usual one.
pub fn model(number: u64, not_after: u64, grants: usize) -> Model {
    let mut model = Model {
        not_after,
        ..Model::plain().numbered(number)
    };
    let more = |n| grant(&["write"], &format!("b/{n}"));
    model.grants.extend((0..grants).map(more));
    model
}

/// A submission at a clock with a good signature.
pub fn at(now: u64) -> Submission {
    Submission {
        now,
        ..Submission::default()
    }
}

/// Submits a descriptor to the image with the rows, in a buffer of some length that is at least the image's.
fn submit(compare: &mut Compare, rows: &[Row], length: usize, body: &[u8], random: &mut Random) {
    let mut bytes = image(rows);
    if length >= bytes.len() {
        let tail = random.bytes(length - bytes.len());
        bytes.extend(tail);
        compare.submit(&mut bytes, body, &at(NOW));
    }
}

/// Three rows, each expired or not and with each of three moments; bodies for which up to three rows have to go, and lengths at which
/// one more has to, and just not.
fn every_order(compare: &mut Compare, random: &mut Random) {
    let bodies = [0, 5, 9, 14].map(|grants| model(9, AHEAD, grants).bytes());
    for (case, moments) in (0..8 * 27).map(|n| (n / 27, [n % 3, n / 3 % 3, n / 9 % 3])) {
        let rows: Vec<Row> = (0..3)
            .map(|n| {
                let ends = if case >> n & 1 == 1 { PAST } else { AHEAD };
                Row::used(&model(n, ends, 0), 5 + moments[n as usize])
            })
            .collect();
        let held = image(&rows).len();
        for body in &bodies {
            for removed in 0..=3 {
                let larger = held + NEW_ROW + body.len();
                let needed = larger - removed * (NEW_ROW + rows[0].body.len());
                for length in needed - 1..=needed + 1 {
                    submit(compare, &rows, length, body, random);
                }
            }
        }
    }
}

/// Six rows with bodies of several lengths, of which four are expired, and each length from that of the image on.
fn every_length(compare: &mut Compare, random: &mut Random) {
    let ends = [AHEAD, PAST, PAST, AHEAD, PAST, PAST];
    for moments in [
        [1, 2, 3, 4, 5, 6],
        [6, 5, 4, 3, 2, 1],
        [9, 7, 8, 0, 7, 8],
        [0, NOW, NOW + 1, 0, u64::MAX, NOW - 1],
    ] {
        let rows: Vec<Row> = (0..6)
            .map(|n| Row::used(&model(n as u64, ends[n], n % 4), moments[n]))
            .collect();
        let held = image(&rows).len();
        for (grants, step) in [(0, 3), (2, 1), (12, 7)] {
            let body = model(9, AHEAD, grants).bytes();
            let larger = held + NEW_ROW + body.len();
            for length in (held..larger + 3).step_by(step) {
                submit(compare, &rows, length, &body, random);
            }
        }
    }
}

/// Two rows that end around the clock, and that of the submission at its ends.
fn ends_of_periods(compare: &mut Compare) {
    let ends = [NOW - 2, NOW - 1, NOW, NOW + 1, NOW + 2];
    for (one, other) in ends.iter().flat_map(|one| ends.map(|other| (*one, other))) {
        let rows = [
            Row::used(&model(0, one, 0), 2),
            Row::used(&model(1, other, 0), 1),
        ];
        for now in [0, NOW - 1, NOW, NOW + 1, u64::MAX] {
            let new = Model {
                issued_at: 0,
                not_before: now.saturating_sub(1),
                not_after: now.max(1),
                ..model(9, 0, 0)
            };
            compare.submit(&mut image(&rows), &new.bytes(), &at(now));
        }
    }
    let not_yet = Model {
        not_before: NOW + 10,
        not_after: NOW + 20,
        ..model(0, 0, 0)
    };
    let body = model(9, AHEAD, 0).bytes();
    compare.submit(&mut image(&[Row::of(&not_yet)]), &body, &at(NOW));
}

/// Two expired rows with each two moments, with another before, between or after them, and a buffer in which one has to go.
fn every_two_moments(compare: &mut Compare) {
    let moments = [
        0,
        1,
        NOW - 1,
        NOW,
        NOW + 1,
        (1 << 32) - 1,
        1 << 32,
        (1 << 32) + 1,
        NOW << 32,
        (1 << 63) - 1,
        1 << 63,
        u64::MAX - 1,
        u64::MAX,
    ];
    let body = model(9, AHEAD, 0).bytes();
    for (one, other) in moments
        .iter()
        .flat_map(|one| moments.map(|other| (*one, other)))
    {
        for place in 0..3 {
            let mut rows = vec![
                Row::used(&model(0, PAST, 0), one),
                Row::used(&model(1, PAST - 1, 0), other),
            ];
            rows.insert(place, Row::of(&model(2, AHEAD, 0)));
            compare.submit(&mut image(&rows), &body, &at(NOW));
        }
    }
}

/// Repeats of rows and other bytes under their ids, expired or not, in a buffer without room and in one with it.
fn held_ids(compare: &mut Compare) {
    let ends = (0..).zip([PAST, AHEAD, NOW]);
    let held = |(number, ends)| Row::used(&model(number, ends, 0), 3 - number);
    let rows: Vec<Row> = ends.clone().map(held).collect();
    for room in [0, 100, 1000] {
        for (number, ends) in ends.clone() {
            for grants in [0, 1, 5] {
                let mut bytes = [image(&rows), vec![0x99; room]].concat();
                let body = model(number, ends, grants).bytes();
                compare.submit(&mut bytes, &body, &at(NOW));
                let body = model(number, AHEAD + 1, grants).bytes();
                compare.submit(&mut bytes, &body, &at(NOW));
            }
        }
    }
}

/// 90 short rows of which some are expired, and a body for which dozens have to go.
fn one_body_for_many(compare: &mut Compare, random: &mut Random) {
    let name = "n".repeat(200);
    let mut long = model(1000, AHEAD, 0);
    long.grants.extend(vec![grant(&["read"], &name); 100]);
    let body = long.bytes();
    for once_in in [1, 2, 8] {
        let rows: Vec<Row> = (0..90)
            .map(|n| {
                let ends = if n % once_in == 0 { PAST } else { AHEAD };
                Row::used(&model(n, ends, 0), random.below(40) as u64)
            })
            .collect();
        let held = image(&rows).len();
        for room in [0, 1, 400, 20_000, NEW_ROW + body.len() - 1] {
            submit(compare, &rows, held + room, &body, random);
        }
    }
}

/// Up to twelve rows with bodies of several lengths and few moments, and a body that needs some room.
fn random_image(compare: &mut Compare, random: &mut Random) {
    for _ in 0..10 {
        let rows: Vec<Row> = (0..random.below(13))
            .map(|n| {
                let ends = NOW - 2 + random.below(4) as u64;
                let model = model(n as u64, ends, random.below(4));
                let moment = *random.pick(&[0, 1, 2, NOW - 1, NOW, NOW + 1, u64::MAX]);
                Row::used(&model, moment)
            })
            .collect();
        let body = model(100, AHEAD, random.below(30)).bytes();
        let length = image(&rows).len() + random.below(NEW_ROW + body.len() + 50);
        submit(compare, &rows, length, &body, random);
    }
}

/// Submissions, requests and lookups on one buffer, while the clock goes on and periods end.
fn sequence(compare: &mut Compare, random: &mut Random) {
    let length = random.between(400, 4000);
    let mut bytes = random.bytes(length);
    compare.image_new(&mut bytes);
    let mut known: Vec<Model> = Vec::new();
    let mut now = 10_000;
    for number in 0..30 {
        now += random.below(20) as u64;
        let mut new = model(number, now + 1 + random.below(80) as u64, random.below(6));
        new.not_before = now - random.below(50) as u64;
        known.push(new);
        let submitted = random.pick(&known[known.len().saturating_sub(6)..]);
        compare.submit(&mut bytes, &submitted.bytes(), &at(now));
        for _ in 0..random.below(4) {
            let asked_for = random.pick(&known[known.len().saturating_sub(12)..]);
            let mut asked = Asked::of(asked_for, bytes);
            asked.now_ms = 1000 * (now + random.below(20) as u64).saturating_sub(10);
            bytes = asked.run(compare);
        }
        compare.image_find(&bytes, &random.pick(&known).id);
    }
}
