//! Images of up to 1,025 rows: lookups, requests and submissions, ids that recur, offsets past 65,535, and removal from a full image.

use super::removals::{at, model};
use super::requests::Asked;
use crate::compare::Compare;
use crate::encoder::{grant, image, image_of, Model, Row, NEW_ROW};
use crate::random::Random;

/// The most rows of an image.
const MOST: u64 = 1024;
/// The clock of the submissions.
const NOW: u64 = 2500;
/// The end of a period that is over.
const PAST: u64 = 2400;
/// The end of a period that isn't.
const AHEAD: u64 = 2600;

/// All cases of many rows.
pub fn run(compare: &mut Compare, random: &mut Random, rounds: usize) {
    for count in [64, 65, 255, 256, 257, 512, MOST - 1, MOST, MOST + 1] {
        all_calls(compare, count);
    }
    recurring_ids(compare);
    offsets(compare);
    fill(compare, random);
    one_expired(compare);
    buffers(compare, random);
    one_body_for_many(compare, random);
    for _ in 0..rounds / 100 + 1 {
        random_rows(compare, random);
    }
}

/// Rows that aren't expired, with moments that recur.
fn rows(count: u64) -> Vec<Row> {
    let row = |n| Row::used(&model(n, AHEAD, 0), 7 * n % 50);
    (0..count).map(row).collect()
}

/// The bytes and room for a body more.
fn with_room(mut bytes: Vec<u8>) -> Vec<u8> {
    bytes.extend([0x4d; 600]);
    bytes
}

/// A body that isn't held.
fn another() -> Vec<u8> {
    model(5000, AHEAD, 0).bytes()
}

/// Lookups of some rows, requests for them, submissions and an upgrade, with images of both editions.
fn all_calls(compare: &mut Compare, count: u64) {
    let rows = rows(count);
    for edition in [1, 2] {
        let bytes = with_room(image_of(edition, &rows));
        for number in [0, 63, 64, count / 2, count - 1, count] {
            let model = model(number, AHEAD, 0);
            compare.image_find(&bytes, &model.id);
            let mut asked = Asked::of(&model, bytes.clone());
            asked.now_ms = 1000 * NOW;
            asked.run(compare);
        }
        let last = &rows[rows.len() - 1].body;
        for body in [&another(), last, &model(count - 1, AHEAD, 1).bytes()] {
            compare.submit(&mut bytes.clone(), body, &at(NOW));
        }
        compare.image_upgrade(&bytes, &mut vec![0; bytes.len() + 600]);
    }
}

/// Full images in which one id recurs, side by side and far apart.
fn recurring_ids(compare: &mut Compare) {
    let rows = rows(MOST);
    for (one, other) in [
        (0, 1),
        (0, 1023),
        (63, 64),
        (64, 65),
        (64, 1023),
        (255, 511),
        (500, 800),
        (1022, 1023),
    ] {
        let mut twice = rows.clone();
        twice[other] = Row::of(&model(one as u64, AHEAD, 1));
        let bytes = image(&twice);
        compare.image_find(&bytes, &rows[one].id);
        compare.submit(&mut bytes.clone(), &another(), &at(NOW));
    }
}

/// Full images in which one bit of a byte of an offset or a length differs.
fn offsets(compare: &mut Compare) {
    let sound = image(&rows(MOST));
    for row in [0, 160, 700, 1023] {
        for at in 16..24 {
            for bit in [0, 7] {
                let mut bytes = sound.clone();
                bytes[8 + NEW_ROW * row + at] ^= 1 << bit;
                compare.image_find(&bytes, &model(row as u64, AHEAD, 0).id);
            }
        }
    }
}

/// The last rows of an image one after another, and more.
fn fill(compare: &mut Compare, random: &mut Random) {
    let held = rows(MOST - 24);
    let mut bytes = image(&held);
    bytes.extend(random.bytes(30 * 600));
    for number in MOST - 24..MOST + 3 {
        let mut model = model(number, AHEAD, number as usize % 3);
        compare.submit(&mut bytes, &model.bytes(), &at(NOW));
        compare.image_find(&bytes, &model.id);
        model.issuer.push('i');
        compare.submit(&mut bytes, &model.bytes(), &at(NOW));
    }
}

/// A full image with one row, two or three rows that are expired, at several places and with several moments.
fn one_expired(compare: &mut Compare) {
    let rows = rows(MOST);
    for expired in [
        &[(0, 5)][..],
        &[(1023, 5)],
        &[(500, u64::MAX)],
        &[(3, 8), (1020, 8)],
        &[(3, 9), (1020, 8)],
        &[(3, 8), (400, NOW), (1020, 9)],
        &[(3, 8), (400, 7), (1020, 7)],
    ] {
        let mut held = rows.clone();
        for &(place, moment) in expired {
            held[place] = Row::used(&model(place as u64, PAST, 0), moment);
        }
        for grants in [0, 6] {
            let body = model(5000, AHEAD, grants).bytes();
            compare.submit(&mut image(&held), &body, &at(NOW));
            compare.submit(&mut with_room(image(&held)), &body, &at(NOW));
        }
        let repeat = &held[expired[0].0].body;
        compare.submit(&mut image(&held), repeat, &at(NOW));
    }
}

/// Images of 1,023 and 1,024 rows of which two are expired, in buffers of lengths around those at which one has to go.
fn buffers(compare: &mut Compare, random: &mut Random) {
    let body = another();
    for count in [MOST - 1, MOST] {
        let mut held = rows(count);
        for (place, grants, moment) in [(100, 2, 2), (200, 0, 1)] {
            held[place] = Row::used(&model(place as u64, PAST, grants), moment);
        }
        let bytes = image(&held);
        let more = NEW_ROW + body.len();
        for room in [0, 1, more - 1, more, more + 1, 2 * more] {
            let mut bytes = [&bytes[..], &random.bytes(room)].concat();
            compare.submit(&mut bytes, &body, &at(NOW));
        }
        compare.submit(&mut bytes[..bytes.len() - 1].to_vec(), &body, &at(NOW));
    }
}

/// A full image of expired rows with random moments, and a body of nearly the most bytes.
fn one_body_for_many(compare: &mut Compare, random: &mut Random) {
    let row = |n| Row::used(&model(n, PAST, 0), random.below(300) as u64);
    let held = image(&(0..MOST).map(row).collect::<Vec<_>>());
    let mut long: Model = model(5000, AHEAD, 0);
    long.grants
        .extend(vec![grant(&["read"], &"n".repeat(200)); 110]);
    let body = long.bytes();
    for room in [0, 10_000] {
        let mut bytes = [&held[..], &random.bytes(room)].concat();
        compare.submit(&mut bytes, &body, &at(NOW));
        compare.submit(&mut bytes, &another(), &at(NOW));
    }
}

/// A full image, or one with a row less, in which each row is expired or not, after some requests.
fn random_rows(compare: &mut Compare, random: &mut Random) {
    let count = MOST - random.below(2) as u64;
    let often = random.between(1, 40);
    let held: Vec<Row> = (0..count)
        .map(|n| {
            let ends = if random.once_in(often) { PAST } else { AHEAD };
            let model = model(n, ends, random.below(2));
            Row::used(&model, 2000 + random.below(600) as u64)
        })
        .collect();
    let mut bytes = image(&held);
    let room = random.below(1500);
    bytes.extend(random.bytes(room));
    for number in 0..4 {
        let mut asked = Asked::of(&model(random.below(1024) as u64, AHEAD, 0), bytes);
        asked.now_ms = 2_300_000 + random.below(250_000) as u64;
        bytes = asked.run(compare);
        let body = model(5000 + number, AHEAD, random.below(20)).bytes();
        compare.submit(&mut bytes, &body, &at(NOW));
    }
}
