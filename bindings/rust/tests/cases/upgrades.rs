//! Upgrades: each number of rows, buffers of lengths around that of the new image, images that aren't sound or of another edition,
//! and what the new image then holds.

use reference::Submission;

use super::changes::edit;
use super::descriptors::any_model;
use super::images::some_rows;
use super::requests::Asked;
use crate::compare::Compare;
use crate::encoder::{image_of, Model, Row};
use crate::random::Random;

/// All cases of upgrades.
pub fn run(compare: &mut Compare, random: &mut Random, rounds: usize) {
    for count in (0..6).chain([62, 63, 64, 65]) {
        let rows: Vec<Row> = (0..count).map(row).collect();
        lengths(compare, &rows);
        asked_and_submitted_to(compare, &rows);
    }
    lengths(compare, &some_rows());
    not_of_edition_1(compare);
    short_and_bad(compare);
    for _ in 0..rounds {
        random_upgrade(compare, random);
    }
}

/// A descriptor with a number, with a body of a length of its own.
fn model(number: u64) -> Model {
    Model {
        issuer: "i".repeat(1 + number as usize % 7),
        ..Model::plain().numbered_by_turns(number)
    }
}

/// Its row, in edition 2 with a moment.
fn row(number: u64) -> Row {
    Row::used(&model(number), 1 + number)
}

/// An upgrade to a buffer of so many bytes.
fn upgrade(compare: &mut Compare, old: &[u8], length: usize) {
    compare.image_upgrade(old, &mut vec![0xc3; length]);
}

/// Buffers of each short length, around the length of the old image and of the new one; with bytes after the old image and without.
fn lengths(compare: &mut Compare, rows: &[Row]) {
    let old = image_of(1, rows);
    let new = old.len() + 8 * rows.len();
    for tail in [0, 1, 300] {
        let old = [&old[..], &vec![0x3c; tail]].concat();
        let near = [old.len(), new, new + 40].into_iter();
        for length in near.flat_map(|at| at - 8..=at + 2).chain(0..10) {
            upgrade(compare, &old, length);
        }
        upgrade(compare, &old, new + 1000);
    }
}

/// Images of other editions, and rows of edition 2 under the number of edition 1.
fn not_of_edition_1(compare: &mut Compare) {
    for count in [0, 1, 3, 64, 65] {
        let rows: Vec<Row> = (0..count).map(row).collect();
        for edition in [0, 1, 2, 3, 256, 257] {
            for number in [1, 2] {
                let mut old = image_of(edition, &rows);
                upgrade(compare, &old, old.len() + 600);
                old[1] = number;
                upgrade(compare, &old, old.len() + 600);
            }
        }
    }
}

/// Images that aren't sound, with buffers that are too short too.
fn short_and_bad(compare: &mut Compare) {
    let sound = image_of(1, &some_rows());
    for at in (0..8 + 32 * 3).chain([300, sound.len() - 1]) {
        for length in [0, 7, 8, 8 + 40 * 3, sound.len() + 23, sound.len() + 24] {
            let mut old = sound.clone();
            old[at] ^= 1;
            upgrade(compare, &old, length);
            upgrade(compare, &sound[..at], length);
        }
    }
}

/// An upgraded image is asked, and a descriptor submitted to it.
fn asked_and_submitted_to(compare: &mut Compare, rows: &[Row]) {
    let mut bytes = vec![0x96; 8 + (rows.len() + 2) * 600];
    compare.image_upgrade(&image_of(1, rows), &mut bytes);
    for number in [0, rows.len() as u64 / 2, rows.len() as u64] {
        compare.image_find(&bytes, &row(number).id);
        let mut asked = Asked::of(&model(number), bytes);
        asked.now_ms = 2_600_000 + number;
        bytes = asked.run(compare);
    }
    for now in [2700, 2999, 3000] {
        let with = Submission {
            now,
            ..Submission::default()
        };
        let body = Model::full().numbered(1000 + now).bytes();
        compare.submit(&mut bytes, &body, &with);
    }
}

/// A few random descriptors, sometimes edited, and a buffer of some length.
fn random_upgrade(compare: &mut Compare, random: &mut Random) {
    let numbers = 0..random.below(5) as u64;
    let rows: Vec<Row> = numbers
        .map(|number| Row::of(&any_model(random).numbered_by_turns(number)))
        .collect();
    let mut old = image_of(*random.pick(&[1, 1, 1, 2]), &rows);
    let new = old.len() + 8 * rows.len();
    if random.once_in(3) {
        old.extend(random.bytes(30));
    }
    if random.once_in(4) {
        edit(&mut old, random);
    }
    let length = match random.below(3) {
        0 => random.below(new + 100),
        1 => new + random.below(100),
        _ => new + random.below(3) - 1,
    };
    let mut bytes = random.bytes(length);
    compare.image_upgrade(&old, &mut bytes);
}
