//! Images of both editions: each rule broken at each place, each cut, and what lookups, submissions, requests and upgrades then
//! answer.

use reference::{Request, Submission};

use super::changes::edit;
use super::descriptors::any_model;
use crate::compare::Compare;
use crate::encoder::{grant, image_of, row_length, Model, Row, FAY, MODES, TERMINAL};
use crate::random::Random;

/// The editions that are known.
pub const EDITIONS: [u16; 2] = [1, 2];
/// Room for what a submission adds.
const ROOM: usize = 700;

/// All cases of images.
pub fn run(compare: &mut Compare, random: &mut Random, rounds: usize) {
    new_images(compare, random);
    let rows = some_rows();
    for edition in EDITIONS {
        every_byte_of_the_table(compare, edition, &rows, random);
        every_count(compare, edition, &rows);
        every_cut(compare, edition, &rows[..2]);
        for rows in broken_rows(&rows) {
            all_calls(compare, &with_room(image_of(edition, &rows)));
        }
        for bytes in misplaced_bodies(edition, &rows) {
            all_calls(compare, &with_room(bytes));
        }
        many_rows(compare, edition);
    }
    every_edition(compare, &rows);
    for _ in 0..rounds {
        let edition = *random.pick(&EDITIONS);
        let mut bytes = image_of(edition, &rows);
        if random.once_in(3) {
            let used = Row::used(&any_model(random), random.edge());
            bytes = image_of(edition, &[used, rows[0].clone()]);
        }
        bytes.extend(random.bytes(600));
        all_calls(compare, &bytes);
        edit(&mut bytes, random);
        all_calls(compare, &bytes);
    }
}

/// The bytes and room after them.
fn with_room(bytes: Vec<u8>) -> Vec<u8> {
    [bytes, vec![0x55; ROOM]].concat()
}

/// Three rows with different modes and moments, of which the last has an id of version 4.
pub fn some_rows() -> Vec<Row> {
    let models = [
        Model::plain(),
        Model::with(vec![
            grant(&["write"], "b"),
            grant(&["execute", "configure"], "a/**"),
        ])
        .numbered(1),
        Model::full().of_version(4, 2),
    ];
    let moments = [0, 2400, u64::MAX];
    let used = models.iter().zip(moments);
    used.map(|(model, moment)| Row::used(model, moment))
        .collect()
}

/// A lookup of several ids, submissions, a request and upgrades.
fn all_calls(compare: &mut Compare, bytes: &[u8]) {
    let first = Model::plain();
    for id in [
        &first.id[..],
        &Model::plain().numbered(1).id,
        &[9; 16],
        &[9; 15],
        &[9; 17],
        &[],
    ] {
        compare.image_find(bytes, id);
    }
    let with = Submission {
        now: 2000,
        ..Submission::default()
    };
    compare.submit(
        &mut bytes.to_vec(),
        &Model::plain().numbered(77).bytes(),
        &with,
    );
    compare.submit(&mut bytes.to_vec(), &first.bytes(), &with);
    let resource = format!("{TERMINAL}/a/b");
    let asked = Request {
        id: &first.id,
        fay: FAY.as_bytes(),
        terminal: TERMINAL.as_bytes(),
        resource: resource.as_bytes(),
        now_ms: 2_500_000,
        session_length: 100,
        ..Request::default()
    };
    compare.request(&mut bytes.to_vec(), &asked);
    for length in [bytes.len() + 100, 400] {
        compare.image_upgrade(bytes, &mut vec![0x77; length]);
    }
}

/// New images in buffers of each short length, and what they then hold.
fn new_images(compare: &mut Compare, random: &mut Random) {
    for length in (0..50).chain([500, 1000]) {
        let mut bytes = random.bytes(length);
        compare.image_new(&mut bytes);
        all_calls(compare, &bytes);
    }
}

/// Each byte of the header and the rows with other values.
fn every_byte_of_the_table(compare: &mut Compare, edition: u16, rows: &[Row], random: &mut Random) {
    let room = with_room(image_of(edition, rows));
    for at in 0..8 + row_length(edition) * rows.len() {
        let byte = room[at];
        for other in [
            0,
            1,
            2,
            4,
            64,
            65,
            128,
            255,
            byte.wrapping_add(1),
            byte.wrapping_sub(1),
            random.number() as u8,
        ] {
            let mut bytes = room.clone();
            bytes[at] = other;
            all_calls(compare, &bytes);
        }
    }
}

/// Each number of rows up to 300, and those near the limits and above.
fn every_count(compare: &mut Compare, edition: u16, rows: &[Row]) {
    let room = with_room(image_of(edition, rows));
    for count in (0..300).chain([1023, 1024, 1025, 0x0301, 0x0303, u16::MAX]) {
        let mut bytes = room.clone();
        bytes[4..6].copy_from_slice(&count.to_be_bytes());
        all_calls(compare, &bytes);
    }
}

/// The rows of one edition under the number of another, and under other numbers.
fn every_edition(compare: &mut Compare, rows: &[Row]) {
    for edition in EDITIONS {
        for number in [0, 1, 2, 3, 0x0100, 0x0101, 0x0102, 0x0200, 0x0201, u16::MAX] {
            for count in 0..=rows.len() {
                let mut bytes = with_room(image_of(edition, &rows[..count]));
                bytes[..2].copy_from_slice(&number.to_be_bytes());
                all_calls(compare, &bytes);
            }
        }
    }
}

/// The image cut to each length.
fn every_cut(compare: &mut Compare, edition: u16, rows: &[Row]) {
    let sound = image_of(edition, rows);
    for length in 0..=sound.len() {
        compare.image_find(&sound[..length], &rows[0].id);
    }
    for length in (0..200).chain(sound.len() - 20..=sound.len()) {
        all_calls(compare, &sound[..length]);
    }
}

/// Rows with an id, a mask or a body that isn't as it should be.
fn broken_rows(rows: &[Row]) -> Vec<Vec<Row>> {
    let mut all = vec![
        [rows, &rows[..1]].concat(),
        [&rows[..1], rows].concat(),
        vec![rows[2].clone(), rows[0].clone(), rows[1].clone()],
    ];
    let bodies = [
        Vec::new(),
        vec![0],
        Model {
            not_after: 2000 + 7_776_001,
            ..Model::plain()
        }
        .bytes(),
        Model {
            not_after: 2999,
            ..Model::plain()
        }
        .bytes(),
        Model::with(vec![grant(&MODES, "a")]).bytes(),
        [&rows[0].body[..], &[0]].concat(),
        rows[1].body.clone(),
        vec![0xa3; 40_000],
    ];
    for at in 0..rows.len() {
        for body in &bodies {
            let mut broken = rows.to_vec();
            broken[at].body = body.clone();
            all.push(broken);
        }
        for mask in 0..20 {
            let mut broken = rows.to_vec();
            broken[at].mask = mask;
            all.push(broken);
        }
        let mut broken = rows.to_vec();
        broken[at].id = rows[(at + 1) % 3].id.clone();
        all.push(broken);
    }
    all
}

/// Images whose bodies have a gap between them, overlap, or stand in another order than the rows.
fn misplaced_bodies(edition: u16, rows: &[Row]) -> Vec<Vec<u8>> {
    let sound = image_of(edition, rows);
    let row = row_length(edition);
    let (table, bodies) = sound.split_at(8 + row * rows.len());
    let length = rows[0].body.len();
    let mut gap = [table, &[0], bodies].concat();
    for index in 0..rows.len() {
        let at = 8 + row * index + 16;
        let moved = u32::from_be_bytes(gap[at..at + 4].try_into().expect("4 bytes")) + 1;
        gap[at..at + 4].copy_from_slice(&moved.to_be_bytes());
    }
    let (one, two) = (&sound[8..8 + row], &sound[8 + row..8 + 2 * row]);
    let mut swapped = sound.clone();
    swapped[8..8 + 2 * row].copy_from_slice(&[two, one].concat());
    let mut shared = sound.clone();
    shared[8 + row..8 + 2 * row].copy_from_slice(one);
    let middle = [table, &bodies[..length], &[0], &bodies[length..]].concat();
    vec![gap, swapped, shared, middle]
}

/// Images of up to 65 rows, and with an id that recurs.
fn many_rows(compare: &mut Compare, edition: u16) {
    for count in [1, 2, 63, 64, 65] {
        let rows: Vec<Row> = (0..count)
            .map(|i| Row::of(&Model::plain().numbered(i)))
            .collect();
        let mut bytes = image_of(edition, &rows);
        compare.image_find(&bytes, &rows[rows.len() - 1].id);
        compare.image_find(&bytes, &[9; 16]);
        let with = Submission {
            now: 2000,
            ..Submission::default()
        };
        for room in [0, 300, 1000] {
            bytes.extend(vec![0xee; room]);
            compare.submit(
                &mut bytes.clone(),
                &Model::plain().numbered(1000).bytes(),
                &with,
            );
            compare.submit(&mut bytes.clone(), &rows[rows.len() / 2].body, &with);
        }
        let mut twice = rows.clone();
        twice[0] = rows[rows.len() - 1].clone();
        compare.image_find(&image_of(edition, &twice), &rows[0].id);
    }
}
