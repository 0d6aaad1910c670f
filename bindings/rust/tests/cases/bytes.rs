//! Images of both editions with each byte changed to each value, asked for their last row and for one before it.

use reference::Request;

use super::images::{some_rows, EDITIONS};
use crate::compare::Compare;
use crate::encoder::{grant, image_of, Model, Row, FAY, ID, MODES, TERMINAL};
use crate::random::Random;

/// The id of the last row, which is of version 4.
const LAST_ID: [u8; 16] = [1, 2, 3, 4, 5, 6, 0x47, 8, 0x80, 0, 0, 0, 0, 0, 0, 2];

/// All cases of changed bytes.
pub fn run(compare: &mut Compare, random: &mut Random, _: usize) {
    for edition in EDITIONS {
        every_value(compare, &image_of(edition, &some_rows()));
        some_values(compare, &image_of(edition, &long_rows()), random);
    }
}

/// Each byte with each value.
fn every_value(compare: &mut Compare, image: &[u8]) {
    let mut changed = image.to_vec();
    for at in 0..image.len() {
        for value in 0..=255 {
            changed[at] = value;
            ask(compare, &changed);
        }
        changed[at] = image[at];
    }
    assert_eq!(ask(compare, &changed), [0, 13]);
}

/// Each byte with those values that are next to it, differ from it by a bit or stand for a kind of item, and with any one.
fn some_values(compare: &mut Compare, image: &[u8], random: &mut Random) {
    let kinds = [
        0x00, 0x18, 0x19, 0x40, 0x58, 0x60, 0x78, 0x79, 0x7a, 0x80, 0xa0,
    ];
    let mut changed = image.to_vec();
    for at in 0..image.len() {
        let byte = image[at];
        let near = [
            byte.wrapping_add(1),
            byte.wrapping_sub(1),
            b'/',
            b'*',
            random.number() as u8,
        ];
        let bits = (0..8).map(|bit| byte ^ 1 << bit);
        for value in kinds.into_iter().chain(near).chain(bits) {
            changed[at] = value;
            ask(compare, &changed);
        }
        changed[at] = image[at];
    }
    assert_eq!(ask(compare, &changed), [0, 13]);
}

/// Requests for the last of the rows, which has every optional key, and for the first.
fn ask(compare: &mut Compare, image: &[u8]) -> [u64; 2] {
    let resource = [TERMINAL.as_bytes(), b"/a/x/b"].concat();
    let request = |id: &[u8; 16]| {
        let asked = Request {
            id,
            fay: FAY.as_bytes(),
            terminal: TERMINAL.as_bytes(),
            resource: &resource,
            now_ms: 2_500_000,
            session_length: 100,
            ..Request::default()
        };
        compare.request(&mut image.to_vec(), &asked)
    };
    [&LAST_ID, &ID].map(request)
}

/// A short row, and a last one whose numbers, lengths and counts have longer heads.
fn long_rows() -> [Row; 2] {
    let pairs = |n: usize| {
        let key = |at: usize| format!("{at:02}{}", "k".repeat(8 * at));
        Some((1..=n).map(|at| (key(at), "v".repeat(32 * at))).collect())
    };
    let mut model = Model::full();
    model.id = LAST_ID.to_vec();
    model.grants[1].constraints = pairs(7);
    model.grants[2].pattern = format!("{TERMINAL}/{}/**", levels(68, 204));
    model
        .grants
        .extend((1..23).map(|n| grant(&[MODES[n % 4]], &levels(n % 5 + 1, 9 * n))));
    model.metadata = pairs(6);
    (model.issuer, model.key_id) = ("u".repeat(128), "é".repeat(20));
    model.issued_at = 20;
    model.signature = vec![9; 72];
    [Row::used(&Model::plain(), 7), Row::used(&model, 1 << 40)]
}

/// So many levels that have so many bytes in all.
fn levels(count: usize, length: usize) -> String {
    let names = vec!["n"; count].join("/");
    let more = length.saturating_sub(names.len());
    names + &"-".repeat(more)
}
