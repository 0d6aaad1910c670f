//! Submissions: each step failing alone and in pairs, each limit, and long sequences on buffers of many lengths. Removal has cases
//! of its own.

use reference::Submission;

use super::changes::{edit, set};
use super::descriptors::any_model_of_version_7;
use super::images::{some_rows, EDITIONS};
use crate::compare::Compare;
use crate::encoder::{image, image_of, Model, Row, NEW_ROW};
use crate::random::Random;

/// How far ahead of the clock a period may begin.
pub const DAY: u64 = 86_400;

/// All cases of submissions.
pub fn run(compare: &mut Compare, random: &mut Random, rounds: usize) {
    steps(compare);
    clocks(compare);
    rooms(compare);
    fill(compare, random);
    for _ in 0..rounds / 4 {
        sequence(compare, random);
    }
}

/// The buffer, the descriptor and the numbers of a submission.
#[derive(Clone)]
pub struct Submitted {
    pub image: Vec<u8>,
    pub model: Model,
    /// The bytes to submit, where they aren't the model's.
    pub body: Option<Vec<u8>>,
    pub with: Submission,
}

impl Submitted {
    /// A submission that is stored beside some rows.
    pub fn fine() -> Submitted {
        Submitted {
            image: [image(&some_rows()), vec![0xaa; 1000]].concat(),
            model: Model {
                not_before: 5 * DAY,
                not_after: 6 * DAY,
                ..Model::plain().numbered(50)
            },
            body: None,
            with: Submission {
                now: 5 * DAY,
                ..Submission::default()
            },
        }
    }

    /// Submits to a copy of the buffer.
    pub fn run(&self, compare: &mut Compare) {
        let body = self.body.clone().unwrap_or_else(|| self.model.bytes());
        compare.submit(&mut self.image.clone(), &body, &self.with);
    }
}

/// Each step failing alone, and each two.
fn steps(compare: &mut Compare) {
    let changes: [fn(&mut Submitted); 27] = [
        |_| {},
        |s| s.with.verdict = 3,
        |s| s.with.verdict = u64::MAX,
        |s| set(&mut s.image, 1, 1),
        |s| set(&mut s.image, 1, 3),
        |s| s.image = [image_of(1, &some_rows()), vec![0xaa; 1000]].concat(),
        |s| s.image.truncate(7),
        |s| s.image.clear(),
        |s| s.body = Some(Vec::new()),
        |s| s.body = Some(s.model.bytes().split_off(1)),
        |s| s.model.issuer.clear(),
        |s| s.model.not_after = s.model.not_before + 7_776_001,
        |s| s.with.now = s.model.not_before - DAY - 1,
        |s| s.with.now = s.model.not_before - DAY,
        |s| s.with.verdict = 2,
        |s| s.with.valid_from = s.with.now + 1,
        |s| s.with.valid_from = s.with.now,
        |s| (s.with.has_valid_until, s.with.valid_until) = (1, s.with.now - 1),
        |s| (s.with.has_valid_until, s.with.valid_until) = (1, s.with.now),
        |s| (s.with.has_valid_until, s.with.valid_until) = (u64::MAX, 0),
        |s| (s.with.has_valid_until, s.with.valid_until) = (0, 1),
        |s| s.with.verdict = 1,
        |s| s.model.id = some_rows()[0].id.clone(),
        |s| s.body = Some(some_rows()[1].body.clone()),
        |s| s.image.truncate(image(&some_rows()).len() + NEW_ROW),
        |s| s.image.truncate(image(&some_rows()).len()),
        |s| s.image = image(&[Row::of(&s.model.clone().numbered(51))]),
    ];
    let fine = Submitted::fine();
    for first in changes {
        for second in changes {
            for third in [changes[0], changes[21], changes[22]] {
                let mut submitted = fine.clone();
                first(&mut submitted);
                second(&mut submitted);
                third(&mut submitted);
                submitted.run(compare);
            }
        }
    }
}

/// Clocks, beginnings and key windows at their ends.
fn clocks(compare: &mut Compare) {
    let moments = [
        0,
        1,
        DAY - 1,
        DAY,
        DAY + 1,
        1 << 32,
        u64::MAX - DAY - 1,
        u64::MAX - DAY,
        u64::MAX - DAY + 1,
        u64::MAX - 2,
        u64::MAX - 1,
        u64::MAX,
    ];
    let empty = [image(&[]), vec![0xcc; 600]].concat();
    for not_before in moments {
        let model = Model {
            issued_at: 0,
            not_before,
            not_after: not_before.saturating_add(1),
            ..Model::plain()
        };
        let body = model.bytes();
        for now in moments {
            for (valid_from, has_valid_until, valid_until) in [
                (0, 0, 0),
                (now, 1, now),
                (now.wrapping_add(1), 0, 0),
                (now.wrapping_sub(1), 1, now.wrapping_add(1)),
                (0, 1, now.wrapping_sub(1)),
                (0, 1 << 63, u64::MAX),
                (u64::MAX, 0, 0),
            ] {
                let with = Submission {
                    now,
                    verdict: 0,
                    valid_from,
                    has_valid_until,
                    valid_until,
                };
                compare.submit(&mut empty.clone(), &body, &with);
            }
        }
    }
}

/// Exactly enough room, and some bytes less and more.
fn rooms(compare: &mut Compare) {
    let rows = some_rows();
    let body = Model::full().numbered(9).bytes();
    let with = Submission {
        now: 2000,
        ..Submission::default()
    };
    for count in 0..3 {
        let held = image(&rows[..count]);
        let needed = NEW_ROW + body.len();
        for room in (0..40).chain(needed - 35..needed + 5) {
            let mut bytes = [&held[..], &vec![0x77; room]].concat();
            compare.submit(&mut bytes, &body, &with);
            compare.image_find(&bytes, &[9; 16]);
        }
    }
}

/// Many rows one after another.
fn fill(compare: &mut Compare, random: &mut Random) {
    let mut bytes = random.bytes(60_000);
    compare.image_new(&mut bytes);
    let with = Submission {
        now: 2000,
        ..Submission::default()
    };
    for number in 0..66 {
        let mut model = if number % 3 == 0 {
            Model::full()
        } else {
            Model::plain()
        }
        .numbered(number);
        model.issuer = "i".repeat(1 + number as usize);
        compare.submit(&mut bytes, &model.bytes(), &with);
        compare.image_find(&bytes, &model.id);
        model.issuer.push('i');
        compare.submit(&mut bytes, &model.bytes(), &with);
    }
    for number in [0, 1, 63, 64] {
        compare.image_find(&bytes, &Model::plain().numbered(number).id);
    }
}

/// A sequence of submissions and lookups on one buffer, which is sometimes lent in part or edited.
fn sequence(compare: &mut Compare, random: &mut Random) {
    let length = if random.once_in(4) {
        random.below(600)
    } else {
        random.between(600, 6000)
    };
    let mut bytes = random.bytes(length);
    let models: Vec<Model> = (0..6)
        .map(|i| near_now(any_model_of_version_7(random), random).numbered(i))
        .collect();
    if random.once_in(8) {
        let rows: Vec<Row> = models[..random.below(4)].iter().map(Row::of).collect();
        bytes.splice(0..0, image_of(*random.pick(&EDITIONS), &rows));
    } else {
        compare.image_new(&mut bytes);
    }
    for _ in 0..12 {
        let mut body = random.pick(&models).bytes();
        if random.once_in(6) {
            edit(&mut body, random);
        }
        let with = Submission {
            now: if random.once_in(6) {
                random.edge()
            } else {
                2_000_000
            },
            verdict: if random.once_in(6) {
                random.below(4) as u64
            } else {
                0
            },
            valid_from: if random.once_in(8) { random.edge() } else { 0 },
            has_valid_until: random.below(2) as u64,
            valid_until: if random.once_in(8) {
                random.edge()
            } else {
                u64::MAX
            },
        };
        let lent = if random.once_in(5) {
            random.below(bytes.len() + 1)
        } else {
            bytes.len()
        };
        compare.submit(&mut bytes[..lent], &body, &with);
        compare.image_find(&bytes, &random.pick(&models).id);
        if random.once_in(40) {
            edit(&mut bytes, random);
        }
    }
}

/// The same descriptor with a period near the moment 2,000,000, mostly.
fn near_now(mut model: Model, random: &mut Random) -> Model {
    if !random.once_in(10) {
        model.issued_at = 0;
        model.not_before = 2_000_000 + random.below(90_000) as u64;
        model.not_after = model.not_before + 1 + random.below(7_776_000) as u64;
    }
    model
}
