//! The ids of a submitted descriptor: each version and variant, each bit, upper-case digits at each place, alone and beside each
//! other refusal, held bytes, and random ids in long sequences; and the calls that take any ids.

use reference::Submission;

use super::changes::set;
use super::images::EDITIONS;
use super::removals::at;
use super::requests::Asked;
use super::submissions::{Submitted, DAY};
use crate::compare::Compare;
use crate::encoder::{image, image_of, Model, Row};
use crate::random::Random;
use crate::uuid::{
    any_uuid, any_version_7, put_any, text_of, uuid_of, with_variant, with_version, Id, IDS,
};

/// UUIDs of version 7: the example of RFC 9562, one of letters, and those with few bits, with many, and with the digits of the version
/// and the variant at other places too.
const VERSION_7: [&str; 5] = [
    "017f22e2-79b0-7cc3-98c4-dc0c0c07398f",
    LETTERS,
    "00000000-0000-7000-8000-000000000000",
    "ffffffff-ffff-7fff-bfff-ffffffffffff",
    "77777777-7777-7777-8888-888888888888",
];

/// A UUID of version 7 with a letter wherever one can stand.
const LETTERS: &str = "abcdefab-cdef-7abc-abcd-efabcdefabcd";

/// The other examples of RFC 9562, the versions 1, 3, 4, 5, 6 and 8, and its nil and max UUID.
const EXAMPLES: [&str; 8] = [
    "c232ab00-9414-11ec-b3c8-9f6bdeced846",
    "5df41881-3aed-3515-88a7-2f4a814cf09e",
    "919108f7-52d1-4320-9bac-f847db4148a8",
    "2ed6657d-e927-568b-95e1-2665a8aea6a2",
    "1ec9414c-232a-6b00-b3c8-9f6bdeced846",
    "2489e9ad-2ee2-8e00-8ec9-32d5f69181c0",
    "00000000-0000-0000-0000-000000000000",
    "ffffffff-ffff-ffff-ffff-ffffffffffff",
];

/// UUIDs of other versions and variants, which no id may have, and one with an upper-case digit, which no text may have.
const NOT_TAKEN: [&str; 9] = [
    "017f22e2-79b0-4cc3-98c4-dc0c0c07398f",
    "017f22e2-79b0-6cc3-98c4-dc0c0c07398f",
    "017f22e2-79b0-8cc3-98c4-dc0c0c07398f",
    "017f22e2-79b0-fcc3-98c4-dc0c0c07398f",
    "017f22e2-79b0-7cc3-18c4-dc0c0c07398f",
    "017f22e2-79b0-7cc3-58c4-dc0c0c07398f",
    "017f22e2-79b0-7cc3-d8c4-dc0c0c07398f",
    "017f22e2-79b0-4cc3-d8c4-dc0c0c07398f",
    "017f22e2-79b0-7cc3-98c4-dc0c0c07398F",
];

/// All cases of ids.
pub fn run(compare: &mut Compare, random: &mut Random, rounds: usize) {
    let fine = Submitted::fine();
    versions_and_variants(compare, &fine);
    bits(compare, &fine);
    letters(compare, &fine);
    bytes(compare, &fine);
    beside_other_steps(compare, &fine);
    held(compare);
    for text in VERSION_7.iter().chain(&EXAMPLES).chain(&NOT_TAKEN) {
        for id in IDS {
            submit_with(compare, &fine, id, text);
            any_call(compare, &with_id(id, text));
        }
    }
    for _ in 0..rounds {
        random_ids(compare, &fine, random);
    }
    for _ in 0..rounds / 10 + 1 {
        sequence(compare, random);
    }
}

/// A descriptor of which one id has the UUID of a text.
fn with_id(id: Id, text: &str) -> Model {
    let mut model = Model::plain();
    id.put(&mut model, text);
    model
}

/// A submission with the UUID of a text for one id.
fn submit_with(compare: &mut Compare, fine: &Submitted, id: Id, text: &str) {
    let mut submitted = fine.clone();
    id.put(&mut submitted.model, text);
    submitted.run(compare);
}

/// Each version with each variant, for each id.
fn versions_and_variants(compare: &mut Compare, fine: &Submitted) {
    for text in VERSION_7 {
        for (version, variant) in (0..64).map(|n| (n / 4, n % 4)) {
            let uuid = with_variant(with_version(uuid_of(text), version), variant);
            for id in IDS {
                submit_with(compare, fine, id, &text_of(uuid));
            }
        }
    }
}

/// Each bit changed, for each id.
fn bits(compare: &mut Compare, fine: &Submitted) {
    for text in VERSION_7 {
        for bit in 0..128 {
            let mut uuid = uuid_of(text);
            uuid[bit / 8] ^= 1 << (bit % 8);
            for id in IDS {
                submit_with(compare, fine, id, &text_of(uuid));
            }
        }
    }
}

/// One letter in upper case, all but one, and all, for each id; and a name in upper case.
fn letters(compare: &mut Compare, fine: &Submitted) {
    let upper = LETTERS.to_uppercase();
    for id in IDS {
        submit_with(compare, fine, id, &upper);
        for at in 0..LETTERS.len() {
            let one = with_part_of(LETTERS, at, &upper);
            let all_but_one = with_part_of(&upper, at, LETTERS);
            for text in [one, all_but_one] {
                submit_with(compare, fine, id, &text);
                any_call(compare, &with_id(id, &text));
            }
        }
    }
    let mut named = fine.clone();
    named.model.grants[0].pattern += "/Room/F";
    named.run(compare);
}

/// A text with the letter that another has at a place.
fn with_part_of(text: &str, at: usize, other: &str) -> String {
    [&text[..at], &other[at..=at], &text[at + 1..]].concat()
}

/// Bytes around those of the digits, at each place of each text, in the payload and in the patterns, and in the payload alone.
fn bytes(compare: &mut Compare, fine: &Submitted) {
    for id in [Id::Fay, Id::Terminal] {
        for at in 0..LETTERS.len() {
            for byte in [
                "0", "9", ":", "/", "@", "A", "F", "G", "`", "a", "f", "g", "-",
            ] {
                let text = [&LETTERS[..at], byte, &LETTERS[at + 1..]].concat();
                submit_with(compare, fine, id, &text);
            }
        }
    }
    let mut submitted = fine.clone();
    submitted.model.terminal = format!("terminal:{LETTERS}");
    for text in [LETTERS, &LETTERS.to_uppercase()] {
        submitted.model.grants[0].pattern = format!("terminal:{text}/a");
        submitted.run(compare);
    }
}

/// A change of a submission.
type Change = fn(&mut Submitted);

/// The period is too long.
const TOO_LONG: Change = |s| s.model.not_after = s.model.not_before + 7_776_001;
/// The period begins too far ahead.
const TOO_FAR_AHEAD: Change = |s| s.with.now = s.model.not_before - DAY - 1;
/// The signature is bad.
const BAD_SIGNATURE: Change = |s| s.with.verdict = 1;
/// Other bytes are held under the id.
const ID_HELD: Change = |s| s.image = with_room(image(&[Row::of(&other_bytes(&s.model))]));

/// Changes by which another step refuses or just doesn't, or the bytes or the id are held.
const STEPS: [Change; 19] = [
    |_| {},
    |s| s.with.verdict = 3,
    |s| s.image.truncate(7),
    |s| set(&mut s.image, 1, 3),
    |s| s.image = with_room(image_of(1, &[Row::of(&s.model)])),
    |s| s.model.issuer.clear(),
    TOO_LONG,
    |s| s.model.not_after = s.model.not_before + 7_776_000,
    TOO_FAR_AHEAD,
    |s| s.with.now = s.model.not_before - DAY,
    |s| s.with.verdict = 2,
    |s| s.with.valid_from = s.with.now + 1,
    |s| (s.with.has_valid_until, s.with.valid_until) = (1, s.with.now - 1),
    BAD_SIGNATURE,
    |s| s.image = with_room(image(&[Row::of(&s.model)])),
    |s| s.image = image(&[Row::of(&s.model)]),
    ID_HELD,
    |s| s.image = image(&[Row::of(&other_bytes(&s.model))]),
    |s| s.image = image(&[Row::of(&s.model.clone().numbered(51))]),
];

/// The bytes and room for a body more.
fn with_room(bytes: Vec<u8>) -> Vec<u8> {
    [bytes, vec![0xaa; 1000]].concat()
}

/// The same descriptor with another issuer.
fn other_bytes(model: &Model) -> Model {
    Model {
        issuer: "other".into(),
        ..model.clone()
    }
}

/// Each other step beside each id that isn't taken, and beside one that is; alone and with a second step.
fn beside_other_steps(compare: &mut Compare, fine: &Submitted) {
    for text in NOT_TAKEN.into_iter().chain([LETTERS]) {
        for id in IDS {
            for first in STEPS {
                for second in [first, TOO_LONG, TOO_FAR_AHEAD, BAD_SIGNATURE, ID_HELD] {
                    let mut submitted = fine.clone();
                    id.put(&mut submitted.model, text);
                    first(&mut submitted);
                    second(&mut submitted);
                    submitted.run(compare);
                }
            }
        }
    }
}

/// A descriptor for each id and each UUID that isn't taken, each with a descriptor id of its own.
fn not_taken_models() -> Vec<Model> {
    let numbered = NOT_TAKEN.into_iter().zip(100..);
    let with_each = |(text, number)| {
        IDS.map(|id| {
            let mut model = Model::plain().numbered(number + 100 * id as u64);
            id.put(&mut model, text);
            model
        })
    };
    numbered.flat_map(with_each).collect()
}

/// An image of bodies that aren't taken: each is submitted again, with the same period and with others, looked up and asked for; they
/// are upgraded, and removed where they are expired.
fn held(compare: &mut Compare) {
    let models = not_taken_models();
    let rows: Vec<Row> = models.iter().map(Row::of).collect();
    for room in [0, 2000] {
        let bytes = [image(&rows), vec![0x5a; room]].concat();
        for model in &models {
            for not_after in [2999, 3000, 3001, 2000 + 7_776_001] {
                let body = Model {
                    not_after,
                    ..model.clone()
                };
                for now in [2500, 3000, 0] {
                    compare.submit(&mut bytes.clone(), &body.bytes(), &at(now));
                }
            }
            compare.image_find(&bytes, &model.id);
            Asked::of(model, bytes.clone()).run(compare);
        }
        for now in [2999, 3000] {
            let new = Model::plain().numbered(1000).bytes();
            compare.submit(&mut bytes.clone(), &new, &at(now));
        }
    }
    let old = image_of(1, &rows);
    compare.image_upgrade(&old, &mut vec![0; old.len() + 512]);
}

/// The calls that take a descriptor of any ids, stored or not.
fn any_call(compare: &mut Compare, model: &Model) {
    let body = model.bytes();
    compare.descriptor_read(&body);
    let mut other = Model::plain().numbered(1);
    other.move_to(&model.terminal);
    for (parent, child) in [(model, model), (model, &other), (&other, model)] {
        compare.narrow(&parent.bytes(), &child.bytes());
    }
    for edition in EDITIONS {
        let bytes = image_of(edition, &[Row::of(&other), Row::of(model)]);
        for asked_for in [model, &other] {
            compare.image_find(&bytes, &asked_for.id);
            Asked::of(asked_for, bytes.clone()).run(compare);
        }
        compare.image_upgrade(&bytes, &mut vec![0; bytes.len() + 512]);
        let new = Model::plain().numbered(2).bytes();
        for submitted in [&new, &body] {
            compare.submit(&mut with_room(bytes.clone()), submitted, &at(2000));
        }
    }
    let resource = format!("{}/a/b", model.terminal);
    let pattern = &model.grants[0].pattern;
    compare.matching(pattern.as_bytes(), resource.as_bytes());
}

/// A UUID text that is taken, or nearly.
fn any_text(random: &mut Random) -> String {
    let uuid = any_version_7(random);
    let text = text_of(uuid);
    match random.below(16) {
        0 => text_of(any_uuid(random)),
        1 => text_of(with_version(uuid, random.below(16) as u8)),
        2 => text_of(with_variant(uuid, random.below(4) as u8)),
        3 => text.to_uppercase(),
        4 => with_part_of(&text, random.below(text.len()), &text.to_uppercase()),
        _ => text,
    }
}

/// The same descriptor with random ids, of which most are taken.
fn with_any_ids(mut model: Model, random: &mut Random) -> Model {
    if random.once_in(8) {
        put_any(&mut model, random);
        return model;
    }
    for id in IDS {
        id.put(&mut model, &any_text(random));
    }
    model
}

/// A descriptor with random ids, submitted, and in each other call.
fn random_ids(compare: &mut Compare, fine: &Submitted, random: &mut Random) {
    let mut submitted = fine.clone();
    submitted.model = with_any_ids(submitted.model, random);
    for _ in 0..random.below(3) {
        random.pick(&STEPS)(&mut submitted);
    }
    submitted.run(compare);
    if random.once_in(4) {
        any_call(compare, &with_any_ids(Model::plain(), random));
    }
}

/// Submissions, requests and lookups on one buffer, which begins with an image of any ids, sometimes an upgraded one.
fn sequence(compare: &mut Compare, random: &mut Random) {
    let models: Vec<Model> = (0..10)
        .map(|_| with_any_ids(Model::plain(), random))
        .collect();
    let first: Vec<Row> = models[..random.below(4)].iter().map(Row::of).collect();
    let length = random.between(1500, 5000);
    let mut bytes = random.bytes(length);
    if random.once_in(2) {
        compare.image_upgrade(&image_of(1, &first), &mut bytes);
    } else {
        bytes.splice(0..0, image(&first));
    }
    let mut now = 2000;
    for _ in 0..20 {
        now += random.below(60) as u64;
        let mut model = random.pick(&models).clone();
        match random.below(8) {
            0 => model.issuer.push('i'),
            1 => model.not_after = model.not_before + 7_776_001,
            2 => (model.not_before, model.not_after) = (now + DAY + 1, now + DAY + 2),
            _ => {}
        }
        let with = Submission {
            verdict: u64::from(random.once_in(8)),
            ..at(now)
        };
        compare.submit(&mut bytes, &model.bytes(), &with);
        let asked_for = random.pick(&models);
        compare.image_find(&bytes, &asked_for.id);
        let mut asked = Asked::of(asked_for, bytes);
        asked.now_ms = 1000 * now;
        bytes = asked.run(compare);
    }
}
