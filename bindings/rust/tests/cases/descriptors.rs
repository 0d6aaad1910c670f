//! Descriptors: random ones, every limit from both sides, each rule broken at each place, and edited bytes.

use super::changes::{changed, edit, reheaded};
use super::paths::any_levels;
use crate::compare::Compare;
use crate::encoder::{
    grant, head, modes_of, wide_head, Grant, Model, Pairs, MODES, OTHER_TERMINAL, TERMINAL,
};
use crate::random::Random;
use crate::uuid::{put_any, put_version_7};

/// All cases of descriptors.
pub fn run(compare: &mut Compare, random: &mut Random, rounds: usize) {
    one_change(compare, &Model::plain());
    one_change(compare, &Model::full());
    every_byte(compare, &Model::plain().bytes());
    texts(compare);
    strings_and_counts(compare);
    modes(compare);
    times(compare);
    heads(compare);
    sizes(compare);
    for _ in 0..rounds {
        let model = any_model(random);
        let mut bytes = model.bytes();
        compare.descriptor_read(&bytes);
        for _ in 0..8 {
            let mut edited = bytes.clone();
            edit(&mut edited, random);
            compare.descriptor_read(&edited);
        }
        let at = random.below(bytes.len());
        bytes.rotate_left(at);
        compare.descriptor_read(&bytes);
    }
}

/// A descriptor and all that differ from it by one change.
fn one_change(compare: &mut Compare, model: &Model) {
    let value = model.value();
    compare.descriptor_read(&value.encode());
    for value in changed(&value) {
        compare.descriptor_read(&value.encode());
    }
}

/// Each byte with each value, each cut, each byte taken out, and some bytes put in everywhere.
fn every_byte(compare: &mut Compare, bytes: &[u8]) {
    for at in 0..bytes.len() {
        let mut other = bytes.to_vec();
        for byte in 0..=255 {
            other[at] = byte;
            compare.descriptor_read(&other);
        }
        compare.descriptor_read(&bytes[..at]);
        compare.descriptor_read(&[&bytes[..at], &bytes[at + 1..]].concat());
        for byte in [0x00, 0x61, 0x80, 0xf6] {
            compare.descriptor_read(&[&bytes[..at], &[byte], &bytes[at..]].concat());
        }
    }
}

/// Each text with a limit, by letters of one, two and three bytes.
fn texts(compare: &mut Compare) {
    let lengths = [
        0, 1, 2, 21, 22, 23, 24, 25, 31, 32, 33, 42, 43, 63, 64, 65, 66, 85, 86, 127, 128, 129,
        130, 255, 256, 257, 300,
    ];
    let fields: [fn(&mut Model, String); 9] = [
        |model, text| model.issuer = text,
        |model, text| model.grantor = Some(text),
        |model, text| model.key_id = text,
        |model, text| model.metadata = Some(vec![(text, "v".into())]),
        |model, text| model.metadata = Some(vec![("k".into(), text)]),
        |model, text| model.grants[0].constraints = Some(vec![(text, "v".into())]),
        |model, text| model.grants[0].constraints = Some(vec![("k".into(), text)]),
        |model, text| model.algorithm = text,
        |model, text| model.grants[0].pattern = format!("{TERMINAL}/{text}"),
    ];
    for field in fields {
        for letter in ["t", "ü", "€"] {
            for length in lengths {
                let mut model = Model::full();
                field(&mut model, letter.repeat(length));
                compare.descriptor_read(&model.bytes());
            }
        }
    }
}

/// Byte strings, patterns, pairs and grants around their limits.
fn strings_and_counts(compare: &mut Compare) {
    let mut try_with = |change: &dyn Fn(&mut Model)| {
        let mut model = Model::full();
        change(&mut model);
        compare.descriptor_read(&model.bytes());
    };
    for length in 0..80 {
        try_with(&|model| model.signature = vec![1; length]);
        try_with(&|model| {
            model.algorithm = "ed25519".into();
            model.signature = vec![1; length];
        });
        try_with(&|model| model.id = vec![1; length]);
        try_with(&|model| {
            model.grants[2].pattern = format!("{TERMINAL}/{}", "p".repeat(150 + length))
        });
        try_with(&|model| model.fay = model.fay.chars().cycle().take(length).collect());
        try_with(&|model| model.terminal = model.terminal.chars().cycle().take(length).collect());
    }
    for count in 0..26 {
        try_with(&|model| model.metadata = Some(pairs(count)));
        try_with(&|model| model.grants[0].constraints = Some(pairs(count)));
    }
    for count in [0, 1, 2, 22, 23, 24, 25, 254, 255, 256, 257, 258, 300] {
        try_with(&|model| model.grants = vec![grant(&["read"], "g"); count]);
    }
    for place in 0..3 {
        try_with(&|model| model.grants[place].pattern = format!("{OTHER_TERMINAL}/a"));
        try_with(&|model| {
            model.grants[place].pattern = format!("{}/a", OTHER_TERMINAL.to_lowercase())
        });
    }
    try_with(&|model| model.terminal = OTHER_TERMINAL.into());
}

/// So many pairs.
fn pairs(count: usize) -> Pairs {
    (0..count)
        .map(|i| (format!("key{i}"), "value".into()))
        .collect()
}

/// All lists of at most five modes, also of an unknown one.
fn modes(compare: &mut Compare) {
    let names = [MODES[0], MODES[1], MODES[2], MODES[3], "watch", "Read"];
    let mut lists: Vec<Vec<&'static str>> = vec![Vec::new()];
    let mut start = 0;
    for _ in 0..5 {
        let end = lists.len();
        for i in start..end {
            lists.extend(names.map(|name| [&lists[i][..], &[name]].concat()));
        }
        start = end;
    }
    for list in lists {
        compare.descriptor_read(&Model::with(vec![grant(&list, "a")]).bytes());
    }
}

/// Moments around each limit of the encoding, and periods around the longest.
fn times(compare: &mut Compare) {
    let starts = [
        0,
        1,
        23,
        24,
        255,
        256,
        65535,
        65536,
        1 << 32,
        (1 << 32) - 1,
        1 << 63,
        u64::MAX - 7_776_001,
        u64::MAX - 7_776_000,
        u64::MAX - 1,
        u64::MAX,
    ];
    let periods = [
        0,
        1,
        2,
        7_775_999,
        7_776_000,
        7_776_001,
        7_776_002,
        1 << 32,
        1 << 63,
        u64::MAX - 1,
        u64::MAX,
    ];
    for not_before in starts {
        for period in periods {
            for issued_at in [
                0,
                not_before.wrapping_sub(1),
                not_before,
                not_before.wrapping_add(1),
                u64::MAX,
            ] {
                for broken in [false, true] {
                    let not_after = not_before.wrapping_add(period);
                    let mut model = Model {
                        issued_at,
                        not_before,
                        not_after,
                        ..Model::plain()
                    };
                    if broken {
                        model.issuer.clear();
                    }
                    compare.descriptor_read(&model.bytes());
                }
            }
        }
    }
}

/// Numbers, lengths and counts around each limit of the encoding, each under every head.
fn heads(compare: &mut Compare) {
    let mut models = Vec::new();
    for limit in [24, 1 << 8, 1 << 16, 1 << 32] {
        for at in [limit - 2, limit - 1, limit] {
            models.push(Model {
                issued_at: at,
                not_before: at,
                not_after: at + 1,
                ..Model::plain()
            });
        }
    }
    for length in [23, 24, 255, 256] {
        let value = "v".repeat(length);
        models.push(Model {
            issuer: value.clone(),
            metadata: Some(vec![("k".repeat(length), value)]),
            ..Model::plain()
        });
        models.push(Model::with(vec![
            grant(
                &["read"],
                &"p".repeat(length.saturating_sub(46).max(1))
            );
            length.min(24)
        ]));
    }
    for model in models {
        for value in reheaded(&model.value()) {
            compare.descriptor_read(&value.encode());
        }
    }
    for count in [255, 256] {
        let bytes = Model::with(vec![grant(&["read"], "g"); count]).bytes();
        let (before, after) = bytes.split_at(17);
        let rest = &after[head(4, count as u64).len()..];
        for width in 0..4 {
            compare.descriptor_read(&[before, &wide_head(4, count as u64, width), rest].concat());
        }
    }
}

/// Descriptors of every length around the longest.
fn sizes(compare: &mut Compare) {
    let grants: Vec<Grant> = (0..250)
        .map(|_| grant(&["read"], &"g".repeat(51)))
        .collect();
    let mut model = Model::with(grants);
    for length in 32_700..32_800 {
        let missing = length - model.bytes().len() as i64;
        let pattern = &mut model.grants[(length % 250) as usize].pattern;
        for _ in 0..missing {
            pattern.push('x');
        }
        assert!(pattern.len() < 256 && model.bytes().len() as i64 == length);
        compare.descriptor_read(&model.bytes());
    }
}

/// A descriptor that reads, or nearly, with any ids or with ids of version 7.
pub fn any_model(random: &mut Random) -> Model {
    let mut model = any_model_of_version_7(random);
    if random.once_in(2) {
        put_any(&mut model, random);
    }
    model
}

/// A descriptor that reads, or nearly, with ids of version 7.
pub fn any_model_of_version_7(random: &mut Random) -> Model {
    let grants = if random.once_in(40) {
        random.between(1, 256)
    } else {
        random.between(1, 6)
    };
    let not_before = random.edge();
    let period = *random.pick(&[1, 2, 100, 7_776_000, 7_776_001, 86_400]);
    let ecdsa = random.once_in(2);
    let mut model = Model {
        grants: (0..grants).map(|_| any_grant(random)).collect(),
        metadata: random.once_in(2).then(|| any_pairs(random, 16)),
        issued_at: not_before.saturating_sub(random.below(3) as u64),
        issuer: any_text(random, 1, 128),
        not_after: not_before.saturating_add(period),
        grantor: random.once_in(2).then(|| any_text(random, 1, 128)),
        not_before,
        key_id: any_text(random, 1, 64),
        algorithm: if ecdsa {
            "ecdsa-p256-sha256"
        } else {
            "ed25519"
        }
        .into(),
        signature: if ecdsa {
            vec![3; random.between(1, 72)]
        } else {
            random.bytes(64)
        },
        ..Model::plain()
    };
    put_version_7(&mut model, random);
    model
}

/// A grant under the usual terminal.
fn any_grant(random: &mut Random) -> Grant {
    let mut modes = modes_of(random.between(1, 15));
    let turns = random.below(modes.len());
    modes.rotate_left(turns);
    let constraints = random.once_in(3).then(|| any_pairs(random, 8));
    Grant {
        constraints,
        ..grant(&modes, &any_levels(random, 5))
    }
}

/// Pairs with different keys.
fn any_pairs(random: &mut Random, most: usize) -> Pairs {
    let mut pairs: Pairs = (0..random.below(most + 1))
        .map(|_| (any_text(random, 1, 64), any_text(random, 0, 40)))
        .collect();
    pairs.sort();
    pairs.dedup_by(|one, other| one.0 == other.0);
    pairs
}

/// A text of a length in bytes between the two.
fn any_text(random: &mut Random, least: usize, most: usize) -> String {
    let most = if random.once_in(4) {
        most
    } else {
        most.min(least + 6)
    };
    let length = random.between(least, most);
    let mut text = String::new();
    while text.len() < length {
        let letter = *random.pick(&['a', 'k', 'Z', '0', ' ', 'ü', '€', '𐍈', '\0']);
        if text.len() + letter.len_utf8() <= length {
            text.push(letter);
        }
    }
    text
}
