//! Changes that break one rule: of a value anywhere in it, and of plain bytes.

use crate::encoder::{wide_head, Value};
use crate::random::Random;

/// All values that differ from this one by one change somewhere.
pub fn changed(value: &Value) -> Vec<Value> {
    anywhere(value, changed_here)
}

/// All values that differ from this one by one head that isn't the right one.
pub fn reheaded(value: &Value) -> Vec<Value> {
    anywhere(value, other_heads)
}

/// The value with the changes made to it, and to each value inside it.
fn anywhere(value: &Value, here: fn(&Value) -> Vec<Value>) -> Vec<Value> {
    let mut all = here(value);
    match value {
        Value::Array(items) => {
            for (i, item) in items.iter().enumerate() {
                let news = anywhere(item, here).into_iter();
                all.extend(news.map(|new| Value::Array(with(items, i, new))));
            }
        }
        Value::Map(pairs) => {
            for (i, (key, value)) in pairs.iter().enumerate() {
                let keys = anywhere(key, here)
                    .into_iter()
                    .map(|new| (new, value.clone()));
                let values = anywhere(value, here)
                    .into_iter()
                    .map(|new| (key.clone(), new));
                all.extend(
                    keys.chain(values)
                        .map(|new| Value::Map(with(pairs, i, new))),
                );
            }
        }
        _ => {}
    }
    all
}

/// The list with another thing at a place.
fn with<T: Clone>(things: &[T], place: usize, new: T) -> Vec<T> {
    let mut things = things.to_vec();
    things[place] = new;
    things
}

/// The changes of the value itself.
fn changed_here(value: &Value) -> Vec<Value> {
    let mut all = other_kinds();
    all.extend(other_heads(value));
    match value {
        Value::Unsigned(n) => {
            let near = [n.wrapping_add(1), n.wrapping_sub(1), n ^ 1 << 32];
            all.extend(near.map(Value::Unsigned));
        }
        Value::Bytes(content) => all.extend(changed_content(content).into_iter().map(Value::Bytes)),
        Value::Text(content) => all.extend(changed_content(content).into_iter().map(Value::Text)),
        Value::Array(items) => all.extend(changed_list(items).into_iter().map(Value::Array)),
        Value::Map(pairs) => {
            all.extend(changed_list(pairs).into_iter().map(Value::Map));
            all.extend(unknown_keys(pairs));
        }
        Value::Raw(_) => {}
    }
    all
}

/// Short values of every kind, also of those that never occur.
fn other_kinds() -> Vec<Value> {
    let raw = [
        &b""[..],
        b"\x20",
        b"\xf4",
        b"\xf5",
        b"\xf6",
        b"\xf7",
        b"\xf9\x3c\x00",
        b"\xf8\x20",
        b"\xff",
        b"\x7f\x61a\xff",
        b"\x9f\xff",
        b"\xbf\xff",
    ];
    let mut all: Vec<Value> = raw.iter().map(|bytes| Value::Raw(bytes.to_vec())).collect();
    all.extend([
        Value::Unsigned(0),
        Value::Unsigned(1),
        Value::Unsigned(u64::MAX),
        Value::Bytes(Vec::new()),
        Value::Bytes(vec![1; 16]),
        Value::text(""),
        Value::text("a"),
        Value::Array(Vec::new()),
        Value::Map(Vec::new()),
    ]);
    all
}

/// The same content under each wider head, under a head of no length, under a tag, and under a wrong number or kind.
fn other_heads(value: &Value) -> Vec<Value> {
    let Some((major, number)) = value.head() else {
        return Vec::new();
    };
    let mut heads: Vec<Vec<u8>> = (0..4)
        .map(|width| wide_head(major, number, width))
        .collect();
    heads.push(vec![major << 5 | 31]);
    heads.push([vec![0xc1], crate::encoder::head(major, number)].concat());
    heads.push(crate::encoder::head(major, number.wrapping_add(1)));
    heads.push(crate::encoder::head(major, number.wrapping_sub(1)));
    heads.push(crate::encoder::head(major ^ 1, number));
    heads
        .into_iter()
        .map(|mut bytes| {
            value.write_content(&mut bytes);
            Value::Raw(bytes)
        })
        .collect()
}

/// A string's content shorter, longer, and with other bytes at its ends and in its middle.
fn changed_content(content: &[u8]) -> Vec<Vec<u8>> {
    let mut all = vec![content.repeat(2), [content, b"\xc3"].concat()];
    for byte in [b'a', b'/', b'*', b' ', 0, 0x80] {
        all.push([content, &[byte]].concat());
        all.push([&[byte], content].concat());
    }
    if let [first, rest @ ..] = content {
        all.push(rest.to_vec());
        all.push([&[first ^ 0x20], rest].concat());
    }
    for place in [
        0,
        content.len() / 3,
        content.len() / 2,
        content.len().wrapping_sub(1),
    ] {
        if place < content.len() {
            let others = [
                b'a',
                b'G',
                b'/',
                b'*',
                b'-',
                0x7f,
                0xff,
                content[place] ^ 1,
                content[place] ^ 0x20,
            ];
            all.extend(others.map(|byte| with(content, place, byte)));
            all.push([&content[..place], &content[place + 1..]].concat());
        }
    }
    all
}

/// A list without each of its things, with each twice, and with neighbours the other way round.
fn changed_list<T: Clone>(things: &[T]) -> Vec<Vec<T>> {
    let mut all = Vec::new();
    for place in 0..things.len() {
        let (before, after) = things.split_at(place);
        all.push([before, &after[1..]].concat());
        all.push([before, &after[..1], after].concat());
        all.push([&after[..1], before, &after[1..]].concat());
        if place > 0 {
            let mut swapped = things.to_vec();
            swapped.swap(place - 1, place);
            all.push(swapped);
        }
    }
    all
}

/// A map with a key more, before each of its keys and at its end.
fn unknown_keys(pairs: &[(Value, Value)]) -> Vec<Value> {
    let keys = ["", "a", "modez", "zzzzzzzzzzzzzzzz", "resource_patterns"];
    let mut all = Vec::new();
    for place in 0..=pairs.len() {
        for key in keys {
            let (before, after) = pairs.split_at(place);
            let new = [(Value::text(key), Value::text("b"))];
            all.push(Value::Map([before, &new, after].concat()));
        }
    }
    all
}

/// Changes one to three times a byte, or puts one in, takes some out, cuts or lengthens.
pub fn edit(bytes: &mut Vec<u8>, random: &mut Random) {
    for _ in 0..random.between(1, 3) {
        let at = random.below(bytes.len() + 1);
        let byte = random.number() as u8;
        match random.below(8) {
            0 | 1 if at < bytes.len() => bytes[at] ^= 1 << (byte % 8),
            2 if at < bytes.len() => bytes[at] = byte,
            3 if at < bytes.len() => bytes[at] = bytes[at].wrapping_add(1),
            4 => bytes.insert(at, byte),
            5 => drop(bytes.drain(at..(at + random.between(1, 3)).min(bytes.len()).max(at))),
            6 => bytes.truncate(at),
            _ => bytes.push(byte),
        }
    }
}

/// Sets the byte at a place, if there is one.
pub fn set(bytes: &mut [u8], at: usize, byte: u8) {
    if let Some(old) = bytes.get_mut(at) {
        *old = byte;
    }
}
