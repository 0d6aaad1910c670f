//! Paths and patterns: every short text over a few letters, every number of equal names, long ones, and malformed ones.

use crate::compare::Compare;
use crate::encoder::{OTHER_TERMINAL, TERMINAL};
use crate::random::Random;

/// All cases of matching.
pub fn run(compare: &mut Compare, random: &mut Random, rounds: usize) {
    short_texts(compare);
    name_letters(compare);
    lengths(compare);
    terminals(compare);
    equal_names(compare);
    for _ in 0..rounds {
        random_pair(compare, random);
        random_deep_pair(compare, random);
    }
}

/// All texts of at most four letters of "a", "*" and "/" against paths of "a", "b" and "/".
fn short_texts(compare: &mut Compare) {
    let paths = texts(b"ab/", 4);
    for levels in texts(b"a*/", 4) {
        let pattern = under(TERMINAL, &levels);
        for path in &paths {
            compare.matching(&pattern, &under(TERMINAL, path));
        }
    }
}

/// All texts of at most so many of the letters.
fn texts(letters: &[u8], most: usize) -> Vec<Vec<u8>> {
    let mut all = vec![Vec::new()];
    let mut start = 0;
    for _ in 0..most {
        let end = all.len();
        for i in start..end {
            for &letter in letters {
                all.push([&all[i][..], &[letter]].concat());
            }
        }
        start = end;
    }
    all
}

fn under(terminal: &str, levels: &[u8]) -> Vec<u8> {
    [terminal.as_bytes(), b"/", levels].concat()
}

/// Each byte as a name, at the start, inside and at the end of one.
fn name_letters(compare: &mut Compare) {
    let good = under(TERMINAL, b"*");
    for byte in 0..=255 {
        for name in [
            vec![byte],
            vec![b'a', byte],
            vec![byte, b'a'],
            vec![b'a', byte, b'a'],
        ] {
            let text = under(TERMINAL, &name);
            compare.matching(&text, &text);
            compare.matching(&good, &text);
        }
    }
}

/// Patterns and paths of lengths around 256 bytes, of one long name and of as many levels as there can be.
fn lengths(compare: &mut Compare) {
    for length in 200..216 {
        let name = under(TERMINAL, &vec![b'n'; length]);
        let mut levels = vec![b'/'; length];
        levels.iter_mut().step_by(2).for_each(|byte| *byte = b'n');
        let deep = under(TERMINAL, &levels);
        let stars = under(
            TERMINAL,
            &levels
                .iter()
                .map(|&b| if b == b'n' { b'*' } else { b })
                .collect::<Vec<_>>(),
        );
        for one in [&name, &deep, &stars, &under(TERMINAL, b"**")] {
            for other in [&name, &deep, &stars] {
                compare.matching(one, other);
            }
        }
    }
}

/// Terminal ids with one byte changed, cut, lengthened and of other letters.
fn terminals(compare: &mut Compare) {
    let path = under(TERMINAL, b"a");
    for at in 0..path.len() {
        for byte in [
            b'0', b'1', b'a', b'F', b'g', b'G', b'-', b':', b'/', b'T', b'@', b'`', 0xff,
        ] {
            let mut other = path.clone();
            other[at] = byte;
            compare.matching(&path, &other);
            compare.matching(&other, &path);
            compare.matching(&other, &other);
        }
        compare.matching(&path[..at], &path);
        compare.matching(&path, &path[..at]);
        compare.matching(&path[at..], &path);
    }
    let (upper, lower) = (
        under(OTHER_TERMINAL, b"a"),
        under(&OTHER_TERMINAL.to_lowercase(), b"a"),
    );
    compare.matching(&upper, &lower);
    compare.matching(&lower, &lower);
}

/// Paths of each number of names, and patterns that begin with each number of them and go on with "*", "**" or another name.
fn equal_names(compare: &mut Compare) {
    for levels in 1..=105 {
        let path = under(TERMINAL, vec!["n"; levels].join("/").as_bytes());
        for names in 0..=levels {
            let start = vec!["n"; names];
            let stars = [&start[..], &vec!["*"; levels - names]].concat();
            let deep = [&start[..], &["**"]].concat();
            let other = [&stars[..levels - 1], &["m"]].concat();
            for pattern in [stars, deep, other] {
                compare.matching(&under(TERMINAL, pattern.join("/").as_bytes()), &path);
            }
        }
    }
}

/// A path of many names, and a pattern that is made of it.
fn random_deep_pair(compare: &mut Compare, random: &mut Random) {
    let letters = ["a", "b", "n"];
    let names: Vec<String> = (0..random.between(1, 104))
        .map(|_| random.pick(&letters).to_string())
        .collect();
    compare.matching(
        &under(TERMINAL, any_pattern_for(random, &names).as_bytes()),
        &under(TERMINAL, names.join("/").as_bytes()),
    );
}

/// The levels of a pattern that are made of a path: some of its names are "*", and the last ones are perhaps "**"; in some a
/// level is another, or there is one more.
pub fn any_pattern_for(random: &mut Random, names: &[String]) -> String {
    let stars = *random.pick(&[0, 1, 4, 7, 8]);
    let level = |name: &String| match random.below(8) {
        n if n < stars => "*".to_string(),
        _ => name.clone(),
    };
    let mut levels: Vec<String> = names.iter().map(level).collect();
    let at = random.below(levels.len());
    match random.below(8) {
        0..3 => {
            levels.truncate(at);
            levels.push("**".into());
        }
        3 => levels[at] = "z".into(),
        4 => levels.push("z".into()),
        _ => {}
    }
    levels.join("/")
}

/// A random pattern, and a path that often matches it or nearly does.
fn random_pair(compare: &mut Compare, random: &mut Random) {
    let pattern = any_levels(random, 8);
    let mut names: Vec<String> = Vec::new();
    for level in pattern.split('/') {
        match level {
            "**" => names.extend((0..random.below(4)).map(|_| any_name(random))),
            "*" => names.push(any_name(random)),
            name => names.push(name.into()),
        }
    }
    if random.once_in(4) {
        let at = random.below(names.len() + 1);
        match random.below(3) {
            0 => names.insert(at, any_name(random)),
            1 => drop(names.pop()),
            _ => names.iter_mut().for_each(|name| name.push('a')),
        }
    }
    compare.matching(
        &under(TERMINAL, pattern.as_bytes()),
        &under(TERMINAL, names.join("/").as_bytes()),
    );
}

/// The levels of a pattern, at most so many.
pub fn any_levels(random: &mut Random, most: usize) -> String {
    let count = random.between(1, most);
    let mut levels: Vec<String> = (0..count)
        .map(|_| {
            if random.once_in(3) {
                "*".into()
            } else {
                any_name(random)
            }
        })
        .collect();
    if random.once_in(3) {
        levels[count - 1] = "**".into();
    }
    levels.join("/")
}

/// A name, often a short one.
pub fn any_name(random: &mut Random) -> String {
    random
        .pick(&[
            "a",
            "b",
            "ab",
            "A",
            ".",
            "..",
            "-",
            "_x",
            "camera",
            "door-7",
            "furnace.2",
        ])
        .to_string()
}
