//! Which grant a request names: grants that match a path in every way and order, with and without the mode and a constraint
//! pair, 256 of them, and random ones for short and long paths.

use super::paths::{any_name, any_pattern_for};
use super::requests::Asked;
use crate::compare::Compare;
use crate::encoder::{grant, image, modes_of, Grant, Model, Row, MODES, TERMINAL};
use crate::random::Random;

/// All cases of named grants.
pub fn run(compare: &mut Compare, random: &mut Random, rounds: usize) {
    every_two(compare);
    every_three(compare);
    every_256(compare, random);
    for _ in 0..4 * rounds {
        random_grants(compare, random);
    }
}

/// A request for a path in a mode, to a descriptor with the grants.
fn ask(compare: &mut Compare, grants: Vec<Grant>, path: &str, mode: u64) {
    let model = Model::with(grants);
    let mut asked = Asked::of(&model, image(&[Row::of(&model)]));
    asked.resource = format!("{TERMINAL}/{path}").into();
    asked.mode = mode;
    asked.run(compare);
}

/// Changes of a grant: by the second and the third it doesn't serve.
const CHANGES: [fn(&mut Grant); 4] = [
    |_| {},
    |grant| grant.modes = vec!["write"],
    |grant| grant.constraints = Some(vec![("k".into(), "v".into())]),
    |grant| grant.constraints = Some(Vec::new()),
];

/// Two grants that match the path in every way, with each change of each.
fn every_two(compare: &mut Compare) {
    let ways = ways(&["a", "b", "c"]);
    for (one, other) in pairs(&ways) {
        for (of_one, of_other) in pairs(&CHANGES) {
            let mut grants = vec![grant(&["read"], one), grant(&["read", "execute"], other)];
            of_one(&mut grants[0]);
            of_other(&mut grants[1]);
            ask(compare, grants, "a/b/c", 0);
        }
    }
}

/// Three grants that match the path in every way.
fn every_three(compare: &mut Compare) {
    let ways = ways(&["a", "b", "c"]);
    for (one, two) in pairs(&ways) {
        for three in &ways {
            let grants = vec![
                grant(&["read"], one),
                grant(&["read", "execute"], two),
                grant(&["read", "configure"], three),
            ];
            ask(compare, grants, "a/b/c", 0);
        }
    }
}

/// Each of the things with each.
fn pairs<T>(things: &[T]) -> impl Iterator<Item = (&T, &T)> {
    let with_each = move |one| things.iter().map(move |other| (one, other));
    things.iter().flat_map(with_each)
}

/// All patterns that match a path of these names.
fn ways(names: &[&str]) -> Vec<String> {
    let mut ways = Vec::new();
    for length in 0..=names.len() {
        for bits in 0..1 << length {
            let mut levels = chosen(&names[..length], "*", bits);
            if length < names.len() {
                levels.push("**");
            }
            ways.push(levels.join("/"));
        }
    }
    ways
}

/// The names where the number has a bit, and another level where it has none.
fn chosen<'a>(names: &[&'a str], other: &'a str, bits: usize) -> Vec<&'a str> {
    let level = |(at, &name)| if bits >> at & 1 == 1 { name } else { other };
    names.iter().enumerate().map(level).collect()
}

/// 256 grants of 8 levels, each a name or "*", forwards, backwards and in a random order, and paths with some of the names.
fn every_256(compare: &mut Compare, random: &mut Random) {
    let names = ["n"; 8];
    let one = |bits| {
        grant(
            &modes_of(1 + bits % 15),
            &chosen(&names, "*", bits).join("/"),
        )
    };
    let mut grants: Vec<Grant> = (0..256).map(one).collect();
    for mode in 0..3 {
        for bits in [0, 0x08, 0x0f, 0xaa, 0x7f, 0xfe, 0xff] {
            let path = chosen(&names, "m", bits).join("/");
            ask(compare, grants.clone(), &path, mode);
        }
        grants.reverse();
        if mode == 1 {
            (1..grants.len()).for_each(|at| grants.swap(at, random.below(at + 1)));
        }
    }
}

/// Grants by patterns that are made of a random path, and a request for it.
fn random_grants(compare: &mut Compare, random: &mut Random) {
    let names = any_names(random);
    let grants = (0..random.between(1, 10)).map(|_| Grant {
        constraints: random
            .once_in(6)
            .then(|| vec![("k".to_string(), "v".to_string()); random.below(2)]),
        ..grant(
            &modes_of(random.between(1, 15)),
            &any_pattern_for(random, &names),
        )
    });
    let grants = grants.collect();
    let mode = random.below(MODES.len()) as u64;
    ask(compare, grants, &names.join("/"), mode);
}

/// A few names, or many of one letter.
fn any_names(random: &mut Random) -> Vec<String> {
    if random.once_in(8) {
        vec!["n".to_string(); random.between(1, 104)]
    } else {
        (0..random.between(1, 6))
            .map(|_| any_name(random))
            .collect()
    }
}
