//! Narrowing: random patterns over few names, ladders with gaps, wide and deep ones, and the steps before the paths.

use super::changes::edit;
use super::paths::any_levels;
use crate::compare::Compare;
use crate::encoder::{grant, modes_of, Grant, Model, MODES, OTHER_TERMINAL, TERMINAL};
use crate::random::Random;
use crate::uuid::put_any;

/// All cases of narrowing.
pub fn run(compare: &mut Compare, random: &mut Random, rounds: usize) {
    steps(compare);
    ladders(compare, random);
    for (parent, child) in wide_cases() {
        compare.narrow(&parent.bytes(), &child.bytes());
        compare.narrow(&child.bytes(), &parent.bytes());
    }
    for _ in 0..4 * rounds {
        let (parent, child) = any_two(random);
        let (parent, mut child) = (parent.bytes(), child.bytes());
        compare.narrow(&parent, &child);
        compare.narrow(&child, &parent);
        if random.once_in(8) {
            edit(&mut child, random);
            compare.narrow(&parent, &child);
            compare.narrow(&child, &parent);
        }
    }
}

/// Each step before the paths, alone and in pairs, and periods around their ends.
fn steps(compare: &mut Compare) {
    let changes: [fn(&mut Model); 9] = [
        |_| {},
        |model| model.issuer.clear(),
        |model| model.not_after = model.not_before + 7_776_001,
        |model| model.grants[0].constraints = Some(vec![("k".into(), "v".into())]),
        |model| model.grants[1].constraints = Some(vec![("k".into(), "v".into())]),
        |model| model.grants[0].constraints = Some(Vec::new()),
        |model| model.grants[0].pattern = format!("{TERMINAL}/**"),
        |model| model.grants[1].modes = MODES.to_vec(),
        |model| model.move_to(OTHER_TERMINAL),
    ];
    let base = Model::with(vec![grant(&["read"], "a/*"), grant(&["write"], "b")]);
    for of_parent in changes {
        for of_child in changes {
            for (begin, end) in [
                (0, 0),
                (1, 0),
                (-1, 0),
                (0, 1),
                (0, -1),
                (1, -1),
                (-1, 1),
                (-1, -1),
                (500, 500),
            ] {
                let (mut parent, mut child) = (base.clone(), base.clone());
                child.not_before = child.not_before.saturating_add_signed(begin);
                child.not_after = child.not_after.saturating_add_signed(end);
                of_parent(&mut parent);
                of_child(&mut child);
                compare.narrow(&parent.bytes(), &child.bytes());
            }
        }
    }
    compare.narrow(&[], &[]);
    compare.narrow(&base.bytes(), &[]);
    compare.narrow(&[], &base.bytes());
}

/// Stars, so many.
fn stars(count: usize) -> String {
    vec!["*"; count].join("/")
}

/// A parent with a grant for each number of levels, some of them of fewer modes or missing, over children with "**".
fn ladders(compare: &mut Compare, random: &mut Random) {
    for top in (1..=104).step_by(7).chain([103, 104]) {
        for gaps in 0..3 {
            let mut rungs: Vec<Grant> = (1..=top).map(|k| grant(&MODES, &stars(k))).collect();
            for _ in 0..gaps {
                let gap = random.below(top);
                rungs[gap].modes = modes_of(random.between(1, 15));
            }
            if gaps == 2 {
                let gap = random.below(top);
                rungs[gap].pattern = format!("{TERMINAL}/b");
            }
            under_ladder(compare, rungs.clone(), top);
            rungs.push(grant(&MODES, &format!("{}/**", stars(top))));
            under_ladder(compare, rungs.clone(), top);
            rungs.reverse();
            under_ladder(compare, rungs, top);
        }
    }
}

/// Children whose "**" stands at the front, in the middle and at the end of a ladder.
fn under_ladder(compare: &mut Compare, rungs: Vec<Grant>, top: usize) {
    let parent = Model::with(rungs).bytes();
    for before in [0, 1, top / 2, top - 1, top] {
        for name in ["*/", "n/"] {
            let child = Model::with(vec![grant(&MODES, &(name.repeat(before) + "**"))]);
            compare.narrow(&parent, &child.bytes());
        }
    }
}

/// Parents and children of many grants, built to be slow to compare.
fn wide_cases() -> Vec<(Model, Model)> {
    let of = |patterns: Vec<String>| {
        Model::with(
            patterns
                .iter()
                .map(|levels| grant(&["read"], levels))
                .collect(),
        )
    };
    let binary = |names: [&str; 2], tail: &str| {
        let level = |number: usize, bit: usize| names[number >> bit & 1];
        let path = |number: usize| {
            (0..8)
                .map(|bit| level(number, bit))
                .collect::<Vec<_>>()
                .join("/")
        };
        of((0..256).map(|number| path(number) + tail).collect())
    };
    let numbered = |before: &str, after: &str| {
        of((0..256).map(|i| format!("{before}{i:03}{after}")).collect())
    };
    let deep = stars(20);
    vec![
        (binary(["a", "*"], ""), binary(["a", "a"], "")),
        (binary(["a", "*"], "/**"), binary(["a", "b"], "/x/**")),
        (binary(["a", "b"], ""), binary(["a", "*"], "")),
        (
            numbered(&format!("{deep}/"), ""),
            numbered(&format!("{deep}/"), ""),
        ),
        (
            numbered(&format!("{deep}/"), "/*"),
            numbered(&format!("{deep}/"), "/**"),
        ),
        (
            numbered("", &format!("/{deep}")),
            numbered("", &format!("/{deep}")),
        ),
        (
            of(vec![format!("{deep}/**"); 256]),
            of(vec![format!("{deep}/a/**"); 256]),
        ),
        (
            of((1..=104)
                .map(stars)
                .chain([format!("{}/**", stars(104))])
                .collect()),
            of(vec!["**".into(); 100]),
        ),
    ]
}

/// A parent and a child that are often near each other, some with any ids.
fn any_two(random: &mut Random) -> (Model, Model) {
    let names: &[&str] = if random.once_in(2) {
        &["a", "*"]
    } else {
        &["a", "b", "*", "*", "ab"]
    };
    let mut parent: Vec<Grant> = (0..random.between(1, 8))
        .map(|_| any_rule(random, names))
        .collect();
    let mut child: Vec<Grant> = (0..random.between(1, 4))
        .map(|_| any_rule(random, names))
        .collect();
    if random.once_in(2) {
        parent.extend((1..random.between(2, 7)).map(|k| grant(&MODES, &stars(k))));
    }
    if random.once_in(3) {
        parent.push(grant(
            &modes_of(random.between(1, 15)),
            &format!("{}/**", stars(random.between(1, 5))),
        ));
    }
    if random.once_in(3) {
        child = (0..3).map(|_| random.pick(&parent).clone()).collect();
    }
    if random.once_in(5) {
        child.push(grant(&MODES, &any_levels(random, 12)));
    }
    let (mut parent, mut child) = (Model::with(parent), Model::with(child));
    if random.once_in(3) {
        put_any(&mut parent, random);
        put_any(&mut child, random);
        child.move_to(&parent.terminal);
    }
    (parent, child)
}

/// A grant with a pattern of at most four levels over the names.
fn any_rule(random: &mut Random, names: &[&str]) -> Grant {
    let mut levels: Vec<&str> = (0..random.between(1, 4))
        .map(|_| *random.pick(names))
        .collect();
    if random.once_in(3) {
        levels.pop();
        levels.push("**");
    }
    grant(&modes_of(random.between(1, 15)), &levels.join("/"))
}
