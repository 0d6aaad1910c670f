//! Compares matching, requests and narrowing with their definitions: short patterns and paths over a few names, one by one.

use std::collections::HashSet;

use descriptor::{encode, image_of, Rule, FAY, ID, T};
use draw::Draw;
use reference::{matching, narrow, request, Decision, Request};

#[path = "support/descriptor.rs"]
mod descriptor;
#[path = "support/draw.rs"]
mod draw;

/// The names of the patterns, and one that no pattern has.
const NAMES: [&str; 3] = ["a", "b", "fresh"];
/// Drawn patterns have at most 3 levels, so that paths of 5 names show all that longer ones do.
const DEEPEST: usize = 5;

#[test]
fn names_are_counted_as_defined() {
    let paths = texts(&NAMES, DEEPEST);
    let mut matches = [0; 5];
    let mut others = 0;
    for pattern in all_patterns() {
        let matched = expansions(&pattern);
        for path in &paths {
            let m = matching(pattern.as_bytes(), path.as_bytes());
            let (yes, equal) = (matched.contains(path), equal_places(&pattern, path));
            let expected = if yes { (0, 1, equal) } else { (0, 0, 0) };
            assert_eq!((m.answer, m.yes, m.names), expected, "{pattern} {path}");
            if yes {
                matches[equal as usize] += 1;
            } else {
                others += u64::from(equal > 0);
            }
        }
    }
    assert!(matches.iter().all(|&count| count > 10), "{matches:?}");
    assert!(others > 1000, "{others} have equal names and don't match");
}

#[test]
fn the_most_exact_grant_is_named() {
    let paths = texts(&NAMES[..2], 3);
    let mut draw = Draw(2);
    let mut answers = [0; 3];
    for _ in 0..3000 {
        let rules = draw.constrained_rules(16);
        let path = &paths[draw.below(paths.len() as u64) as usize];
        let mode = draw.below(4);
        let served: Vec<_> = rules.iter().map(|r| names_served(r, path, mode)).collect();
        let named = most_exact(&served);
        let expected = named.map_or(refused(13), |place| Decision {
            answer: 0,
            grant: place as u64,
            mask: rules[place].mask,
            session_end: 5,
            margin: 0,
        });
        assert_eq!(decided(&rules, path, mode), expected, "{rules:?} {path}");
        let first = served.iter().position(Option::is_some);
        answers[named.map_or(0, |_| 1 + usize::from(named != first))] += 1;
    }
    assert!(answers.iter().all(|&count| count > 100), "{answers:?}");
}

#[test]
fn narrowing_is_as_defined() {
    let paths = texts(&NAMES, DEEPEST);
    let mut draw = Draw(1);
    let mut answers = [0; 2];
    for _ in 0..1500 {
        let parent = draw.rules(6);
        let child = draw.rules(2);
        let n = narrow(&encode(&parent), &encode(&child));
        assert!(matches!(n.answer, 0 | 20), "{n:?}");
        let found = (n.answer == 20).then_some((n.grant, n.mode, n.levels));
        assert_eq!(
            found,
            escape(&parent, &child, &paths),
            "{parent:?} {child:?}"
        );
        answers[usize::from(found.is_some())] += 1;
    }
    assert!(answers.iter().all(|&count| count > 100), "{answers:?}");
}

/// All patterns of at most 4 levels.
fn all_patterns() -> impl Iterator<Item = String> {
    texts(&["a", "b", "*", "**"], 4)
        .into_iter()
        .filter(|text| !text.contains("**/"))
}

/// The paths that a pattern matches: a name stands for itself, "*" for any name, "**" for one or more, here at most as many as a
/// path has.
fn expansions(pattern: &str) -> HashSet<String> {
    let one_or_more = texts(&NAMES, DEEPEST);
    let mut all = vec![T.to_string()];
    for level in pattern.split('/').skip(1) {
        let instead: Vec<String> = match level {
            "*" => NAMES.map(|name| format!("/{name}")).into(),
            "**" => one_or_more.iter().map(|t| t[T.len()..].into()).collect(),
            name => vec![format!("/{name}")],
        };
        all = all
            .iter()
            .flat_map(|start| instead.iter().map(move |names| format!("{start}{names}")))
            .collect();
    }
    all.into_iter().collect()
}

/// The number of places below the terminal id at which the pattern's level and the path's are the same text.
fn equal_places(pattern: &str, path: &str) -> u64 {
    let levels = pattern.split('/').zip(path.split('/')).skip(1);
    levels.filter(|(level, name)| level == name).count() as u64
}

/// How many levels are matched by equal names, if the grant serves.
fn names_served(rule: &Rule, path: &str, mode: u64) -> Option<u64> {
    let serves = rule.mask >> mode & 1 == 1
        && rule.constraints.unwrap_or(0) == 0
        && admits(&rule.pattern, path);
    serves.then(|| equal_places(&rule.pattern, path))
}

/// The place of the grant that serves and is before all others that do: each other one has fewer equal names, or as many and
/// stands after it.
fn most_exact(served: &[Option<u64>]) -> Option<usize> {
    let before = |one: usize, names: u64, other: usize| {
        served[other].is_none_or(|others| others < names || others == names && one <= other)
    };
    (0..served.len()).find(|&one| {
        served[one].is_some_and(|names| (0..served.len()).all(|other| before(one, names, other)))
    })
}

/// The decision on a request for a descriptor with the rules as its grants.
fn decided(rules: &[Rule], path: &str, mode: u64) -> Decision {
    let asked = Request {
        id: ID,
        fay: FAY.as_bytes(),
        terminal: T.as_bytes(),
        resource: path.as_bytes(),
        mode,
        now_ms: 2000,
        session_length: 100,
        ..Request::default()
    };
    request(&mut image_of(rules), &asked)
}

/// A refusal.
fn refused(answer: u64) -> Decision {
    Decision {
        answer,
        ..Decision::default()
    }
}

/// The first grant, its lowest mode and the fewest names, found by trying all paths.
fn escape(parent: &[Rule], child: &[Rule], paths: &[String]) -> Option<(u64, u64, u64)> {
    for (place, rule) in child.iter().enumerate() {
        for mode in (0..4).filter(|mode| rule.mask >> mode & 1 == 1) {
            let covered = |path: &&String| {
                parent
                    .iter()
                    .any(|over| over.mask >> mode & 1 == 1 && admits(&over.pattern, path))
            };
            let fewest = paths
                .iter()
                .filter(|path| admits(&rule.pattern, path) && !covered(path))
                .map(|path| names_taken(&rule.pattern, path))
                .min();
            if let Some(fewest) = fewest {
                return Some((place as u64, mode, fewest));
            }
        }
    }
    None
}

fn admits(pattern: &str, path: &str) -> bool {
    matching(pattern.as_bytes(), path.as_bytes()).yes == 1
}

/// How many names the pattern's "**" takes in a path.
fn names_taken(pattern: &str, path: &str) -> u64 {
    let levels = |text: &str| text.matches('/').count();
    match pattern.strip_suffix("/**") {
        Some(before) => (levels(path) - levels(before)) as u64,
        None => 0,
    }
}

/// All texts of the terminal id and at most so many of the levels.
fn texts(levels: &[&str], most: usize) -> Vec<String> {
    let mut all = vec![T.to_string()];
    let mut start = 0;
    for _ in 0..most {
        let end = all.len();
        for i in start..end {
            for level in levels {
                all.push(format!("{}/{level}", all[i]));
            }
        }
        start = end;
    }
    all.split_off(1)
}

impl Draw {
    fn rules(&mut self, most: u64) -> Vec<Rule> {
        (0..=self.below(most)).map(|_| self.rule()).collect()
    }

    /// Rules of which some have constraints, with a pair or without.
    fn constrained_rules(&mut self, most: u64) -> Vec<Rule> {
        let mut rules = self.rules(most);
        for rule in &mut rules {
            rule.constraints = [None, None, Some(0), Some(1)][self.below(4) as usize];
        }
        rules
    }

    fn rule(&mut self) -> Rule {
        let mut pattern = T.to_string();
        let levels = 1 + self.below(3);
        for level in 1..=levels {
            let deep = level == levels && self.below(3) == 0;
            let name = ["a", "b", "*", "*"][self.below(4) as usize];
            pattern += "/";
            pattern += if deep { "**" } else { name };
        }
        Rule {
            pattern,
            mask: 1 + self.below(15),
            constraints: None,
        }
    }
}
