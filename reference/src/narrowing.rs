//! Narrowing of a child under a parent.
//!
//! A path escapes by a child grant exactly when one of the same number of levels does in which a fresh name, one that no
//! parent pattern has, stands for each "*" and for each name that "**" takes: a parent pattern that matches the fresh name
//! has a wildcard there, and so matches any name. So for each child grant the paths with the fresh name are tried, the
//! shorter ones first. The parent's patterns stand in a tree, one node for each beginning that some of them share, and all
//! paths of a grant are tried in one walk down the tree.

use std::collections::BTreeMap;

use crate::answer::{CONSTRAINT_PRESENT, GRANT_NOT_COVERED, PARENT_UNREAD, PERIOD_NOT_INSIDE};
use crate::descriptor::{read, Descriptor, Reading};
use crate::resource::{levels_of, TERMINAL_LENGTH};

/// What narrowing answers.
#[derive(Clone, Copy, Debug, Default, PartialEq, Eq)]
pub struct Narrowing {
    /// 0, 21, 1, 2, 19, 18 or 20, the first of these that applies.
    pub answer: u64,
    /// With 20: the child's first grant by which a path escapes.
    pub grant: u64,
    /// With 20: the lowest mode in which one does.
    pub mode: u64,
    /// With 20: the fewest names that the grant's "**" takes in one.
    pub levels: u64,
}

/// A beginning that patterns of the parent share.
#[derive(Default)]
struct Node<'a> {
    names: BTreeMap<&'a [u8], usize>,
    star: Option<usize>,
    /// The modes of the patterns that end here.
    ending: u64,
    /// The modes of the patterns that go on with "**".
    deep: u64,
}

/// The parent's patterns as nodes, the first of which is the root.
struct Tree<'a> {
    nodes: Vec<Node<'a>>,
}

/// The nodes at which a walk stands, and the modes of each "**" that it has gone past.
struct Walk {
    nodes: Vec<usize>,
    passed: u64,
}

/// Narrows the child descriptor under the parent.
pub fn narrow(parent: &[u8], child: &[u8]) -> Narrowing {
    match read_both(parent, child) {
        Ok((parent, child)) => first_escape(&parent, &child).unwrap_or_default(),
        Err(answer) => Narrowing {
            answer,
            ..Narrowing::default()
        },
    }
}

/// The steps before the paths.
fn read_both<'a>(parent: &'a [u8], child: &'a [u8]) -> Result<(Reading<'a>, Reading<'a>), u64> {
    let parent = read(parent).map_err(|_| PARENT_UNREAD)?;
    let child = read(child)?;
    if parent.numbers.constraint_pairs > 0 || child.numbers.constraint_pairs > 0 {
        Err(CONSTRAINT_PRESENT)
    } else if !period_is_inside(&parent.numbers, &child.numbers) {
        Err(PERIOD_NOT_INSIDE)
    } else {
        Ok((parent, child))
    }
}

/// Whether the child's period is within the parent's.
fn period_is_inside(parent: &Descriptor, child: &Descriptor) -> bool {
    parent.not_before <= child.not_before && child.not_after <= parent.not_after
}

/// The first child grant by which a path escapes, with the lowest mode and the fewest names.
fn first_escape(parent: &Reading, child: &Reading) -> Option<Narrowing> {
    let tree = Tree::of(parent, child.terminal());
    child.grants().enumerate().find_map(|(place, grant)| {
        let levels = &child.pattern(&grant)[TERMINAL_LENGTH + 1..];
        let (mode, names) = tree.escape(levels, grant.mask)?;
        Some(Narrowing {
            answer: GRANT_NOT_COVERED,
            grant: place as u64,
            mode,
            levels: names,
        })
    })
}

impl<'a> Tree<'a> {
    /// The tree of the descriptor's patterns; it is bare if they are under another terminal id than the one that is asked for.
    fn of(parent: &Reading<'a>, terminal: &[u8]) -> Tree<'a> {
        let mut tree = Tree {
            nodes: vec![Node::default()],
        };
        if parent.terminal() == terminal {
            for grant in parent.grants() {
                tree.add(&parent.pattern(&grant)[TERMINAL_LENGTH + 1..], grant.mask);
            }
        }
        tree
    }

    /// Adds a pattern with its modes.
    fn add(&mut self, levels: &'a [u8], modes: u64) {
        let mut at = 0;
        for level in levels_of(levels) {
            if level == b"**" {
                self.nodes[at].deep |= modes;
                return;
            }
            at = self.child(at, level);
        }
        self.nodes[at].ending |= modes;
    }

    /// The node below a node by a level, made if it isn't there.
    fn child(&mut self, at: usize, level: &'a [u8]) -> usize {
        let new = self.nodes.len();
        let node = &mut self.nodes[at];
        let child = match level {
            b"*" => *node.star.get_or_insert(new),
            name => *node.names.entry(name).or_insert(new),
        };
        if child == new {
            self.nodes.push(Node::default());
        }
        child
    }

    /// The lowest mode in which a path escapes by the pattern, and the fewest names its "**" takes in one.
    fn escape(&self, levels: &[u8], modes: u64) -> Option<(u64, u64)> {
        let mut walk = Walk {
            nodes: vec![0],
            passed: 0,
        };
        for level in levels_of(levels) {
            match level {
                b"**" => return self.deep_escape(walk, modes),
                b"*" => self.step(&mut walk, None),
                name => self.step(&mut walk, Some(name)),
            }
        }
        let escaping = modes & !self.covered(&walk);
        (escaping != 0).then(|| (lowest(escaping), 0))
    }

    /// The same for "**" at the place of the walk: tries one fresh name, then two, until more change nothing.
    fn deep_escape(&self, mut walk: Walk, modes: u64) -> Option<(u64, u64)> {
        let mut best: Option<(u64, u64)> = None;
        for names in 1.. {
            self.step(&mut walk, None);
            let escaping = modes & !self.covered(&walk);
            if escaping != 0 && best.is_none_or(|(mode, _)| lowest(escaping) < mode) {
                best = Some((lowest(escaping), names));
            }
            if walk.nodes.is_empty() {
                break;
            }
        }
        best
    }

    /// The modes in which a parent pattern matches the path of the walk.
    fn covered(&self, walk: &Walk) -> u64 {
        walk.nodes
            .iter()
            .fold(walk.passed, |modes, &at| modes | self.nodes[at].ending)
    }

    /// Goes one level down by a name, or by the fresh one.
    fn step(&self, walk: &mut Walk, name: Option<&[u8]>) {
        let mut below = Vec::with_capacity(2 * walk.nodes.len());
        for &at in &walk.nodes {
            let node = &self.nodes[at];
            walk.passed |= node.deep;
            below.extend(node.star);
            below.extend(name.and_then(|name| node.names.get(name)));
        }
        walk.nodes = below;
    }
}

/// The number of the lowest mode of a mask that isn't 0.
fn lowest(mask: u64) -> u64 {
    u64::from(mask.trailing_zeros())
}
