//! Two implementations side by side: the same calls to both, and a note of each difference.

use std::collections::{BTreeMap, BTreeSet};
use std::fmt::Debug;

use reference::{Request, Submission};

use super::bodies::ask_for_body;
use super::gate::Gate;

/// How many differences are noted in full.
const MOST_NOTES: usize = 3;

/// Two implementations, how often each answer was given, which numbers of equal names, and where they differ.
pub struct Compare<'a> {
    one: &'a dyn Gate,
    other: &'a dyn Gate,
    counts: BTreeMap<(&'static str, u64), u64>,
    names: BTreeSet<u64>,
    differences: u64,
    notes: Vec<String>,
    /// Whether a descriptor is not read by itself but asked for as a body.
    as_bodies: bool,
}

impl<'a> Compare<'a> {
    /// Starts to compare.
    pub fn new(one: &'a dyn Gate, other: &'a dyn Gate) -> Compare<'a> {
        Compare {
            one,
            other,
            counts: BTreeMap::new(),
            names: BTreeSet::new(),
            differences: 0,
            notes: Vec::new(),
            as_bodies: false,
        }
    }

    /// The same, but each descriptor that would be read is asked for as the body of an image.
    pub fn as_bodies(self) -> Compare<'a> {
        Compare {
            as_bodies: true,
            ..self
        }
    }

    /// How many calls differed.
    pub fn differences(&self) -> u64 {
        self.differences
    }

    /// The first differences in full.
    pub fn notes(&self) -> String {
        self.notes.join("\n")
    }

    /// How many calls were compared, and how often each answer was given.
    pub fn summary(&self) -> String {
        let total: u64 = self.counts.values().sum();
        let each: Vec<String> = self
            .counts
            .iter()
            .map(|((call, answer), n)| format!("{call} {answer}: {n}"))
            .collect();
        format!("{total} calls ({})", each.join(", "))
    }

    /// How often a call gave an answer.
    pub fn count(&self, call: &'static str, answer: u64) -> u64 {
        self.counts.get(&(call, answer)).copied().unwrap_or(0)
    }

    /// The numbers of equal names that matching answered.
    pub fn names(&self) -> &BTreeSet<u64> {
        &self.names
    }

    /// Counts a call and notes a difference.
    fn note(
        &mut self,
        call: &'static str,
        one: &[u64],
        other: &[u64],
        same_bytes: bool,
        inputs: &dyn Debug,
    ) {
        *self.counts.entry((call, other[0])).or_default() += 1;
        if one == other && same_bytes {
            return;
        }
        self.differences += 1;
        if self.notes.len() < MOST_NOTES {
            let bytes = if same_bytes {
                ""
            } else {
                ", and the buffers differ"
            };
            self.notes.push(format!(
                "{call}: {one:?} against {other:?}{bytes}, for {inputs:?}"
            ));
        }
    }

    /// Reads an item.
    pub fn item_read(&mut self, bytes: &[u8], place: u64) {
        let (one, other) = (
            self.one.item_read(bytes, place),
            self.other.item_read(bytes, place),
        );
        self.note("item_read", &one, &other, true, &(Hex(bytes), place));
    }

    /// Reads a descriptor and its grants: the first, the last, those around them and one past the last.
    pub fn descriptor_read(&mut self, bytes: &[u8]) {
        if self.as_bodies {
            return ask_for_body(self, bytes);
        }
        let (one, other) = (
            self.one.descriptor_read(bytes),
            self.other.descriptor_read(bytes),
        );
        self.note("descriptor_read", &one, &other, true, &Hex(bytes));
        let grants = other[13];
        self.grant_at(bytes, 0);
        if grants > 0 {
            let more = [1, 2, grants / 2, grants - 1, grants, grants + 1, u64::MAX];
            more.iter().for_each(|&index| self.grant_at(bytes, index));
        }
    }

    /// Reads a grant.
    pub fn grant_at(&mut self, bytes: &[u8], index: u64) {
        let (one, other) = (
            self.one.grant_at(bytes, index),
            self.other.grant_at(bytes, index),
        );
        self.note("grant_at", &one, &other, true, &(Hex(bytes), index));
    }

    /// Matches.
    pub fn matching(&mut self, pattern: &[u8], resource: &[u8]) {
        let (one, other) = (
            self.one.matching(pattern, resource),
            self.other.matching(pattern, resource),
        );
        let inputs = (
            String::from_utf8_lossy(pattern),
            String::from_utf8_lossy(resource),
        );
        self.names.insert(other[2]);
        self.note("matching", &one, &other, true, &inputs);
    }

    /// Makes a new image in each of two copies of the buffer, which then is as the second leaves it.
    pub fn image_new(&mut self, image: &mut [u8]) {
        let mut copy = image.to_vec();
        let one = self.one.image_new(&mut copy);
        let other = self.other.image_new(image);
        self.note("image_new", &one, &other, copy == image, &image.len());
    }

    /// Looks for a body.
    pub fn image_find(&mut self, image: &[u8], id: &[u8]) {
        let (one, other) = (
            self.one.image_find(image, id),
            self.other.image_find(image, id),
        );
        self.note("image_find", &one, &other, true, &(Hex(image), Hex(id)));
    }

    /// Submits to each of two copies of the buffer, which then is as the second leaves it.
    pub fn submit(&mut self, image: &mut [u8], descriptor: &[u8], with: &Submission) -> u64 {
        let before = image.to_vec();
        let mut copy = before.clone();
        let one = self.one.submit(&mut copy, descriptor, with);
        let other = self.other.submit(image, descriptor, with);
        self.note(
            "submit",
            &one,
            &other,
            copy == image,
            &(Hex(&before), Hex(descriptor), with),
        );
        other[0]
    }

    /// Upgrades an image to each of two copies of the buffer, which then is as the second leaves it.
    pub fn image_upgrade(&mut self, old: &[u8], image: &mut [u8]) -> u64 {
        let mut copy = image.to_vec();
        let one = self.one.image_upgrade(old, &mut copy);
        let other = self.other.image_upgrade(old, image);
        self.note(
            "image_upgrade",
            &one,
            &other,
            copy == image,
            &(Hex(old), image.len()),
        );
        other[0]
    }

    /// Requests, with each of two copies of the buffer, which then is as the second leaves it.
    pub fn request(&mut self, image: &mut [u8], with: &Request) -> u64 {
        let before = image.to_vec();
        let mut copy = before.clone();
        let one = self.one.request(&mut copy, with);
        let other = self.other.request(image, with);
        self.note(
            "request",
            &one,
            &other,
            copy == image,
            &(Hex(&before), with),
        );
        other[0]
    }

    /// Narrows.
    pub fn narrow(&mut self, parent: &[u8], child: &[u8]) {
        let (one, other) = (
            self.one.narrow(parent, child),
            self.other.narrow(parent, child),
        );
        self.note("narrow", &one, &other, true, &(Hex(parent), Hex(child)));
    }
}

/// Bytes that are shown in hexadecimal digits.
struct Hex<'a>(&'a [u8]);

impl Debug for Hex<'_> {
    fn fmt(&self, out: &mut std::fmt::Formatter) -> std::fmt::Result {
        self.0.iter().try_for_each(|byte| write!(out, "{byte:02x}"))
    }
}
