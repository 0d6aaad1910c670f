//! A safe wrapper of `libcap.a`, the proved gate of the Control Authority Protocol.
//!
//! The functions here are the calls of `include/cap.h` with slices in and `Result` or `Option` out: numbers that a refusal
//! doesn't have can't be looked at. [`numbers`] has the same calls with the numbers as the library gives them.
//! What a caller in C has to see to, that no pointer is null and that a mutable slice overlaps no other, holds of every
//! Rust slice. Times are [`Seconds`] or [`Milliseconds`], so that one is not passed for the other. The library keeps nothing
//! between calls.

mod answer;
mod lease;
pub mod numbers;
mod revocation;
mod time;

use std::error::Error;
use std::fmt;
use std::iter::FusedIterator;

pub use answer::Answer;
pub use lease::{Lease, LeaseTable};
pub use revocation::Revocation;
pub use time::{Margin, Milliseconds, Seconds};

/// The modes, by their numbers.
#[derive(Clone, Copy, Debug, PartialEq, Eq)]
pub enum Mode {
    /// Number 0, mask 1.
    Read,
    /// Number 1, mask 2.
    Write,
    /// Number 2, mask 4.
    Execute,
    /// Number 3, mask 8.
    Configure,
}

/// The host's verdict on a signature.
#[derive(Clone, Copy, Debug, PartialEq, Eq)]
pub enum Verdict {
    /// Number 0: the signature is good.
    Good,
    /// Number 1: the signature is bad.
    Bad,
    /// Number 2: there is no key under that id for that issuer and algorithm.
    NoSuchKey,
}

/// What the host knows of the key and the signature.
#[derive(Clone, Copy, Debug, PartialEq, Eq)]
pub struct Key {
    /// The verdict on the signature over the payload part.
    pub verdict: Verdict,
    /// The first moment at which the key is valid.
    pub valid_from: Seconds,
    /// The last moment at which the key is valid, if there is one.
    pub valid_until: Option<Seconds>,
}

/// A request for a resource.
#[derive(Clone, Copy, Debug, PartialEq, Eq)]
pub struct Request<'a> {
    /// The id of the stored descriptor.
    pub id: &'a [u8; 16],
    /// The fay id of the one who asks.
    pub fay: &'a [u8],
    /// The id of this terminal.
    pub terminal: &'a [u8],
    /// The resource id.
    pub resource: &'a [u8],
    /// The mode that is asked for.
    pub mode: Mode,
    /// The clock, at most 2^53. The steps of the lease alone look at its milliseconds; all others go by the seconds, rounded
    /// down.
    pub now: Milliseconds,
    /// The longest session that the host allows.
    pub session_length: Seconds,
    /// The revocation list, its rows in any order; an id may recur.
    pub revoked: &'a [Revocation],
    /// The lease table; an id without a lease is decided without one.
    pub leases: &'a LeaseTable,
    /// The key and the signature.
    pub key: Key,
}

/// Why a request is refused.
#[derive(Clone, Copy, Debug, PartialEq, Eq)]
pub enum RequestRefusal {
    /// The lease is stale, and all other steps pass: sync and ask again.
    Stale {
        /// For how long it has been stale, as a negative number.
        margin: Margin,
    },
    /// Another step fails.
    Other(Answer),
}

/// Why a child is not accepted under a parent.
#[derive(Clone, Copy, Debug, PartialEq, Eq)]
pub enum Refusal {
    /// A path escapes by the child's grant at a place in a mode, and its "**" takes so many names at the fewest.
    Escape {
        /// The place of the first grant by which a path escapes.
        grant: u64,
        /// The lowest mode in which one does.
        mode: Mode,
        /// The fewest names that the grant's "**" takes in one.
        levels: u64,
    },
    /// An earlier step fails.
    Other(Answer),
}

/// Reads the item at the place.
pub fn item_read(bytes: &[u8], place: u64) -> Result<numbers::Item, Answer> {
    let item = numbers::item_read(bytes, place);
    done(item.answer).map(|()| item)
}

/// Reads the bytes as a descriptor.
pub fn descriptor_read(bytes: &[u8]) -> Result<numbers::Descriptor, Answer> {
    let descriptor = numbers::descriptor_read(bytes);
    done(descriptor.answer).map(|()| descriptor)
}

/// Reads the grant with the index of a descriptor, or none past the last grant and where the bytes don't read.
pub fn grant_at(bytes: &[u8], index: u64) -> Option<numbers::Grant> {
    let grant = numbers::grant_at(bytes, index);
    (grant.found == 1).then_some(grant)
}

/// Walks the grants of a descriptor in their order; each step reads the descriptor anew.
pub fn grants(bytes: &[u8]) -> Grants<'_> {
    Grants { bytes, next: 0 }
}

/// Says how many levels were matched by equal names, or none where the pattern doesn't match the resource id.
pub fn matching(pattern: &[u8], resource: &[u8]) -> Result<Option<u64>, Answer> {
    let matching = numbers::matching(pattern, resource);
    done(matching.answer).map(|()| (matching.yes == 1).then_some(matching.names))
}

/// Makes a new image of no bodies, of edition 2.
pub fn image_new(image: &mut [u8]) -> Result<(), Answer> {
    done(numbers::image_new(image))
}

/// Looks for the body with the id in the image, which is of edition 1 or 2, and hands it back as the part of the image where it
/// lies.
pub fn image_find<'a>(image: &'a [u8], id: &[u8; 16]) -> Result<&'a [u8], Answer> {
    let stored = numbers::image_find(image, id);
    done(stored.answer).map(|()| part(image, stored.body_at, stored.body_len))
}

/// Writes an image of edition 1 as one of edition 2 to the start of a second buffer, with the last-used moment 0 in each row, and
/// says how many bytes it has. A buffer of 512 bytes more than `old` is long enough.
pub fn image_upgrade(old: &[u8], image: &mut [u8]) -> Result<u64, Answer> {
    let written = numbers::image_upgrade(old, image);
    done(written.answer).map(|()| written.len)
}

/// Submits a descriptor to the image, which must be of edition 2 and then holds it, last used now. Its descriptor id and the UUIDs of
/// its fay id and its terminal id must be of version 7, and the two texts in lower-case digits; bodies of other ids that the image
/// holds stay there, and are answered with [`Answer::InvalidStructure`] when they are submitted again. Where it doesn't fit, rows that
/// are expired now are removed, least recently used first, only until it does.
pub fn submit(image: &mut [u8], descriptor: &[u8], now: Seconds, key: &Key) -> Result<(), Answer> {
    done(numbers::submit(
        image,
        descriptor,
        now,
        key.verdict as u64,
        key.valid_from,
        u64::from(key.valid_until.is_some()),
        key.valid_until.unwrap_or_default(),
    ))
}

/// Decides a request for the stored descriptor with the id. Of the grants that serve the decision has the one with most levels
/// matched by equal names, the first of those; and what is left of the lease, 0 where the id has none. A grant raises the last-used
/// moment of the row, in an image of edition 2, to the clock in seconds, and changes nothing else; a refusal changes nothing.
pub fn request(image: &mut [u8], with: &Request) -> Result<numbers::Decision, RequestRefusal> {
    let decision = numbers::request(
        image,
        with.id,
        with.fay,
        with.terminal,
        with.resource,
        with.mode as u64,
        with.now,
        with.session_length,
        revocation::bytes_of(with.revoked),
        with.leases.bytes(),
        with.key.verdict as u64,
        with.key.valid_from,
        u64::from(with.key.valid_until.is_some()),
        with.key.valid_until.unwrap_or_default(),
    );
    done(decision.answer)
        .map(|()| decision)
        .map_err(|answer| match answer {
            Answer::LeaseStale => RequestRefusal::Stale {
                margin: decision.margin,
            },
            _ => RequestRefusal::Other(answer),
        })
}

/// Narrows the child descriptor under the parent.
pub fn narrow(parent: &[u8], child: &[u8]) -> Result<(), Refusal> {
    let narrowing = numbers::narrow(parent, child);
    done(narrowing.answer).map_err(|answer| match (answer, Mode::of(narrowing.mode)) {
        (Answer::GrantNotCovered, Some(mode)) => Refusal::Escape {
            grant: narrowing.grant,
            mode,
            levels: narrowing.levels,
        },
        _ => Refusal::Other(answer),
    })
}

/// The part of the bytes at a place that a call has answered with; empty if it doesn't lie inside them.
pub fn part(bytes: &[u8], at: u64, length: u64) -> &[u8] {
    let inside = || {
        let at = usize::try_from(at).ok()?;
        bytes.get(at..)?.get(..usize::try_from(length).ok()?)
    };
    inside().unwrap_or_default()
}

/// The grants of a descriptor, one after another.
#[derive(Clone, Debug)]
pub struct Grants<'a> {
    bytes: &'a [u8],
    next: u64,
}

impl Iterator for Grants<'_> {
    type Item = numbers::Grant;

    fn next(&mut self) -> Option<numbers::Grant> {
        let grant = grant_at(self.bytes, self.next)?;
        self.next += 1;
        Some(grant)
    }
}

impl FusedIterator for Grants<'_> {}

impl RequestRefusal {
    /// The answer of the table.
    pub fn answer(self) -> Answer {
        match self {
            RequestRefusal::Stale { .. } => Answer::LeaseStale,
            RequestRefusal::Other(answer) => answer,
        }
    }
}

impl fmt::Display for RequestRefusal {
    fn fmt(&self, out: &mut fmt::Formatter) -> fmt::Result {
        match self {
            RequestRefusal::Stale { margin } => {
                let past = margin.0.unsigned_abs();
                write!(out, "{}, for {past} ms", self.answer())
            }
            RequestRefusal::Other(answer) => answer.fmt(out),
        }
    }
}

impl Error for RequestRefusal {}

impl Mode {
    /// The mode with the number.
    pub fn of(number: u64) -> Option<Mode> {
        [Mode::Read, Mode::Write, Mode::Execute, Mode::Configure]
            .into_iter()
            .find(|&mode| mode as u64 == number)
    }
}

/// Ok for 0, else the answer with the number.
fn done(number: u64) -> Result<(), Answer> {
    match Answer::of(number) {
        Some(Answer::Done) => Ok(()),
        Some(answer) => Err(answer),
        None => unreachable!("the library answers with the numbers of the table alone"),
    }
}
