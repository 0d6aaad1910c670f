//! The decision on a request.

use std::cmp::Reverse;

use crate::answer::{
    AUTHORIZATION_INSUFFICIENT, BAD_IMAGE, DESCRIPTOR_EXPIRED, DESCRIPTOR_NOT_FOUND,
    DESCRIPTOR_NOT_YET_VALID, DESCRIPTOR_REVOKED, DONE, INVALID_SIGNATURE, LEASE_EXPIRED,
    LEASE_FUTURE, LEASE_REVOKED, LEASE_STALE, MALFORMED_ARGUMENTS, SUBJECT_MISMATCH,
    TERMINAL_MISMATCH, VERDICT_BAD, VERDICT_NO_KEY, VERIFICATION_KEY_INVALID,
};
use crate::descriptor::{Grant, Reading};
use crate::edition::MOMENT;
use crate::image::Image;
use crate::item::big_endian;
use crate::lease::{is_clock, seconds_clock, State, Table};
use crate::resource::{is_fay_id, is_resource_id, is_terminal_id, names_matched};
use crate::submission::key_is_open;

/// The length of a row of the revocation list.
const LIST_ROW: usize = 24;

/// The texts and numbers of a request.
#[derive(Clone, Copy, Debug, Default, PartialEq, Eq)]
pub struct Request<'a> {
    /// The descriptor id.
    pub id: &'a [u8],
    /// The fay id of the one who asks.
    pub fay: &'a [u8],
    /// The id of this terminal.
    pub terminal: &'a [u8],
    /// The resource id.
    pub resource: &'a [u8],
    /// The mode's number.
    pub mode: u64,
    /// The clock, in milliseconds; the steps on seconds go by it divided by 1,000, rounded down.
    pub now_ms: u64,
    /// The longest session that the host allows, in seconds.
    pub session_length: u64,
    /// The revocation list: rows of 24 bytes, a descriptor id (16) and the moment from which on it is revoked, in seconds,
    /// big-endian (8).
    pub revoked: &'a [u8],
    /// The lease table: rows of 64 bytes, a descriptor id (16), a flag that is 1 where the lease is revoked (1), zero (7), then
    /// last sync in milliseconds, ttl and grace in seconds, future skew and tolerance in milliseconds, big-endian (8 each).
    pub leases: &'a [u8],
    /// The host's verdict: 0 signature good, 1 bad, 2 no such key.
    pub verdict: u64,
    /// The first moment of the key's window.
    pub valid_from: u64,
    /// 0 where the key has no last moment.
    pub has_valid_until: u64,
    /// The last moment of the key's window.
    pub valid_until: u64,
}

/// What a request answers.
#[derive(Clone, Copy, Debug, Default, PartialEq, Eq)]
pub struct Decision {
    /// 0, or the number of the first step that fails.
    pub answer: u64,
    /// The place of the grant that serves with most levels matched by equal names, the first of those.
    pub grant: u64,
    /// The modes of that grant.
    pub mask: u64,
    /// The smaller of not_after and the clock in seconds + session_length.
    pub session_end: u64,
    /// Last sync + ttl + tolerance - the clock, in milliseconds: with 0 where the id has a lease, and with 24. Else 0.
    pub margin: i64,
}

/// A decision that grants, and the place of the moment of the row that it is made on, if that has one.
struct Granted {
    decision: Decision,
    moment_at: Option<usize>,
}

/// The number of the step that fails, and its margin.
struct Refusal {
    answer: u64,
    margin: i64,
}

impl From<u64> for Refusal {
    /// A refusal without a margin, as all but one are.
    fn from(answer: u64) -> Refusal {
        Refusal { answer, margin: 0 }
    }
}

impl Request<'_> {
    /// The clock in seconds.
    fn now(&self) -> u64 {
        seconds_clock(self.now_ms)
    }
}

/// Decides a request for the stored descriptor with the id. Where it is granted, the last-used moment of the row becomes the clock
/// in seconds if that is larger.
pub fn request(image: &mut [u8], with: &Request) -> Decision {
    match decide(image, with) {
        Ok(Granted {
            decision,
            moment_at,
        }) => {
            if let Some(at) = moment_at {
                raise(&mut image[at..][..MOMENT], with.now());
            }
            decision
        }
        Err(Refusal { answer, margin }) => Decision {
            answer,
            margin,
            ..Decision::default()
        },
    }
}

/// Sets a moment to now if now is larger.
fn raise(moment: &mut [u8], now: u64) {
    if now > big_endian(moment) {
        moment.copy_from_slice(&now.to_be_bytes());
    }
}

/// The decision that grants the request, or the refusal of the first step that fails.
fn decide(image: &[u8], with: &Request) -> Result<Granted, Refusal> {
    let leases = Table::of(with.leases).ok_or(MALFORMED_ARGUMENTS)?;
    if !is_well_formed(with) {
        return Err(MALFORMED_ARGUMENTS.into());
    }
    let image = Image::of(image).ok_or(BAD_IMAGE)?;
    let index = image.find(with.id).ok_or(DESCRIPTOR_NOT_FOUND)?;
    let held = &image.rows[index].reading;
    check_descriptor(held, with)?;
    let (place, grant) = most_exact_grant(held, with).ok_or(AUTHORIZATION_INSUFFICIENT)?;
    check_key(with)?;
    let margin = check_lease(&leases, with)?;
    let decision = Decision {
        answer: DONE,
        grant: place as u64,
        mask: grant.mask,
        session_end: session_end(held.numbers.not_after, with),
        margin,
    };
    Ok(Granted {
        decision,
        moment_at: image.edition.moment_place(index),
    })
}

/// Whether each argument but the lease table has its form.
fn is_well_formed(with: &Request) -> bool {
    with.verdict <= VERDICT_NO_KEY
        && is_clock(with.now_ms)
        && with.mode <= 3
        && with.id.len() == 16
        && is_fay_id(with.fay)
        && is_terminal_id(with.terminal)
        && is_resource_id(with.resource)
        && with.revoked.chunks_exact(LIST_ROW).remainder().is_empty()
}

/// The steps from the revocation list to the terminal.
fn check_descriptor(held: &Reading, with: &Request) -> Result<(), u64> {
    if is_revoked(with) {
        Err(DESCRIPTOR_REVOKED)
    } else if with.now() < held.numbers.not_before {
        Err(DESCRIPTOR_NOT_YET_VALID)
    } else if with.now() >= held.numbers.not_after {
        Err(DESCRIPTOR_EXPIRED)
    } else if held.fay() != with.fay {
        Err(SUBJECT_MISMATCH)
    } else if held.terminal() != with.terminal {
        Err(TERMINAL_MISMATCH)
    } else {
        Ok(())
    }
}

/// Whether some row of the revocation list has the id and a moment that is not after now.
fn is_revoked(with: &Request) -> bool {
    with.revoked.chunks(LIST_ROW).any(|row| {
        let (id, moment) = row.split_at(16);
        id == with.id && big_endian(moment) <= with.now()
    })
}

/// Of the grants that serve the one with most levels matched by equal names, the first of those, and its place.
fn most_exact_grant(held: &Reading, with: &Request) -> Option<(usize, Grant)> {
    let serving = held.grants().enumerate().filter_map(|(place, grant)| {
        let names = names_served(held, &grant, with)?;
        Some((names, place, grant))
    });
    serving
        .max_by_key(|&(names, place, _)| (names, Reverse(place)))
        .map(|(_, place, grant)| (place, grant))
}

/// How many levels are matched by equal names, if the grant serves: it has the mode, a matching pattern and no constraint pair.
fn names_served(held: &Reading, grant: &Grant, with: &Request) -> Option<u64> {
    if grant.mask >> with.mode & 1 == 1 && grant.constraint_pairs == 0 {
        names_matched(held.pattern(grant), with.resource)
    } else {
        None
    }
}

/// The steps on the key and the signature.
fn check_key(with: &Request) -> Result<(), u64> {
    let open = key_is_open(
        with.now(),
        with.valid_from,
        with.has_valid_until,
        with.valid_until,
    );
    if with.verdict == VERDICT_NO_KEY || !open {
        Err(VERIFICATION_KEY_INVALID)
    } else if with.verdict == VERDICT_BAD {
        Err(INVALID_SIGNATURE)
    } else {
        Ok(())
    }
}

/// The steps on the lease of the id, which come last: the margin with which it is active, and 0 where the id has none.
fn check_lease(leases: &Table, with: &Request) -> Result<i64, Refusal> {
    match leases.state(with.id, with.now_ms) {
        None => Ok(0),
        Some(State::Active(margin)) => Ok(margin),
        Some(State::Stale(margin)) => Err(Refusal {
            answer: LEASE_STALE,
            margin,
        }),
        Some(State::Revoked) => Err(LEASE_REVOKED.into()),
        Some(State::Future) => Err(LEASE_FUTURE.into()),
        Some(State::Expired) => Err(LEASE_EXPIRED.into()),
    }
}

/// The smaller of not_after and the clock in seconds + session_length, as whole numbers: a sum past 2^64 - 1 is never the smaller.
fn session_end(not_after: u64, with: &Request) -> u64 {
    with.now()
        .checked_add(with.session_length)
        .map_or(not_after, |end| end.min(not_after))
}
