//! The decision on a request.

use reference::answer::{
    AUTHORIZATION_INSUFFICIENT, BAD_IMAGE, DESCRIPTOR_EXPIRED, DESCRIPTOR_NOT_FOUND,
    DESCRIPTOR_NOT_YET_VALID, DESCRIPTOR_REVOKED, DONE, INVALID_SIGNATURE, LEASE_EXPIRED,
    LEASE_FUTURE, LEASE_REVOKED, LEASE_STALE, MALFORMED_ARGUMENTS, SUBJECT_MISMATCH,
    TERMINAL_MISMATCH, VERDICT_BAD, VERDICT_NO_KEY, VERIFICATION_KEY_INVALID,
};
use reference::{Decision, Request};

use crate::body::{read, Reading};
use crate::grants::Grant;
use crate::image;
use crate::lease::{self, Lease, State, LAST_MOMENT};
use crate::matching::names_matched;
use crate::resource::{is_fay_id, is_resource_id, is_terminal_id, FAY_LENGTH, TERMINAL_LENGTH};
use crate::revocation::{is_list, is_revoked};
use crate::words::same;

/// The number of the last mode.
const LAST_MODE: u64 = 3;
/// The length of a moment.
const MOMENT: usize = 8;

/// The arguments of a request in their forms.
struct Asked<'a> {
    id: &'a [u8; 16],
    fay: &'a [u8; FAY_LENGTH],
    terminal: &'a [u8; TERMINAL_LENGTH],
    resource: &'a [u8],
    /// The mode as a bit of a mask.
    mode: u8,
    /// The clock in seconds.
    now: u64,
    lease: Option<Lease<'a>>,
}

/// The grants of a descriptor that were seen: how many, and of those that serve the one with most levels matched by equal names, the
/// first of those.
#[derive(Default)]
struct Search {
    place: u64,
    found: Option<Found>,
}

/// A grant that serves.
struct Found {
    names: u8,
    place: u64,
    mask: u8,
}

/// The number of the step that fails, and its margin.
struct Refusal {
    answer: u64,
    margin: i64,
}

impl From<u64> for Refusal {
    /// A refusal without a margin, as all but one are.
    fn from(answer: u64) -> Refusal {
        Refusal { answer, margin: 0 }
    }
}

/// Decides a request for the stored descriptor with the id. Where it is granted, the last-used moment of the row becomes the clock
/// in seconds if that is larger.
pub fn request(image: &mut [u8], with: &Request) -> Decision {
    match decide(image, with) {
        Ok((decision, moment_at)) => {
            if let Some(moment) = moment_at.and_then(|at| image.get_mut(at..)?.first_chunk_mut()) {
                raise(moment, with.now_ms / 1000);
            }
            decision
        }
        Err(Refusal { answer, margin }) => Decision {
            answer,
            margin,
            ..Decision::default()
        },
    }
}

/// Sets a moment to now if now is larger.
fn raise(moment: &mut [u8; MOMENT], now: u64) {
    if now > u64::from_be_bytes(*moment) {
        *moment = now.to_be_bytes();
    }
}

/// The decision that grants the request, with the place of the moment of its row, or the refusal of the first step that fails.
fn decide(image: &[u8], with: &Request) -> Result<(Decision, Option<usize>), Refusal> {
    let asked = Asked::of(with).ok_or(MALFORMED_ARGUMENTS)?;
    let held = image::find(image, asked.id).ok_or(BAD_IMAGE)?;
    let held = held.ok_or(DESCRIPTOR_NOT_FOUND)?;
    let mut search = Search::default();
    let reading = read(held.body, asked.id, |grant| search.take(grant, &asked))
        .filter(|reading| u64::from(reading.mask) == held.mask)
        .ok_or(BAD_IMAGE)?;
    check_descriptor(&reading, &asked, with.revoked)?;
    let found = search
        .found
        .filter(|_| {
            let terminal = asked.resource.first_chunk();
            terminal.is_some_and(|terminal| same(terminal, reading.terminal))
        })
        .ok_or(AUTHORIZATION_INSUFFICIENT)?;
    check_key(with, asked.now)?;
    let margin = check_lease(asked.lease, with.now_ms)?;
    let session_end = asked.now.saturating_add(with.session_length);
    let decision = Decision {
        answer: DONE,
        grant: found.place,
        mask: u64::from(found.mask),
        session_end: session_end.min(reading.not_after),
        margin,
    };
    Ok((decision, held.moment_at))
}

impl<'a> Asked<'a> {
    /// The arguments, if each has its form.
    #[inline(always)]
    fn of(with: &Request<'a>) -> Option<Asked<'a>> {
        let id = with.id.try_into().ok()?;
        let fay = with.fay.try_into().ok()?;
        let terminal = with.terminal.try_into().ok()?;
        let formed = with.verdict <= VERDICT_NO_KEY
            && with.mode <= LAST_MODE
            && with.now_ms <= LAST_MOMENT
            && is_list(with.revoked)
            && is_fay_id(fay)
            && is_terminal_id(terminal)
            && is_resource_id(with.resource, terminal);
        if !formed {
            return None;
        }
        Some(Asked {
            id,
            fay,
            terminal,
            resource: with.resource,
            mode: 1 << with.mode,
            now: with.now_ms / 1000,
            lease: lease::find(with.leases, id)?,
        })
    }
}

impl Search {
    /// Takes the next grant.
    #[inline(always)]
    fn take(&mut self, grant: &Grant, asked: &Asked) {
        if grant.mask & asked.mode != 0 && grant.pairs == 0 {
            if let Some(names) = names_matched(grant.pattern, asked.resource) {
                self.keep(names, grant.mask);
            }
        }
        self.place += 1;
    }

    /// Keeps a grant that serves, if it is more exact than the one before.
    #[inline(always)]
    fn keep(&mut self, names: u8, mask: u8) {
        if self.found.as_ref().is_none_or(|found| found.names < names) {
            self.found = Some(Found {
                names,
                place: self.place,
                mask,
            });
        }
    }
}

/// The steps from the revocation list to the terminal.
fn check_descriptor(held: &Reading, asked: &Asked, revoked: &[u8]) -> Result<(), u64> {
    if is_revoked(revoked, asked.id, asked.now) {
        Err(DESCRIPTOR_REVOKED)
    } else if asked.now < held.not_before {
        Err(DESCRIPTOR_NOT_YET_VALID)
    } else if asked.now >= held.not_after {
        Err(DESCRIPTOR_EXPIRED)
    } else if !same(held.fay, asked.fay) {
        Err(SUBJECT_MISMATCH)
    } else if !same(held.terminal, asked.terminal) {
        Err(TERMINAL_MISMATCH)
    } else {
        Ok(())
    }
}

/// The steps on the key and the signature.
fn check_key(with: &Request, now: u64) -> Result<(), u64> {
    let ended = with.has_valid_until != 0 && now > with.valid_until;
    if with.verdict == VERDICT_NO_KEY || now < with.valid_from || ended {
        Err(VERIFICATION_KEY_INVALID)
    } else if with.verdict == VERDICT_BAD {
        Err(INVALID_SIGNATURE)
    } else {
        Ok(())
    }
}

/// The steps on the lease, which come last: the margin with which it is active, and 0 where there is none.
fn check_lease(lease: Option<Lease>, now_ms: u64) -> Result<i64, Refusal> {
    match lease.map(|lease| lease.state(now_ms)) {
        None => Ok(0),
        Some(State::Active(margin)) => Ok(margin),
        Some(State::Stale(margin)) => Err(Refusal {
            answer: LEASE_STALE,
            margin,
        }),
        Some(State::Revoked) => Err(LEASE_REVOKED.into()),
        Some(State::Future) => Err(LEASE_FUTURE.into()),
        Some(State::Expired) => Err(LEASE_EXPIRED.into()),
    }
}
