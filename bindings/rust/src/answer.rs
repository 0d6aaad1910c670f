//! The numbered table of answers.

use std::error::Error;
use std::fmt;

/// The answers of every call; [`Answer::number`] gives the number of the published table.
#[derive(Clone, Copy, Debug, PartialEq, Eq, Hash)]
#[repr(u8)]
pub enum Answer {
    /// Done, granted, accepted.
    Done = 0,
    /// Not the deterministic encoding of an allowed item or descriptor. On submission also: an id is no UUID of version 7 with the
    /// variant of RFC 9562, or the text of one has an upper-case digit.
    InvalidStructure = 1,
    /// Valid for over 90 days, or beginning over a day ahead.
    ValidityOutOfRange = 2,
    /// The host has no such key.
    UnknownIssuer = 3,
    /// The host found the signature bad.
    InvalidSignature = 4,
    /// Other bytes are held under the id.
    DuplicateDescriptorId = 5,
    /// 1,024 rows are held, or the larger image exceeds the buffer, also without the expired ones.
    StorageFull = 6,
    /// The id is not held.
    DescriptorNotFound = 7,
    /// A row of the revocation list has the id, and its moment is not after now.
    DescriptorRevoked = 8,
    /// The clock is before not_before.
    DescriptorNotYetValid = 9,
    /// The clock has reached not_after.
    DescriptorExpired = 10,
    /// The descriptor is for another fay.
    SubjectMismatch = 11,
    /// The descriptor is for another terminal.
    TerminalMismatch = 12,
    /// No grant has the mode, a matching pattern and no constraint.
    AuthorizationInsufficient = 13,
    /// The clock is outside the key's window, or a request has no key.
    VerificationKeyInvalid = 14,
    /// An argument is malformed.
    MalformedArguments = 15,
    /// The bytes are no sound image of an edition that the call takes.
    BadImage = 16,
    /// The buffer is too short for a new or an upgraded image.
    OutputTooShort = 17,
    /// The child's period is not inside the parent's.
    PeriodNotInside = 18,
    /// The parent or the child has a constraint.
    ConstraintPresent = 19,
    /// The parent doesn't cover a grant of the child.
    GrantNotCovered = 20,
    /// The parent doesn't read.
    ParentUnread = 21,
    /// The clock is before the lease's last sync by more than its skew.
    LeaseFuture = 23,
    /// The lease's ttl is over, and its grace is not: sync and ask again.
    LeaseStale = 24,
    /// The lease's grace is over too: a new descriptor is needed.
    LeaseExpired = 25,
    /// The lease is revoked.
    LeaseRevoked = 26,
}

/// All answers with their published names.
const TABLE: [(Answer, &str); 26] = [
    (Answer::Done, "done"),
    (Answer::InvalidStructure, "E_INVALID_STRUCTURE"),
    (Answer::ValidityOutOfRange, "E_VALIDITY_OUT_OF_RANGE"),
    (Answer::UnknownIssuer, "E_UNKNOWN_ISSUER"),
    (Answer::InvalidSignature, "E_INVALID_SIGNATURE"),
    (Answer::DuplicateDescriptorId, "E_DUPLICATE_DESCRIPTOR_ID"),
    (Answer::StorageFull, "E_STORAGE_FULL"),
    (Answer::DescriptorNotFound, "E_DESCRIPTOR_NOT_FOUND"),
    (Answer::DescriptorRevoked, "E_DESCRIPTOR_REVOKED"),
    (Answer::DescriptorNotYetValid, "E_DESCRIPTOR_NOT_YET_VALID"),
    (Answer::DescriptorExpired, "E_DESCRIPTOR_EXPIRED"),
    (Answer::SubjectMismatch, "E_SUBJECT_MISMATCH"),
    (Answer::TerminalMismatch, "E_TERMINAL_MISMATCH"),
    (
        Answer::AuthorizationInsufficient,
        "E_AUTHORIZATION_INSUFFICIENT",
    ),
    (Answer::VerificationKeyInvalid, "E_VERIFICATION_KEY_INVALID"),
    (Answer::MalformedArguments, "malformed arguments"),
    (Answer::BadImage, "bad image"),
    (Answer::OutputTooShort, "output too short"),
    (Answer::PeriodNotInside, "period not inside"),
    (Answer::ConstraintPresent, "constraint present"),
    (Answer::GrantNotCovered, "grant not covered"),
    (Answer::ParentUnread, "parent doesn't read"),
    (Answer::LeaseFuture, "lease future"),
    (Answer::LeaseStale, "lease stale"),
    (Answer::LeaseExpired, "lease expired"),
    (Answer::LeaseRevoked, "lease revoked"),
];

impl Answer {
    /// The number of the answer in the published table.
    pub fn number(self) -> u64 {
        self as u64
    }

    /// The answer with the number, if it is in the table.
    pub fn of(number: u64) -> Option<Answer> {
        let mut answers = TABLE.into_iter().map(|(answer, _)| answer);
        answers.find(|answer| answer.number() == number)
    }

    /// The published name.
    pub fn name(self) -> &'static str {
        let row = TABLE.into_iter().find(|&(answer, _)| answer == self);
        row.expect("the table has every answer").1
    }
}

impl fmt::Display for Answer {
    fn fmt(&self, out: &mut fmt::Formatter) -> fmt::Result {
        write!(out, "{} ({})", self.name(), self.number())
    }
}

impl Error for Answer {}
