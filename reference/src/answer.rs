//! The numbers of document 01's table, with those of document 02, that this implementation answers with, and the host's verdicts.

/// Done, granted, accepted.
pub const DONE: u64 = 0;
/// Not the deterministic encoding of an allowed item or descriptor; on submission also an id that is no UUID of version 7.
pub const INVALID_STRUCTURE: u64 = 1;
/// Valid for too long, or beginning too far ahead.
pub const VALIDITY_OUT_OF_RANGE: u64 = 2;
/// The host has no such key.
pub const UNKNOWN_ISSUER: u64 = 3;
/// The host found the signature bad.
pub const INVALID_SIGNATURE: u64 = 4;
/// Other bytes are held under the id.
pub const DUPLICATE_DESCRIPTOR_ID: u64 = 5;
/// No row or no room is left, also without the expired rows.
pub const STORAGE_FULL: u64 = 6;
/// The id is not held.
pub const DESCRIPTOR_NOT_FOUND: u64 = 7;
/// A row of the revocation list has the id, and its moment is not after now.
pub const DESCRIPTOR_REVOKED: u64 = 8;
/// The period has not begun.
pub const DESCRIPTOR_NOT_YET_VALID: u64 = 9;
/// The period has ended.
pub const DESCRIPTOR_EXPIRED: u64 = 10;
/// Another fay.
pub const SUBJECT_MISMATCH: u64 = 11;
/// Another terminal.
pub const TERMINAL_MISMATCH: u64 = 12;
/// No grant serves the request.
pub const AUTHORIZATION_INSUFFICIENT: u64 = 13;
/// The clock is outside the key's window, or there is no key for a request.
pub const VERIFICATION_KEY_INVALID: u64 = 14;
/// Malformed arguments.
pub const MALFORMED_ARGUMENTS: u64 = 15;
/// The bytes are no sound image of an edition that the call takes.
pub const BAD_IMAGE: u64 = 16;
/// The buffer is too short for a new or an upgraded image.
pub const OUTPUT_TOO_SHORT: u64 = 17;
/// The child's period is not inside the parent's.
pub const PERIOD_NOT_INSIDE: u64 = 18;
/// A grant of the parent or the child has a constraint pair.
pub const CONSTRAINT_PRESENT: u64 = 19;
/// A path escapes the parent.
pub const GRANT_NOT_COVERED: u64 = 20;
/// The parent doesn't read.
pub const PARENT_UNREAD: u64 = 21;
/// The clock is before the lease's last sync by more than its future skew.
pub const LEASE_FUTURE: u64 = 23;
/// The lease's ttl is over, and its grace is not: sync, and ask again.
pub const LEASE_STALE: u64 = 24;
/// The lease's grace is over.
pub const LEASE_EXPIRED: u64 = 25;
/// The lease is revoked.
pub const LEASE_REVOKED: u64 = 26;

/// The verdict of a host that found the signature bad.
pub const VERDICT_BAD: u64 = 1;
/// The verdict of a host that has no such key; larger verdicts are malformed.
pub const VERDICT_NO_KEY: u64 = 2;
