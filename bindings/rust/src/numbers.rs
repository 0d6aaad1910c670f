//! The calls of `include/cap.h` with slices in and the numbers out as the library gives them; a time has the type of its unit.
//!
//! The safety of each call: a Rust slice passes as its pointer, which is never null, and its length, and the library touches no
//! byte outside them; `&mut` overlaps no other slice; and the library keeps no pointer when a call has ended. A time passes as the
//! number that it holds.

use crate::{Margin, Milliseconds, Seconds};

/// What reading an item answers.
#[derive(Clone, Copy, Debug, PartialEq, Eq)]
#[repr(C)]
pub struct Item {
    /// 0 or 1.
    pub answer: u64,
    /// CBOR's major type: 0 unsigned, 2 byte string, 3 text, 4 array, 5 map.
    pub kind: u64,
    /// The value, the length of a string, or the count of an array or a map.
    pub number: u64,
    /// Where a string's content starts; 0 where there is no string.
    pub content_at: u64,
    /// How many bytes a string's content has.
    pub content_len: u64,
    /// The place after the item; of an array or a map, after its head.
    pub next: u64,
}

/// What reading a descriptor answers.
#[derive(Clone, Copy, Debug, PartialEq, Eq)]
#[repr(C)]
pub struct Descriptor {
    /// 0, 1 or 2.
    pub answer: u64,
    /// Where the payload starts, which the signature covers.
    pub payload_at: u64,
    /// How many bytes the payload has.
    pub payload_len: u64,
    /// When the descriptor was issued.
    pub issued_at: Seconds,
    /// The first moment of validity.
    pub not_before: Seconds,
    /// The moment at which validity has ended.
    pub not_after: Seconds,
    /// Where the descriptor id starts, 16 bytes.
    pub id_at: u64,
    /// Where the issuer id starts.
    pub issuer_at: u64,
    /// How many bytes the issuer id has.
    pub issuer_len: u64,
    /// Where the grantor id starts; 0 where it is absent.
    pub grantor_at: u64,
    /// How many bytes the grantor id has; 0 where it is absent.
    pub grantor_len: u64,
    /// Where the subject's fay id starts, 40 bytes.
    pub fay_at: u64,
    /// Where the terminal id starts, 45 bytes.
    pub terminal_at: u64,
    /// How many grants there are.
    pub grants: u64,
    /// The place of the metadata map's head; 0 where it is absent.
    pub metadata_at: u64,
    /// How many pairs the metadata has.
    pub metadata_pairs: u64,
    /// How many constraint pairs all grants have.
    pub constraint_pairs: u64,
    /// The union of the grants' masks.
    pub mask: u64,
    /// Where the key id starts.
    pub key_id_at: u64,
    /// How many bytes the key id has.
    pub key_id_len: u64,
    /// 0 for ed25519 and 1 for ecdsa-p256-sha256.
    pub algorithm: u64,
    /// Where the signature starts.
    pub signature_at: u64,
    /// How many bytes the signature has.
    pub signature_len: u64,
}

/// What looking for a grant answers.
#[derive(Clone, Copy, Debug, PartialEq, Eq)]
#[repr(C)]
pub struct Grant {
    /// 1, or 0 and zeros where there is no such grant.
    pub found: u64,
    /// Where the pattern starts.
    pub pattern_at: u64,
    /// How many bytes the pattern has.
    pub pattern_len: u64,
    /// The modes, as 1, 2, 4 and 8.
    pub mask: u64,
    /// The place of the head of the array of modes.
    pub modes_at: u64,
    /// The place of the constraints map's head; 0 where it is absent.
    pub constraints_at: u64,
    /// How many pairs the constraints have.
    pub constraint_pairs: u64,
}

/// What matching answers.
#[derive(Clone, Copy, Debug, PartialEq, Eq)]
#[repr(C)]
pub struct Matching {
    /// 0 or 15.
    pub answer: u64,
    /// 1 where the pattern matches the resource id, else 0.
    pub yes: u64,
    /// With `yes` 1: how many levels were matched by equal names; the terminal id is no level, "*" and "**" count 0. Else 0.
    pub names: u64,
}

/// What looking for a body answers.
#[derive(Clone, Copy, Debug, PartialEq, Eq)]
#[repr(C)]
pub struct Stored {
    /// 0, 15, 16 or 7, the first of these that applies.
    pub answer: u64,
    /// Where the body lies in the image.
    pub body_at: u64,
    /// How many bytes the body has.
    pub body_len: u64,
}

/// What a call that writes to the start of a buffer answers.
#[derive(Clone, Copy, Debug, PartialEq, Eq)]
#[repr(C)]
pub struct Written {
    /// 0, or the number of the first step that fails.
    pub answer: u64,
    /// With 0: how many bytes were written at the start of the buffer; the bytes after them stay. Else 0.
    pub len: u64,
}

/// What a request answers.
#[derive(Clone, Copy, Debug, PartialEq, Eq)]
#[repr(C)]
pub struct Decision {
    /// 0, or the number of the first step that fails.
    pub answer: u64,
    /// The place of the grant that serves with most levels matched by equal names, the first of those.
    pub grant: u64,
    /// The modes of that grant.
    pub mask: u64,
    /// The smaller of not_after and now + session_length, now being the clock in seconds, rounded down.
    pub session_end: Seconds,
    /// What is left of the lease: with 0 where the lease table has a row with the id, and with 24. Else 0.
    pub margin: Margin,
}

/// What narrowing answers.
#[derive(Clone, Copy, Debug, PartialEq, Eq)]
#[repr(C)]
pub struct Narrowing {
    /// 0, 21, 1, 2, 19, 18 or 20, the first of these that applies.
    pub answer: u64,
    /// With 20: the child's first grant by which a path escapes.
    pub grant: u64,
    /// With 20: the lowest mode in which one does.
    pub mode: u64,
    /// With 20: the fewest names that the grant's "**" takes in one.
    pub levels: u64,
}

extern "C" {
    fn cap_item_read(bytes: *const u8, bytes_len: usize, place: u64) -> Item;
    fn cap_descriptor_read(bytes: *const u8, bytes_len: usize) -> Descriptor;
    fn cap_grant_at(bytes: *const u8, bytes_len: usize, index: u64) -> Grant;
    fn cap_match(
        pattern: *const u8,
        pattern_len: usize,
        resource: *const u8,
        resource_len: usize,
    ) -> Matching;
    fn cap_image_new(image: *mut u8, image_len: usize) -> u64;
    fn cap_image_find(image: *const u8, image_len: usize, id: *const u8, id_len: usize) -> Stored;
    fn cap_image_upgrade(
        old: *const u8,
        old_len: usize,
        image: *mut u8,
        image_len: usize,
    ) -> Written;
    fn cap_submit(
        image: *mut u8,
        image_len: usize,
        descriptor: *const u8,
        descriptor_len: usize,
        now: Seconds,
        verdict: u64,
        valid_from: Seconds,
        has_valid_until: u64,
        valid_until: Seconds,
    ) -> u64;
    fn cap_request(
        image: *mut u8,
        image_len: usize,
        id: *const u8,
        id_len: usize,
        fay: *const u8,
        fay_len: usize,
        terminal: *const u8,
        terminal_len: usize,
        resource: *const u8,
        resource_len: usize,
        mode: u64,
        now_ms: Milliseconds,
        session_length: Seconds,
        revoked: *const u8,
        revoked_len: usize,
        leases: *const u8,
        leases_len: usize,
        verdict: u64,
        valid_from: Seconds,
        has_valid_until: u64,
        valid_until: Seconds,
    ) -> Decision;
    fn cap_narrow(
        parent: *const u8,
        parent_len: usize,
        child: *const u8,
        child_len: usize,
    ) -> Narrowing;
}

/// Reads the item at the place.
pub fn item_read(bytes: &[u8], place: u64) -> Item {
    // SAFETY: as said at the top.
    unsafe { cap_item_read(bytes.as_ptr(), bytes.len(), place) }
}

/// Reads the bytes as a descriptor.
pub fn descriptor_read(bytes: &[u8]) -> Descriptor {
    // SAFETY: as said at the top.
    unsafe { cap_descriptor_read(bytes.as_ptr(), bytes.len()) }
}

/// Reads the grant with the index of a descriptor.
pub fn grant_at(bytes: &[u8], index: u64) -> Grant {
    // SAFETY: as said at the top.
    unsafe { cap_grant_at(bytes.as_ptr(), bytes.len(), index) }
}

/// Matches a pattern and a resource id, and counts the levels that were matched by equal names.
pub fn matching(pattern: &[u8], resource: &[u8]) -> Matching {
    // SAFETY: as said at the top.
    unsafe {
        cap_match(
            pattern.as_ptr(),
            pattern.len(),
            resource.as_ptr(),
            resource.len(),
        )
    }
}

/// Makes a new image of no bodies, of edition 2: 0 or 17.
pub fn image_new(image: &mut [u8]) -> u64 {
    // SAFETY: as said at the top.
    unsafe { cap_image_new(image.as_mut_ptr(), image.len()) }
}

/// Looks for the body with the id in the image, which is of edition 1 or 2.
pub fn image_find(image: &[u8], id: &[u8]) -> Stored {
    // SAFETY: as said at the top.
    unsafe { cap_image_find(image.as_ptr(), image.len(), id.as_ptr(), id.len()) }
}

/// Writes an image of edition 1 as one of edition 2 to the start of a second buffer, with the last-used moment 0 in each row: 16 for
/// anything but a sound image of edition 1, then 17 where the buffer is too short, which one of 512 bytes more than `old` never is.
pub fn image_upgrade(old: &[u8], image: &mut [u8]) -> Written {
    // SAFETY: as said at the top.
    unsafe { cap_image_upgrade(old.as_ptr(), old.len(), image.as_mut_ptr(), image.len()) }
}

/// Submits a descriptor to the image, which must be of edition 2: 0, or the number of the first step that fails. The ids are looked
/// at with structure, before the period: 1 unless the descriptor id and the UUIDs of the fay id and the terminal id are of version 7
/// with the variant of RFC 9562, and the two texts are in lower-case digits. Storing sets the row's last-used moment to now. Where
/// 1,024 rows are held or the larger image exceeds the buffer, rows that are expired now (now >= not_after) are removed, least
/// recently used first, the earlier row on a tie, only until it fits. Where it wouldn't fit without all of them, the answer is 6 and
/// nothing is removed.
pub fn submit(
    image: &mut [u8],
    descriptor: &[u8],
    now: Seconds,
    verdict: u64,
    valid_from: Seconds,
    has_valid_until: u64,
    valid_until: Seconds,
) -> u64 {
    // SAFETY: as said at the top.
    unsafe {
        cap_submit(
            image.as_mut_ptr(),
            image.len(),
            descriptor.as_ptr(),
            descriptor.len(),
            now,
            verdict,
            valid_from,
            has_valid_until,
            valid_until,
        )
    }
}

/// Decides a request for the stored descriptor with the id. A grant serves where it has the mode, a pattern that matches the
/// resource id and no constraint pair; of those that serve the decision has the one with most `names` ([`Matching`]), the first
/// of them on a tie. `revoked` is the revocation list: rows of 24 bytes in any order, each a descriptor id (16), then the moment
/// from which on it is revoked, in seconds, big-endian (8). An id may recur. A length that is no multiple of 24 is answered 15.
/// `leases` is the lease table: rows of 64 bytes, each a descriptor id (16), 1 where the lease is revoked and else 0 (1), zero (7),
/// then last sync in milliseconds, ttl and grace in seconds, future skew and tolerance in milliseconds, big-endian (8 each), with
/// different ids. The limits of these numbers are in `include/cap.h`; a row that is not so, whichever id it has, and a clock above
/// 2^53 are answered 15. Rows in ascending order of id are checked fastest. The steps of the lease come last, and only they look at
/// the milliseconds of `now_ms`.
/// On a grant the last-used moment of the row, 8 bytes of an image of edition 2, becomes the clock in seconds if that is larger; no
/// other byte changes. A refusal changes nothing, nor does a grant on an image of edition 1.
#[allow(clippy::too_many_arguments)]
pub fn request(
    image: &mut [u8],
    id: &[u8],
    fay: &[u8],
    terminal: &[u8],
    resource: &[u8],
    mode: u64,
    now_ms: Milliseconds,
    session_length: Seconds,
    revoked: &[u8],
    leases: &[u8],
    verdict: u64,
    valid_from: Seconds,
    has_valid_until: u64,
    valid_until: Seconds,
) -> Decision {
    // SAFETY: as said at the top.
    unsafe {
        cap_request(
            image.as_mut_ptr(),
            image.len(),
            id.as_ptr(),
            id.len(),
            fay.as_ptr(),
            fay.len(),
            terminal.as_ptr(),
            terminal.len(),
            resource.as_ptr(),
            resource.len(),
            mode,
            now_ms,
            session_length,
            revoked.as_ptr(),
            revoked.len(),
            leases.as_ptr(),
            leases.len(),
            verdict,
            valid_from,
            has_valid_until,
            valid_until,
        )
    }
}

/// Narrows the child descriptor under the parent.
pub fn narrow(parent: &[u8], child: &[u8]) -> Narrowing {
    // SAFETY: as said at the top.
    unsafe { cap_narrow(parent.as_ptr(), parent.len(), child.as_ptr(), child.len()) }
}
