//! Submission of a descriptor to an image.

use crate::answer::{
    BAD_IMAGE, DONE, DUPLICATE_DESCRIPTOR_ID, INVALID_SIGNATURE, INVALID_STRUCTURE,
    MALFORMED_ARGUMENTS, STORAGE_FULL, UNKNOWN_ISSUER, VALIDITY_OUT_OF_RANGE, VERDICT_BAD,
    VERDICT_NO_KEY, VERIFICATION_KEY_INVALID,
};
use crate::descriptor::{lasts_too_long, read_structure, Descriptor, Reading};
use crate::edition::EDITION_2;
use crate::image::{Image, Row};
use crate::uuid::{is_version_7, is_version_7_text};

/// How far ahead of the clock a period may begin: a day.
const LONGEST_WAIT: u64 = 86_400;

/// The numbers of a submission.
#[derive(Clone, Copy, Debug, Default, PartialEq, Eq)]
pub struct Submission {
    /// The clock, in seconds.
    pub now: u64,
    /// The host's verdict: 0 signature good, 1 bad, 2 no such key.
    pub verdict: u64,
    /// The first moment of the key's window.
    pub valid_from: u64,
    /// 0 where the key has no last moment.
    pub has_valid_until: u64,
    /// The last moment of the key's window.
    pub valid_until: u64,
}

/// Submits a descriptor to the image: 0, or the number of the first step that fails.
pub fn submit(image: &mut [u8], descriptor: &[u8], with: &Submission) -> u64 {
    match image_after(image, descriptor, with) {
        Ok(None) => DONE,
        Ok(Some(after)) => {
            image[..after.len()].copy_from_slice(&after);
            DONE
        }
        Err(answer) => answer,
    }
}

/// The bytes of the image that holds the descriptor too, none where it holds it already, or which step fails.
fn image_after(bytes: &[u8], body: &[u8], with: &Submission) -> Result<Option<Vec<u8>>, u64> {
    if with.verdict > VERDICT_NO_KEY {
        return Err(MALFORMED_ARGUMENTS);
    }
    let image = Image::of_edition(&EDITION_2, bytes).ok_or(BAD_IMAGE)?;
    let reading = read_structure(body)
        .filter(has_ids_of_version_7)
        .ok_or(INVALID_STRUCTURE)?;
    check_times_and_key(&reading.numbers, with)?;
    if let Some(index) = image.find(reading.id()) {
        let same = image.rows[index].body == body;
        return same.then_some(None).ok_or(DUPLICATE_DESCRIPTOR_ID);
    }
    let new = Row {
        body,
        reading,
        last_used: with.now,
    };
    let after = image.with_row(new, bytes.len(), with.now);
    Ok(Some(after.ok_or(STORAGE_FULL)?.bytes()))
}

/// Whether the descriptor id and the UUIDs of the fay id and the terminal id are of version 7, and neither text has an upper-case
/// digit.
fn has_ids_of_version_7(reading: &Reading) -> bool {
    let fay = reading.fay().strip_prefix(b"fay:");
    let terminal = reading.terminal().strip_prefix(b"terminal:");
    is_version_7(reading.id())
        && fay.is_some_and(is_version_7_text)
        && terminal.is_some_and(is_version_7_text)
}

/// The steps between structure and the table of contents.
fn check_times_and_key(descriptor: &Descriptor, with: &Submission) -> Result<(), u64> {
    if lasts_too_long(descriptor) || begins_too_late(descriptor.not_before, with.now) {
        Err(VALIDITY_OUT_OF_RANGE)
    } else if with.verdict == VERDICT_NO_KEY {
        Err(UNKNOWN_ISSUER)
    } else if !key_is_open(
        with.now,
        with.valid_from,
        with.has_valid_until,
        with.valid_until,
    ) {
        Err(VERIFICATION_KEY_INVALID)
    } else if with.verdict == VERDICT_BAD {
        Err(INVALID_SIGNATURE)
    } else {
        Ok(())
    }
}

/// Whether not_before > now + 86,400, as whole numbers.
fn begins_too_late(not_before: u64, now: u64) -> bool {
    u128::from(not_before) > u128::from(now) + u128::from(LONGEST_WAIT)
}

/// Whether the clock is inside the key's window, both of whose ends belong to it.
pub(crate) fn key_is_open(
    now: u64,
    valid_from: u64,
    has_valid_until: u64,
    valid_until: u64,
) -> bool {
    valid_from <= now && (has_valid_until == 0 || now <= valid_until)
}
