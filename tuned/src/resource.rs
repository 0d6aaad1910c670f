//! The forms of ids and of levels, tested many bytes at a time without a branch for a byte.

use crate::words::{same, unlike, word, LANES};

/// The length of a fay id.
pub(crate) const FAY_LENGTH: usize = 40;
/// The length of a terminal id.
pub(crate) const TERMINAL_LENGTH: usize = 45;
/// The most bytes of a resource id or a pattern.
pub(crate) const MOST_BYTES: usize = 256;
/// The length of a UUID text.
const UUID_LENGTH: usize = 36;
/// The form of a UUID text, in which an x stands for any hexadecimal digit.
const UUID_FORM: &[u8; UUID_LENGTH] = b"xxxxxxxx-xxxx-xxxx-xxxx-xxxxxxxxxxxx";
/// What is taken from each byte of a UUID text so that a digit becomes its value and a hyphen 0.
const DIGITS_FROM: [u8; UUID_LENGTH] = digits_from();

/// The digit 0 for each x of the form, and else the byte itself.
const fn digits_from() -> [u8; UUID_LENGTH] {
    let mut from = *UUID_FORM;
    let mut at = 0;
    while at < UUID_LENGTH {
        if from[at] == b'x' {
            from[at] = b'0';
        }
        at += 1;
    }
    from
}

/// Whether the text is 8-4-4-4-12 hexadecimal digits of either case.
#[inline(always)]
fn is_uuid(text: &[u8; UUID_LENGTH]) -> bool {
    let mut fault = 0;
    for lane in 0..LANES {
        fault |= uuid_fault(text, lane);
    }
    fault == 0 && has_hyphens(text)
}

/// 0 where the bytes of a lane may stand in a UUID text.
#[inline(always)]
pub(crate) fn uuid_fault(text: &[u8; UUID_LENGTH], lane: usize) -> u8 {
    digit_fault(text, lane)
        | digit_fault(text, LANES + lane)
        | digit_fault(text, UUID_LENGTH - LANES + lane)
}

/// Whether a UUID text has its four hyphens.
#[inline(always)]
pub(crate) fn has_hyphens(text: &[u8; UUID_LENGTH]) -> bool {
    word(text, 8) & 0x0000_ff00_0000_00ff == 0x0000_2d00_0000_002d
        && word(text, 16) & 0xff00_0000_00ff_0000 == 0x2d00_0000_002d_0000
}

/// 0 where the byte at a place of a UUID text is a hexadecimal digit or, in place of a hyphen, one of the first ten from it on.
#[inline(always)]
fn digit_fault(text: &[u8; UUID_LENGTH], at: usize) -> u8 {
    let digit = text[at].wrapping_sub(DIGITS_FROM[at]).saturating_sub(9);
    let letter = (text[at] | 0x20).wrapping_sub(b'a').saturating_sub(5);
    digit.min(letter)
}

/// Whether the text is "fay:" and a UUID text.
#[inline(always)]
pub(crate) fn is_fay_id(text: &[u8; FAY_LENGTH]) -> bool {
    is_id(text, b"fay:")
}

/// Whether the text is "terminal:" and a UUID text.
#[inline(always)]
pub(crate) fn is_terminal_id(text: &[u8; TERMINAL_LENGTH]) -> bool {
    is_id(text, b"terminal:")
}

/// Whether the text is the prefix and a UUID text.
#[inline(always)]
fn is_id<const N: usize, const P: usize>(text: &[u8; N], prefix: &[u8; P]) -> bool {
    text.first_chunk() == Some(prefix) && text.last_chunk().is_some_and(is_uuid)
}

/// Whether the text is a resource id of at most 256 bytes; its terminal id is looked at only where it is not the one that is given, which
/// is well-formed.
#[inline(always)]
pub(crate) fn is_resource_id(text: &[u8], terminal: &[u8; TERMINAL_LENGTH]) -> bool {
    let Some((start, [b'/', ..])) = text.split_first_chunk() else {
        return false;
    };
    text.len() <= MOST_BYTES
        && (same(start, terminal) || is_terminal_id(start))
        && are_levels::<false>(text)
        && text.last() != Some(&b'/')
}

/// How many bytes of levels are tested at a time, with the byte before them: less than a terminal id has after its colon.
const WINDOW: usize = 32;

/// Whether a text is a pattern of at most 256 bytes under the terminal id that the start has before its slash. A last level "**" may
/// stand where "*" may.
#[inline(always)]
pub(crate) fn is_pattern_of(text: &[u8], start: &[u8; TERMINAL_LENGTH + 1]) -> bool {
    let text = match text {
        [before @ .., b'*'] if before.ends_with(b"*") => before,
        _ => text,
    };
    let (Some(begin), Some(window)) = (text.first_chunk(), text.last_chunk()) else {
        return false;
    };
    let begin: &[u8; TERMINAL_LENGTH + 1] = begin;
    let (Some(befores), Some(bytes)) = (window.first_chunk(), window.last_chunk()) else {
        return false;
    };
    let _: &[u8; WINDOW + 1] = window;
    let (befores, bytes): ([u8; WINDOW], [u8; WINDOW]) = (*befores, *bytes);
    let mut fault = 0;
    for at in 0..LANES {
        fault |= unlike(begin, start, at);
        fault |= fault_in::<true>(befores[at], bytes[at]);
        fault |= fault_in::<true>(befores[LANES + at], bytes[LANES + at]);
    }
    let mut sound = fault == 0;
    if text.len() > TERMINAL_LENGTH + WINDOW {
        sound &= are_levels::<true>(&text[..text.len() - WINDOW]);
    }
    sound && text.last() != Some(&b'/')
}

/// Whether a text that begins with a terminal id and a slash goes on in levels, each a name or, in a pattern, "*". The bytes are
/// taken from the end; those of the terminal id before the slash that are taken with them pass for a name.
#[inline(always)]
fn are_levels<const PATTERN: bool>(text: &[u8]) -> bool {
    let mut sound = true;
    let mut left = text;
    while left.len() > TERMINAL_LENGTH {
        let Some(window) = left.last_chunk() else {
            return false;
        };
        sound &= is_sound::<PATTERN>(window);
        left = &left[..left.len() - WINDOW];
    }
    sound
}

/// Whether each byte but the first may stand where it does after the byte before it: no slash after a slash, and a star only beside
/// slashes.
#[inline(always)]
fn is_sound<const PATTERN: bool>(window: &[u8; WINDOW + 1]) -> bool {
    let (Some(befores), Some(bytes)) = (window.first_chunk(), window.last_chunk()) else {
        return false;
    };
    let (befores, bytes): ([u8; WINDOW], [u8; WINDOW]) = (*befores, *bytes);
    let mut fault = 0;
    for at in 0..WINDOW {
        fault |= fault_in::<PATTERN>(befores[at], bytes[at]);
    }
    fault == 0
}

/// 0 where a byte may stand after the one before it. Of a slash and any other byte either may stand after the other; of two others
/// none may be a star.
#[inline(always)]
fn fault_in<const PATTERN: bool>(before: u8, byte: u8) -> u8 {
    let letter = (byte | 0x20).wrapping_sub(b'a').saturating_sub(25);
    // from "-" to "9" are "-", ".", "/" and the digits
    let other = byte.wrapping_sub(b'-').saturating_sub(12);
    let unknown = letter.min(other).min(byte ^ b'_');
    let slash = mask(byte == b'/');
    let slash_before = mask(before == b'/');
    if PATTERN {
        let star = mask(byte == b'*');
        let star_before = mask(before == b'*');
        unknown & !star | (slash_before | star | star_before) & !(slash ^ slash_before)
    } else {
        unknown | slash & slash_before
    }
}

/// All bits set, or none.
#[inline(always)]
fn mask(set: bool) -> u8 {
    u8::from(set).wrapping_neg()
}
