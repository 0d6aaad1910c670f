//! Identifiers, resource ids, patterns, and matching.

use crate::answer::{DONE, MALFORMED_ARGUMENTS};

/// The length of a fay id.
pub(crate) const FAY_LENGTH: usize = 40;
/// The length of a terminal id.
pub(crate) const TERMINAL_LENGTH: usize = 45;
/// The most bytes of a resource id or a pattern.
const MOST_BYTES: usize = 256;
/// The form of a UUID text, in which an x stands for any hexadecimal digit.
const UUID_FORM: &[u8; 36] = b"xxxxxxxx-xxxx-xxxx-xxxx-xxxxxxxxxxxx";

/// What matching answers.
#[derive(Clone, Copy, Debug, Default, PartialEq, Eq)]
pub struct Matching {
    /// 0, or 15 where one of the texts is malformed.
    pub answer: u64,
    /// 1 where the pattern matches the resource id, else 0.
    pub yes: u64,
    /// How many levels were matched by equal names; 0 where the pattern doesn't match.
    pub names: u64,
}

/// Matches a pattern and a resource id.
pub fn matching(pattern: &[u8], resource: &[u8]) -> Matching {
    if !is_pattern(pattern) || !is_resource_id(resource) {
        return Matching {
            answer: MALFORMED_ARGUMENTS,
            ..Matching::default()
        };
    }
    let names = names_matched(pattern, resource);
    Matching {
        answer: DONE,
        yes: u64::from(names.is_some()),
        names: names.unwrap_or(0),
    }
}

/// How many levels are matched by equal names, if a well-formed pattern matches a well-formed resource id.
pub(crate) fn names_matched(pattern: &[u8], resource: &[u8]) -> Option<u64> {
    let (terminal, levels) = pattern.split_at(TERMINAL_LENGTH);
    let (other, path) = resource.split_at(TERMINAL_LENGTH);
    if terminal == other {
        levels_match(&levels[1..], &path[1..])
    } else {
        None
    }
}

/// How many levels are matched by equal names, if the levels of a pattern match those of a path.
fn levels_match(pattern: &[u8], path: &[u8]) -> Option<u64> {
    let mut names = levels_of(path);
    let mut equal = 0;
    for level in levels_of(pattern) {
        match (level, names.next()?) {
            (b"**", _) => return Some(equal),
            (b"*", _) => {}
            (level, name) if level == name => equal += 1,
            _ => return None,
        }
    }
    names.next().is_none().then_some(equal)
}

/// The levels of a text without its terminal id and the slash after it.
pub(crate) fn levels_of(text: &[u8]) -> impl Iterator<Item = &[u8]> {
    text.split(|&byte| byte == b'/')
}

/// Whether the text is "fay:" and a UUID text.
pub(crate) fn is_fay_id(text: &[u8]) -> bool {
    text.strip_prefix(b"fay:").is_some_and(is_uuid)
}

/// Whether the text is "terminal:" and a UUID text.
pub(crate) fn is_terminal_id(text: &[u8]) -> bool {
    text.strip_prefix(b"terminal:").is_some_and(is_uuid)
}

/// Whether the text is a resource id of at most 256 bytes.
pub(crate) fn is_resource_id(text: &[u8]) -> bool {
    text.len() <= MOST_BYTES && levels_under_terminal(text).is_some_and(are_path_levels)
}

/// Whether the text is a pattern of at most 256 bytes.
pub(crate) fn is_pattern(text: &[u8]) -> bool {
    text.len() <= MOST_BYTES && levels_under_terminal(text).is_some_and(are_pattern_levels)
}

/// Whether the text is a pattern of at most 256 bytes under the terminal id.
pub(crate) fn is_pattern_of(text: &[u8], terminal: &[u8]) -> bool {
    text.len() <= MOST_BYTES
        && text
            .strip_prefix(terminal)
            .and_then(|rest| rest.strip_prefix(b"/"))
            .is_some_and(are_pattern_levels)
}

/// What follows a terminal id and a slash, if the text begins with them.
fn levels_under_terminal(text: &[u8]) -> Option<&[u8]> {
    let (terminal, rest) = text.split_at_checked(TERMINAL_LENGTH)?;
    if is_terminal_id(terminal) {
        rest.strip_prefix(b"/")
    } else {
        None
    }
}

/// Whether each level is a name.
fn are_path_levels(levels: &[u8]) -> bool {
    levels_of(levels).all(is_name)
}

/// Whether each level is a name or "*", and the last perhaps "**".
fn are_pattern_levels(levels: &[u8]) -> bool {
    let mut rest = levels_of(levels).peekable();
    while let Some(level) = rest.next() {
        let last = rest.peek().is_none();
        if !is_name(level) && level != b"*" && !(last && level == b"**") {
            return false;
        }
    }
    true
}

/// Whether the level is one or more of a-z A-Z 0-9 . _ -.
fn is_name(level: &[u8]) -> bool {
    !level.is_empty() && level.iter().all(|&byte| is_name_byte(byte))
}

/// Whether the byte may stand in a name.
fn is_name_byte(byte: u8) -> bool {
    byte.is_ascii_alphanumeric() || matches!(byte, b'.' | b'_' | b'-')
}

/// Whether the text is 8-4-4-4-12 hexadecimal digits of either case.
fn is_uuid(text: &[u8]) -> bool {
    text.len() == UUID_FORM.len()
        && text.iter().zip(UUID_FORM).all(|(byte, form)| match form {
            b'x' => byte.is_ascii_hexdigit(),
            _ => byte == form,
        })
}
