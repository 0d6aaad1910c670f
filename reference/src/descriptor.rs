//! Descriptors: reading, and the grants of one that reads.

use std::ops::RangeInclusive;

use crate::answer::{INVALID_STRUCTURE, VALIDITY_OUT_OF_RANGE};
use crate::cursor::Cursor;
use crate::resource::{
    is_fay_id, is_pattern, is_pattern_of, is_terminal_id, FAY_LENGTH, TERMINAL_LENGTH,
};

/// The most bytes of a descriptor.
const MOST_BYTES: usize = 32_768;
/// The longest period: 90 days.
const LONGEST_PERIOD: u64 = 7_776_000;
/// The encoded names of the modes, each at its number.
const MODES: [&[u8]; 4] = [b"\x64read", b"\x65write", b"\x67execute", b"\x69configure"];
/// Any length of a text that is tested otherwise.
const ANY: RangeInclusive<u64> = 0..=u64::MAX;

/// What reading a descriptor answers.
#[derive(Clone, Copy, Debug, Default, PartialEq, Eq)]
pub struct Descriptor {
    /// 0, 1 or 2; with 1 and 2 all other numbers are 0.
    pub answer: u64,
    /// Where the payload starts, which the signature covers.
    pub payload_at: u64,
    /// How many bytes the payload has.
    pub payload_len: u64,
    /// When the descriptor was issued, in seconds.
    pub issued_at: u64,
    /// The first moment of validity, in seconds.
    pub not_before: u64,
    /// The moment at which validity has ended, in seconds.
    pub not_after: u64,
    /// Where the descriptor id starts, 16 bytes.
    pub id_at: u64,
    /// Where the issuer id starts.
    pub issuer_at: u64,
    /// How many bytes the issuer id has.
    pub issuer_len: u64,
    /// Where the grantor id starts; 0 where it is absent.
    pub grantor_at: u64,
    /// How many bytes the grantor id has; 0 where it is absent.
    pub grantor_len: u64,
    /// Where the subject's fay id starts, 40 bytes.
    pub fay_at: u64,
    /// Where the terminal id starts, 45 bytes.
    pub terminal_at: u64,
    /// How many grants there are.
    pub grants: u64,
    /// The place of the metadata map's head; 0 where it is absent.
    pub metadata_at: u64,
    /// How many pairs the metadata has.
    pub metadata_pairs: u64,
    /// How many constraint pairs all grants have.
    pub constraint_pairs: u64,
    /// The union of the grants' masks.
    pub mask: u64,
    /// Where the key id starts.
    pub key_id_at: u64,
    /// How many bytes the key id has.
    pub key_id_len: u64,
    /// 0 for ed25519 and 1 for ecdsa-p256-sha256.
    pub algorithm: u64,
    /// Where the signature starts.
    pub signature_at: u64,
    /// How many bytes the signature has.
    pub signature_len: u64,
}

/// What looking for a grant answers.
#[derive(Clone, Copy, Debug, Default, PartialEq, Eq)]
pub struct Grant {
    /// 1, or 0 and zeros where there is no such grant.
    pub found: u64,
    /// Where the pattern starts.
    pub pattern_at: u64,
    /// How many bytes the pattern has.
    pub pattern_len: u64,
    /// The modes, as 1, 2, 4 and 8.
    pub mask: u64,
    /// The place of the head of the array of modes.
    pub modes_at: u64,
    /// The place of the constraints map's head; 0 where it is absent.
    pub constraints_at: u64,
    /// How many pairs the constraints have.
    pub constraint_pairs: u64,
}

/// A descriptor that reads: its numbers, and a cursor at its first grant.
#[derive(Clone, Copy)]
pub(crate) struct Reading<'a> {
    pub(crate) numbers: Descriptor,
    first_grant: Cursor<'a>,
}

impl<'a> Reading<'a> {
    /// The grants in their order.
    pub(crate) fn grants(&self) -> impl Iterator<Item = Grant> + 'a {
        let mut cursor = self.first_grant;
        (0..self.numbers.grants).map_while(move |_| read_grant(&mut cursor, None))
    }

    /// The part of the bytes that starts at a place of the numbers.
    pub(crate) fn part(&self, at: u64, length: usize) -> &'a [u8] {
        &self.first_grant.bytes[at as usize..][..length]
    }

    /// The descriptor id.
    pub(crate) fn id(&self) -> &'a [u8] {
        self.part(self.numbers.id_at, 16)
    }

    /// The fay id of the subject.
    pub(crate) fn fay(&self) -> &'a [u8] {
        self.part(self.numbers.fay_at, FAY_LENGTH)
    }

    /// The terminal id.
    pub(crate) fn terminal(&self) -> &'a [u8] {
        self.part(self.numbers.terminal_at, TERMINAL_LENGTH)
    }

    /// The pattern of one of the grants.
    pub(crate) fn pattern(&self, grant: &Grant) -> &'a [u8] {
        self.part(grant.pattern_at, grant.pattern_len as usize)
    }
}

/// Reads the bytes as a descriptor.
pub fn descriptor_read(bytes: &[u8]) -> Descriptor {
    match read(bytes) {
        Ok(reading) => reading.numbers,
        Err(answer) => Descriptor {
            answer,
            ..Descriptor::default()
        },
    }
}

/// Reads the grant with the index of a descriptor.
pub fn grant_at(bytes: &[u8], index: u64) -> Grant {
    let Ok(reading) = read(bytes) else {
        return Grant::default();
    };
    usize::try_from(index)
        .ok()
        .and_then(|index| reading.grants().nth(index))
        .unwrap_or_default()
}

/// Reads a descriptor, or answers 1 or 2.
pub(crate) fn read(bytes: &[u8]) -> Result<Reading<'_>, u64> {
    let reading = read_structure(bytes).ok_or(INVALID_STRUCTURE)?;
    if lasts_too_long(&reading.numbers) {
        return Err(VALIDITY_OUT_OF_RANGE);
    }
    Ok(reading)
}

/// Whether the period is over the longest.
pub(crate) fn lasts_too_long(descriptor: &Descriptor) -> bool {
    descriptor.not_after - descriptor.not_before > LONGEST_PERIOD
}

/// Reads a descriptor by all rules but the longest period.
pub(crate) fn read_structure(bytes: &[u8]) -> Option<Reading<'_>> {
    if bytes.len() > MOST_BYTES {
        return None;
    }
    let mut cursor = Cursor { bytes, at: 0 };
    let mut descriptor = Descriptor::default();
    if cursor.map()? != 3 {
        return None;
    }
    cursor.key(b"\x67payload")?;
    let start = cursor.at;
    let first_grant = read_payload(&mut cursor, &mut descriptor)?;
    descriptor.payload_at = start as u64;
    descriptor.payload_len = (cursor.at - start) as u64;
    cursor.key(b"\x67version")?;
    if cursor.unsigned()? != 1 {
        return None;
    }
    cursor.key(b"\x69signature")?;
    read_signature(&mut cursor, &mut descriptor)?;
    (cursor.at == bytes.len()).then_some(Reading {
        numbers: descriptor,
        first_grant,
    })
}

/// Reads the payload into the descriptor and answers with a cursor at its first grant.
fn read_payload<'a>(cursor: &mut Cursor<'a>, descriptor: &mut Descriptor) -> Option<Cursor<'a>> {
    let count = cursor.map()?;
    let mut keys = 8;
    cursor.key(b"\x66grants")?;
    descriptor.grants = cursor.array(1..=256)?;
    let first_grant = *cursor;
    let terminal = read_grants(cursor, descriptor)?;
    if cursor.takes(b"\x68metadata") {
        keys += 1;
        descriptor.metadata_at = cursor.at as u64;
        descriptor.metadata_pairs = cursor.pairs(16)?;
    }
    cursor.key(b"\x69issued_at")?;
    descriptor.issued_at = cursor.unsigned()?;
    cursor.key(b"\x69issuer_id")?;
    let issuer = cursor.text(1..=128)?;
    (descriptor.issuer_at, descriptor.issuer_len) = (issuer.place(), issuer.length());
    cursor.key(b"\x69not_after")?;
    descriptor.not_after = cursor.unsigned()?;
    if cursor.takes(b"\x6agrantor_id") {
        keys += 1;
        let grantor = cursor.text(1..=128)?;
        (descriptor.grantor_at, descriptor.grantor_len) = (grantor.place(), grantor.length());
    }
    cursor.key(b"\x6anot_before")?;
    descriptor.not_before = cursor.unsigned()?;
    read_ids(cursor, descriptor, terminal)?;
    (count == keys && times_are_ordered(descriptor)).then_some(first_grant)
}

/// Reads the terminal id, which must be that of the patterns, the descriptor id and the fay id.
fn read_ids(cursor: &mut Cursor, descriptor: &mut Descriptor, patterns: &[u8]) -> Option<()> {
    cursor.key(b"\x6bterminal_id")?;
    let terminal = cursor.text(ANY)?;
    if terminal.content != patterns || !is_terminal_id(terminal.content) {
        return None;
    }
    cursor.key(b"\x6ddescriptor_id")?;
    let id = cursor.byte_string(16..=16)?;
    cursor.key(b"\x6esubject_fay_id")?;
    let fay = cursor.text(ANY).filter(|fay| is_fay_id(fay.content))?;
    descriptor.terminal_at = terminal.place();
    descriptor.id_at = id.place();
    descriptor.fay_at = fay.place();
    Some(())
}

/// Whether issued_at ≤ not_before < not_after.
fn times_are_ordered(descriptor: &Descriptor) -> bool {
    descriptor.issued_at <= descriptor.not_before && descriptor.not_before < descriptor.not_after
}

/// Reads all grants, sums them up, and answers with the terminal id that their patterns share.
fn read_grants<'a>(cursor: &mut Cursor<'a>, descriptor: &mut Descriptor) -> Option<&'a [u8]> {
    let mut terminal = None;
    for _ in 0..descriptor.grants {
        let grant = read_grant(cursor, terminal)?;
        terminal = Some(&cursor.bytes[grant.pattern_at as usize..][..TERMINAL_LENGTH]);
        descriptor.mask |= grant.mask;
        descriptor.constraint_pairs += grant.constraint_pairs;
    }
    terminal
}

/// Reads a grant, whose pattern must be under the terminal id if one is given.
fn read_grant(cursor: &mut Cursor, terminal: Option<&[u8]>) -> Option<Grant> {
    let count = cursor.map()?;
    let mut keys = 2;
    let mut grant = Grant {
        found: 1,
        ..Grant::default()
    };
    cursor.key(b"\x65modes")?;
    grant.modes_at = cursor.at as u64;
    grant.mask = read_modes(cursor)?;
    if cursor.takes(b"\x6bconstraints") {
        keys += 1;
        grant.constraints_at = cursor.at as u64;
        grant.constraint_pairs = cursor.pairs(8)?;
    }
    cursor.key(b"\x70resource_pattern")?;
    let pattern = cursor.text(ANY)?;
    let fine = match terminal {
        Some(terminal) => is_pattern_of(pattern.content, terminal),
        None => is_pattern(pattern.content),
    };
    (grant.pattern_at, grant.pattern_len) = (pattern.place(), pattern.length());
    (fine && count == keys).then_some(grant)
}

/// Reads an array of modes, none twice, and answers with their mask.
fn read_modes(cursor: &mut Cursor) -> Option<u64> {
    let mut mask = 0;
    for _ in 0..cursor.array(1..=4)? {
        let mode = MODES.iter().position(|name| cursor.takes(name))?;
        if mask >> mode & 1 == 1 {
            return None;
        }
        mask |= 1 << mode;
    }
    Some(mask)
}

/// Reads the signature into the descriptor.
fn read_signature(cursor: &mut Cursor, descriptor: &mut Descriptor) -> Option<()> {
    if cursor.map()? != 3 {
        return None;
    }
    cursor.key(b"\x66key_id")?;
    let key_id = cursor.text(1..=64)?;
    cursor.key(b"\x69algorithm")?;
    let (algorithm, lengths) = read_algorithm(cursor)?;
    cursor.key(b"\x6fsignature_value")?;
    let signature = cursor.byte_string(lengths)?;
    (descriptor.key_id_at, descriptor.key_id_len) = (key_id.place(), key_id.length());
    descriptor.algorithm = algorithm;
    (descriptor.signature_at, descriptor.signature_len) = (signature.place(), signature.length());
    Some(())
}

/// Reads the algorithm and answers with its number and the lengths of its signatures.
fn read_algorithm(cursor: &mut Cursor) -> Option<(u64, RangeInclusive<u64>)> {
    if cursor.takes(b"\x67ed25519") {
        Some((0, 64..=64))
    } else if cursor.takes(b"\x71ecdsa-p256-sha256") {
        Some((1, 1..=72))
    } else {
        None
    }
}
