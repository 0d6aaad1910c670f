//! A body: the descriptor of a row, read in one pass.

use crate::grants::{read_grants, Grant, Summary};
use crate::resource::{has_hyphens, uuid_fault, FAY_LENGTH, TERMINAL_LENGTH};
use crate::strings::{number_under, pairs, text};
use crate::words::{after, same, unlike, word, LANES};

/// The most bytes of a descriptor.
const MOST_BYTES: usize = 32_768;
/// The longest period: 90 days.
const LONGEST_PERIOD: u64 = 7_776_000;

/// What a body says that a request asks for.
pub(crate) struct Reading<'a> {
    pub(crate) mask: u8,
    pub(crate) not_before: u64,
    pub(crate) not_after: u64,
    pub(crate) terminal: &'a [u8; TERMINAL_LENGTH],
    pub(crate) fay: &'a [u8; FAY_LENGTH],
}

/// The mask of a body with the id, if it reads.
pub(crate) fn mask_of(body: &[u8], id: &[u8; 16]) -> Option<u8> {
    read(body, id, |_| ()).map(|reading| reading.mask)
}

/// Reads a body with the id, and hands over each grant.
#[inline(always)]
pub(crate) fn read<'a>(
    body: &'a [u8],
    id: &[u8; 16],
    seen: impl FnMut(&Grant<'a>),
) -> Option<Reading<'a>> {
    if body.len() > MOST_BYTES {
        return None;
    }
    let (start, rest) = body.split_first_chunk::<17>()?;
    let count = start[9];
    let begins = word(start, 0) == u64::from_le_bytes(*b"\xa3\x67payloa")
        && word(start, 8) & !0xff00 == u64::from_le_bytes(*b"d\0\x66grant")
        && start[16] == b's';
    if !begins {
        return None;
    }
    let (Summary { mask, terminal }, rest) = read_grants(rest, seen)?;
    let (keys, not_before, not_after, rest) = read_times(rest)?;
    if count != keys {
        return None;
    }
    let fay = read_end(rest, terminal, id)?;
    Some(Reading {
        mask,
        not_before,
        not_after,
        terminal,
        fay,
    })
}

/// Reads what stands between the grants and the ids.
#[inline(always)]
fn read_times(bytes: &[u8]) -> Option<(u8, u64, u64, &[u8])> {
    let mut rest = bytes;
    let mut keys = 0xa8;
    if let [0x68, ..] = *rest {
        keys += 1;
        (_, rest) = pairs::<16>(after(rest, b"\x68metadata")?)?;
    }
    let (issued_at, rest) = number_under::<11, 15>(rest, b"\x69issued_at\x1a")?;
    let rest = text::<1, 128>(after(rest, b"\x69issuer_id")?)?;
    let (not_after, mut rest) = number_under::<11, 15>(rest, b"\x69not_after\x1a")?;
    if let [_, b'g', ..] = *rest {
        keys += 1;
        rest = text::<1, 128>(after(rest, b"\x6agrantor_id")?)?;
    }
    let (not_before, rest) = number_under::<12, 16>(rest, b"\x6anot_before\x1a")?;
    let ordered = issued_at <= not_before && not_before < not_after;
    if !ordered || not_after - not_before > LONGEST_PERIOD {
        return None;
    }
    Some((keys, not_before, not_after, rest))
}

/// The key of the terminal id, the head of its text, and what that begins with.
const TERMINAL_KEY: &[u8; 23] = b"\x6bterminal_id\x78\x2dterminal:";
/// The key of the descriptor id and the head of its bytes.
const ID_KEY: &[u8; 15] = b"\x6ddescriptor_id\x50";
/// The key of the fay id, the head of its text, and what that begins with.
const FAY_KEY: &[u8; 21] = b"\x6esubject_fay_id\x78\x28fay:";
/// The version, and what follows it up to the key id.
const VERSION: &[u8; 27] = b"\x67version\x01\x69signature\xa3\x66key_id";
/// The length of what follows the times up to the key id.
const IDS_LENGTH: usize = 14 + TERMINAL_LENGTH + 15 + 16 + 17 + FAY_LENGTH + 27;

/// Reads the three ids, of which two are known, the version and the signature, after which nothing follows, and answers with the fay
/// id.
#[inline(never)]
fn read_end<'a>(
    bytes: &'a [u8],
    terminal: &[u8; TERMINAL_LENGTH],
    id: &[u8; 16],
) -> Option<&'a [u8; FAY_LENGTH]> {
    let (ids, rest) = bytes.split_first_chunk::<IDS_LENGTH>()?;
    let terminal_key = ids.first_chunk()?;
    let terminal_id = ids[14..].first_chunk()?;
    let terminal_uuid = ids[23..].first_chunk()?;
    let id_key = ids[59..].first_chunk()?;
    let descriptor_id = ids[74..].first_chunk()?;
    let fay_key = ids[90..].first_chunk()?;
    let fay = ids[107..].first_chunk::<FAY_LENGTH>()?;
    let uuid = ids[111..].first_chunk()?;
    let version = ids[147..].first_chunk()?;
    let mut fault = 0;
    for lane in 0..LANES {
        fault |= unlike(terminal_key, TERMINAL_KEY, lane);
        fault |= unlike(terminal_id, terminal, lane);
        fault |= uuid_fault(terminal_uuid, lane);
        fault |= unlike(descriptor_id, id, lane);
        fault |= unlike(fay_key, FAY_KEY, lane);
        fault |= uuid_fault(uuid, lane);
        fault |= unlike(version, VERSION, lane);
    }
    let sound =
        fault == 0 && same(id_key, ID_KEY) && has_hyphens(terminal_uuid) && has_hyphens(uuid);
    (sound && is_signed(text::<1, 64>(rest)?)).then_some(fay)
}

/// Whether the bytes are an algorithm and a signature of a length that it has.
#[inline(always)]
fn is_signed(bytes: &[u8]) -> bool {
    if let Some(signature) = after(
        bytes,
        b"\x69algorithm\x67ed25519\x6fsignature_value\x58\x40",
    ) {
        return signature.len() == 64;
    }
    let Some(signature) = after(
        bytes,
        b"\x69algorithm\x71ecdsa-p256-sha256\x6fsignature_value",
    ) else {
        return false;
    };
    match *signature {
        [head @ 0x41..=0x57, ref value @ ..] => value.len() == usize::from(head - 0x40),
        [0x58, length @ 24..=72, ref value @ ..] => value.len() == usize::from(length),
        _ => false,
    }
}
