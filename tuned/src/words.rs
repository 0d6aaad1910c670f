//! Bytes compared many at a time: by words of eight, or by lanes, of which a loop over all lanes becomes one operation on all.

/// How many lanes there are.
pub(crate) const LANES: usize = 16;

/// The eight bytes at a place that lies in the array, as a number.
#[inline(always)]
pub(crate) fn word<const N: usize>(bytes: &[u8; N], at: usize) -> u64 {
    match bytes[at..].first_chunk() {
        Some(word) => u64::from_le_bytes(*word),
        None => 0,
    }
}

/// The bits in which the bytes of a lane differ, where two arrays of 16 to 48 bytes are laid over the lanes. The last bytes may
/// overlap those before them.
#[inline(always)]
pub(crate) fn unlike<const N: usize>(one: &[u8; N], other: &[u8; N], lane: usize) -> u8 {
    let unlike_at = |at: usize| one[at + lane] ^ other[at + lane];
    let last = unlike_at(N - LANES);
    match N / LANES {
        1 => last | unlike_at(0),
        _ => last | unlike_at(0) | unlike_at(LANES),
    }
}

/// Whether two arrays of 8 to 48 bytes are equal.
#[inline(always)]
pub(crate) fn same<const N: usize>(one: &[u8; N], other: &[u8; N]) -> bool {
    match N {
        8..16 => word(one, 0) == word(other, 0) && word(one, N - 8) == word(other, N - 8),
        16..=32 => one == other,
        _ => {
            one.first_chunk::<32>() == other.first_chunk::<32>()
                && one.last_chunk::<16>() == other.last_chunk::<16>()
        }
    }
}

/// What follows the bytes of a key, if the bytes begin with it.
#[inline(always)]
pub(crate) fn after<'a, const N: usize>(bytes: &'a [u8], key: &[u8; N]) -> Option<&'a [u8]> {
    let (start, rest) = bytes.split_first_chunk()?;
    same(start, key).then_some(rest)
}
