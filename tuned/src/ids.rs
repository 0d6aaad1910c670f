//! Tables whose rows begin with an id: whether one recurs, and which row has one.

/// The most rows of which each is compared with each.
const FEW: usize = 4;

/// The id of a row, as a number that only equality and hashes depend on.
#[inline(always)]
pub(crate) fn id_of<const ROW: usize>(row: &[u8; ROW]) -> u128 {
    u128::from_ne_bytes(*row.first_chunk().expect("a row has an id"))
}

/// The place of the row with the id, if there is one; none at all where an id recurs.
#[inline(always)]
pub(crate) fn find<const ROW: usize>(rows: &[[u8; ROW]], id: &[u8; 16]) -> Option<Option<usize>> {
    let id = id_of(id);
    match rows.len() {
        0..=FEW => find_in_few(rows, id),
        ..=64 => find_in_slots(&mut [0u16; 256], rows, id),
        ..=1024 => find_in_slots(&mut [0u16; 4096], rows, id),
        many => find_in_slots(&mut vec![0u32; (4 * many).next_power_of_two()], rows, id),
    }
}

/// The same where each row is compared with each before it.
#[inline(always)]
fn find_in_few<const ROW: usize>(rows: &[[u8; ROW]], id: u128) -> Option<Option<usize>> {
    for (at, row) in rows.iter().enumerate() {
        if rows[..at].iter().any(|other| id_of(other) == id_of(row)) {
            return None;
        }
    }
    Some(rows.iter().position(|row| id_of(row) == id))
}

/// A slot of a hash table with open addressing: the number of a row, counted from 1, or 0 where it is free.
trait Slot: Copy {
    /// The place of the row, if the slot has one.
    fn place(self) -> Option<usize>;
    /// The slot of the row at a place.
    fn of(place: usize) -> Self;
}

macro_rules! slot {
    ($number:ty) => {
        impl Slot for $number {
            #[inline(always)]
            fn place(self) -> Option<usize> {
                (self as usize).checked_sub(1)
            }

            #[inline(always)]
            fn of(place: usize) -> $number {
                place as $number + 1
            }
        }
    };
}

slot!(u16);
slot!(u32);

/// The same with free slots, whose number is a power of two and over that of the rows.
#[inline(always)]
fn find_in_slots<S: Slot, const ROW: usize>(
    slots: &mut [S],
    rows: &[[u8; ROW]],
    id: u128,
) -> Option<Option<usize>> {
    for (place, row) in rows.iter().enumerate() {
        match probe(slots, rows, id_of(row)) {
            Ok(_) => return None,
            Err(free) => slots[free] = S::of(place),
        }
    }
    Some(probe(slots, rows, id).ok())
}

/// The place of the row with the id among those in slots, or else the slot that is free for it.
#[inline(always)]
fn probe<S: Slot, const ROW: usize>(
    slots: &[S],
    rows: &[[u8; ROW]],
    id: u128,
) -> Result<usize, usize> {
    let mixed = (id as u64) ^ ((id >> 64) as u64).rotate_left(32);
    let product = mixed.wrapping_mul(0x9e37_79b9_7f4a_7c15);
    let mut slot = (product >> 32) as usize % slots.len();
    while let Some(place) = slots[slot].place() {
        if id_of(&rows[place]) == id {
            return Ok(place);
        }
        slot = (slot + 1) % slots.len();
    }
    Err(slot)
}
