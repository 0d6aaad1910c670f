//! Rows of the revocation list.

use std::fmt;
use std::slice;

use crate::Seconds;

/// A row of the revocation list: the descriptor with the id is revoked from the moment on.
#[derive(Clone, Copy, PartialEq, Eq, Hash)]
#[repr(C)]
pub struct Revocation {
    id: [u8; 16],
    moment: [u8; 8],
}

impl Revocation {
    /// The row of a descriptor id and a moment.
    pub const fn new(id: [u8; 16], moment: Seconds) -> Revocation {
        Revocation {
            id,
            moment: moment.0.to_be_bytes(),
        }
    }

    /// The descriptor id.
    pub const fn id(&self) -> &[u8; 16] {
        &self.id
    }

    /// The moment from which on the descriptor is revoked.
    pub const fn moment(&self) -> Seconds {
        Seconds(u64::from_be_bytes(self.moment))
    }
}

impl fmt::Debug for Revocation {
    fn fmt(&self, out: &mut fmt::Formatter) -> fmt::Result {
        out.debug_struct("Revocation")
            .field("id", self.id())
            .field("moment", &self.moment())
            .finish()
    }
}

/// The bytes of the rows as the library takes them, 24 a row.
pub(crate) fn bytes_of(rows: &[Revocation]) -> &[u8] {
    // SAFETY: a row is two arrays of bytes, one right behind the other, so that each of its bytes is one of theirs; the bytes
    // are lent as long as the rows.
    unsafe { slice::from_raw_parts(rows.as_ptr().cast(), size_of_val(rows)) }
}
