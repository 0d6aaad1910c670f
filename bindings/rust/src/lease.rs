//! The lease table.

use std::fmt;
use std::slice;

use crate::{Milliseconds, Seconds};

/// The lease of a descriptor. A number beyond its limit is for the library to refuse: a request with such a lease in its table,
/// whichever id it has, is answered 15.
#[derive(Clone, Copy, Debug, PartialEq, Eq, Hash)]
pub struct Lease {
    /// The descriptor id.
    pub id: [u8; 16],
    /// Whether the lease is revoked.
    pub revoked: bool,
    /// The moment of the last sync, at most 2^53.
    pub last_sync: Milliseconds,
    /// How long the lease is active after the last sync, below 2^32.
    pub ttl: Seconds,
    /// How long it is stale after that, below 2^32.
    pub grace: Seconds,
    /// How far the clock may be behind the last sync, at most 86,400,000.
    pub skew: Milliseconds,
    /// By how much the lease is active and stale for longer, at most 86,400,000.
    pub tolerance: Milliseconds,
}

/// A lease table: at most one lease for a descriptor id.
///
/// Its rows lie as the library takes them, and are passed on without a copy. They are kept in ascending order of their ids, in
/// which the library checks them fastest.
///
/// ```
/// use cap::{Lease, LeaseTable, Milliseconds, Seconds};
///
/// let lease = Lease {
///     id: [7; 16],
///     revoked: false,
///     last_sync: Milliseconds(1_767_225_600_000),
///     ttl: Seconds(86_400),
///     grace: Seconds(300),
///     skew: Milliseconds(5_000),
///     tolerance: Milliseconds(5_000),
/// };
/// let mut table = LeaseTable::new();
/// assert_eq!(table.insert(lease), None);
/// assert_eq!(table.get(&[7; 16]), Some(lease));
/// ```
#[derive(Clone, Default, PartialEq, Eq)]
pub struct LeaseTable {
    rows: Vec<Row>,
}

/// A row of 64 bytes, as `include/cap.h` has it; numbers are in network byte order.
#[derive(Clone, Copy, PartialEq, Eq)]
#[repr(C)]
struct Row {
    id: [u8; 16],
    revoked: u8,
    zero: [u8; 7],
    last_sync: [u8; 8],
    ttl: [u8; 8],
    grace: [u8; 8],
    skew: [u8; 8],
    tolerance: [u8; 8],
}

impl LeaseTable {
    /// The table without a lease.
    pub const EMPTY: &'static LeaseTable = &LeaseTable::new();

    /// A table without a lease, to put some in.
    pub const fn new() -> LeaseTable {
        LeaseTable { rows: Vec::new() }
    }

    /// Puts a lease in, instead of the one with the same id, which is handed back.
    pub fn insert(&mut self, lease: Lease) -> Option<Lease> {
        let row = Row::of(&lease);
        match self.place_of(&lease.id) {
            Ok(place) => Some(std::mem::replace(&mut self.rows[place], row).lease()),
            Err(place) => {
                self.rows.insert(place, row);
                None
            }
        }
    }

    /// Takes the lease with the id out.
    pub fn remove(&mut self, id: &[u8; 16]) -> Option<Lease> {
        let place = self.place_of(id).ok()?;
        Some(self.rows.remove(place).lease())
    }

    /// The lease with the id.
    pub fn get(&self, id: &[u8; 16]) -> Option<Lease> {
        let place = self.place_of(id).ok()?;
        Some(self.rows[place].lease())
    }

    /// The leases in ascending order of their ids.
    pub fn iter(&self) -> impl ExactSizeIterator<Item = Lease> + '_ {
        self.rows.iter().map(Row::lease)
    }

    /// How many leases there are.
    pub fn len(&self) -> usize {
        self.rows.len()
    }

    /// Whether there is no lease.
    pub fn is_empty(&self) -> bool {
        self.rows.is_empty()
    }

    /// The place of the row with the id, or that at which it belongs.
    fn place_of(&self, id: &[u8; 16]) -> Result<usize, usize> {
        self.rows.binary_search_by_key(id, |row| row.id)
    }

    /// The bytes of the rows as the library takes them.
    pub(crate) fn bytes(&self) -> &[u8] {
        // SAFETY: each field of a row is a byte or an array of bytes, so that they lie one right behind the other, and each byte
        // of a row is one of theirs; the bytes are lent as long as the rows.
        unsafe { slice::from_raw_parts(self.rows.as_ptr().cast(), size_of_val(&self.rows[..])) }
    }
}

impl Extend<Lease> for LeaseTable {
    /// Puts each lease in; of several with one id the last stays.
    fn extend<T: IntoIterator<Item = Lease>>(&mut self, leases: T) {
        for lease in leases {
            self.insert(lease);
        }
    }
}

impl FromIterator<Lease> for LeaseTable {
    /// The table of the leases; of several with one id the last.
    fn from_iter<T: IntoIterator<Item = Lease>>(leases: T) -> LeaseTable {
        let mut table = LeaseTable::new();
        table.extend(leases);
        table
    }
}

impl fmt::Debug for LeaseTable {
    fn fmt(&self, out: &mut fmt::Formatter) -> fmt::Result {
        out.debug_list().entries(self.iter()).finish()
    }
}

impl Row {
    /// The row of a lease.
    fn of(lease: &Lease) -> Row {
        Row {
            id: lease.id,
            revoked: u8::from(lease.revoked),
            zero: [0; 7],
            last_sync: lease.last_sync.0.to_be_bytes(),
            ttl: lease.ttl.0.to_be_bytes(),
            grace: lease.grace.0.to_be_bytes(),
            skew: lease.skew.0.to_be_bytes(),
            tolerance: lease.tolerance.0.to_be_bytes(),
        }
    }

    /// The lease of a row.
    fn lease(&self) -> Lease {
        Lease {
            id: self.id,
            revoked: self.revoked == 1,
            last_sync: Milliseconds(u64::from_be_bytes(self.last_sync)),
            ttl: Seconds(u64::from_be_bytes(self.ttl)),
            grace: Seconds(u64::from_be_bytes(self.grace)),
            skew: Milliseconds(u64::from_be_bytes(self.skew)),
            tolerance: Milliseconds(u64::from_be_bytes(self.tolerance)),
        }
    }
}
