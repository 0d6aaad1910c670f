//! Rows of the lease table, written from document 02.

/// The last moment that the clock and a last sync may have, in milliseconds.
pub const LAST_MOMENT: u64 = 1 << 53;
/// Ttl and grace are below so many seconds.
pub const LENGTHS_END: u64 = 1 << 32;
/// The most milliseconds of skew and tolerance.
pub const MOST_ALLOWED: u64 = 86_400_000;

/// A row to be written; a malformed one too.
#[derive(Clone, Debug)]
pub struct LeaseRow {
    pub id: Vec<u8>,
    pub flag: u8,
    pub zero: [u8; 7],
    pub last_sync: u64,
    pub ttl: u64,
    pub grace: u64,
    pub skew: u64,
    pub tolerance: u64,
}

impl LeaseRow {
    /// A lease of the id that was synced at a moment: active for 100 s and 30 ms, then stale for 50 s; skew 20 ms.
    pub fn synced(id: &[u8], last_sync: u64) -> LeaseRow {
        LeaseRow {
            id: id.to_vec(),
            flag: 0,
            zero: [0; 7],
            last_sync,
            ttl: 100,
            grace: 50,
            skew: 20,
            tolerance: 30,
        }
    }

    /// The 64 bytes.
    pub fn bytes(&self) -> Vec<u8> {
        let numbers = [
            self.last_sync,
            self.ttl,
            self.grace,
            self.skew,
            self.tolerance,
        ];
        let numbers = numbers.map(u64::to_be_bytes).concat();
        [&self.id[..], &[self.flag], &self.zero, &numbers].concat()
    }
}

/// The bytes of some rows.
pub fn lease_table(rows: &[LeaseRow]) -> Vec<u8> {
    rows.iter().flat_map(LeaseRow::bytes).collect()
}
