//! Requests for the last row of an image: one that is granted, and ones that are refused at each step.

use reference::Request;

use super::encoder::{grant, image, revocation, Model, Row, NEW_ROW, OTHER_TERMINAL, TERMINAL};
use super::lease_row::LeaseRow;
use super::random::Random;
use super::uuid::{any_version_7, text_of};

/// The moment at which the descriptors were issued, in seconds.
const ISSUED_AT: u64 = 1_760_000_000;
/// The first moment of their periods.
const NOT_BEFORE: u64 = ISSUED_AT + 3_600;
/// The moment at which their periods have ended.
const NOT_AFTER: u64 = NOT_BEFORE + 2_592_000;
/// The clock of most requests, in milliseconds.
const NOW_MS: u64 = 1000 * (NOT_BEFORE + 86_400);
/// The place of the mask in a row.
const MASK: usize = 24;

/// A request and the image that it asks.
#[derive(Clone)]
pub struct Case {
    pub image: Vec<u8>,
    id: Vec<u8>,
    fay: String,
    terminal: String,
    resource: String,
    now_ms: u64,
    revoked: Vec<u8>,
    leases: Vec<u8>,
    verdict: u64,
}

impl Case {
    /// A request that is granted, for the last of so many rows, each with so many grants, of which the last serves.
    pub fn granted(rows: usize, grants: usize) -> Case {
        let mut random = Random::new(rows as u64);
        let models: Vec<Model> = (0..rows).map(|_| rooms(grants, &mut random)).collect();
        let last = &models[rows - 1];
        Case {
            image: image(&models.iter().map(Row::of).collect::<Vec<_>>()),
            id: last.id.clone(),
            fay: last.fay.clone(),
            terminal: TERMINAL.into(),
            resource: format!("{TERMINAL}/lab/room-{:03}/camera/front", grants - 1),
            now_ms: NOW_MS,
            revoked: Vec::new(),
            leases: Vec::new(),
            verdict: 0,
        }
    }

    /// The request.
    pub fn asked(&self) -> Request<'_> {
        Request {
            id: &self.id,
            fay: self.fay.as_bytes(),
            terminal: self.terminal.as_bytes(),
            resource: self.resource.as_bytes(),
            now_ms: self.now_ms,
            session_length: 3_600,
            revoked: &self.revoked,
            leases: &self.leases,
            verdict: self.verdict,
            ..Request::default()
        }
    }

    /// The lease of the id, synced so many milliseconds before the clock, or after it where the number is below 0.
    fn lease(&self, before: i64) -> LeaseRow {
        LeaseRow::synced(&self.id, self.now_ms.wrapping_add_signed(-before))
    }

    /// The place of the last row.
    fn last_row(&self) -> usize {
        let rows = usize::from(u16::from_be_bytes([self.image[4], self.image[5]]));
        8 + NEW_ROW * (rows - 1)
    }

    /// Adds a byte to the last body, after its item.
    fn lengthen_last_body(&mut self) {
        let at = self.last_row() + 20;
        let length = &mut self.image[at..at + 4];
        let longer = 1 + u32::from_be_bytes([length[0], length[1], length[2], length[3]]);
        length.copy_from_slice(&longer.to_be_bytes());
        self.image.push(0);
    }
}

/// A descriptor with ids of its own and a grant for the cameras of each of so many rooms.
fn rooms(count: usize, random: &mut Random) -> Model {
    let rooms = 0..count;
    let cameras = rooms.map(|room| grant(&["read"], &format!("lab/room-{room:03}/camera/*")));
    let mut model = Model::with(cameras.collect());
    model.id = any_version_7(random).to_vec();
    model.fay = format!("fay:{}", text_of(any_version_7(random)));
    (model.issued_at, model.not_before, model.not_after) = (ISSUED_AT, NOT_BEFORE, NOT_AFTER);
    model
}

/// A change of the request that is granted.
pub struct Change {
    /// What is asked then.
    pub name: &'static str,
    /// The answer that it then gets.
    pub answer: u64,
    /// Makes the change.
    pub make: fn(&mut Case),
}

/// The change by which a request gets an answer.
const fn change(answer: u64, name: &'static str, make: fn(&mut Case)) -> Change {
    Change { name, answer, make }
}

/// No change, and those by which each step refuses, in the order of the steps.
pub const CHANGES: [Change; 17] = [
    change(0, "granted", |_| {}),
    change(15, "malformed resource id", |case| case.resource.push('/')),
    change(16, "byte after the last body", Case::lengthen_last_body),
    change(16, "mask of the last row", |case| {
        let at = case.last_row() + MASK;
        case.image[at] ^= 2;
    }),
    change(7, "not held", |case| case.id[15] ^= 1),
    change(8, "revoked", |case| {
        case.revoked = revocation(&case.id, NOT_BEFORE);
    }),
    change(9, "not yet valid", |case| {
        case.now_ms = 1000 * NOT_BEFORE - 1;
    }),
    change(10, "expired", |case| case.now_ms = 1000 * NOT_AFTER),
    change(11, "another subject", |case| {
        case.fay = case.fay.to_uppercase().replace("FAY", "fay");
    }),
    change(12, "another terminal", |case| {
        case.terminal = OTHER_TERMINAL.into();
    }),
    change(13, "no grant serves", |case| case.resource.push_str("/x")),
    change(14, "no such key", |case| case.verdict = 2),
    change(4, "bad signature", |case| case.verdict = 1),
    change(26, "lease revoked", |case| {
        let (flag, lease) = (1, case.lease(0));
        case.leases = LeaseRow { flag, ..lease }.bytes();
    }),
    change(23, "lease of the future", |case| {
        case.leases = case.lease(-21).bytes();
    }),
    change(24, "lease stale", |case| {
        case.leases = case.lease(100_031).bytes();
    }),
    change(25, "lease expired", |case| {
        case.leases = case.lease(150_031).bytes();
    }),
];
