//! Requests: each step failing alone and in pairs and threes, each limit, revocation lists, and random patterns and paths. Leases
//! and moments have cases of their own.

use reference::Request;

use super::changes::set;
use super::images::{some_rows, EDITIONS};
use super::paths::{any_levels, any_name};
use crate::compare::Compare;
use crate::encoder::{
    grant, image, image_of, modes_of, revocation, Grant, Model, Row, FAY, MODES, NEW_ROW,
    OTHER_TERMINAL, TERMINAL,
};
use crate::lease_row::{LeaseRow, LAST_MOMENT};
use crate::random::Random;
use crate::uuid::put_any;

/// The second of the last moment that the clock may have.
const LAST_SECOND: u64 = LAST_MOMENT / 1000;

/// All cases of requests.
pub fn run(compare: &mut Compare, random: &mut Random, rounds: usize) {
    let changes = changes();
    for first in &changes {
        for second in &changes {
            let mut asked = Asked::fine();
            first(&mut asked);
            second(&mut asked);
            asked.run(compare);
        }
    }
    for _ in 0..rounds {
        let mut asked = Asked::fine();
        for _ in 0..3 {
            random.pick(&changes)(&mut asked);
        }
        asked.run(compare);
    }
    texts(compare);
    clocks(compare);
    revocation_lists(compare, random);
    revocation_moments(compare);
    revocation_bytes(compare);
    for _ in 0..rounds {
        random_revocations(compare, random);
    }
    for _ in 0..2 * rounds {
        random_request(compare, random);
    }
}

/// The arguments of a request.
#[derive(Clone)]
pub struct Asked {
    pub image: Vec<u8>,
    pub id: Vec<u8>,
    pub fay: Vec<u8>,
    pub terminal: Vec<u8>,
    pub resource: Vec<u8>,
    pub revoked: Vec<u8>,
    pub leases: Vec<u8>,
    pub mode: u64,
    pub now_ms: u64,
    session_length: u64,
    pub verdict: u64,
    valid_from: u64,
    has_valid_until: u64,
    valid_until: u64,
}

impl Asked {
    /// A request that is granted, on an image of edition 2.
    pub fn fine() -> Asked {
        Asked::fine_of(2)
    }

    /// A request that is granted, on an image of an edition.
    pub fn fine_of(edition: u16) -> Asked {
        let constrained = Grant {
            constraints: Some(vec![("k".into(), "v".into())]),
            ..grant(&["read", "configure"], "a/*")
        };
        let empty = Grant {
            constraints: Some(Vec::new()),
            ..grant(&["read", "execute"], "a/b")
        };
        let model = Model::with(vec![
            grant(&["write"], "a/*"),
            constrained,
            empty,
            grant(&["read"], "**"),
        ])
        .numbered(30);
        let mut rows = some_rows();
        rows.insert(1, Row::of(&model));
        Asked::of(&model, image_of(edition, &rows))
    }

    /// A request for a descriptor.
    pub fn of(model: &Model, image: Vec<u8>) -> Asked {
        Asked {
            image,
            id: model.id.clone(),
            fay: model.fay.clone().into(),
            terminal: model.terminal.clone().into(),
            resource: format!("{}/a/b", model.terminal).into(),
            revoked: vec![0xee; 48],
            leases: Vec::new(),
            mode: 0,
            now_ms: model.not_before.saturating_mul(1000),
            session_length: 100,
            verdict: 0,
            valid_from: 0,
            has_valid_until: 0,
            valid_until: 0,
        }
    }

    /// A row of the id that was synced right now.
    fn lease(&self) -> Vec<u8> {
        LeaseRow::synced(&self.id, self.now_ms).bytes()
    }

    /// The same, revoked.
    fn revoked_lease(&self) -> Vec<u8> {
        LeaseRow {
            flag: 1,
            ..LeaseRow::synced(&self.id, self.now_ms)
        }
        .bytes()
    }

    /// The clock in seconds.
    fn now(&self) -> u64 {
        self.now_ms / 1000
    }

    /// Makes the request, and answers with the image after it.
    pub fn run(&self, compare: &mut Compare) -> Vec<u8> {
        let Asked {
            mode,
            now_ms,
            session_length,
            verdict,
            valid_from,
            has_valid_until,
            valid_until,
            ..
        } = *self;
        let request = Request {
            id: &self.id,
            fay: &self.fay,
            terminal: &self.terminal,
            resource: &self.resource,
            revoked: &self.revoked,
            leases: &self.leases,
            mode,
            now_ms,
            session_length,
            verdict,
            valid_from,
            has_valid_until,
            valid_until,
        };
        let mut image = self.image.clone();
        compare.request(&mut image, &request);
        image
    }
}

/// A change of a request.
type Change = fn(&mut Asked);

/// Changes by which each step fails or just passes.
fn changes() -> Vec<Change> {
    let mut all: Vec<Change> = vec![|_| {}];
    all.extend(malformed());
    all.extend(later_steps());
    all
}

/// Changes that malform an argument or the image.
fn malformed() -> Vec<Change> {
    vec![
        |a| a.verdict = 3,
        |a| a.verdict = u64::MAX,
        |a| a.mode = 4,
        |a| a.mode = 64,
        |a| a.mode = u64::MAX,
        |a| a.id.truncate(15),
        |a| a.id.push(0),
        |a| a.id.clear(),
        |a| set(&mut a.fay, 4, b'g'),
        |a| a.fay.truncate(39),
        |a| a.fay.push(b'0'),
        |a| a.fay = TERMINAL.into(),
        |a| set(&mut a.terminal, 20, b'_'),
        |a| a.terminal = FAY.into(),
        |a| a.terminal.extend(b"/a"),
        |a| a.resource.extend(b"/"),
        |a| a.resource.extend(b"/*"),
        |a| a.resource.truncate(45),
        |a| a.resource.resize(256, b'x'),
        |a| a.resource.resize(257, b'x'),
        |a| a.revoked.push(0),
        |a| a.revoked.truncate(47),
        |a| a.revoked.truncate(16),
        |a| a.now_ms = LAST_MOMENT + 1,
        |a| a.now_ms = u64::MAX,
        |a| a.leases.push(0),
        |a| a.leases = a.lease().repeat(2),
        |a| set(&mut a.image, 3, 2),
        |a| set(&mut a.image, 1, 3),
        |a| a.image.truncate(8 + NEW_ROW * 4),
        |a| a.image.clear(),
    ]
}

/// Changes by which a step after those on the arguments and the image fails or just passes.
fn later_steps() -> Vec<Change> {
    vec![
        |a| a.image = Asked::fine_of(1).image,
        |a| a.id = vec![0x99; 16],
        |a| a.id = some_rows()[2].id.clone(),
        |a| a.revoked = revocation(&a.id, 0),
        |a| a.revoked = revocation(&a.id, a.now().saturating_sub(1)),
        |a| a.revoked = revocation(&a.id, a.now()),
        |a| a.revoked = revocation(&a.id, a.now().saturating_add(1)),
        |a| a.revoked = revocation(&a.id, u64::MAX),
        |a| a.revoked.extend(revocation(&a.id, a.now())),
        |a| {
            a.revoked
                .extend(revocation(&a.id, a.now().saturating_add(1)))
        },
        |a| a.revoked = [&[0; 8], &a.id[..], &[0; 24]].concat(),
        |a| a.revoked.clear(),
        |a| a.now_ms = 0,
        |a| a.now_ms = 1_999_999,
        |a| a.now_ms = 2_000_000,
        |a| a.now_ms = 2_999_999,
        |a| a.now_ms = 3_000_000,
        |a| a.now_ms = LAST_MOMENT,
        |a| a.fay = FAY.replace("7e21", "7e22").into(),
        |a| a.fay = FAY.replace("ab", "AB").into(),
        |a| a.terminal = OTHER_TERMINAL.into(),
        |a| a.resource = format!("{OTHER_TERMINAL}/a/b").into(),
        |a| a.resource = format!("{TERMINAL}/a/b/c").into(),
        |a| a.resource = format!("{TERMINAL}/ab").into(),
        |a| a.mode = 1,
        |a| a.mode = 2,
        |a| a.mode = 3,
        |a| a.verdict = 1,
        |a| a.verdict = 2,
        |a| a.valid_from = a.now(),
        |a| a.valid_from = a.now().saturating_add(1),
        |a| (a.has_valid_until, a.valid_until) = (1, a.now()),
        |a| (a.has_valid_until, a.valid_until) = (1, a.now().saturating_sub(1)),
        |a| (a.has_valid_until, a.valid_until) = (u64::MAX, 0),
        |a| (a.has_valid_until, a.valid_until) = (0, 1),
        |a| a.session_length = 0,
        |a| a.session_length = 1001,
        |a| a.session_length = u64::MAX,
        |a| a.leases = a.lease(),
        |a| a.leases = a.revoked_lease(),
        |a| a.leases = LeaseRow::synced(&a.id, a.now_ms.saturating_add(21)).bytes(),
        |a| a.leases = LeaseRow::synced(&a.id, a.now_ms.saturating_sub(100_031)).bytes(),
        |a| a.leases = LeaseRow::synced(&a.id, a.now_ms.saturating_sub(150_031)).bytes(),
        |a| a.leases = LeaseRow::synced(&[0x99; 16], a.now_ms).bytes(),
    ]
}

/// Each text with each byte changed, and of each length.
fn texts(compare: &mut Compare) {
    let fields: [fn(&mut Asked) -> &mut Vec<u8>; 5] = [
        |a| &mut a.id,
        |a| &mut a.fay,
        |a| &mut a.terminal,
        |a| &mut a.resource,
        |a| &mut a.revoked,
    ];
    for field in fields {
        let length = field(&mut Asked::fine()).len();
        for at in 0..length {
            for byte in [b'0', b'a', b'F', b'g', b'/', b'-', b'*', b':', 0, 0xff] {
                let mut asked = Asked::fine();
                field(&mut asked)[at] = byte;
                asked.run(compare);
            }
        }
        for new in 0..length + 20 {
            let mut asked = Asked::fine();
            field(&mut asked).resize(new, b'0');
            asked.run(compare);
        }
    }
}

/// Periods, clocks, session lengths and key windows at their ends.
fn clocks(compare: &mut Compare) {
    let periods = [
        (0, 1),
        (0, 7_776_000),
        (2000, 3000),
        (LAST_SECOND - 10, LAST_SECOND + 10),
        (LAST_SECOND - 1, LAST_SECOND),
        (LAST_SECOND, LAST_SECOND + 1),
        (u64::MAX - 1, u64::MAX),
    ];
    for (not_before, not_after) in periods {
        let model = Model {
            issued_at: 0,
            not_before,
            not_after,
            ..Model::plain()
        };
        let bytes = image(&[Row::of(&model)]);
        for now_ms in moments_near(not_before, not_after) {
            let now = now_ms / 1000;
            let left = not_after.wrapping_sub(now);
            for session_length in [
                0,
                1,
                left.wrapping_sub(1),
                left,
                left.wrapping_add(1),
                u64::MAX - now,
                (u64::MAX - now).wrapping_add(1),
                u64::MAX,
            ] {
                for (valid_from, has_valid_until, valid_until) in [
                    (0, 0, 0),
                    (now, 1, now),
                    (now.wrapping_add(1), 0, 0),
                    (0, 2, now.wrapping_sub(1)),
                ] {
                    let asked = Asked {
                        now_ms,
                        session_length,
                        valid_from,
                        has_valid_until,
                        valid_until,
                        ..Asked::of(&model, bytes.clone())
                    };
                    asked.run(compare);
                }
            }
        }
    }
}

/// Clocks in milliseconds around two seconds, and at the ends of the clock.
fn moments_near(one: u64, other: u64) -> Vec<u64> {
    let edges = [one, other].map(|second| second.saturating_mul(1000));
    let near =
        |at: u64| [0, 1, 500, 999, 1000, 1001, 2000].map(|n| at.wrapping_add(n).wrapping_sub(1000));
    let mut moments: Vec<u64> = edges.into_iter().flat_map(near).collect();
    moments.extend([0, LAST_MOMENT - 1, LAST_MOMENT, LAST_MOMENT + 1, u64::MAX]);
    moments
}

/// Lists with a row of the id at each place, at no place, and across two rows.
fn revocation_lists(compare: &mut Compare, random: &mut Random) {
    for length in [0, 1, 2, 3, 10, 100] {
        let others = random.bytes(24 * length);
        for at in 0..=others.len().min(72) {
            let mut asked = Asked::fine();
            let row = revocation(&asked.id, asked.now());
            asked.revoked = [&others[..at], &row, &others[at..]].concat();
            asked.run(compare);
            asked.revoked.truncate(24 * length);
            asked.run(compare);
        }
    }
}

/// A row and two rows of the id, with moments around the clock, at the ends, and with the clock's bytes the other way round.
fn revocation_moments(compare: &mut Compare) {
    let last = u64::MAX;
    for now in [0, 1, 1999, 2000, 2999, 3000, 1 << 40, LAST_SECOND] {
        let mut asked = Asked::fine();
        asked.now_ms = 1000 * now;
        let (before, after) = (now.wrapping_sub(1), now.wrapping_add(1));
        let rows = [0, before, now, after, last, now.swap_bytes()]
            .map(|moment| revocation(&asked.id, moment));
        for first in &rows {
            asked.revoked = first.clone();
            asked.run(compare);
            for second in &rows {
                asked.revoked = [&first[..], second].concat();
                asked.run(compare);
            }
        }
    }
}

/// Rows of the id with each bit changed, and cut to each length.
fn revocation_bytes(compare: &mut Compare) {
    let fine = Asked::fine();
    let row = revocation(&fine.id, fine.now());
    for bit in 0..8 * row.len() {
        let mut asked = fine.clone();
        asked.revoked = row.clone();
        asked.revoked[bit / 8] ^= 1 << (bit % 8);
        asked.run(compare);
    }
    for length in 0..=3 * row.len() {
        let mut asked = fine.clone();
        asked.revoked = row.repeat(3);
        asked.revoked.truncate(length);
        asked.run(compare);
    }
}

/// A list of few ids, with moments near the clock.
fn random_revocations(compare: &mut Compare, random: &mut Random) {
    let mut asked = Asked::fine();
    let now = *random.pick(&[0, 1999, 2000, 2500, 2999, 3000, LAST_SECOND]);
    asked.now_ms = 1000 * now + random.below(1000) as u64;
    let mut ids = vec![asked.id.clone(); 3];
    ids[1][0] ^= 1;
    ids[2][15] ^= 1;
    asked.revoked.clear();
    for _ in 0..random.below(8) {
        let id: &Vec<u8> = random.pick(&ids);
        let moment = now.wrapping_add(random.below(7) as u64);
        asked.revoked.extend(revocation(id, moment.wrapping_sub(2)));
    }
    asked.run(compare);
}

/// A descriptor of random grants, often with any ids, and a request that one of them often serves.
fn random_request(compare: &mut Compare, random: &mut Random) {
    let grants = (0..random.between(1, 8)).map(|_| Grant {
        constraints: random
            .once_in(4)
            .then(|| vec![("k".to_string(), "v".to_string()); random.below(2)]),
        ..grant(&modes_of(random.between(1, 15)), &any_levels(random, 4))
    });
    let mut model = Model::with(grants.collect());
    if random.once_in(2) {
        put_any(&mut model, random);
    }
    let row = Row::used(&model, 1_990 + random.below(1_020) as u64);
    let bytes = image_of(*random.pick(&EDITIONS), &[row]);
    let mut asked = Asked::of(&model, bytes);
    asked.mode = random.below(MODES.len()) as u64;
    asked.now_ms = 1_990_000 + random.below(1_020_000) as u64;
    asked.session_length = random.edge();
    asked.verdict = if random.once_in(10) { 1 } else { 0 };
    let levels = random.pick(&model.grants).pattern[46..].to_string();
    let names = levels.split('/').map(|level| {
        if level.starts_with('*') {
            any_name(random)
        } else {
            level.to_string()
        }
    });
    let names = names.collect::<Vec<_>>().join("/");
    let mut resource = format!("{}/{names}", model.terminal);
    if random.once_in(4) {
        resource += &format!("/{}", any_name(random));
    }
    asked.resource = resource.into();
    asked.run(compare);
}
