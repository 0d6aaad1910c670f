//! The lease steps of a request: each boundary, each limit, the order of the steps, and whole runs of the clock.

use std::ops::Range;

use descriptor::{image_of, Rule, FAY, ID, T};
use reference::{request, Decision, Request};

#[path = "support/descriptor.rs"]
mod descriptor;

/// An id that no descriptor here has.
const OTHER: [u8; 16] = [9; 16];
/// The last moment of the clock and of a last sync, in milliseconds.
const LAST_MOMENT: u64 = 1 << 53;
/// The longest future skew and tolerance, in milliseconds.
const DAY: u64 = 86_400_000;

/// Where the last-used moment of the image's one row lies.
const MOMENT: Range<usize> = 40..48;

/// A row of the lease table.
#[derive(Clone, Copy)]
struct Row {
    id: [u8; 16],
    flag: u8,
    last_sync: u64,
    ttl: u64,
    grace: u64,
    skew: u64,
    tolerance: u64,
}

/// The lease of most tests: not too early from 2,050 on, active up to 3,107, stale up to 4,107.
const FINE: Row = Row {
    id: *ID,
    flag: 0,
    last_sync: 2100,
    ttl: 1,
    grace: 1,
    skew: 50,
    tolerance: 7,
};

impl Row {
    fn bytes(&self) -> Vec<u8> {
        let numbers = [
            self.last_sync,
            self.ttl,
            self.grace,
            self.skew,
            self.tolerance,
        ];
        let flag = [self.flag, 0, 0, 0, 0, 0, 0, 0];
        [&self.id[..], &flag, &numbers.map(u64::to_be_bytes).concat()].concat()
    }
}

/// The bytes of some rows.
fn table(rows: &[Row]) -> Vec<u8> {
    rows.iter().flat_map(Row::bytes).collect()
}

/// A host with a descriptor that is valid from 2,000 to 4,999 milliseconds.
struct Host {
    image: Vec<u8>,
    resource: String,
}

impl Host {
    fn new() -> Host {
        let resource = format!("{T}/a");
        let rule = Rule {
            pattern: resource.clone(),
            mask: 1,
            constraints: None,
        };
        let image = image_of(&[rule]);
        Host { image, resource }
    }

    /// A request to read, for a session of a second.
    fn asked<'a>(&'a self, now_ms: u64, leases: &'a [u8]) -> Request<'a> {
        Request {
            id: ID,
            fay: FAY.as_bytes(),
            terminal: T.as_bytes(),
            resource: self.resource.as_bytes(),
            now_ms,
            session_length: 1,
            leases,
            ..Request::default()
        }
    }

    /// What that request is answered.
    fn decide(&self, now_ms: u64, leases: &[u8]) -> Decision {
        self.answered(&self.asked(now_ms, leases))
    }

    /// What a request is answered; a refusal leaves the image as it is, a grant all of it but the row's last moment.
    fn answered(&self, asked: &Request) -> Decision {
        let mut image = self.image.clone();
        let decision = request(&mut image, asked);
        if decision.answer == 0 {
            image[MOMENT].copy_from_slice(&self.image[MOMENT]);
        }
        assert!(image == self.image, "{asked:?}");
        decision
    }

    /// The answer and the margin alone.
    fn answer(&self, now_ms: u64, leases: &[u8]) -> (u64, i64) {
        let decision = self.decide(now_ms, leases);
        (decision.answer, decision.margin)
    }
}

/// A refusal with a margin.
fn refused(answer: u64, margin: i64) -> Decision {
    Decision {
        answer,
        margin,
        ..Decision::default()
    }
}

/// A grant of a session of a second, with a margin.
fn granted(now_ms: u64, margin: i64) -> Decision {
    Decision {
        answer: 0,
        grant: 0,
        mask: 1,
        session_end: (now_ms / 1000 + 1).min(5),
        margin,
    }
}

#[test]
fn each_boundary() {
    let (host, leases) = (Host::new(), FINE.bytes());
    let decide = |now_ms| host.decide(now_ms, &leases);
    assert_eq!(decide(2049), refused(23, 0));
    assert_eq!(decide(2050), granted(2050, 1057));
    assert_eq!(decide(2100), granted(2100, 1007));
    assert_eq!(decide(3107), granted(3107, 0));
    assert_eq!(decide(3108), refused(24, -1));
    assert_eq!(decide(4107), refused(24, -1000));
    assert_eq!(decide(4108), refused(25, 0));
}

/// At each clock of the descriptor's period: from the clock 0 on there are as many moments of each state as the row's numbers say;
/// the margin falls by one each, and is 0 at the last active one.
#[test]
fn runs_of_the_clock() {
    let host = Host::new();
    for [last_sync, ttl, grace, skew, tolerance] in [
        [2100, 1, 1, 50, 7],
        [2100, 0, 0, 0, 0],
        [2000, 0, 1, 0, 1],
        [2001, 0, 0, 1, 999],
        [2500, 2, 0, 100, 0],
        [3999, 0, 1, 1999, 0],
        [4999, 0, 0, 10, 0],
        [1000, 1, 1, 0, 500],
        [5000, 0, 0, 0, 0],
    ] {
        let row = Row {
            last_sync,
            ttl,
            grace,
            skew,
            tolerance,
            ..FINE
        };
        let (future, active) = (last_sync - skew, skew + 1000 * ttl + tolerance + 1);
        let mut expected = vec![23; future as usize];
        expected.extend(vec![0; active as usize]);
        let mut margin = expected.len() as i64 - 1;
        expected.extend(vec![24; 1000 * grace as usize]);
        expected.resize(9000, 25);
        for now_ms in 0..5000 {
            let answer = expected[now_ms as usize];
            let told = if matches!(answer, 0 | 24) { margin } else { 0 };
            if now_ms >= 2000 {
                assert_eq!(
                    host.answer(now_ms, &row.bytes()),
                    (answer, told),
                    "{now_ms}"
                );
            }
            margin -= 1;
        }
    }
}

#[test]
fn revoked_comes_first_of_the_lease_steps() {
    let host = Host::new();
    let row = Row { flag: 1, ..FINE };
    for now_ms in [2000, 2049, 2050, 3107, 3108, 4107, 4108, 4999] {
        assert_eq!(host.decide(now_ms, &row.bytes()), refused(26, 0));
    }
}

#[test]
fn lease_steps_follow_the_signature() {
    let host = Host::new();
    let revoked = Row { flag: 1, ..FINE }.bytes();
    let list = [&ID[..], &[0; 8]].concat();
    for (now_ms, leases) in [
        (2049, FINE.bytes()),
        (2500, FINE.bytes()),
        (3108, FINE.bytes()),
        (4108, FINE.bytes()),
        (2500, revoked.clone()),
    ] {
        let asked = host.asked(now_ms, &leases);
        let decide = |asked| host.answered(&asked);
        assert_eq!(
            decide(Request {
                verdict: 1,
                ..asked
            }),
            refused(4, 0)
        );
        assert_eq!(
            decide(Request {
                verdict: 2,
                ..asked
            }),
            refused(14, 0)
        );
        assert_eq!(
            decide(Request {
                valid_from: 5,
                ..asked
            }),
            refused(14, 0)
        );
        assert_eq!(decide(Request { mode: 1, ..asked }), refused(13, 0));
        assert_eq!(
            decide(Request {
                revoked: &list,
                ..asked
            }),
            refused(8, 0)
        );
        assert_eq!(
            decide(Request {
                id: &OTHER,
                ..asked
            }),
            refused(7, 0)
        );
    }
    assert_eq!(host.decide(1999, &revoked), refused(9, 0));
    assert_eq!(host.decide(5000, &revoked), refused(10, 0));
}

#[test]
fn an_id_without_a_row_is_decided_as_before() {
    let host = Host::new();
    let others = table(&[
        Row {
            id: OTHER,
            flag: 1,
            ..FINE
        },
        Row {
            id: [0; 16],
            last_sync: LAST_MOMENT,
            ..FINE
        },
    ]);
    for now_ms in [1999, 2000, 2999, 3000, 4999, 5000] {
        let decision = host.decide(now_ms, &[]);
        assert_eq!(decision.margin, 0);
        assert_eq!(host.decide(now_ms, &others), decision);
    }
    assert_eq!(host.decide(4999, &others), granted(4999, 0));
}

#[test]
fn the_clock_in_seconds_is_rounded_down() {
    let host = Host::new();
    assert_eq!(host.decide(1999, &[]), refused(9, 0));
    assert_eq!(host.decide(2000, &[]), granted(2000, 0));
    assert_eq!(host.decide(4999, &[]), granted(4999, 0));
    assert_eq!(host.decide(5000, &[]), refused(10, 0));
    let list = [&ID[..], &3u64.to_be_bytes()].concat();
    let answer = |asked| host.answered(&asked).answer;
    let listed = |now_ms| {
        answer(Request {
            revoked: &list,
            ..host.asked(now_ms, &[])
        })
    };
    assert_eq!((listed(2999), listed(3000)), (0, 8));
    let until_3 = |now_ms| {
        answer(Request {
            has_valid_until: 1,
            valid_until: 3,
            ..host.asked(now_ms, &[])
        })
    };
    assert_eq!((until_3(3999), until_3(4000)), (0, 14));
}

/// A change of a row.
type Change = fn(&mut Row, u64);

/// A number of a row with its limit, which is still allowed.
const LIMITS: [(Change, u64); 5] = [
    (|row, n| row.last_sync = n, LAST_MOMENT),
    (|row, n| row.ttl = n, (1 << 32) - 1),
    (|row, n| row.grace = n, (1 << 32) - 1),
    (|row, n| row.skew = n, DAY),
    (|row, n| row.tolerance = n, DAY),
];

#[test]
fn limits_of_a_row_whichever_id_it_has() {
    let host = Host::new();
    for (set, limit) in LIMITS {
        for id in [*ID, OTHER] {
            let answer = |n| {
                let mut row = Row { id, ..FINE };
                set(&mut row, n);
                host.answer(2500, &table(&[row])).0
            };
            assert_ne!(answer(limit - 1), 15);
            assert_ne!(answer(limit), 15);
            assert_eq!(answer(limit + 1), 15);
            assert_eq!(answer(u64::MAX), 15);
        }
    }
}

#[test]
fn the_flag_and_the_zero_bytes() {
    let host = Host::new();
    for flag in [2, 3, 128, 255] {
        assert_eq!(host.answer(2500, &Row { flag, ..FINE }.bytes()), (15, 0));
    }
    for at in 17..24 {
        for byte in [1, 128, 255] {
            let mut leases = FINE.bytes();
            leases[at] = byte;
            assert_eq!(host.answer(2500, &leases), (15, 0));
        }
    }
}

#[test]
fn lengths_of_the_table() {
    let host = Host::new();
    let other = Row { id: OTHER, ..FINE };
    let leases = table(&[FINE, other]);
    for length in 0..=leases.len() {
        let expected = if length % 64 == 0 { 0 } else { 15 };
        assert_eq!(host.answer(2500, &leases[..length]).0, expected);
    }
}

#[test]
fn no_id_recurs() {
    let host = Host::new();
    let with_id = |number: u8| Row {
        id: [number; 16],
        ..FINE
    };
    let mut rows: Vec<Row> = (10..20).map(with_id).collect();
    rows.push(FINE);
    for first in 0..rows.len() {
        for second in 0..rows.len() {
            let mut twice = rows.clone();
            twice[first].id = rows[second].id;
            let answer = host.answer(2500, &table(&twice)).0;
            assert_eq!(answer == 15, first != second);
        }
    }
}

#[test]
fn the_bound_of_the_clock() {
    let host = Host::new();
    for leases in [vec![], FINE.bytes()] {
        assert_eq!(host.answer(LAST_MOMENT, &leases).0, 10);
        assert_eq!(host.answer(LAST_MOMENT + 1, &leases), (15, 0));
        assert_eq!(host.answer(u64::MAX, &leases), (15, 0));
    }
}

#[test]
fn a_last_sync_before_the_skew_has_passed() {
    let host = Host::new();
    let row = Row {
        last_sync: 10,
        ttl: 2,
        skew: DAY,
        ..FINE
    };
    assert_eq!(host.answer(2000, &row.bytes()), (0, 17));
    assert_eq!(host.answer(2017, &row.bytes()), (0, 0));
    assert_eq!(host.answer(2018, &row.bytes()), (24, -1));
}

#[test]
fn the_longest_ttl_and_grace() {
    let host = Host::new();
    let longest = Row {
        last_sync: 2000 + DAY,
        ttl: (1 << 32) - 1,
        grace: (1 << 32) - 1,
        skew: DAY,
        tolerance: DAY,
        ..FINE
    };
    let margin = (2 * DAY + 1000 * longest.ttl) as i64;
    assert_eq!(host.answer(2000, &longest.bytes()), (0, margin));
    let stale = Row {
        last_sync: 0,
        ttl: 0,
        tolerance: 0,
        ..longest
    };
    assert_eq!(host.answer(4999, &stale.bytes()), (24, -4999));
}
