//! The shapes of the wrapper say what the numbers of the library say.

#[allow(dead_code)]
#[path = "support/encoder.rs"]
mod encoder;

use cap::{
    numbers, Answer, Key, Lease, LeaseTable, Margin, Milliseconds, Mode, Refusal, Request,
    RequestRefusal, Revocation, Seconds, Verdict,
};
use encoder::{grant, image, image_of, Model, Row, FAY, MODES, TERMINAL};

const GOOD: Key = Key {
    verdict: Verdict::Good,
    valid_from: Seconds(0),
    valid_until: None,
};

/// A request to read at 2,500 seconds.
fn asked<'a>(id: &'a [u8; 16], resource: &'a str) -> Request<'a> {
    Request {
        id,
        fay: FAY.as_bytes(),
        terminal: TERMINAL.as_bytes(),
        resource: resource.as_bytes(),
        mode: Mode::Read,
        now: Milliseconds(2_500_000),
        session_length: Seconds(1000),
        revoked: &[],
        leases: LeaseTable::EMPTY,
        key: GOOD,
    }
}

#[test]
fn answers_have_the_numbers_of_the_table() {
    for number in (0..22).chain(23..27) {
        let answer = Answer::of(number).expect("an answer");
        assert_eq!(answer.number(), number);
        assert!(!answer.name().is_empty());
    }
    assert_eq!(Answer::of(22), None);
    assert_eq!(Answer::of(27), None);
    assert_eq!(Answer::of(u64::MAX), None);
    assert_eq!(Answer::ParentUnread.number(), 21);
    assert_eq!(Answer::LeaseStale.to_string(), "lease stale (24)");
    assert_eq!(
        Answer::InvalidStructure.to_string(),
        "E_INVALID_STRUCTURE (1)"
    );
}

#[test]
fn items_and_descriptors() {
    assert_eq!(
        cap::item_read(&[0x18, 0x18], 0).map(|item| item.number),
        Ok(24)
    );
    assert_eq!(
        cap::item_read(&[0x18, 0x17], 0),
        Err(Answer::InvalidStructure)
    );
    assert_eq!(cap::item_read(&[], 0), Err(Answer::InvalidStructure));
    let bytes = Model::full().bytes();
    let descriptor = cap::descriptor_read(&bytes).expect("it reads");
    assert_eq!(descriptor, numbers::descriptor_read(&bytes));
    assert_eq!(
        cap::part(&bytes, descriptor.key_id_at, descriptor.key_id_len),
        b"k1"
    );
    assert_eq!(cap::part(&bytes, u64::MAX, 1), b"");
    assert_eq!(cap::part(&bytes, 1, u64::MAX), b"");
    let long = Model {
        not_after: u64::MAX,
        ..Model::full()
    };
    assert_eq!(
        cap::descriptor_read(&long.bytes()),
        Err(Answer::ValidityOutOfRange)
    );
}

#[test]
fn grants_are_walked_and_end() {
    let model = Model::full();
    let bytes = model.bytes();
    let mut grants = cap::grants(&bytes);
    for expected in &model.grants {
        let grant = grants.next().expect("a grant");
        assert_eq!(
            cap::part(&bytes, grant.pattern_at, grant.pattern_len),
            expected.pattern.as_bytes()
        );
    }
    assert_eq!([grants.next(), grants.next()], [None, None]);
    assert_eq!(cap::grants(&bytes[1..]).count(), 0);
    assert_eq!(cap::grant_at(&bytes, 3), None);
}

#[test]
fn matching_answers_names_no_or_malformed() {
    let matched = |pattern: &str, path: &str| {
        let under = |levels: &str| format!("{TERMINAL}/{levels}").into_bytes();
        cap::matching(&under(pattern), &under(path))
    };
    assert_eq!(matched("d/*", "d/a"), Ok(Some(1)));
    assert_eq!(matched("d/a", "d/a"), Ok(Some(2)));
    assert_eq!(matched("**", "d/a"), Ok(Some(0)));
    assert_eq!(matched("d/*", "d/a/b"), Ok(None));
    assert_eq!(matched("d*", "d"), Err(Answer::MalformedArguments));
    assert_eq!(cap::matching(&[], &[]), Err(Answer::MalformedArguments));
}

#[test]
fn a_body_is_stored_found_and_asked_for() {
    let model = Model::plain();
    let (body, id) = (
        model.bytes(),
        model.id.clone().try_into().expect("16 bytes"),
    );
    let mut image = vec![0; 1000];
    assert_eq!(
        cap::submit(&mut image, &body, Seconds(2000), &GOOD),
        Err(Answer::BadImage)
    );
    assert_eq!(cap::image_new(&mut image[..7]), Err(Answer::OutputTooShort));
    assert_eq!(cap::image_new(&mut image), Ok(()));
    assert_eq!(
        cap::image_find(&image, &id),
        Err(Answer::DescriptorNotFound)
    );
    let late = Key {
        valid_until: Some(Seconds(1999)),
        ..GOOD
    };
    assert_eq!(
        cap::submit(&mut image, &body, Seconds(2000), &late),
        Err(Answer::VerificationKeyInvalid)
    );
    let unknown = Key {
        verdict: Verdict::NoSuchKey,
        ..GOOD
    };
    assert_eq!(
        cap::submit(&mut image, &body, Seconds(2000), &unknown),
        Err(Answer::UnknownIssuer)
    );
    assert_eq!(cap::submit(&mut image, &body, Seconds(2000), &GOOD), Ok(()));
    assert_eq!(cap::image_find(&image, &id), Ok(&body[..]));
    let resource = format!("{TERMINAL}/a/b");
    let asked = asked(&id, &resource);
    let granted = numbers::Decision {
        answer: 0,
        grant: 0,
        mask: 1,
        session_end: Seconds(3000),
        margin: Margin(0),
    };
    assert_eq!(cap::request(&mut image, &asked), Ok(granted));
    let write = Request {
        mode: Mode::Write,
        ..asked
    };
    assert_eq!(
        cap::request(&mut image, &write),
        Err(RequestRefusal::Other(Answer::AuthorizationInsufficient))
    );
    let later = [
        Revocation::new([9; 16], Seconds(0)),
        Revocation::new(id, Seconds(2501)),
    ];
    let not_yet_revoked = Request {
        revoked: &later,
        ..asked
    };
    assert_eq!(cap::request(&mut image, &not_yet_revoked), Ok(granted));
    let revoked = Request {
        now: Milliseconds(2_501_000),
        ..not_yet_revoked
    };
    assert_eq!(
        cap::request(&mut image, &revoked),
        Err(RequestRefusal::Other(Answer::DescriptorRevoked))
    );
    let forged = Request {
        key: Key {
            verdict: Verdict::Bad,
            ..GOOD
        },
        ..asked
    };
    assert_eq!(
        cap::request(&mut image, &forged),
        Err(RequestRefusal::Other(Answer::InvalidSignature))
    );
}

#[test]
fn ids_of_another_version_are_kept_and_not_submitted() {
    let model = Model::plain().of_version(4, 1);
    let id = model.id.clone().try_into().expect("16 bytes");
    let held = image(&[Row::of(&model)]);
    let mut bytes = [&held[..], &[0; 1000]].concat();
    for issuer in ["uni", "other"] {
        let body = Model {
            issuer: issuer.into(),
            ..model.clone()
        }
        .bytes();
        assert_eq!(
            cap::submit(&mut bytes, &body, Seconds(2000), &GOOD),
            Err(Answer::InvalidStructure)
        );
    }
    assert!(bytes.starts_with(&held));
    assert_eq!(cap::image_find(&bytes, &id), Ok(&model.bytes()[..]));
    let resource = format!("{TERMINAL}/a/b");
    assert!(cap::request(&mut bytes, &asked(&id, &resource)).is_ok());
    assert!(cap::descriptor_read(&model.bytes()).is_ok());
}

#[test]
fn a_grant_raises_the_moment_of_the_row() {
    let model = Model::plain();
    let id = model.id.clone().try_into().expect("16 bytes");
    let resource = format!("{TERMINAL}/a/b");
    let used = |last_used| image(&[Row::used(&model, last_used)]);
    for (before, after) in [(0, 2500), (2499, 2500), (2501, 2501)] {
        let mut bytes = used(before);
        assert!(cap::request(&mut bytes, &asked(&id, &resource)).is_ok());
        assert_eq!(bytes, used(after));
    }
    let mut old = image_of(1, &[Row::of(&model)]);
    assert!(cap::request(&mut old, &asked(&id, &resource)).is_ok());
    assert_eq!(old, image_of(1, &[Row::of(&model)]));
}

#[test]
fn an_expired_row_gives_room() {
    let (held, new) = (Model::plain(), Model::plain().numbered(1));
    let mut bytes = image(&[Row::of(&held)]);
    let submit = |bytes: &mut [u8], now| cap::submit(bytes, &new.bytes(), Seconds(now), &GOOD);
    assert_eq!(submit(&mut bytes, 2999), Err(Answer::StorageFull));
    assert_eq!(bytes, image(&[Row::of(&held)]));
    assert_eq!(submit(&mut bytes, 3000), Ok(()));
    assert_eq!(bytes, image(&[Row::used(&new, 3000)]));
}

#[test]
fn an_old_image_is_upgraded() {
    let rows = [Model::plain(), Model::full().numbered(1)].map(|model| Row::of(&model));
    let (old, new) = (image_of(1, &rows), image(&rows));
    let with = |bytes: &mut [u8]| cap::submit(bytes, &rows[0].body, Seconds(2000), &GOOD);
    assert_eq!(with(&mut old.clone()), Err(Answer::BadImage));
    let mut bytes = vec![9; new.len() + 1];
    let (short, exact) = (new.len() - 1, new.len());
    assert_eq!(
        cap::image_upgrade(&old, &mut bytes[..short]),
        Err(Answer::OutputTooShort)
    );
    assert_eq!(bytes, vec![9; exact + 1]);
    assert_eq!(cap::image_upgrade(&old, &mut bytes), Ok(exact as u64));
    assert_eq!((&bytes[..exact], bytes[exact]), (&new[..], 9));
    assert_eq!(with(&mut bytes), Ok(()));
    assert_eq!(cap::image_upgrade(&new, &mut bytes), Err(Answer::BadImage));
}

#[test]
fn the_most_exact_grant_is_named() {
    let model = Model::with(vec![
        grant(&["read"], "**"),
        grant(&["read", "write"], "a/*"),
        grant(&["write"], "a/b"),
    ]);
    let id = model.id.clone().try_into().expect("16 bytes");
    let (mut image, resource) = (image(&[Row::of(&model)]), format!("{TERMINAL}/a/b"));
    let mut named = |mode| {
        let with = Request {
            mode,
            ..asked(&id, &resource)
        };
        cap::request(&mut image, &with).map(|decision| (decision.grant, decision.mask))
    };
    assert_eq!(named(Mode::Read), Ok((1, 3)));
    assert_eq!(named(Mode::Write), Ok((2, 2)));
    assert_eq!(
        named(Mode::Execute).map_err(RequestRefusal::answer),
        Err(Answer::AuthorizationInsufficient)
    );
}

/// A lease that is not too early from 2,299,000 ms on, active up to 2,402,000 and stale up to 2,462,000.
const LEASE: Lease = Lease {
    id: [0; 16],
    revoked: false,
    last_sync: Milliseconds(2_300_000),
    ttl: Seconds(100),
    grace: Seconds(60),
    skew: Milliseconds(1000),
    tolerance: Milliseconds(2000),
};

#[test]
fn a_lease_is_active_stale_or_refused() {
    let model = Model::plain();
    let id = model.id.clone().try_into().expect("16 bytes");
    let (mut image, resource) = (image(&[Row::of(&model)]), format!("{TERMINAL}/a/b"));
    let mut answer = |lease: Lease, now| {
        let other = Lease {
            revoked: true,
            ..LEASE
        };
        let with = Request {
            now: Milliseconds(now),
            leases: &LeaseTable::from_iter([Lease { id, ..lease }, other]),
            ..asked(&id, &resource)
        };
        cap::request(&mut image, &with).map(|decision| decision.margin)
    };
    let refused = |answer| Err(RequestRefusal::Other(answer));
    let stale = |margin| {
        Err(RequestRefusal::Stale {
            margin: Margin(margin),
        })
    };
    assert_eq!(answer(LEASE, 2_298_999), refused(Answer::LeaseFuture));
    assert_eq!(answer(LEASE, 2_299_000), Ok(Margin(103_000)));
    assert_eq!(answer(LEASE, 2_402_000), Ok(Margin(0)));
    assert_eq!(answer(LEASE, 2_402_001), stale(-1));
    assert_eq!(answer(LEASE, 2_462_000), stale(-60_000));
    assert_eq!(answer(LEASE, 2_462_001), refused(Answer::LeaseExpired));
    let revoked = Lease {
        revoked: true,
        ..LEASE
    };
    assert_eq!(answer(revoked, 2_350_000), refused(Answer::LeaseRevoked));
    let endless = Lease {
        ttl: Seconds(1 << 32),
        ..LEASE
    };
    let malformed = refused(Answer::MalformedArguments);
    assert_eq!(answer(endless, 2_350_000), malformed);
    assert_eq!(answer(LEASE, (1 << 53) + 1), malformed);
}

#[test]
fn a_refusal_of_a_request_is_shown() {
    let stale = RequestRefusal::Stale {
        margin: Margin(-1500),
    };
    assert_eq!(stale.answer(), Answer::LeaseStale);
    assert_eq!(stale.to_string(), "lease stale (24), for 1500 ms");
    let other = RequestRefusal::Other(Answer::LeaseExpired);
    assert_eq!(other.answer(), Answer::LeaseExpired);
    assert_eq!(other.to_string(), "lease expired (25)");
}

#[test]
fn a_lease_table_has_one_lease_for_an_id() {
    let lease = |number, grace| Lease {
        id: [number; 16],
        grace: Seconds(grace),
        ..LEASE
    };
    let mut table = LeaseTable::new();
    for number in [5, 3, 9, 4, 1] {
        assert_eq!(table.insert(lease(number, 60)), None);
    }
    assert_eq!(table.insert(lease(4, 61)), Some(lease(4, 60)));
    assert_eq!(table.get(&[4; 16]), Some(lease(4, 61)));
    assert_eq!(table.get(&[2; 16]), None);
    assert_eq!(table.remove(&[3; 16]), Some(lease(3, 60)));
    assert_eq!(table.remove(&[3; 16]), None);
    let ids: Vec<u8> = table.iter().map(|lease| lease.id[0]).collect();
    assert_eq!((ids, table.len()), (vec![1, 4, 5, 9], 4));
    assert!(LeaseTable::EMPTY.is_empty() && !table.is_empty());
    assert_eq!(table.iter().collect::<LeaseTable>(), table);
    assert!(format!("{table:?}").starts_with("[Lease { id: [1, 1,"));
}

#[test]
fn seconds_and_milliseconds_are_converted_by_name() {
    let last = Seconds(u64::MAX / 1000);
    assert_eq!(Seconds(2).to_milliseconds(), Some(Milliseconds(2000)));
    assert_eq!(last.to_milliseconds(), Some(Milliseconds(last.0 * 1000)));
    assert_eq!(Seconds(last.0 + 1).to_milliseconds(), None);
    let rounded = |n| Milliseconds(n).to_seconds_rounded_down();
    assert_eq!([1999, 2000, 2999].map(rounded), [1, 2, 2].map(Seconds));
    assert_eq!(rounded(u64::MAX), last);
}

#[test]
fn a_row_of_the_revocation_list_has_24_bytes() {
    const ROW: Revocation = Revocation::new([9; 16], Seconds(2501));
    assert_eq!((size_of_val(&ROW), align_of_val(&ROW)), (24, 1));
    assert_eq!((ROW.id(), ROW.moment()), (&[9; 16], Seconds(2501)));
    assert!(format!("{ROW:?}").ends_with("moment: Seconds(2501) }"));
}

#[test]
fn narrowing_accepts_or_says_why_not() {
    let parent = Model::with(vec![grant(&["read"], "a/*")]).bytes();
    let child = Model::with(vec![grant(&MODES[..1], "a/b"), grant(&MODES[..1], "a/**")]).bytes();
    let escape = Refusal::Escape {
        grant: 1,
        mode: Mode::Read,
        levels: 2,
    };
    assert_eq!(cap::narrow(&parent, &child), Err(escape));
    assert_eq!(cap::narrow(&parent, &parent), Ok(()));
    assert_eq!(
        cap::narrow(&[], &child),
        Err(Refusal::Other(Answer::ParentUnread))
    );
}
