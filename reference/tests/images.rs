//! Images of both editions: which rows a submission removes, when the moment of a row is raised, and the upgrade.

use descriptor::{model, Model, Rule, FAY, ID, T};
use draw::Draw;
use image::{image_with, Row};
use reference::{
    image_find, image_new, image_upgrade, request, submit, Decision, Request, Submission, Written,
};

#[allow(dead_code)]
#[path = "support/descriptor.rs"]
mod descriptor;
#[path = "support/draw.rs"]
mod draw;
#[path = "support/image.rs"]
mod image;

/// The bytes after the images here.
const TAIL: u8 = 0xaa;

/// A descriptor that grants reading of the one resource, and the moment of its row.
#[derive(Clone, Copy, Debug, PartialEq)]
struct Held {
    number: u32,
    not_after: u8,
    /// How many grants it has beside that one.
    others: usize,
    last_used: u64,
}

impl Held {
    /// A descriptor that is valid up to 20 seconds, last used at 0.
    fn numbered(number: u32) -> Held {
        Held {
            number,
            not_after: 20,
            others: 0,
            last_used: 0,
        }
    }

    fn id(&self) -> [u8; 16] {
        let mut id = *ID;
        id[12..].copy_from_slice(&self.number.to_be_bytes());
        id
    }

    fn body(&self) -> Vec<u8> {
        let rule = |levels: &str| Rule {
            pattern: format!("{T}/{levels}"),
            mask: 1,
            constraints: None,
        };
        let mut rules = vec![rule("a")];
        rules.extend((0..self.others).map(|n| rule(&"n".repeat(1 + n))));
        Model {
            id: self.id(),
            not_after: u64::from(self.not_after),
            ..model(&rules)
        }
        .bytes()
    }
}

/// The image of an edition that holds the descriptors.
fn image(edition: u16, held: &[Held]) -> Vec<u8> {
    let row = |one: &Held| Row {
        id: one.id(),
        body: one.body(),
        last_used: one.last_used,
    };
    image_with(edition, &held.iter().map(row).collect::<Vec<_>>())
}

/// So many descriptors, numbered from 0.
fn many(count: u32) -> Vec<Held> {
    (0..count).map(Held::numbered).collect()
}

/// The bytes with so many more.
fn with_room(bytes: Vec<u8>, room: usize) -> Vec<u8> {
    [bytes, vec![TAIL; room]].concat()
}

/// A submission at a clock with a good signature.
fn at(now: u64) -> Submission {
    Submission {
        now,
        ..Submission::default()
    }
}

/// A request to read at a clock in milliseconds.
fn reading<'a>(id: &'a [u8; 16], resource: &'a str, now_ms: u64) -> Request<'a> {
    Request {
        id,
        fay: FAY.as_bytes(),
        terminal: T.as_bytes(),
        resource: resource.as_bytes(),
        now_ms,
        ..Request::default()
    }
}

/// The answer to that request, and the image after it.
fn read(before: &[u8], held: &Held, now_ms: u64) -> (u64, Vec<u8>) {
    let mut bytes = before.to_vec();
    let resource = format!("{T}/a");
    let answer = request(&mut bytes, &reading(&held.id(), &resource, now_ms)).answer;
    (answer, bytes)
}

/// What a submission has to leave in a buffer, by the definition: an expired row is removed exactly if the new one doesn't fit
/// without the expired ones that go before it, and the answer is 6 exactly if it doesn't fit without all of them.
fn expected(held: &[Held], new: Held, now: u64, before: &[u8]) -> (u64, Vec<u8>) {
    let fits = |rows: &[Held]| {
        let bodies: usize = rows.iter().map(|row| row.body().len()).sum();
        let size = 8 + 40 * (rows.len() + 1) + bodies + new.body().len();
        rows.len() < 1024 && size <= before.len()
    };
    let is_expired = |row: &Held| now >= u64::from(row.not_after);
    let goes_before = |one: usize, other: usize| {
        let (this, that) = (held[one].last_used, held[other].last_used);
        is_expired(&held[one]) && (this < that || this == that && one < other)
    };
    let without = |gone: &dyn Fn(usize) -> bool| -> Vec<Held> {
        let kept = (0..held.len()).filter(|&one| !gone(one));
        kept.map(|one| held[one]).collect()
    };
    if !fits(&without(&|one| is_expired(&held[one]))) {
        return (6, before.to_vec());
    }
    let removed =
        |row: usize| is_expired(&held[row]) && !fits(&without(&|one: usize| goes_before(one, row)));
    let mut rows = without(&removed);
    rows.push(Held {
        last_used: now,
        ..new
    });
    let mut after = image(2, &rows);
    after.extend(&before[after.len()..]);
    (0, after)
}

/// The number of rows by the header.
fn rows_of(bytes: &[u8]) -> usize {
    usize::from(u16::from_be_bytes([bytes[4], bytes[5]]))
}

#[test]
fn a_new_image_is_of_edition_2() {
    for length in 0..20 {
        let mut bytes = vec![TAIL; length];
        assert_eq!(image_new(&mut bytes), if length < 8 { 17 } else { 0 });
        let header = if length < 8 {
            vec![]
        } else {
            vec![0, 2, 0, 1, 0, 0, 0, 0]
        };
        let rest = length - header.len();
        assert_eq!(bytes, with_room(header, rest));
    }
}

#[test]
fn removal_is_as_defined() {
    let mut draw = Draw(3);
    let mut outcomes = [0; 5];
    for _ in 0..4000 {
        let now = 5 + draw.below(10);
        let held: Vec<Held> = (0..draw.below(8))
            .map(|number| Held {
                not_after: (now + draw.below(3)) as u8 - 1,
                others: draw.below(4) as usize,
                last_used: [0, 1, 2, now - 1, now, now + 1, 1 << 63, u64::MAX]
                    [draw.below(8) as usize],
                ..Held::numbered(number as u32)
            })
            .collect();
        let new = Held {
            others: draw.below(15) as usize,
            ..Held::numbered(100)
        };
        let room = draw.below(100 + new.body().len() as u64);
        let mut bytes = with_room(image(2, &held), room as usize);
        let (answer, after) = expected(&held, new, now, &bytes);
        assert_eq!(submit(&mut bytes, &new.body(), &at(now)), answer);
        assert!(bytes == after, "{held:?} {new:?} {now} {room}");
        let removed = held.len() + 1 - rows_of(&bytes);
        outcomes[if answer == 6 { 4 } else { removed.min(3) }] += 1;
    }
    assert!(outcomes.iter().all(|&count| count > 100), "{outcomes:?}");
}

#[test]
fn the_1025th_row() {
    let body = Held::numbered(2000).body();
    for count in [1023, 1024] {
        let held = many(count);
        let room = 2 * (40 + body.len());
        let before = with_room(image(2, &held), room);
        let mut bytes = before.clone();
        let answer = submit(&mut bytes, &body, &at(19));
        assert_eq!(answer, if count < 1024 { 0 } else { 6 });
        assert_eq!(rows_of(&bytes), 1024);
        assert_eq!(bytes == before, count == 1024);
        assert_eq!(image_find(&bytes, &held[0].id()).answer, 0);
    }
    let mut held = many(1024);
    (held[300].not_after, held[700].not_after) = (19, 19);
    (held[300].last_used, held[700].last_used) = (9, 8);
    let mut bytes = image(2, &held);
    let (answer, after) = expected(&held, Held::numbered(2000), 19, &bytes);
    assert_eq!((answer, submit(&mut bytes, &body, &at(19))), (0, 0));
    assert!(bytes == after);
    assert_eq!(image_find(&bytes, &held[300].id()).answer, 0);
    assert_eq!(image_find(&bytes, &held[700].id()).answer, 7);
}

#[test]
fn a_held_id_is_looked_at_before_removal() {
    let held = Held {
        not_after: 5,
        ..Held::numbered(1)
    };
    let before = image(2, &[Held::numbered(0), held]);
    let other = Held { others: 1, ..held };
    for (body, answer) in [(held.body(), 0), (other.body(), 5)] {
        for now in [4, 5, 30] {
            let mut bytes = before.clone();
            assert_eq!(submit(&mut bytes, &body, &at(now)), answer);
            assert!(bytes == before);
        }
    }
}

#[test]
fn a_grant_raises_the_moment_of_its_row() {
    let moments = [0, 2, 3, 4, 19, 1 << 63, u64::MAX];
    for (first, second) in moments
        .iter()
        .flat_map(|one| moments.map(|two| (*one, two)))
    {
        let with = |number, last_used| Held {
            last_used,
            ..Held::numbered(number)
        };
        let before = with_room(image(2, &[with(0, first), with(1, second)]), 9);
        let after = with_room(image(2, &[with(0, first), with(1, second.max(3))]), 9);
        for now_ms in [3000, 3999] {
            assert!(read(&before, &with(1, 0), now_ms) == (0, after.clone()));
        }
        for (now_ms, answer) in [(1999, 9), (20_000, 10), (1 << 54, 15)] {
            assert!(read(&before, &with(1, 0), now_ms) == (answer, before.clone()));
        }
        assert!(read(&before, &with(2, 0), 3000) == (7, before.clone()));
    }
}

#[test]
fn a_refusal_of_a_lease_leaves_the_moment() {
    let held = Held::numbered(0);
    let (before, resource, id) = (image(2, &[held]), format!("{T}/a"), held.id());
    let lease = |flag: u8, numbers: [u64; 5]| {
        let flag = [flag, 0, 0, 0, 0, 0, 0, 0];
        [&id[..], &flag, &numbers.map(u64::to_be_bytes).concat()].concat()
    };
    for (lease, answer) in [
        (lease(0, [3000, 1, 0, 0, 0]), 0),
        (lease(1, [3000, 1, 0, 0, 0]), 26),
        (lease(0, [3001, 1, 0, 0, 0]), 23),
        (lease(0, [1000, 1, 1, 0, 0]), 24),
        (lease(0, [1000, 1, 0, 0, 0]), 25),
    ] {
        let mut bytes = before.clone();
        let asked = Request {
            leases: &lease,
            ..reading(&id, &resource, 3000)
        };
        assert_eq!(request(&mut bytes, &asked).answer, answer);
        assert_eq!(bytes == before, answer != 0);
    }
}

#[test]
fn an_image_of_edition_1_is_for_requests() {
    for count in [1, 2, 64] {
        let held = many(count);
        let last = held[held.len() - 1];
        let before = with_room(image(1, &held), 1000);
        assert_eq!(image_find(&before, &last.id()).answer, 0);
        assert!(read(&before, &last, 3000) == (0, before.clone()));
        for body in [last.body(), Held::numbered(2000).body(), vec![]] {
            let mut bytes = before.clone();
            assert_eq!(submit(&mut bytes, &body, &at(3)), 16);
            assert!(bytes == before);
        }
    }
    let empty = with_room(image(1, &[]), 1000);
    assert_eq!(image_find(&empty, &[7; 16]).answer, 7);
    assert_eq!(
        submit(&mut empty.clone(), &Held::numbered(0).body(), &at(3)),
        16
    );
}

/// Whether both images of an edition with so many rows, found in and asked, are sound.
fn is_sound(bytes: &[u8]) -> bool {
    let found = image_find(bytes, &[9; 16]).answer;
    let (asked, after) = read(bytes, &Held::numbered(5000), 3000);
    assert_eq!(found, asked);
    assert!(after == bytes);
    found == 7
}

#[test]
fn editions_have_their_own_limits() {
    for (edition, most) in [(1, 64), (2, 1024)] {
        assert!(is_sound(&image(edition, &many(0))));
        assert!(is_sound(&image(edition, &many(most))));
        assert!(!is_sound(&image(edition, &many(most + 1))));
    }
    for edition in [0, 3, 256, 257, 513] {
        assert!(!is_sound(&image(edition, &many(0))));
        assert!(!is_sound(&image(edition, &many(1))));
    }
    let mut other = image(1, &many(2));
    other[1] = 2;
    assert!(!is_sound(&with_room(other, 100)));
    let mut other = image(2, &many(2));
    other[1] = 1;
    assert!(!is_sound(&with_room(other, 100)));
}

#[test]
fn an_id_is_held_once_at_any_two_places() {
    let mut held = many(1024);
    for (one, other) in [(0, 1), (0, 1023), (1022, 1023), (300, 800)] {
        let kept = held[other];
        held[other] = Held {
            others: 1,
            ..held[one]
        };
        assert!(!is_sound(&image(2, &held)));
        held[other] = kept;
    }
    assert!(is_sound(&image(2, &held)));
}

#[test]
fn an_upgrade_has_the_same_rows() {
    for count in [0, 1, 2, 63, 64] {
        let held = many(count);
        let old = with_room(image(1, &held), 100);
        let new = image(2, &held);
        let done = Written {
            answer: 0,
            len: new.len() as u64,
        };
        for room in [0, 1, 100] {
            let mut bytes = vec![TAIL; new.len() + room];
            assert_eq!(image_upgrade(&old, &mut bytes), done);
            assert!(bytes == with_room(new.clone(), room));
        }
        for length in [new.len() - 1, 8, 7, 0] {
            if length < new.len() {
                let mut bytes = vec![TAIL; length];
                assert_eq!(image_upgrade(&old, &mut bytes), refused(17));
                assert!(bytes == vec![TAIL; length]);
            }
        }
    }
}

#[test]
fn an_upgrade_takes_a_sound_image_of_edition_1_alone() {
    let sound = image(1, &many(2));
    let (mut mask, mut zero) = (sound.clone(), sound.clone());
    (mask[8 + 24], zero[8 + 31]) = (2, 1);
    for old in [
        image(2, &[]),
        image(2, &many(2)),
        image(3, &many(2)),
        image(1, &many(65)),
        sound[..sound.len() - 1].to_vec(),
        sound[..7].to_vec(),
        vec![],
        mask,
        zero,
    ] {
        for length in [0, 7, 8, 100_000] {
            let mut bytes = vec![TAIL; length];
            assert_eq!(image_upgrade(&old, &mut bytes), refused(16));
            assert!(bytes == vec![TAIL; length]);
        }
    }
}

#[test]
fn an_upgraded_image_is_submitted_to_and_asked() {
    let held = many(2);
    let mut bytes = vec![TAIL; 2000];
    assert_eq!(image_upgrade(&image(1, &held), &mut bytes).answer, 0);
    assert_eq!(submit(&mut bytes, &Held::numbered(2).body(), &at(3)), 0);
    let used = |number, last_used| Held {
        last_used,
        ..Held::numbered(number)
    };
    assert!(bytes.starts_with(&image(2, &[used(0, 0), used(1, 0), used(2, 3)])));
    let (answer, after) = read(&bytes, &held[1], 4000);
    assert_eq!(answer, 0);
    assert!(after.starts_with(&image(2, &[used(0, 0), used(1, 4), used(2, 3)])));
}

#[test]
fn a_decision_is_the_same_in_both_editions() {
    let held = many(3);
    let resource = format!("{T}/a");
    for now_ms in [1999, 2000, 19_999, 20_000] {
        let decided = |edition| -> Decision {
            let asked = reading(&[9; 16], &resource, now_ms);
            let id = held[1].id();
            request(&mut image(edition, &held), &Request { id: &id, ..asked })
        };
        assert_eq!(decided(1), decided(2));
    }
}

/// A refusal to write.
fn refused(answer: u64) -> Written {
    Written { answer, len: 0 }
}
