//! Times the library against the ordinary implementation, both in one run: `cargo run --release --example bench`.
//!
//! Each time is that of the best of several rounds; the rounds of the two take turns. The ratio says how many times as long
//! the library takes. A submission and an upgrade are timed with the copying of the buffer that they change.

use std::hint::black_box;

use ask::ask;
use cap::Seconds;
use encoder::{grant, image, image_of, revocation, Model, Row, FAY, NEW_ROW, TERMINAL};
use lease_row::{lease_table, LeaseRow};
use race::{line, race, race_and_print, ratio};
use random::Random;
use reference::{Request, Submission};

#[path = "../tests/support/ask.rs"]
mod ask;
#[allow(dead_code)]
#[path = "../tests/support/encoder.rs"]
mod encoder;
#[allow(dead_code)]
#[path = "../tests/support/lease_row.rs"]
mod lease_row;
#[path = "support/race.rs"]
mod race;
#[allow(dead_code)]
#[path = "../tests/support/random.rs"]
mod random;

fn main() {
    println!("ratio: the library's time divided by ordinary Rust's\n");
    line("case", "library", "ordinary Rust", "ratio");
    for grants in [1, 15, 256] {
        reading(grants);
    }
    checks();
    for (rows, revoked) in [(1, 0), (64, 0), (1024, 0), (1, 1000)] {
        request(rows, revoked);
    }
    requests_with_leases();
    requests_of_256();
    matching();
    for grants in [1, 16, 256] {
        let bytes = rooms(grants).bytes();
        narrowing(&format!("narrowing, grants {grants}"), &bytes, &bytes);
    }
    narrowing_of("narrowing, 256, another order", (rooms(256), other_order()));
    narrowing_of("narrowing, 256, one covers all", one_covers_all());
    narrowing_of("narrowing, 256, long, another order", long_other_order());
    narrowing_of("narrowing, 256, two cover each", two_cover_each());
    narrowing_of("narrowing, 256 equal, a mode each", equal_mode_each());
    narrowing_of("narrowing, 256 unlike, a mode each", unlike_mode_each());
    narrowing_of("narrowing, 256 unlike, two cover", two_of_256_cover());
    for rows in [1, 63, 1023] {
        submission(rows);
    }
    submissions_that_remove();
    upgrade(64);
}

/// Reading of a descriptor with so many grants.
fn reading(grants: usize) {
    let bytes = rooms(grants).bytes();
    let (library, ordinary) = race(
        || cap::numbers::descriptor_read(black_box(&bytes)).answer,
        || reference::descriptor_read(black_box(&bytes)).answer,
    );
    let speed = |seconds: f64| format!("{:.0} MB/s", bytes.len() as f64 / seconds / 1e6);
    let case = format!("reading, {} bytes", bytes.len());
    line(
        &case,
        &speed(library),
        &speed(ordinary),
        &ratio(library, ordinary),
    );
}

/// Checks of images of 64 and 1,024 rows, and how many times as long the larger one takes.
fn checks() {
    let few = check(64);
    let many = check(1024);
    line(
        "check, rows 1024 to 64",
        &format!("{} times", ratio(many.0, few.0)),
        &format!("{} times", ratio(many.1, few.1)),
        "",
    );
}

/// A check of an image of so many rows, with a lookup of the last, and its times.
fn check(rows: u64) -> (f64, f64) {
    let models: Vec<Model> = (0..rows).map(|number| rooms(1).numbered(number)).collect();
    let held = image(&models.iter().map(Row::of).collect::<Vec<_>>());
    let id = &models[models.len() - 1].id;
    race_and_print(
        &format!("check, rows {rows}"),
        || cap::numbers::image_find(black_box(&held), black_box(id)).answer,
        || reference::image_find(black_box(&held), black_box(id)).answer,
    )
}

/// A request for the last of so many rows, with a revocation list of so many other ids.
fn request(rows: u64, revoked: u64) {
    let models: Vec<Model> = (0..rows).map(|number| rooms(1).numbered(number)).collect();
    let others = (rows..rows + revoked).map(|number| revocation(&rooms(1).numbered(number).id, 0));
    let list = others.collect::<Vec<_>>().concat();
    let case = format!("request, rows {rows}, revoked {revoked}");
    race_requests(&case, &models, "lab/room-000/camera/front", &list, &[]);
}

/// Requests for the last of 64 rows: without a lease table, and with its lease among 64 or 1,024, whose other ids are random, in
/// ascending order of ids and in a random one.
fn requests_with_leases() {
    let models: Vec<Model> = (0..64).map(|number| rooms(1).numbered(number)).collect();
    let mut random = Random::new(1);
    for (count, ascending) in [
        (0, true),
        (64, true),
        (64, false),
        (1024, true),
        (1024, false),
    ] {
        let mut leases: Vec<LeaseRow> = (0..count)
            .map(|at| match at {
                0 => models[63].id.to_vec(),
                _ => [random.number(), random.number()]
                    .map(u64::to_be_bytes)
                    .concat(),
            })
            .map(|id| LeaseRow::synced(&id, 2_450_000))
            .collect();
        if ascending {
            leases.sort_by(|one, other| one.id.cmp(&other.id));
        } else {
            (1..count).for_each(|at| leases.swap(at, random.below(at + 1)));
        }
        let order = if ascending { "" } else { ", random" };
        let case = format!("request, rows 64, leases {count}{order}");
        race_requests(
            &case,
            &models,
            "lab/room-000/camera/front",
            &[],
            &lease_table(&leases),
        );
    }
}

/// Requests for a row of 256 grants: where the first alone serves, where the last alone does, and where all do, the most exact
/// first and the most exact last.
fn requests_of_256() {
    let ask = |case: &str, model, levels: &str| race_requests(case, &[model], levels, &[], &[]);
    let path = |room: &str| format!("lab/room-{room}/camera/front");
    ask("request, 256, the first serves", rooms(256), &path("000"));
    ask("request, 256, the last serves", rooms(256), &path("255"));
    let serving = |n| format!("{}{}", start(n), levels("n", 14));
    let (falling, rising) = ((0..256).map(serving), (0..256).rev().map(serving));
    let names = levels("n", 22);
    ask("request, 256 serve, exact first", readers(falling), &names);
    ask("request, 256 serve, exact last", readers(rising), &names);
}

/// A request for the last of the descriptors, which are the rows of an image. The first raises the moment of its row, the others
/// leave it.
fn race_requests(case: &str, models: &[Model], levels: &str, revoked: &[u8], leases: &[u8]) {
    let mut held = image(&models.iter().map(Row::of).collect::<Vec<_>>());
    let mut other = held.clone();
    let resource = format!("{TERMINAL}/{levels}");
    let asked = Request {
        id: &models[models.len() - 1].id,
        fay: FAY.as_bytes(),
        terminal: TERMINAL.as_bytes(),
        resource: resource.as_bytes(),
        now_ms: 2_500_000,
        session_length: 100,
        revoked,
        leases,
        ..Request::default()
    };
    race_and_print(
        case,
        || ask(black_box(&mut held), black_box(&asked)).answer,
        || reference::request(black_box(&mut other), black_box(&asked)).answer,
    );
}

/// Matches of 10, 100 and 105 equal levels of one letter, the most that fit, and how many times as long as ten the longer ones take.
fn matching() {
    let ten = matching_equal(10);
    for levels in [100, 105] {
        let (library, ordinary) = matching_equal(levels);
        line(
            &format!("matching, levels {levels} to 10"),
            &format!("{} times", ratio(library, ten.0)),
            &format!("{} times", ratio(ordinary, ten.1)),
            "",
        );
    }
    matching_malformed();
}

/// A match of so many equal levels of one letter, and its times.
fn matching_equal(levels: usize) -> (f64, f64) {
    let text = format!("{TERMINAL}/{}", vec!["n"; levels].join("/"));
    let (pattern, path) = (text.as_bytes(), text.as_bytes().to_vec());
    race_and_print(
        &format!("matching, levels {levels}"),
        || 1 - cap::numbers::matching(black_box(pattern), black_box(&path)).yes,
        || 1 - reference::matching(black_box(pattern), black_box(&path)).yes,
    )
}

/// A pattern of 256 bytes that is malformed at its first level.
fn matching_malformed() {
    let path = format!("{TERMINAL}/{}", "n".repeat(210));
    let pattern = format!("{TERMINAL}/*{}", "n".repeat(209));
    let (pattern, path) = (pattern.as_bytes(), path.as_bytes());
    race_and_print(
        "matching, malformed at the beginning",
        || 15 - cap::numbers::matching(black_box(pattern), black_box(path)).answer,
        || 15 - reference::matching(black_box(pattern), black_box(path)).answer,
    );
}

/// Narrowing of a child under a parent.
fn narrowing_of(case: &str, (parent, child): (Model, Model)) {
    narrowing(case, &parent.bytes(), &child.bytes());
}

/// Narrowing of a child that the parent covers.
fn narrowing(case: &str, parent: &[u8], child: &[u8]) {
    race_and_print(
        case,
        || cap::numbers::narrow(black_box(parent), black_box(child)).answer,
        || reference::narrow(black_box(parent), black_box(child)).answer,
    );
}

/// Submission of one more body to so many rows.
fn submission(rows: u64) {
    let held: Vec<Row> = (0..rows)
        .map(|number| Row::of(&rooms(1).numbered(number)))
        .collect();
    let body = rooms(1).numbered(rows).bytes();
    let before = [image(&held), vec![0; NEW_ROW + body.len()]].concat();
    race_submissions(&format!("submission, rows {rows}"), &before, &body, 2000);
}

/// Submissions to 1,024 rows that are expired and were last used in a random order: a body for which one row has to go, and one for
/// which many have to.
fn submissions_that_remove() {
    let mut random = Random::new(1);
    let mut held: Vec<Row> = (0..1024)
        .map(|number| Row::used(&rooms(1).numbered(number), number))
        .collect();
    (1..held.len()).for_each(|at| held.swap(at, random.below(at + 1)));
    let before = image(&held);
    for grants in [1, 256] {
        let mut model = rooms(grants).numbered(1024);
        (model.not_before, model.not_after) = (3000, 4000);
        let body = model.bytes();
        let mut after = before.clone();
        let with = Submission {
            now: 3000,
            ..Submission::default()
        };
        reference::submit(&mut after, &body, &with);
        let removed = 1025 - u16::from_be_bytes([after[4], after[5]]);
        let case = format!("submission, rows 1024, removed {removed}");
        race_submissions(&case, &before, &body, 3000);
    }
}

/// A submission of a body to a buffer.
fn race_submissions(case: &str, before: &[u8], body: &[u8], now: u64) {
    let mut copy = before.to_vec();
    let mut other = before.to_vec();
    let with = Submission {
        now,
        ..Submission::default()
    };
    race_and_print(
        case,
        || {
            copy.copy_from_slice(before);
            let (now, from, until) = (Seconds(now), Seconds(0), Seconds(0));
            let image = black_box(&mut copy);
            cap::numbers::submit(image, black_box(body), now, 0, from, 0, until)
        },
        || {
            other.copy_from_slice(before);
            reference::submit(black_box(&mut other), black_box(body), black_box(&with))
        },
    );
}

/// Upgrade of an image of so many rows.
fn upgrade(rows: u64) {
    let held: Vec<Row> = (0..rows)
        .map(|number| Row::of(&rooms(1).numbered(number)))
        .collect();
    let old = image_of(1, &held);
    let before = vec![0; image(&held).len()];
    let mut copy = before.clone();
    let mut other = before.clone();
    race_and_print(
        &format!("upgrade, rows {rows}"),
        || {
            copy.copy_from_slice(&before);
            cap::numbers::image_upgrade(black_box(&old), black_box(&mut copy)).answer
        },
        || {
            other.copy_from_slice(&before);
            reference::image_upgrade(black_box(&old), black_box(&mut other)).answer
        },
    );
}

/// A descriptor with a grant for the cameras of each of so many rooms.
fn rooms(count: usize) -> Model {
    Model::with(
        (0..count)
            .map(|room| grant(&["read"], &format!("lab/room-{room:03}/camera/*")))
            .collect(),
    )
}

/// The grants of 256 rooms in an order in which neighbours are far apart.
fn other_order() -> Model {
    Model::with(
        (0..256)
            .map(|room| grant(&["read"], &format!("lab/room-{:03}/camera/*", apart(room))))
            .collect(),
    )
}

/// A number below 256 for each, far from that of its neighbour.
fn apart(number: usize) -> usize {
    (number * 101 + 57) % 256
}

/// Eight levels that match eight names "n", other ones for each number below 256.
fn start(number: usize) -> String {
    (0..8).map(|bit| ["n/", "*/"][number >> bit & 1]).collect()
}

/// So many levels of the same text.
fn levels(text: &str, count: usize) -> String {
    vec![text; count].join("/")
}

/// A descriptor that grants reading by each of the patterns.
fn readers(patterns: impl Iterator<Item = String>) -> Model {
    Model::with(patterns.map(|levels| grant(&["read"], &levels)).collect())
}

/// A parent and a child of 256 grants: the parent's match the child's up to the last level, where only the last of them does, for each of the child's.
fn one_covers_all() -> (Model, Model) {
    let (stars, names) = (levels("*", 14), levels("n", 22));
    let last = |number: usize| match number {
        255 => "*".to_string(),
        _ => format!("{number:03}"),
    };
    (
        readers((0..256).map(|n| format!("{}{stars}/{}", start(n), last(n)))),
        readers((0..256).map(|n| format!("{names}/x{n:02x}"))),
    )
}

/// A parent and a child of 256 long grants, each of the child's covered by one of the parent's, in another order.
fn long_other_order() -> (Model, Model) {
    let (stars, names) = (levels("*", 14), levels("n", 22));
    (
        readers((0..256).map(|n| format!("{}{stars}/x{n:02x}", start(n)))),
        readers((0..256).map(|n| format!("{names}/x{:02x}", apart(n)))),
    )
}

/// A parent of 256 long grants and a child of 128, each of the child's covered by two of the parent's together and by none alone.
fn two_cover_each() -> (Model, Model) {
    let (stars, names) = (levels("*", 10), levels("n", 18));
    let tail = |number: usize| ["*", "*/**"][number % 2];
    (
        readers((0..256).map(|n| format!("{}{stars}/x{:02x}/{}", start(n), n / 2, tail(n)))),
        readers((0..128).map(|n| format!("{names}/x{n:02x}/**"))),
    )
}

/// A parent of 256 long grants that all match each of the child's: 255 equal ones to read and one to write. The child's are to read and to write.
fn equal_mode_each() -> (Model, Model) {
    let stars = levels("*", 22);
    mode_each((0..255).map(|_| stars.clone()))
}

/// The same, with another pattern for each grant to read.
fn unlike_mode_each() -> (Model, Model) {
    let stars = levels("*", 14);
    mode_each((0..255).map(|n| format!("{}{stars}", start(n))))
}

/// The same, but only the last to read matches a child's grant: the others differ from it in the last level.
fn two_of_256_cover() -> (Model, Model) {
    let stars = levels("*", 13);
    let unlike = (0..254).map(|n| format!("{}{stars}/x", start(n)));
    mode_each(unlike.chain([levels("*", 22)]))
}

/// A parent that grants reading by each of the patterns and writing by one, and a child of 240 grants to do both.
fn mode_each(patterns: impl Iterator<Item = String>) -> (Model, Model) {
    let reading = patterns.map(|levels| grant(&["read"], &levels));
    let writing = grant(&["write"], &levels("*", 22));
    let both = grant(&["read", "write"], &levels("n", 22));
    (
        Model::with(reading.chain([writing]).collect()),
        Model::with(vec![both; 240]),
    )
}
