//! Compares the proved library with the ordinary implementation on many inputs: answers, all numbers, and whole buffers.
//!
//! A run can be repeated: CAP_SEED is the seed of all random inputs and CAP_ROUNDS how many of them there are.
//! `cargo test --release -- --nocapture` shows how often each answer was given.

#[path = "support/ask.rs"]
mod ask;
#[path = "support/bodies.rs"]
mod bodies;
mod cases;
#[path = "support/compare.rs"]
mod compare;
#[path = "support/encoder.rs"]
mod encoder;
#[path = "support/gate.rs"]
mod gate;
#[path = "support/id_slips.rs"]
mod id_slips;
#[path = "support/image_slips.rs"]
mod image_slips;
#[path = "support/lease_row.rs"]
mod lease_row;
#[path = "support/lease_slips.rs"]
mod lease_slips;
#[path = "support/random.rs"]
mod random;
#[path = "support/slip_list.rs"]
mod slip_list;
#[path = "support/slips.rs"]
mod slips;
#[path = "support/uuid.rs"]
mod uuid;
#[path = "support/wrong_ids.rs"]
mod wrong_ids;
#[path = "support/wrong_image.rs"]
mod wrong_image;

use compare::Compare;
use gate::{Library, Ordinary, Tuned};
use id_slips::ID_SLIPS;
use image_slips::{ImageSlip, IMAGE_SLIPS};
use lease_slips::LEASE_SLIPS;
use random::Random;
use slips::{Slip, Wrong, SLIPS};

/// The cases of a subject.
type Cases = fn(&mut Compare, &mut Random, usize);

/// A number from the environment, or else the usual one.
fn setting(name: &str, usual: u64) -> u64 {
    match std::env::var(name) {
        Ok(text) => text
            .parse()
            .unwrap_or_else(|_| panic!("{name} is no number")),
        Err(_) => usual,
    }
}

/// Runs a subject over the library and the ordinary implementation, and asks that the answers were given that must occur.
fn agree(subject: &str, cases: Cases, call: &'static str, answers: &[u64]) -> Compare<'static> {
    let compare = Compare::new(&Library, &Ordinary);
    agree_in(compare, subject, cases, call, answers)
}

/// Runs a subject over the library and the implementation of requests that is written for speed.
fn agree_when_tuned(subject: &str, cases: Cases, answers: &[u64]) {
    let compare = Compare::new(&Library, &Tuned);
    agree_in(compare, subject, cases, "request", answers);
}

/// Runs a subject over two implementations, and asks that the answers were given that must occur.
fn agree_in<'a>(
    mut compare: Compare<'a>,
    subject: &str,
    cases: Cases,
    call: &'static str,
    answers: &[u64],
) -> Compare<'a> {
    let (seed, rounds) = (setting("CAP_SEED", 1), setting("CAP_ROUNDS", 2000));
    println!("{subject}: CAP_SEED={seed} CAP_ROUNDS={rounds}");
    cases(&mut compare, &mut Random::new(seed), rounds as usize);
    println!("{subject}: {}", compare.summary());
    assert_eq!(compare.differences(), 0, "{}", compare.notes());
    for &answer in answers {
        assert!(
            compare.count(call, answer) > 0,
            "{call} never answered {answer}"
        );
    }
    compare
}

#[test]
fn items() {
    agree("items", cases::items::run, "item_read", &[0, 1]);
}

#[test]
fn descriptors() {
    agree(
        "descriptors",
        cases::descriptors::run,
        "descriptor_read",
        &[0, 1, 2],
    );
}

#[test]
fn paths() {
    let compare = agree("paths", cases::paths::run, "matching", &[0, 15]);
    assert_eq!(*compare.names(), (0..=105).collect());
}

#[test]
fn images() {
    agree("images", cases::images::run, "image_find", &[0, 7, 15, 16]);
}

#[test]
fn submissions() {
    let answers = [0, 1, 2, 3, 4, 5, 6, 14, 15, 16];
    agree("submissions", cases::submissions::run, "submit", &answers);
}

#[test]
fn ids() {
    let answers = [0, 1, 2, 3, 4, 5, 6, 14, 15, 16];
    let compare = agree("ids", cases::ids::run, "submit", &answers);
    let others = ["descriptor_read", "image_find", "image_upgrade", "request"];
    for call in others.into_iter().chain(["narrow", "matching"]) {
        assert!(compare.count(call, 0) > 0, "{call} never answered 0");
    }
}

#[test]
fn removals() {
    let compare = agree("removals", cases::removals::run, "submit", &[0, 5, 6]);
    assert!(compare.count("request", 0) > 0);
}

#[test]
fn capacity() {
    agree("capacity", cases::capacity::run, "submit", &[0, 5, 6, 16]);
}

#[test]
fn upgrades() {
    agree(
        "upgrades",
        cases::upgrades::run,
        "image_upgrade",
        &[0, 16, 17],
    );
}

#[test]
fn requests() {
    let answers = [0, 4, 7, 8, 9, 10, 11, 12, 13, 14, 15, 16, 23, 24, 25, 26];
    agree("requests", cases::requests::run, "request", &answers);
}

#[test]
fn leases() {
    let answers = [0, 4, 9, 10, 15, 23, 24, 25, 26];
    agree("leases", cases::leases::run, "request", &answers);
}

#[test]
fn moments() {
    let answers = [0, 4, 7, 8, 9, 10, 11, 12, 13, 14, 15, 16, 23, 24, 25, 26];
    agree("moments", cases::moments::run, "request", &answers);
}

#[test]
fn named_grants() {
    agree("named grants", cases::named::run, "request", &[0, 13]);
}

#[test]
fn narrowing() {
    agree(
        "narrowing",
        cases::narrowing::run,
        "narrow",
        &[0, 1, 2, 18, 19, 20, 21],
    );
}

#[test]
fn changed_bytes() {
    agree("changed bytes", cases::bytes::run, "request", &[0, 13, 16]);
}

#[test]
fn tuned_requests() {
    let answers = [0, 4, 7, 8, 9, 10, 11, 12, 13, 14, 15, 16, 23, 24, 25, 26];
    agree_when_tuned("tuned requests", cases::requests::run, &answers);
    agree_when_tuned("tuned moments", cases::moments::run, &answers);
    let answers = [0, 4, 9, 10, 15, 23, 24, 25, 26];
    agree_when_tuned("tuned leases", cases::leases::run, &answers);
    agree_when_tuned("tuned named grants", cases::named::run, &[0, 13]);
}

#[test]
fn tuned_images() {
    agree_when_tuned("tuned changed bytes", cases::bytes::run, &[0, 13, 16]);
    agree_when_tuned("tuned images", cases::images::run, &[0, 16]);
    agree_when_tuned("tuned capacity", cases::capacity::run, &[0]);
    agree_when_tuned("tuned ids", cases::ids::run, &[0]);
    agree_when_tuned("tuned upgrades", cases::upgrades::run, &[0]);
    agree_when_tuned("tuned removals", cases::removals::run, &[0]);
}

#[test]
fn tuned_bodies() {
    let compare = Compare::new(&Library, &Tuned).as_bodies();
    let cases = cases::descriptors::run;
    agree_in(compare, "tuned bodies", cases, "request", &[0, 10, 13, 16]);
}

/// The cases that must show a slip.
fn cases_for(slip: Slip) -> Cases {
    match slip {
        Slip::EmptyStringAtZero | Slip::LongerHeadRead => cases::items::run,
        Slip::PeriodOneShort | Slip::LastGrantRepeated => cases::descriptors::run,
        Slip::MatchingByPrefix | Slip::StarCounted | Slip::DeepCounted => cases::paths::run,
        Slip::TerminalCounted | Slip::NamesOfNo => cases::paths::run,
        Slip::NewImageCleared | Slip::EditionNotRead => cases::images::run,
        Slip::DuplicateAccepted | Slip::TailCleared | Slip::AheadWraps => cases::submissions::run,
        Slip::KeyNeverEnds | Slip::SessionNotCut | Slip::SessionWraps => cases::requests::run,
        Slip::RevokedIgnored | Slip::RevokedAtOnce | Slip::RevokedLate => cases::requests::run,
        Slip::RevokedByFirstRow | Slip::RevokedMomentReversed => cases::requests::run,
        Slip::ExpiryLate => cases::requests::run,
        Slip::FirstNamed | Slip::LastOfTieNamed | Slip::StarPreferred => cases::named::run,
        Slip::OtherModeNamed | Slip::ConstrainedNamed | Slip::MaskOfFirst => cases::named::run,
        Slip::HighestMode | Slip::LevelsAlwaysOne => cases::narrowing::run,
        Slip::Lease(_) => cases::leases::run,
        Slip::Image(slip) => slip.map_or(cases::images::run, cases_for_images),
        Slip::Id(_) => cases::ids::run,
    }
}

/// The cases that must show a slip with images.
fn cases_for_images(slip: ImageSlip) -> Cases {
    use ImageSlip::*;
    match slip {
        NewOfEdition1 | LimitOfEdition1 | LimitOfEdition2 | CountOfOneByte => cases::images::run,
        MomentsZero | MomentsBounded | OldNotFound => cases::images::run,
        LimitOneLess | LimitOneMore | DuplicatesOfFirst64 => cases::capacity::run,
        OffsetsReadShort | OffsetsWrittenShort | RemovedForRoomOnly => cases::capacity::run,
        OldSubmittedTo | OldRepeatTaken | OldAfterReading => cases::submissions::run,
        MomentLowered | MomentLeft | MomentInMilliseconds => cases::moments::run,
        MomentRoundedUp | MomentOfSession | MomentOfRefusal => cases::moments::run,
        MomentBeforeLease | MomentOfFirstRow | MomentOfAllRows => cases::moments::run,
        OldMomentWritten | OldNotAsked => cases::moments::run,
        UpgradeOfEdition2 | UpgradeShortFirst | UpgradeRoomOneMore => cases::upgrades::run,
        UpgradeStarted | UpgradeAtOne | UpgradeOffsetsKept => cases::upgrades::run,
        UpgradeTailCleared | UpgradeTailCopied => cases::upgrades::run,
        UpgradeLenOfBuffer | UpgradeLenOfOld => cases::upgrades::run,
        _ => cases::removals::run,
    }
}

#[test]
fn slips_are_noticed() {
    let leases = LEASE_SLIPS.iter().map(|&slip| Slip::Lease(Some(slip)));
    let images = IMAGE_SLIPS.iter().map(|&slip| Slip::Image(Some(slip)));
    let ids = ID_SLIPS.iter().map(|&slip| Slip::Id(Some(slip)));
    let groups = leases.chain(images).chain(ids);
    for slip in SLIPS.into_iter().chain(groups) {
        let wrong = Wrong(slip);
        let mut compare = Compare::new(&Library, &wrong);
        cases_for(slip)(&mut compare, &mut Random::new(setting("CAP_SEED", 1)), 50);
        println!("{slip:?}: {} differences", compare.differences());
        assert!(compare.differences() > 0, "{slip:?} was not noticed");
    }
}

/// Asks that an implementation whose slip is none agrees with the ordinary one, so that each slip is noticed for itself.
fn agree_without_a_slip(none: Slip, cases: &[Cases]) {
    let right = Wrong(none);
    let mut compare = Compare::new(&Ordinary, &right);
    for cases in cases {
        cases(&mut compare, &mut Random::new(setting("CAP_SEED", 1)), 50);
    }
    assert_eq!(compare.differences(), 0, "{}", compare.notes());
}

#[test]
fn lease_steps_without_a_slip_agree() {
    agree_without_a_slip(
        Slip::Lease(None),
        &[cases::leases::run, cases::requests::run],
    );
}

#[test]
fn calls_with_images_without_a_slip_agree() {
    agree_without_a_slip(
        Slip::Image(None),
        &[
            cases::images::run,
            cases::submissions::run,
            cases::removals::run,
            cases::capacity::run,
            cases::upgrades::run,
            cases::requests::run,
            cases::moments::run,
            cases::ids::run,
        ],
    );
}

#[test]
fn calls_with_ids_without_a_slip_agree() {
    agree_without_a_slip(
        Slip::Id(None),
        &[
            cases::ids::run,
            cases::submissions::run,
            cases::removals::run,
            cases::images::run,
            cases::upgrades::run,
            cases::requests::run,
            cases::narrowing::run,
            cases::paths::run,
        ],
    );
}
