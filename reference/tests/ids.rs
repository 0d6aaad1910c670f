//! The ids of a submitted descriptor: which UUIDs are taken, what is answered before them and after, and that stored bodies and all
//! other calls keep the old rule.

use descriptor::{model, Model, Rule};
use image::{image_with, Row};
use reference::{
    descriptor_read, image_find, image_upgrade, matching, narrow, request, submit, Request,
    Submission,
};

#[allow(dead_code)]
#[path = "support/descriptor.rs"]
mod descriptor;
#[path = "support/image.rs"]
mod image;

/// The example of version 7 in RFC 9562, Appendix A.6.
const V7: &str = "017f22e2-79b0-7cc3-98c4-dc0c0c07398f";
/// A UUID text of version 7 with a letter wherever one can stand.
const LETTERS: &str = "abcdefab-cdef-7abc-abcd-efabcdefabcd";
/// The place of the version's digit in a UUID text.
const VERSION_AT: usize = 14;
/// The place of the digit that has the variant in its two higher bits.
const VARIANT_AT: usize = 19;
/// The number of the three ids: the descriptor's, the fay's and the terminal's.
const IDS: usize = 3;
/// The place of the descriptor id, which is no text, among the three.
const DESCRIPTOR: usize = 0;
/// The longest period, in seconds.
const LONGEST_PERIOD: u64 = 7_776_000;
/// How far ahead a period may begin, in seconds.
const LONGEST_WAIT: u64 = 86_400;

/// A descriptor that grants reading of one resource, with the UUIDs of its three ids.
fn with_ids([id, fay, terminal]: [&str; IDS]) -> Model {
    let terminal = format!("terminal:{terminal}");
    let rule = Rule {
        pattern: format!("{terminal}/Room/*"),
        mask: 1,
        constraints: None,
    };
    Model {
        id: octets(id),
        fay: format!("fay:{fay}"),
        terminal,
        ..model(&[rule])
    }
}

/// A descriptor of which one id has a UUID and the others are of version 7.
fn with_id(which: usize, uuid: &str) -> Model {
    let mut ids = [V7; IDS];
    ids[which] = uuid;
    with_ids(ids)
}

/// The octets that a UUID text spells.
fn octets(uuid: &str) -> [u8; 16] {
    let digits = uuid.replace('-', "");
    u128::from_str_radix(&digits, 16)
        .expect("hexadecimal digits")
        .to_be_bytes()
}

/// The text with another digit at a place.
fn with_digit(uuid: &str, at: usize, digit: u32) -> String {
    let digit = char::from_digit(digit, 16).expect("a digit");
    let mut text = uuid.to_string();
    text.replace_range(at..=at, &digit.to_string());
    text
}

/// A submission at 2 seconds with a good signature.
fn good() -> Submission {
    Submission {
        now: 2,
        ..Submission::default()
    }
}

/// What a submission to an image is answered; only one that is stored changes a byte.
fn answer_on(image: &[u8], model: &Model, with: &Submission) -> u64 {
    let mut after = image.to_vec();
    let answer = submit(&mut after, &model.bytes(), with);
    if answer != 0 {
        assert!(after == image, "{model:?}");
    }
    answer
}

/// What a submission to a new image with room is answered.
fn answer(model: &Model) -> u64 {
    answer_on(&new_image(), model, &good())
}

/// An image of no bodies, with room for one.
fn new_image() -> Vec<u8> {
    [image_with(2, &[]), vec![0; 1000]].concat()
}

/// The row of a descriptor, last used at 0.
fn row(model: &Model) -> Row {
    Row {
        id: model.id,
        body: model.bytes(),
        last_used: 0,
    }
}

#[test]
fn each_version_and_each_variant() {
    for which in 0..IDS {
        for version in 0..16 {
            for digit in 0..16 {
                let uuid = with_digit(V7, VERSION_AT, version);
                let model = with_id(which, &with_digit(&uuid, VARIANT_AT, digit));
                let taken = version == 7 && digit >> 2 == 0b10;
                assert_eq!(answer(&model), if taken { 0 } else { 1 }, "{model:?}");
                assert_eq!(descriptor_read(&model.bytes()).answer, 0);
            }
        }
    }
}

#[test]
fn an_upper_case_digit_at_each_place() {
    for which in 0..IDS {
        assert_eq!(answer(&with_id(which, LETTERS)), 0);
        for uuid in upper_cases() {
            let model = with_id(which, &uuid);
            let expected = if which == DESCRIPTOR { 0 } else { 1 };
            assert_eq!(answer(&model), expected, "{model:?}");
            assert_eq!(descriptor_read(&model.bytes()).answer, 0);
        }
    }
}

/// The texts of letters with one of them in upper case, and with all.
fn upper_cases() -> Vec<String> {
    let letters = LETTERS.match_indices(char::is_alphabetic);
    let mut all: Vec<String> = letters
        .map(|(at, letter)| {
            let mut text = LETTERS.to_string();
            text.replace_range(at..=at, &letter.to_uppercase());
            text
        })
        .collect();
    assert_eq!(all.len(), 31);
    all.push(LETTERS.to_uppercase());
    all
}

/// The examples of RFC 9562: Appendix A.1 to A.6, B.1, and the nil and the max UUID of sections 5.9 and 5.10.
#[test]
fn published_examples() {
    for (uuid, expected) in [
        ("c232ab00-9414-11ec-b3c8-9f6bdeced846", 1),
        ("5df41881-3aed-3515-88a7-2f4a814cf09e", 1),
        ("919108f7-52d1-4320-9bac-f847db4148a8", 1),
        ("2ed6657d-e927-568b-95e1-2665a8aea6a2", 1),
        ("1ec9414c-232a-6b00-b3c8-9f6bdeced846", 1),
        ("017f22e2-79b0-7cc3-98c4-dc0c0c07398f", 0),
        ("2489e9ad-2ee2-8e00-8ec9-32d5f69181c0", 1),
        ("00000000-0000-0000-0000-000000000000", 1),
        ("ffffffff-ffff-ffff-ffff-ffffffffffff", 1),
    ] {
        for which in 0..IDS {
            assert_eq!(answer(&with_id(which, uuid)), expected, "{uuid}");
        }
        assert_eq!(answer(&with_ids([uuid; IDS])), expected, "{uuid}");
    }
}

/// The buffer, the descriptor and the numbers of a submission.
struct Submitted {
    image: Vec<u8>,
    model: Model,
    with: Submission,
}

/// A change by which a step refuses.
type Change = fn(&mut Submitted);

/// The other steps with their answers, of which 15 and 16 come before the ids; 0 is that of bytes that are held.
const STEPS: [(Change, u64); 12] = [
    (|s| s.with.verdict = 3, 15),
    (|s| s.image.truncate(7), 16),
    (|s| s.image[1] = 1, 16),
    (|s| s.model.not_after = 2 + LONGEST_PERIOD + 1, 2),
    (
        |s| (s.model.not_before, s.model.not_after) = (2 + LONGEST_WAIT + 1, 2 + LONGEST_WAIT + 2),
        2,
    ),
    (|s| s.with.verdict = 2, 3),
    (|s| s.with.valid_from = 3, 14),
    (
        |s| (s.with.has_valid_until, s.with.valid_until) = (1, 1),
        14,
    ),
    (|s| s.with.verdict = 1, 4),
    (|s| s.image = holding(&other_bytes(&s.model)), 5),
    (|s| s.image.truncate(8), 6),
    (|s| s.image = holding(&s.model), 0),
];

/// A descriptor of the same id with another period.
fn other_bytes(model: &Model) -> Model {
    Model {
        not_after: model.not_after + 1,
        ..model.clone()
    }
}

/// An image of edition 2 that holds a descriptor, with room for another.
fn holding(model: &Model) -> Vec<u8> {
    [image_with(2, &[row(model)]), vec![0; 1000]].concat()
}

#[test]
fn the_ids_come_after_16_and_before_2() {
    for (change, expected) in STEPS {
        for which in 0..IDS {
            let answered = |uuid: &str| {
                let mut submitted = Submitted {
                    image: new_image(),
                    model: with_id(which, uuid),
                    with: good(),
                };
                change(&mut submitted);
                answer_on(&submitted.image, &submitted.model, &submitted.with)
            };
            assert_eq!(answered(V7), expected);
            let before = matches!(expected, 15 | 16);
            for uuid in not_taken(which) {
                let first = if before { expected } else { 1 };
                assert_eq!(answered(&uuid), first, "{uuid} beside {expected}");
            }
        }
    }
}

/// UUIDs that aren't taken for an id: of version 4, of another variant, and, where it is a text, with upper-case digits.
fn not_taken(which: usize) -> Vec<String> {
    let mut uuids = vec![
        with_digit(V7, VERSION_AT, 4),
        with_digit(V7, VARIANT_AT, 12),
    ];
    if which != DESCRIPTOR {
        uuids.push(V7.to_uppercase());
    }
    uuids
}

#[test]
fn a_body_that_does_not_read_is_refused_as_before() {
    let mut image = new_image();
    let body = with_ids([V7; IDS]).bytes();
    for length in 0..body.len() {
        assert_eq!(submit(&mut image, &body[..length], &good()), 1);
    }
    assert!(image == new_image());
    assert_eq!(submit(&mut image, &body, &good()), 0);
}

/// Descriptors of ids that aren't taken: of version 4, with an upper-case digit, and with another variant.
fn old_models() -> [Model; 3] {
    let version_4 = "919108f7-52d1-4320-9bac-f847db4148a8";
    let variant_3 = with_digit(V7, VARIANT_AT, 12);
    [
        with_ids([version_4; IDS]),
        with_ids([V7, &LETTERS.to_uppercase(), &V7.to_uppercase()]),
        with_ids([&variant_3; IDS]),
    ]
}

/// A request to read that the descriptor grants.
fn reading<'a>(model: &'a Model, resource: &'a str) -> Request<'a> {
    Request {
        id: &model.id,
        fay: model.fay.as_bytes(),
        terminal: model.terminal.as_bytes(),
        resource: resource.as_bytes(),
        now_ms: 3000,
        ..Request::default()
    }
}

#[test]
fn stored_bodies_of_other_ids_are_found_and_granted() {
    let models = old_models();
    for edition in [1, 2] {
        let image = image_with(edition, &models.each_ref().map(row));
        for model in &models {
            let found = image_find(&image, &model.id);
            assert_eq!(found.answer, 0);
            let body = &image[found.body_at as usize..][..found.body_len as usize];
            assert!(body == model.bytes());
            let resource = format!("{}/Room/a", model.terminal);
            let mut after = image.clone();
            assert_eq!(request(&mut after, &reading(model, &resource)).answer, 0);
            assert_eq!(after == image, edition == 1);
        }
    }
}

#[test]
fn stored_bodies_of_other_ids_are_upgraded() {
    let rows = old_models().each_ref().map(row);
    let (old, new) = (image_with(1, &rows), image_with(2, &rows));
    let mut bytes = vec![0; new.len()];
    assert_eq!(image_upgrade(&old, &mut bytes).answer, 0);
    assert!(bytes == new);
}

#[test]
fn stored_bodies_of_other_ids_are_not_taken_again() {
    let models = old_models();
    let held = image_with(2, &models.each_ref().map(row));
    for room in [0, 1000] {
        let image = [&held[..], &vec![0; room]].concat();
        for model in &models {
            assert_eq!(answer_on(&image, model, &good()), 1);
            assert_eq!(answer_on(&image, &other_bytes(model), &good()), 1);
        }
    }
}

#[test]
fn a_descriptor_is_stored_beside_bodies_of_other_ids() {
    let mut rows = old_models().each_ref().map(row).to_vec();
    let new = with_ids([LETTERS; IDS]);
    let mut bytes = image_with(2, &rows);
    bytes.resize(bytes.len() + 40 + new.bytes().len(), 0);
    assert_eq!(submit(&mut bytes, &new.bytes(), &good()), 0);
    rows.push(Row {
        last_used: 2,
        ..row(&new)
    });
    assert!(bytes == image_with(2, &rows));
}

#[test]
fn narrowing_and_matching_keep_the_old_rule() {
    for model in old_models() {
        let body = model.bytes();
        assert_eq!(narrow(&body, &body).answer, 0);
        let resource = format!("{}/Room/a", model.terminal);
        let pattern = model.rules[0].pattern.as_bytes();
        let matched = matching(pattern, resource.as_bytes());
        assert_eq!((matched.answer, matched.yes), (0, 1));
    }
}
