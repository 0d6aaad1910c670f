//! The rule on ids and the steps of a submission, written once more, so that each slip with ids can be made. Without a slip they are
//! as the ordinary ones.

use cap::part;
use reference::{Request, Submission};

use super::encoder::Row;
use super::gate::{Gate, Ordinary};
use super::id_slips::IdSlip::{self, *};
use super::uuid::{text_of, uuid_of, Id, Uuid, IDS};
use super::wrong_image::{body_of, edition_and_rows, store};

/// A slip or none.
#[derive(Clone, Copy)]
struct With(Option<IdSlip>);

/// The UUID texts of a descriptor's ids, in the order of the ids.
type Texts = [String; 3];

/// Reads a descriptor.
pub fn descriptor_read(slip: Option<IdSlip>, bytes: &[u8]) -> Vec<u64> {
    let read = Ordinary.descriptor_read(bytes);
    if With(slip).is(OldNotRead) && is_old(bytes) {
        return refused(1, &read);
    }
    read
}

/// Reads a grant.
pub fn grant_at(slip: Option<IdSlip>, bytes: &[u8], index: u64) -> Vec<u64> {
    let grant = Ordinary.grant_at(bytes, index);
    if With(slip).is(OldWithoutGrants) && is_old(bytes) {
        return refused(0, &grant);
    }
    grant
}

/// Matches.
pub fn matching(slip: Option<IdSlip>, pattern: &[u8], resource: &[u8]) -> Vec<u64> {
    let answer = Ordinary.matching(pattern, resource);
    let old = |text: &[u8]| is_old_text(Id::Terminal, &text[..45]);
    if With(slip).is(OldNotMatched) && answer[0] == 0 && (old(pattern) || old(resource)) {
        return refused(15, &answer);
    }
    answer
}

/// Looks for a body.
pub fn image_find(slip: Option<IdSlip>, image: &[u8], id: &[u8]) -> Vec<u64> {
    let found = Ordinary.image_find(image, id);
    match slip {
        Some(OldNotLookedUp) if found[0] != 15 && is_old_descriptor_id(id) => refused(15, &found),
        Some(OldImageNotLookedUp) if found[0] != 15 && holds_old(image) => refused(16, &found),
        _ => found,
    }
}

/// Upgrades an image.
pub fn image_upgrade(slip: Option<IdSlip>, old: &[u8], image: &mut [u8]) -> Vec<u64> {
    if With(slip).is(OldNotUpgraded) && holds_old(old) {
        return vec![16, 0];
    }
    Ordinary.image_upgrade(old, image)
}

/// Requests.
pub fn request(slip: Option<IdSlip>, image: &mut [u8], with: &Request) -> Vec<u64> {
    let mut after = image.to_vec();
    let decision = Ordinary.request(&mut after, with);
    if decision[0] == 15 {
        return decision;
    }
    let answer = match slip {
        Some(OldDescriptorNotAsked) if is_old_descriptor_id(with.id) => 15,
        Some(OldFayNotAsked) if is_old_text(Id::Fay, with.fay) => 15,
        Some(OldTerminalNotAsked) if is_old_text(Id::Terminal, with.terminal) => 15,
        Some(OldImageNotAsked) if holds_old(image) => 16,
        Some(OldBodyNotAsked) if is_old(body_of(image, with.id)) => 7,
        _ => {
            image.copy_from_slice(&after);
            return decision;
        }
    };
    refused(answer, &decision)
}

/// Narrows.
pub fn narrow(slip: Option<IdSlip>, parent: &[u8], child: &[u8]) -> Vec<u64> {
    let narrowing = Ordinary.narrow(parent, child);
    match slip {
        Some(OldNotParent) if is_old(parent) => refused(21, &narrowing),
        Some(OldNotChild) if narrowing[0] != 21 && is_old(child) => refused(1, &narrowing),
        _ => narrowing,
    }
}

/// Submits.
pub fn submit(
    slip: Option<IdSlip>,
    image: &mut [u8],
    descriptor: &[u8],
    with: &Submission,
) -> Vec<u64> {
    let steps = With(slip).steps(image, descriptor, with);
    let first = steps.into_iter().find(|step| step.0);
    vec![first.map_or_else(|| store(image, descriptor, with.now), |step| step.1)]
}

/// A refusal with as many numbers as an answer has.
fn refused(answer: u64, numbers: &[u64]) -> Vec<u64> {
    let mut refused = vec![0; numbers.len()];
    refused[0] = answer;
    refused
}

/// Whether a descriptor is formed and a submission doesn't take its ids.
fn is_old(descriptor: &[u8]) -> bool {
    texts_of(descriptor).is_some_and(|texts| !With(None).takes_all(&texts))
}

/// Whether a sound image holds such a descriptor.
fn holds_old(image: &[u8]) -> bool {
    rows_of(image).iter().any(|row| is_old(&row.body))
}

/// Whether a submission doesn't take a descriptor id.
fn is_old_descriptor_id(id: &[u8]) -> bool {
    let uuid = id.try_into().expect("16 bytes");
    !With(None).takes(Id::Descriptor, &text_of(uuid))
}

/// Whether a submission doesn't take a fay id or a terminal id.
fn is_old_text(id: Id, text: &[u8]) -> bool {
    !With(None).takes(id, &uuid_text(text))
}

/// The UUID text that a fay id or a terminal id ends with.
fn uuid_text(text: &[u8]) -> String {
    let (_, uuid) = text.split_at(text.len() - 36);
    String::from_utf8(uuid.to_vec()).expect("a text")
}

/// The rows of a sound image, or none.
fn rows_of(image: &[u8]) -> Vec<Row> {
    edition_and_rows(image).map_or(Vec::new(), |(_, rows)| rows)
}

/// The keys of the three ids with the heads after them, in the order in which the ids stand one after another.
const KEYS: [&[u8]; 3] = [
    b"\x6bterminal_id\x78\x2d",
    b"\x6ddescriptor_id\x50",
    b"\x6esubject_fay_id\x78\x28",
];

/// The texts of a descriptor that reads, but perhaps for the length of its period.
fn texts_of(descriptor: &[u8]) -> Option<Texts> {
    if reference::descriptor_read(descriptor).answer == 1 {
        return None;
    }
    let [terminal_id, descriptor_id, fay_id] = KEYS;
    let mut places = descriptor.windows(terminal_id.len());
    let at = places.rposition(|window| window == terminal_id)?;
    let (terminal, rest) = descriptor[at + terminal_id.len()..].split_at(45);
    let (id, rest) = rest[descriptor_id.len()..].split_at(16);
    let fay = &rest[fay_id.len()..][..40];
    let id = text_of(id.try_into().expect("16 bytes"));
    Some([id, uuid_text(fay), uuid_text(terminal)])
}

/// Whether a name of a grant's pattern has an upper-case letter.
fn has_upper_case_name(descriptor: &[u8]) -> bool {
    let mut places = 0..reference::descriptor_read(descriptor).grants;
    places.any(|place| {
        let grant = reference::grant_at(descriptor, place);
        let pattern = part(descriptor, grant.pattern_at, grant.pattern_len);
        pattern[45..].iter().any(u8::is_ascii_uppercase)
    })
}

/// Whether the clock is outside the key's window.
fn is_closed(with: &Submission) -> bool {
    with.now < with.valid_from || with.has_valid_until != 0 && with.now > with.valid_until
}

impl With {
    /// Whether the slip is this one.
    fn is(self, slip: IdSlip) -> bool {
        self.0 == Some(slip)
    }

    /// The steps before those of the table of contents: whether each refuses, and its answer.
    fn steps(self, image: &[u8], descriptor: &[u8], with: &Submission) -> [(bool, u64); 9] {
        let read = reference::descriptor_read(descriptor);
        let latest = with.now.saturating_add(86_400);
        let mut steps = [
            (with.verdict > 2, 15),
            (!self.takes_image(image), 16),
            (read.answer == 1, 1),
            (self.refuses_ids(image, descriptor, with), 1),
            (read.answer == 2, 2),
            (read.not_before > latest, 2),
            (with.verdict == 2, 3),
            (is_closed(with), 14),
            (with.verdict == 1, 4),
        ];
        match self.0 {
            Some(BeforeVerdict) => steps[..4].rotate_right(1),
            Some(BeforeImage) => steps[1..4].rotate_right(1),
            Some(AfterPeriod) => steps.swap(3, 4),
            Some(AfterBeginning) => steps[3..6].rotate_right(1),
            Some(AnsweredMalformed) => steps[3].1 = 15,
            _ => {}
        }
        steps
    }

    /// Whether an image may be submitted to.
    fn takes_image(self, image: &[u8]) -> bool {
        let edition = edition_and_rows(image).map(|(edition, _)| edition);
        edition == Some(2) && !(self.is(OldImageNotSubmittedTo) && holds_old(image))
    }

    /// Whether a submission is refused for its ids.
    fn refuses_ids(self, image: &[u8], descriptor: &[u8], with: &Submission) -> bool {
        let Some(texts) = texts_of(descriptor) else {
            return false;
        };
        let same = || rows_of(image).iter().any(|row| row.body == descriptor);
        let id_held = || !body_of(image, &uuid_of(&texts[0])).is_empty();
        let is_full = || store(&mut image.to_vec(), descriptor, with.now) == 6;
        let not_looked_at = match self.0 {
            Some(NoKeyTaken) => with.verdict == 2,
            Some(ClosedKeyTaken) => is_closed(with),
            Some(BadSignatureTaken) => with.verdict == 1,
            Some(HeldBytesTaken) => same(),
            Some(HeldIdTaken) => id_held() && !same(),
            Some(NoRoomTaken) => edition_and_rows(image).is_some() && is_full(),
            _ => false,
        };
        let names_refused = self.is(NamesRefused) && has_upper_case_name(descriptor);
        names_refused || !not_looked_at && !self.takes_all(&texts)
    }

    /// Whether the ids of a descriptor are taken.
    fn takes_all(self, texts: &Texts) -> bool {
        let takes = |id: Id| self.takes(id, &texts[id as usize]);
        match self.0 {
            Some(DescriptorNotRead) => takes(Id::Fay) && takes(Id::Terminal),
            Some(FayNotRead) => takes(Id::Descriptor) && takes(Id::Terminal),
            Some(TerminalNotRead) => takes(Id::Descriptor) && takes(Id::Fay),
            Some(DescriptorAlone) => takes(Id::Descriptor),
            Some(FayAlone) => takes(Id::Fay),
            Some(TerminalAlone) => takes(Id::Terminal),
            Some(OneEnough) => IDS.into_iter().any(takes),
            _ => IDS.into_iter().all(takes),
        }
    }

    /// Whether an id is taken.
    fn takes(self, id: Id, text: &str) -> bool {
        let uuid = uuid_of(text);
        self.takes_version(uuid) && self.takes_variant(uuid) && self.takes_case(id, text)
    }

    /// Whether the version of an id is taken.
    fn takes_version(self, uuid: Uuid) -> bool {
        let version = match self.0 {
            Some(VersionOfOctet7) => uuid[7] >> 4,
            Some(VersionOfLowerHalf) => uuid[6] & 0x0f,
            _ => uuid[6] >> 4,
        };
        match self.0 {
            Some(VersionNotRead) => true,
            Some(Version4Taken) => version == 4 || version == 7,
            Some(LaterVersionsTaken) => version >= 7,
            Some(EarlierVersionsTaken) => version <= 7,
            Some(VersionOfThreeBits) => version & 7 == 7,
            _ => version == 7,
        }
    }

    /// Whether the variant of an id is taken.
    fn takes_variant(self, uuid: Uuid) -> bool {
        match self.0 {
            Some(VariantNotRead) => true,
            Some(VariantOfFirstBit) => uuid[8] >> 7 == 1,
            Some(VariantOfSecondBit) => uuid[8] >> 6 & 1 == 0,
            Some(VariantOfThreeBits) => uuid[8] >> 5 == 0b100,
            Some(VariantOfOctet9) => uuid[9] >> 6 == 0b10,
            Some(VariantOfLowerHalf) => uuid[8] >> 2 & 3 == 0b10,
            Some(VariantReversed) => uuid[8] >> 6 == 0b01,
            _ => uuid[8] >> 6 == 0b10,
        }
    }

    /// Whether the case of the digits of an id is taken.
    fn takes_case(self, id: Id, text: &str) -> bool {
        let looked_at = match (self.0, id) {
            (Some(UpperCaseTaken), _) => "",
            (Some(UpperCaseOfFayTaken), Id::Fay) => "",
            (Some(UpperCaseOfTerminalTaken), Id::Terminal) => "",
            (Some(FirstDigitTaken), _) => &text[1..],
            (Some(LastDigitTaken), _) => &text[..35],
            (Some(LastGroupTaken), _) => &text[..24],
            (Some(AllUpperCaseTaken), _) if text == text.to_uppercase() => "",
            _ => text,
        };
        looked_at == looked_at.to_lowercase()
    }
}
