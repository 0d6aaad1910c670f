//! UUIDs, and the three ids of a descriptor, which have one each.

use super::encoder::Model;
use super::random::Random;

/// The octets of a UUID.
pub type Uuid = [u8; 16];

/// One of the ids of a descriptor.
#[derive(Clone, Copy, Debug, PartialEq, Eq)]
pub enum Id {
    Descriptor,
    Fay,
    Terminal,
}

/// All three ids.
pub const IDS: [Id; 3] = [Id::Descriptor, Id::Fay, Id::Terminal];

impl Id {
    /// Gives a descriptor the UUID of a text for this id: the text itself, or its octets.
    pub fn put(self, model: &mut Model, text: &str) {
        match self {
            Id::Descriptor => model.id = uuid_of(text).to_vec(),
            Id::Fay => model.fay = format!("fay:{text}"),
            Id::Terminal => model.move_to(&format!("terminal:{text}")),
        }
    }
}

/// The UUID of a text, whose digits are of either case.
pub fn uuid_of(text: &str) -> Uuid {
    let bits = u128::from_str_radix(&text.replace('-', ""), 16);
    bits.expect("hexadecimal digits").to_be_bytes()
}

/// The text of a UUID in lower-case digits.
pub fn text_of(uuid: Uuid) -> String {
    let digits = format!("{:032x}", u128::from_be_bytes(uuid));
    let groups = [0..8, 8..12, 12..16, 16..20, 20..32];
    groups.map(|group| &digits[group]).join("-")
}

/// The same UUID with another version, which is below 16.
pub fn with_version(mut uuid: Uuid, version: u8) -> Uuid {
    uuid[6] = version << 4 | uuid[6] & 0x0f;
    uuid
}

/// The same UUID with another variant, which is below 4.
pub fn with_variant(mut uuid: Uuid, variant: u8) -> Uuid {
    uuid[8] = variant << 6 | uuid[8] & 0x3f;
    uuid
}

/// Any UUID.
pub fn any_uuid(random: &mut Random) -> Uuid {
    std::array::from_fn(|_| random.number() as u8)
}

/// Any UUID of version 7.
pub fn any_version_7(random: &mut Random) -> Uuid {
    with_variant(with_version(any_uuid(random), 7), 0b10)
}

/// Gives a descriptor three ids of version 7.
pub fn put_version_7(model: &mut Model, random: &mut Random) {
    for id in IDS {
        id.put(model, &text_of(any_version_7(random)));
    }
}

/// Gives a descriptor any three ids, in digits of either case.
pub fn put_any(model: &mut Model, random: &mut Random) {
    for id in IDS {
        id.put(model, &in_either_case(&text_of(any_uuid(random)), random));
    }
}

/// The text with about half of its letters in upper case.
fn in_either_case(text: &str, random: &mut Random) -> String {
    let either = |letter: char| {
        if random.once_in(2) {
            letter.to_ascii_uppercase()
        } else {
            letter
        }
    };
    text.chars().map(either).collect()
}
