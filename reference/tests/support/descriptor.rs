//! Descriptors of given grants, and the image that holds one, for the tests here.

use reference::{image_new, submit, Submission};

/// The terminal id of most descriptors here.
pub const T: &str = "terminal:00000000-0000-7000-8000-000000000001";
/// The fay id of most descriptors here.
pub const FAY: &str = "fay:01927b34-7e21-7c4d-a89f-1234567890ab";
/// The descriptor id of most descriptors here.
pub const ID: &[u8; 16] = &0x017f22e2_79b0_7cc3_98c4_dc0c0c07398f_u128.to_be_bytes();
/// The names of the modes by their numbers.
const MODES: [&str; 4] = ["read", "write", "execute", "configure"];

/// A grant: its pattern, the mask of its modes, and how many constraint pairs it has, if it has constraints.
#[derive(Clone, Debug)]
pub struct Rule {
    pub pattern: String,
    pub mask: u64,
    pub constraints: Option<u8>,
}

/// A descriptor: its grants, its ids and its period. All else is the same in each.
#[derive(Clone, Debug)]
pub struct Model {
    pub rules: Vec<Rule>,
    pub id: [u8; 16],
    pub fay: String,
    pub terminal: String,
    pub not_before: u64,
    pub not_after: u64,
}

/// The image of a descriptor with the rules as its grants.
pub fn image_of(rules: &[Rule]) -> Vec<u8> {
    let body = encode(rules);
    let mut image = vec![0; 8 + 40 + body.len()];
    let with = Submission {
        now: 2,
        ..Submission::default()
    };
    assert_eq!(image_new(&mut image), 0);
    assert_eq!(submit(&mut image, &body, &with), 0);
    image
}

/// The bytes of a descriptor with the rules as its grants, valid from 2 to 5 seconds.
pub fn encode(rules: &[Rule]) -> Vec<u8> {
    model(rules).bytes()
}

/// A descriptor with the rules as its grants, valid from 2 to 5 seconds.
pub fn model(rules: &[Rule]) -> Model {
    Model {
        rules: rules.to_vec(),
        id: *ID,
        fay: FAY.into(),
        terminal: T.into(),
        not_before: 2,
        not_after: 5,
    }
}

impl Model {
    /// The bytes.
    pub fn bytes(&self) -> Vec<u8> {
        let mut out = b"\xa3\x67payload\xa8\x66grants".to_vec();
        head(&mut out, 4, self.rules.len() as u64);
        for rule in &self.rules {
            grant(&mut out, rule);
        }
        out.extend(b"\x69issued_at\x01\x69issuer_id\x61i\x69not_after");
        head(&mut out, 0, self.not_after);
        text(&mut out, "not_before");
        head(&mut out, 0, self.not_before);
        text(&mut out, "terminal_id");
        text(&mut out, &self.terminal);
        out.extend(b"\x6ddescriptor_id\x50");
        out.extend(self.id);
        text(&mut out, "subject_fay_id");
        text(&mut out, &self.fay);
        out.extend(b"\x67version\x01\x69signature\xa3\x66key_id\x61k\x69algorithm\x71ecdsa-p256-sha256\x6fsignature_value\x41s");
        out
    }
}

/// Writes a grant.
fn grant(out: &mut Vec<u8>, rule: &Rule) {
    let modes: Vec<&str> = (0..4)
        .filter(|mode| rule.mask >> mode & 1 == 1)
        .map(|mode| MODES[mode])
        .collect();
    out.push(0xa2 + u8::from(rule.constraints.is_some()));
    text(out, "modes");
    out.push(0x80 + modes.len() as u8);
    for mode in modes {
        text(out, mode);
    }
    if let Some(pairs) = rule.constraints {
        text(out, "constraints");
        out.push(0xa0 + pairs);
        (0..pairs).for_each(|_| out.extend(b"\x61k\x61v"));
    }
    text(out, "resource_pattern");
    text(out, &rule.pattern);
}

/// Writes a text.
fn text(out: &mut Vec<u8>, text: &str) {
    head(out, 3, text.len() as u64);
    out.extend(text.as_bytes());
}

/// Writes a head with a major type and a number below 2^32.
fn head(out: &mut Vec<u8>, major: u8, number: u64) {
    let major = major << 5;
    let bytes = number.to_be_bytes();
    match number {
        0..24 => out.push(major + bytes[7]),
        24..0x100 => out.extend([major + 24, bytes[7]]),
        0x100..0x1_0000 => out.extend([&[major + 25], &bytes[6..]].concat()),
        _ => out.extend([&[major + 26], &bytes[4..]].concat()),
    }
}
