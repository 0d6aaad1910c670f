//! An encoder of CBOR, descriptors and images that shares nothing with the two readers under test.

/// A value to be encoded; the pairs of a map are written in the order in which they stand.
#[derive(Clone, Debug)]
pub enum Value {
    Unsigned(u64),
    Bytes(Vec<u8>),
    Text(Vec<u8>),
    Array(Vec<Value>),
    Map(Vec<(Value, Value)>),
    /// Bytes as they stand.
    Raw(Vec<u8>),
}

impl Value {
    /// A text.
    pub fn text(text: &str) -> Value {
        Value::Text(text.as_bytes().to_vec())
    }

    /// A map with its keys in the bytewise order of their encodings.
    pub fn sorted(mut pairs: Vec<(Value, Value)>) -> Value {
        pairs.sort_by_key(|(key, _)| key.encode());
        Value::Map(pairs)
    }

    /// The bytes.
    pub fn encode(&self) -> Vec<u8> {
        let mut out = Vec::new();
        self.write(&mut out);
        out
    }

    fn write(&self, out: &mut Vec<u8>) {
        if let Some((major, number)) = self.head() {
            out.extend(head(major, number));
        }
        self.write_content(out);
    }

    /// The major type and the number of the head, if there is one.
    pub fn head(&self) -> Option<(u8, u64)> {
        match self {
            Value::Unsigned(number) => Some((0, *number)),
            Value::Bytes(content) => Some((2, content.len() as u64)),
            Value::Text(content) => Some((3, content.len() as u64)),
            Value::Array(items) => Some((4, items.len() as u64)),
            Value::Map(pairs) => Some((5, pairs.len() as u64)),
            Value::Raw(_) => None,
        }
    }

    /// Writes what follows the head.
    pub fn write_content(&self, out: &mut Vec<u8>) {
        match self {
            Value::Unsigned(_) => {}
            Value::Bytes(content) | Value::Text(content) | Value::Raw(content) => {
                out.extend(content)
            }
            Value::Array(items) => items.iter().for_each(|item| item.write(out)),
            Value::Map(pairs) => pairs.iter().for_each(|(key, value)| {
                key.write(out);
                value.write(out);
            }),
        }
    }
}

/// The shortest head.
pub fn head(major: u8, number: u64) -> Vec<u8> {
    let width = match number {
        0..24 => return vec![major << 5 | number as u8],
        24..0x100 => 0,
        0x100..0x1_0000 => 1,
        0x1_0000..0x1_0000_0000 => 2,
        _ => 3,
    };
    wide_head(major, number, width)
}

/// A head with 1, 2, 4 or 8 bytes of number for the widths 0 to 3.
pub fn wide_head(major: u8, number: u64, width: usize) -> Vec<u8> {
    let mut out = vec![major << 5 | (24 + width as u8)];
    out.extend(&number.to_be_bytes()[8 - (1 << width)..]);
    out
}

/// The terminal id of most descriptors here.
pub const TERMINAL: &str = "terminal:00000000-0000-7000-8000-000000000001";
/// Another terminal id, in which a digit is an upper-case one.
pub const OTHER_TERMINAL: &str = "terminal:00000000-0000-7000-8000-00000000000A";
/// The fay id of most descriptors here.
pub const FAY: &str = "fay:01927b34-7e21-7c4d-a89f-1234567890ab";
/// The id of most descriptors here, which like their other two is of version 7.
pub const ID: [u8; 16] = [0, 1, 2, 3, 4, 5, 0x76, 7, 0x88, 9, 10, 11, 12, 13, 14, 15];
/// The names of the modes by their numbers.
pub const MODES: [&str; 4] = ["read", "write", "execute", "configure"];

/// Pairs of metadata or constraints.
pub type Pairs = Vec<(String, String)>;

/// A grant.
#[derive(Clone, Debug)]
pub struct Grant {
    pub modes: Vec<&'static str>,
    pub pattern: String,
    pub constraints: Option<Pairs>,
}

/// A descriptor.
#[derive(Clone, Debug)]
pub struct Model {
    pub grants: Vec<Grant>,
    pub metadata: Option<Pairs>,
    pub issued_at: u64,
    pub issuer: String,
    pub not_after: u64,
    pub grantor: Option<String>,
    pub not_before: u64,
    pub terminal: String,
    pub id: Vec<u8>,
    pub fay: String,
    pub key_id: String,
    pub algorithm: String,
    pub signature: Vec<u8>,
}

/// A grant of modes for levels under the usual terminal.
pub fn grant(modes: &[&'static str], levels: &str) -> Grant {
    Grant {
        modes: modes.to_vec(),
        pattern: format!("{TERMINAL}/{levels}"),
        constraints: None,
    }
}

/// The modes of a mask.
pub fn modes_of(mask: usize) -> Vec<&'static str> {
    (0..4)
        .filter(|mode| mask >> mode & 1 == 1)
        .map(|mode| MODES[mode])
        .collect()
}

impl Model {
    /// A descriptor of the shortest kind with these grants, valid from 2,000 to 3,000.
    pub fn with(grants: Vec<Grant>) -> Model {
        Model {
            grants,
            metadata: None,
            issued_at: 1000,
            issuer: "uni".into(),
            not_after: 3000,
            grantor: None,
            not_before: 2000,
            terminal: TERMINAL.into(),
            id: ID.to_vec(),
            fay: FAY.into(),
            key_id: "k1".into(),
            algorithm: "ed25519".into(),
            signature: vec![7; 64],
        }
    }

    /// The shortest descriptor.
    pub fn plain() -> Model {
        Model::with(vec![grant(&["read"], "a/*")])
    }

    /// A descriptor with every optional key.
    pub fn full() -> Model {
        let pairs = |n: usize| {
            (0..n)
                .map(|i| (format!("k{i:02}"), "ü".repeat(i)))
                .collect()
        };
        let mut model = Model::with(vec![
            grant(&["write", "read"], "a/*/b"),
            Grant {
                constraints: Some(pairs(3)),
                ..grant(&["configure"], "**")
            },
            Grant {
                constraints: Some(Vec::new()),
                ..grant(&MODES, "lab.1/_/-")
            },
        ]);
        model.metadata = Some(pairs(4));
        model.grantor = Some("prof".into());
        model.algorithm = "ecdsa-p256-sha256".into();
        model
    }

    /// The descriptor as a value.
    pub fn value(&self) -> Value {
        let (text, key) = (Value::text, Value::text);
        let mut payload = vec![
            (
                key("grants"),
                Value::Array(self.grants.iter().map(Grant::value).collect()),
            ),
            (key("issued_at"), Value::Unsigned(self.issued_at)),
            (key("issuer_id"), text(&self.issuer)),
            (key("not_after"), Value::Unsigned(self.not_after)),
            (key("not_before"), Value::Unsigned(self.not_before)),
            (key("terminal_id"), text(&self.terminal)),
            (key("descriptor_id"), Value::Bytes(self.id.clone())),
            (key("subject_fay_id"), text(&self.fay)),
        ];
        payload.extend(
            self.metadata
                .iter()
                .map(|pairs| (key("metadata"), pairs_value(pairs))),
        );
        payload.extend(
            self.grantor
                .iter()
                .map(|grantor| (key("grantor_id"), text(grantor))),
        );
        let signature = vec![
            (key("key_id"), text(&self.key_id)),
            (key("algorithm"), text(&self.algorithm)),
            (key("signature_value"), Value::Bytes(self.signature.clone())),
        ];
        Value::sorted(vec![
            (key("payload"), Value::sorted(payload)),
            (key("version"), Value::Unsigned(1)),
            (key("signature"), Value::sorted(signature)),
        ])
    }

    /// The bytes of the descriptor.
    pub fn bytes(&self) -> Vec<u8> {
        self.value().encode()
    }

    /// The same descriptor under an id of its own, by a number below 2^62.
    pub fn numbered(self, number: u64) -> Model {
        self.of_version(7, number)
    }

    /// The same descriptor under an id of its own, which is of version 4 where the number is odd.
    pub fn numbered_by_turns(self, number: u64) -> Model {
        self.of_version([7, 4][number as usize % 2], number)
    }

    /// The same descriptor under an id of its own, a UUID of a version.
    pub fn of_version(mut self, version: u64, number: u64) -> Model {
        self.id = [0x0102_0304_0506_0708 | version << 12, 1 << 63 | number]
            .map(u64::to_be_bytes)
            .concat();
        self
    }

    /// Puts a descriptor under another terminal.
    pub fn move_to(&mut self, terminal: &str) {
        for grant in &mut self.grants {
            grant.pattern = grant.pattern.replace(&self.terminal, terminal);
        }
        self.terminal = terminal.into();
    }

    /// The union of the masks of the grants.
    pub fn mask(&self) -> u8 {
        let has = |mode| {
            self.grants
                .iter()
                .any(|grant| grant.modes.contains(&MODES[mode]))
        };
        (0..4).map(|mode| u8::from(has(mode)) << mode).sum()
    }
}

impl Grant {
    fn value(&self) -> Value {
        let modes = self.modes.iter().map(|mode| Value::text(mode)).collect();
        let mut pairs = vec![
            (Value::text("modes"), Value::Array(modes)),
            (Value::text("resource_pattern"), Value::text(&self.pattern)),
        ];
        let constraints = self.constraints.iter();
        pairs.extend(constraints.map(|pairs| (Value::text("constraints"), pairs_value(pairs))));
        Value::sorted(pairs)
    }
}

fn pairs_value(pairs: &Pairs) -> Value {
    Value::sorted(
        pairs
            .iter()
            .map(|(key, value)| (Value::text(key), Value::text(value)))
            .collect(),
    )
}

/// A row of the revocation list.
pub fn revocation(id: &[u8], moment: u64) -> Vec<u8> {
    [id, &moment.to_be_bytes()].concat()
}

/// A row of an image to be written.
#[derive(Clone, Debug)]
pub struct Row {
    pub id: Vec<u8>,
    pub mask: u8,
    pub body: Vec<u8>,
    /// The moment at which it was last used, which a row of edition 1 doesn't have.
    pub last_used: u64,
}

impl Row {
    /// The row of a descriptor, last used at 0.
    pub fn of(model: &Model) -> Row {
        Row::used(model, 0)
    }

    /// The row of a descriptor that was last used at a moment.
    pub fn used(model: &Model, last_used: u64) -> Row {
        Row {
            id: model.id.clone(),
            mask: model.mask(),
            body: model.bytes(),
            last_used,
        }
    }
}

/// The length of a row of edition 1, and in edition 2 the place of a row's moment.
pub const OLD_ROW: usize = 32;
/// The length of a row of edition 2.
pub const NEW_ROW: usize = 40;

/// The length of a row of an edition.
pub fn row_length(edition: u16) -> usize {
    if edition == 1 {
        OLD_ROW
    } else {
        NEW_ROW
    }
}

/// The image of edition 2 with the rows.
pub fn image(rows: &[Row]) -> Vec<u8> {
    image_of(2, rows)
}

/// The image of an edition with the rows.
pub fn image_of(edition: u16, rows: &[Row]) -> Vec<u8> {
    let header = [edition, 1, rows.len() as u16, 0];
    let mut out = header.map(u16::to_be_bytes).concat();
    let mut at = 8 + row_length(edition) * rows.len();
    for row in rows {
        out.extend(&row.id);
        out.extend((at as u32).to_be_bytes());
        out.extend((row.body.len() as u32).to_be_bytes());
        out.extend([row.mask, 0, 0, 0, 0, 0, 0, 0]);
        if edition != 1 {
            out.extend(row.last_used.to_be_bytes());
        }
        at += row.body.len();
    }
    rows.iter().for_each(|row| out.extend(&row.body));
    out
}
