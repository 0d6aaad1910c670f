//! Runs the stored vectors, which were made by an independent implementation in Python (`tests/` at the top of the project).
//! `tests/records.py` there has their format.

use std::fmt::Write;
use std::path::Path;

use reference::{
    descriptor_read, grant_at, image_find, image_new, image_upgrade, item_read, matching, narrow,
    request, submit, Request, Submission,
};

/// A file of the stored vectors of a crate.
fn stored(name: &str, file: &str) -> Vec<u8> {
    let path = Path::new("../crates").join(name).join(file);
    std::fs::read(&path).unwrap_or_else(|error| panic!("{}: {error}", path.display()))
}

/// Compares what was written with what is stored, line by line.
fn assert_lines(name: &str, written: &str) {
    let expected = String::from_utf8(stored(name, "stdout")).expect("text");
    for (line, expected) in written.lines().zip(expected.lines()) {
        assert_eq!(line, expected);
    }
    assert_eq!(written, expected);
}

/// A record: a name, numbers of which the first says which call is made, and six byte strings.
struct Record {
    name: String,
    numbers: Vec<u64>,
    strings: [Vec<u8>; 6],
}

/// The part that the bytes begin with, 4 bytes of length and so many bytes, cut off from them.
fn part(bytes: &mut &[u8]) -> Vec<u8> {
    let (length, rest) = bytes.split_at(4);
    let length = u32::from_be_bytes(length.try_into().expect("4 bytes"));
    let (part, rest) = rest.split_at(length as usize);
    *bytes = rest;
    part.to_vec()
}

fn record(bytes: &mut &[u8]) -> Record {
    Record {
        name: String::from_utf8(part(bytes)).expect("text"),
        numbers: part(bytes)
            .chunks(8)
            .map(|n| u64::from_be_bytes(n.try_into().expect("8 bytes")))
            .collect(),
        strings: std::array::from_fn(|_| part(bytes)),
    }
}

#[test]
fn cap_vectors() {
    let input = stored("cap_vectors", "stdin");
    let mut rest = &input[..];
    let mut out = String::new();
    let mut gate = Gate {
        store: Vec::new(),
        lent: 0,
    };
    while !rest.is_empty() {
        let record = record(&mut rest);
        writeln!(out, "{}{}", record.name, gate.call(&record)).unwrap();
    }
    assert_lines("cap_vectors", &out);
}

/// An answer, then the line with a number for each '#' in it; or, where all numbers are 0, that they are.
fn answered(answer: u64, line: &str, numbers: &[u64]) -> String {
    if numbers.iter().all(|&n| n == 0) {
        return format!(": {answer}, all else 0");
    }
    let mut out = format!(": {answer}");
    let mut numbers = numbers.iter();
    for (i, text) in line.split('#').enumerate() {
        if i > 0 {
            write!(out, "{}", numbers.next().expect("a number")).unwrap();
        }
        out.push_str(text);
    }
    assert_eq!(numbers.next(), None);
    out
}

/// An item, with its content.
fn item(bytes: &[u8], place: u64) -> String {
    let i = item_read(bytes, place);
    let line = ", kind #, number #, content # at #, next #";
    let numbers = [i.kind, i.number, i.content_len, i.content_at, i.next];
    let mut out = answered(i.answer, line, &numbers);
    if i.content_len > 0 {
        let content = &bytes[i.content_at as usize..][..i.content_len as usize];
        write!(out, ": {}", to_hex(content)).unwrap();
    }
    out
}

fn to_hex(bytes: &[u8]) -> String {
    bytes.iter().map(|byte| format!("{byte:02x}")).collect()
}

/// A descriptor, and its first grants.
fn descriptor(bytes: &[u8], count: u64) -> String {
    let d = descriptor_read(bytes);
    let line = "
    payload # at #, issued_at #, not_before #, not_after #
    id_at #, issuer # at #, grantor # at #, fay_at #, terminal_at #
    grants #, metadata # at #, constraint_pairs #, mask #
    key_id # at #, algorithm #, signature # at #";
    #[rustfmt::skip]
    let numbers = [
        d.payload_len, d.payload_at, d.issued_at, d.not_before, d.not_after,
        d.id_at, d.issuer_len, d.issuer_at, d.grantor_len, d.grantor_at, d.fay_at, d.terminal_at,
        d.grants, d.metadata_pairs, d.metadata_at, d.constraint_pairs, d.mask,
        d.key_id_len, d.key_id_at, d.algorithm, d.signature_len, d.signature_at,
    ];
    let mut out = answered(d.answer, line, &numbers);
    let payload = &bytes[d.payload_at as usize..][..d.payload_len as usize];
    write!(
        out,
        "\n    payload part of {} bytes, sum {}",
        payload.len(),
        sum(payload)
    )
    .unwrap();
    for index in 0..count {
        out.push_str(&grant(bytes, index));
    }
    out
}

fn grant(bytes: &[u8], index: u64) -> String {
    let g = grant_at(bytes, index);
    #[rustfmt::skip]
    let numbers = [g.pattern_len, g.pattern_at, g.mask, g.modes_at, g.constraint_pairs, g.constraints_at];
    let line = ", pattern # at #, mask #, modes_at #, constraints # at #";
    format!("\n    grant {index}{}", answered(g.found, line, &numbers))
}

fn matched(pattern: &[u8], resource: &[u8]) -> String {
    let m = matching(pattern, resource);
    format!(": {}, yes {}, names {}", m.answer, m.yes, m.names)
}

fn narrowed(parent: &[u8], child: &[u8]) -> String {
    let n = narrow(parent, child);
    let numbers = [n.grant, n.mode, n.levels];
    answered(n.answer, ", grant #, mode #, levels #", &numbers)
}

/// A sum over all the bytes, which changes with each of them and with their order.
fn sum(bytes: &[u8]) -> u64 {
    let next = |sum, &byte| sum % 4_294_967_291 * 257 + u64::from(byte);
    bytes.iter().fold(7, next) % 4_294_967_291
}

/// The buffer of which the first bytes are lent as the image; it grows where more are lent.
struct Gate {
    store: Vec<u8>,
    lent: usize,
}

impl Gate {
    /// Makes the call of a record and says what it answers.
    fn call(&mut self, record: &Record) -> String {
        let [a, b, c, d, e, f] = &record.strings;
        match *record.numbers {
            [0] => String::new(),
            [1, place] => item(a, place),
            [2, count] => descriptor(a, count),
            [3, index] => grant(a, index),
            [4] => matched(a, b),
            [5] => narrowed(a, b),
            [6, length] => self.lend(a, length as usize),
            [7] => format!(": {}{}", image_new(self.image()), self.shown()),
            [8] => self.lookup(a),
            [9, now, verdict, valid_from, has_valid_until, valid_until] => self.submitted(
                a,
                &Submission {
                    now,
                    verdict,
                    valid_from,
                    has_valid_until,
                    valid_until,
                },
            ),
            [10, mode, now_ms, session_length, verdict, valid_from, has_valid_until, valid_until] => {
                self.decision(&Request {
                    id: a,
                    fay: b,
                    terminal: c,
                    resource: d,
                    mode,
                    now_ms,
                    session_length,
                    revoked: e,
                    leases: f,
                    verdict,
                    valid_from,
                    has_valid_until,
                    valid_until,
                })
            }
            [11] => self.upgraded(a),
            [12, count, id_at, now, step] => self.filled(a, [count, id_at, now, step]),
            _ => panic!("an unknown record"),
        }
    }

    fn image(&mut self) -> &mut [u8] {
        &mut self.store[..self.lent]
    }

    /// The image begins with these bytes, and so many of it are lent.
    fn lend(&mut self, start: &[u8], length: usize) -> String {
        self.lent = length;
        let longest = self.store.len().max(start.len()).max(length);
        self.store.resize(longest, 0);
        self.store[..start.len()].copy_from_slice(start);
        self.shown()
    }

    fn lookup(&mut self, id: &[u8]) -> String {
        let found = image_find(self.image(), id);
        let numbers = [found.body_len, found.body_at];
        answered(found.answer, ", body # at #", &numbers)
    }

    fn submitted(&mut self, body: &[u8], with: &Submission) -> String {
        format!(": {}{}", submit(self.image(), body, with), self.shown())
    }

    fn decision(&mut self, with: &Request) -> String {
        let d = request(self.image(), with);
        let numbers = [d.grant, d.mask, d.session_end, d.margin.unsigned_abs()];
        let sign = if d.margin < 0 { "-" } else { "" };
        let line = format!(", grant #, mask #, session_end #, margin {sign}#");
        answered(d.answer, &line, &numbers) + &self.shown()
    }

    fn upgraded(&mut self, old: &[u8]) -> String {
        let w = image_upgrade(old, self.image());
        format!(": {}, len {}{}", w.answer, w.len, self.shown())
    }

    /// Submits a descriptor so many times, with the numbers from 1 on as the last four bytes of its id and a clock that goes on by
    /// the step, and says what the last submission answers.
    fn filled(&mut self, template: &[u8], [count, id_at, now, step]: [u64; 4]) -> String {
        let mut body = template.to_vec();
        let mut answer = 0;
        for k in 0..count {
            let number = (k as u32 + 1).to_be_bytes();
            body[id_at as usize + 12..][..4].copy_from_slice(&number);
            let with = Submission {
                now: now + k * step,
                ..Submission::default()
            };
            answer = submit(self.image(), &body, &with);
        }
        format!(": {answer}{}", self.shown())
    }

    /// The length, the number of rows and a sum of the image.
    fn shown(&mut self) -> String {
        let image = self.image();
        let rows = image
            .get(4..6)
            .map_or(0, |n| u16::from_be_bytes([n[0], n[1]]));
        format!("; {} bytes, rows {rows}, sum {}", image.len(), sum(image))
    }
}

#[test]
fn matching_tool() {
    let input = stored("match_tool", "stdin");
    let mut out = String::new();
    for line in input.split_inclusive(|&byte| byte == b'\n') {
        let line = line.strip_suffix(b"\n").unwrap_or(line);
        out.push_str(match answer_line(line) {
            Some(true) => "yes\n",
            Some(false) => "no\n",
            None => "bad\n",
        });
    }
    assert_lines("match_tool", &out);
}

/// The answer to a line of the matching tool, or none for a bad one.
fn answer_line(line: &[u8]) -> Option<bool> {
    let space = line.iter().position(|&byte| byte == b' ')?;
    let m = matching(&line[..space], &line[space + 1..]);
    (line.len() <= 600 && m.answer == 0).then_some(m.yes == 1)
}
