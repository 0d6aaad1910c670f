//! Any bytes as a body of an image, and requests for it and for the row before it.

use reference::Request;

use super::compare::Compare;
use super::encoder::{image, Model, Row, FAY, TERMINAL};

/// How many masks there are.
const MASKS: u8 = 16;
/// The key of the descriptor id and the head of its 16 bytes.
const ID_KEY: &[u8] = b"\x6ddescriptor_id\x50";

/// Asks for the bytes as the second body of an image, under each mask, and for the body before them.
pub fn ask_for_body(compare: &mut Compare, body: &[u8]) {
    let first = Model::plain().numbered(1 << 40);
    let id = id_in(body);
    let (fay, terminal) = texts_of(body);
    let resource = [&terminal, &b"/a/b"[..]].concat();
    let asked = Request {
        id: &id,
        fay: &fay,
        terminal: &terminal,
        resource: &resource,
        now_ms: 2_500_000,
        ..Request::default()
    };
    for mask in 0..MASKS {
        let second = Row {
            id: id.clone(),
            mask,
            body: body.to_vec(),
            last_used: 2400,
        };
        let mut bytes = image(&[Row::of(&first), second]);
        compare.request(&mut bytes, &asked);
        let id = &first.id;
        compare.request(&mut bytes, &Request { id, ..asked });
    }
}

/// The descriptor id that the bytes have after its key, or any other.
fn id_in(body: &[u8]) -> Vec<u8> {
    let mut places = body.windows(ID_KEY.len() + 16);
    let found = places.find(|place| place.starts_with(ID_KEY));
    found.map_or(vec![1; 16], |place| place[ID_KEY.len()..].to_vec())
}

/// The fay id and the terminal id of a descriptor, or the usual ones where the bytes are none.
fn texts_of(body: &[u8]) -> (Vec<u8>, Vec<u8>) {
    let numbers = reference::descriptor_read(body);
    if numbers.answer != 0 {
        return (FAY.into(), TERMINAL.into());
    }
    let part = |at: u64, length: usize| body[at as usize..][..length].to_vec();
    let (fay, terminal) = (FAY.len(), TERMINAL.len());
    (
        part(numbers.fay_at, fay),
        part(numbers.terminal_at, terminal),
    )
}
