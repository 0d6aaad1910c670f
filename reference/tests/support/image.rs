//! Images of both editions, written from documents 01 and 02, for the tests here.

/// A row: a descriptor that grants reading alone, and the moment at which it was last used, which edition 1 doesn't have.
#[derive(Clone)]
pub struct Row {
    pub id: [u8; 16],
    pub body: Vec<u8>,
    pub last_used: u64,
}

/// The image of an edition with the rows.
pub fn image_with(edition: u16, rows: &[Row]) -> Vec<u8> {
    let row_length = if edition == 1 { 32 } else { 40 };
    let header = [edition, 1, rows.len() as u16, 0];
    let mut out = header.map(u16::to_be_bytes).concat();
    let mut at = 8 + row_length * rows.len();
    for row in rows {
        let length = row.body.len();
        out.extend(row.id);
        out.extend([at as u32, length as u32].map(u32::to_be_bytes).concat());
        out.extend([1, 0, 0, 0, 0, 0, 0, 0]);
        if edition == 2 {
            out.extend(row.last_used.to_be_bytes());
        }
        at += length;
    }
    rows.iter().for_each(|row| out.extend(&row.body));
    out
}
