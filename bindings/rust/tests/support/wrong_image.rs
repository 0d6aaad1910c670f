//! The calls with an image, written once more, so that each slip with images can be made. Without a slip they are as the ordinary
//! ones.

use std::collections::HashSet;

use reference::{Request, Submission};

use super::encoder::{image_of, row_length, Row, NEW_ROW, OLD_ROW};
use super::gate::{Gate, Ordinary};
use super::image_slips::ImageSlip::{self, *};

/// The most bytes of a descriptor.
const LONGEST_BODY: usize = 32_768;

/// The rows of a sound image, and where it ends.
struct Held {
    edition: u16,
    rows: Vec<Row>,
    end: usize,
}

/// A slip or none.
#[derive(Clone, Copy)]
struct With(Option<ImageSlip>);

/// Makes a new image.
pub fn image_new(slip: Option<ImageSlip>, image: &mut [u8]) -> Vec<u64> {
    let answer = Ordinary.image_new(image);
    if answer[0] == 0 && With(slip).is(NewOfEdition1) {
        image[1] = 1;
    }
    answer
}

/// Looks for a body.
pub fn image_find(slip: Option<ImageSlip>, image: &[u8], id: &[u8]) -> Vec<u64> {
    if id.len() != 16 {
        return vec![15, 0, 0];
    }
    let held = With(slip).held(image);
    let Some(held) = held.filter(|held| held.edition == 2 || slip != Some(OldNotFound)) else {
        return vec![16, 0, 0];
    };
    let mut at = 8 + row_length(held.edition) * held.rows.len();
    for row in &held.rows {
        if row.id == id {
            return vec![0, at as u64, row.body.len() as u64];
        }
        at += row.body.len();
    }
    vec![7, 0, 0]
}

/// Upgrades an image.
pub fn image_upgrade(slip: Option<ImageSlip>, old: &[u8], image: &mut [u8]) -> Vec<u64> {
    let slip = With(slip);
    if slip.is(UpgradeShortFirst) && image.len() < 8 {
        return vec![17, 0];
    }
    let held = slip.held(old);
    let Some(held) = held.filter(|held| held.edition == 1 || slip.is(UpgradeOfEdition2)) else {
        return vec![16, 0];
    };
    let mut rows = held.rows;
    let moment = u64::from(slip.is(UpgradeAtOne));
    rows.iter_mut().for_each(|row| row.last_used = moment);
    let mut new = slip.written(2, &rows);
    if slip.is(UpgradeOffsetsKept) {
        move_offsets(&mut new, -8 * rows.len() as i64);
    }
    let len = new.len();
    if image.len() < len + usize::from(slip.is(UpgradeRoomOneMore)) {
        if slip.is(UpgradeStarted) && image.len() >= 8 {
            image[..8].copy_from_slice(&new[..8]);
        }
        return vec![17, 0];
    }
    image[..len].copy_from_slice(&new);
    if slip.is(UpgradeTailCleared) {
        image[len..].fill(0);
    }
    if slip.is(UpgradeTailCopied) {
        let (tail, rest) = (&old[held.end..], &mut image[len..]);
        let both = tail.len().min(rest.len());
        rest[..both].copy_from_slice(&tail[..both]);
    }
    match slip.0 {
        Some(UpgradeLenOfBuffer) => vec![0, image.len() as u64],
        Some(UpgradeLenOfOld) => vec![0, held.end as u64],
        _ => vec![0, len as u64],
    }
}

/// Submits.
pub fn submit(
    slip: Option<ImageSlip>,
    image: &mut [u8],
    descriptor: &[u8],
    with: &Submission,
) -> Vec<u64> {
    let slip = With(slip);
    if with.verdict > 2 {
        return vec![15];
    }
    let Some(held) = slip.held(image) else {
        return vec![16];
    };
    // the steps of the descriptor, with an image that holds nothing and has room
    let mut empty = [image_of(2, &[]), vec![0; NEW_ROW + LONGEST_BODY]].concat();
    let answer = Ordinary.submit(&mut empty, descriptor, with);
    let new = slip.new_row(descriptor, with.now);
    let mut rows = held.rows.iter();
    let repeat = rows.any(|row| row.id == new.id && row.body == new.body);
    let taken = held.edition == 2
        || slip.is(OldSubmittedTo)
        || slip.is(OldRepeatTaken) && repeat && answer[0] == 0;
    let refused = answer[0] != 0;
    let late = slip.is(OldAfterReading) && refused;
    if !taken && !late {
        return vec![16];
    }
    if refused {
        return answer;
    }
    vec![slip.store(image, held, new, with.now)]
}

/// Requests: the decision is that on an image with the one row that is asked for.
pub fn request(slip: Option<ImageSlip>, image: &mut [u8], with: &Request) -> Vec<u64> {
    let slip = With(slip);
    let held = slip.held(image);
    let held = held.filter(|held| held.edition == 2 || !slip.is(OldNotAsked));
    let Some(held) = held else {
        return Ordinary.request(&mut [], with);
    };
    let Some(index) = held.rows.iter().position(|row| row.id == with.id) else {
        return Ordinary.request(&mut image_of(2, &[]), with);
    };
    let asked = &held.rows[index..=index];
    let decision = Ordinary.request(&mut image_of(2, asked), with);
    let touches = match decision[0] {
        0 => !slip.is(MomentLeft),
        15 => false,
        23..=26 => slip.is(MomentOfRefusal) || slip.is(MomentBeforeLease),
        _ => slip.is(MomentOfRefusal),
    };
    if touches {
        slip.touch(image, &held, index, with, decision[3]);
    }
    decision
}

/// The edition and the rows of a sound image.
pub fn edition_and_rows(image: &[u8]) -> Option<(u16, Vec<Row>)> {
    let held = With(None).held(image)?;
    Some((held.edition, held.rows))
}

/// The body that an image holds under an id, or no bytes.
pub fn body_of<'a>(image: &'a [u8], id: &[u8]) -> &'a [u8] {
    let stored = reference::image_find(image, id);
    cap::part(image, stored.body_at, stored.body_len)
}

/// The steps after those of the descriptor, on a sound image: 0, 5 or 6.
pub fn store(image: &mut [u8], descriptor: &[u8], now: u64) -> u64 {
    let with = With(None);
    let held = with.held(image).expect("a sound image");
    with.store(image, held, with.new_row(descriptor, now), now)
}

impl With {
    fn is(self, slip: ImageSlip) -> bool {
        self.0 == Some(slip)
    }

    /// The most rows of an edition.
    fn most_rows(self, edition: u16) -> usize {
        match (self.0, edition) {
            (Some(LimitOneLess), 2) => 1023,
            (Some(LimitOneMore), 2) => 1025,
            (Some(LimitOfEdition1), 2) => 64,
            (Some(LimitOfEdition2), 1) => 1024,
            (_, 1) => 64,
            _ => 1024,
        }
    }

    /// What the bytes hold, if they are a sound image.
    fn held(self, bytes: &[u8]) -> Option<Held> {
        let number = |at: usize| Some(u16::from_be_bytes(*bytes.get(at..)?.first_chunk()?));
        let (edition, mut count) = (number(0)?, usize::from(number(4)?));
        if self.is(CountOfOneByte) {
            count %= 256;
        }
        let known = edition == 1 || edition == 2;
        if !known || number(2)? != 1 || number(6)? != 0 || count > self.most_rows(edition) {
            return None;
        }
        let mut end = 8 + row_length(edition) * count;
        let table = bytes.get(8..end)?;
        let mut rows = Vec::new();
        let mut ids = HashSet::new();
        for row in table.chunks(row_length(edition)) {
            let row = self.row(row, bytes, end)?;
            end += row.body.len();
            let looked_at = rows.len() < 64 || !self.is(DuplicatesOfFirst64);
            if looked_at && !ids.insert(row.id.clone()) {
                return None;
            }
            rows.push(row);
        }
        Some(Held { edition, rows, end })
    }

    /// A row of the table, if it is sound and its body starts at the place.
    fn row(self, written: &[u8], bytes: &[u8], at: usize) -> Option<Row> {
        let number = |place: usize| u32::from_be_bytes(*written[place..].first_chunk().expect("4"));
        let (offset, length) = (number(16) as usize, number(20) as usize);
        let body = bytes[at..].get(..length)?;
        let read = reference::descriptor_read(body);
        let last_used = written[OLD_ROW..]
            .first_chunk()
            .map_or(0, |n| u64::from_be_bytes(*n));
        let placed = offset == at || self.is(OffsetsReadShort) && offset % 65_536 == at % 65_536;
        let moment_taken = match self.0 {
            Some(MomentsZero) => last_used == 0,
            Some(MomentsBounded) => last_used < 1 << 53,
            _ => true,
        };
        let sound = read.answer == 0
            && placed
            && moment_taken
            && written[..16] == *cap::part(body, read.id_at, 16)
            && u64::from(written[24]) == read.mask
            && written[25..OLD_ROW] == [0; 7];
        sound.then(|| Row {
            id: written[..16].to_vec(),
            mask: written[24],
            body: body.to_vec(),
            last_used,
        })
    }

    /// The row of a descriptor that is stored.
    fn new_row(self, descriptor: &[u8], now: u64) -> Row {
        let read = reference::descriptor_read(descriptor);
        Row {
            id: cap::part(descriptor, read.id_at, 16).to_vec(),
            mask: read.mask as u8,
            body: descriptor.to_vec(),
            last_used: match self.0 {
                Some(StoredAtZero) => 0,
                Some(StoredAtBegin) => read.not_before,
                _ => now,
            },
        }
    }

    /// The bytes of an image.
    fn written(self, edition: u16, rows: &[Row]) -> Vec<u8> {
        let mut bytes = image_of(edition, rows);
        if self.is(OffsetsWrittenShort) {
            let table = bytes[8..].chunks_mut(row_length(edition)).take(rows.len());
            table.for_each(|row| row[16..18].fill(0));
        }
        bytes
    }

    /// The steps after those of the descriptor: the answer, and the image that a row is added to.
    fn store(self, image: &mut [u8], held: Held, new: Row, now: u64) -> u64 {
        if let Some(index) = held.rows.iter().position(|row| row.id == new.id) {
            let old = &held.rows[index];
            let expired = self.is_expired(old, now);
            let again = match self.0 {
                Some(ExpiredReplaced) => expired && old.body != new.body,
                Some(ExpiredStoredAnew) => expired && old.body == new.body,
                _ => false,
            };
            if again {
                let mut rows = held.rows;
                rows.remove(index);
                return self.store(image, Held { rows, ..held }, new, now);
            }
            if old.body != new.body {
                return 5;
            }
            if self.is(RepeatTouches) && held.edition == 2 {
                raise(image, index, now);
            }
            return 0;
        }
        let Some(removed) = self.removed(&held, &new, image.len(), now) else {
            if self.is(RefusalRemoves) {
                let kept = held.rows.iter().filter(|row| !self.is_expired(row, now));
                let kept: Vec<Row> = kept.cloned().collect();
                put(image, &image_of(held.edition, &kept));
            }
            return 6;
        };
        self.put_with(image, held, &removed, new);
        0
    }

    /// Writes the image without the removed rows and with the new one.
    fn put_with(self, image: &mut [u8], held: Held, removed: &HashSet<usize>, new: Row) {
        let mut rows = held.rows;
        let moments: Vec<u64> = rows.iter().map(|row| row.last_used).collect();
        let last_used = new.last_used;
        let first_gap = removed.iter().min().copied();
        for &index in sorted(removed).iter().rev() {
            if self.is(LastIntoGap) {
                rows.swap_remove(index);
            } else {
                rows.remove(index);
            }
        }
        if self.is(KeptMomentsCleared) && first_gap.is_some() {
            rows.iter_mut().for_each(|row| row.last_used = 0);
        }
        match first_gap {
            Some(gap) if self.is(NewIntoGap) => rows.insert(gap, new),
            _ => rows.push(new),
        }
        if self.is(MomentsNotClosed) && first_gap.is_some() {
            let with_new = moments.into_iter().take(rows.len() - 1).chain([last_used]);
            (rows.iter_mut().zip(with_new)).for_each(|(row, moment)| row.last_used = moment);
        }
        let mut after = self.written(held.edition, &rows);
        let end = after.len();
        if self.is(OffsetsNotClosed) && first_gap.is_some() {
            move_offsets(
                &mut after,
                (row_length(held.edition) * removed.len()) as i64,
            );
        }
        if self.is(TailMoved) && end < held.end {
            image.copy_within(held.end.., end);
        }
        put(image, &after);
        if self.is(RestCleared) && end < held.end {
            image[end..held.end].fill(0);
        }
    }

    /// Whether a row is expired.
    fn is_expired(self, row: &Row, now: u64) -> bool {
        let read = reference::descriptor_read(&row.body);
        match self.0 {
            Some(ExpiryNotRead) => true,
            Some(ExpiredLate) => now > read.not_after,
            Some(ExpiredEarly) => now >= read.not_after - 1,
            Some(NotYetValidRemoved) => now >= read.not_after || now < read.not_before,
            _ => now >= read.not_after,
        }
    }

    /// The indices of the rows that may be removed, in the order in which they are.
    fn removable(self, held: &Held, now: u64) -> Vec<usize> {
        let rows = &held.rows;
        let (mut expired, mut others): (Vec<usize>, Vec<usize>) =
            (0..rows.len()).partition(|&index| self.is_expired(&rows[index], now));
        expired.sort_by_key(|&index| rows[index].last_used);
        match self.0 {
            Some(MostRecentFirst) => expired.sort_by_key(|&index| u64::MAX - rows[index].last_used),
            Some(LaterOfTie) => expired.sort_by_key(|&n| (rows[n].last_used, usize::MAX - n)),
            Some(InOrderOfRows) => expired.sort(),
            Some(InOrderOfExpiry) => expired
                .sort_by_key(|&index| reference::descriptor_read(&rows[index].body).not_after),
            Some(LongestFirst) => expired.sort_by_key(|&index| usize::MAX - rows[index].body.len()),
            Some(MomentsSigned) => expired.sort_by_key(|&index| rows[index].last_used as i64),
            Some(MomentsOfFourBytes) => expired.sort_by_key(|&n| rows[n].last_used as u32),
            Some(UnexpiredAfter) => {
                others.sort_by_key(|&index| rows[index].last_used);
                expired.extend(others);
            }
            _ => {}
        }
        expired
    }

    /// The rows that are removed so that the new one fits, if that can be.
    fn removed(self, held: &Held, new: &Row, room: usize, now: u64) -> Option<HashSet<usize>> {
        let row = row_length(held.edition);
        let mut count = held.rows.len() + 1;
        let mut size = held.end + row + new.body.len() + usize::from(self.is(RoomOneMore));
        let removable = self.removable(held, now);
        let mut removed = 0;
        let full = count > self.most_rows(held.edition);
        if full && self.is(RemovedForRoomOnly)
            || !full && size > room && self.is(RemovedForRowsOnly)
        {
            return None;
        }
        while count > self.most_rows(held.edition) || size > room {
            let &index = removable.get(removed)?;
            removed += 1;
            count -= 1;
            size -= held.rows[index].body.len();
            if !self.is(RoomOfBodyOnly) {
                size -= row;
            }
        }
        let more = match self.0 {
            Some(OneTooMany) if removed > 0 => 1,
            Some(AllRemoved) if removed > 0 => removable.len(),
            Some(RemovedWithoutNeed) if removed == 0 => removable.len(),
            _ => 0,
        };
        Some(removable.into_iter().take(removed + more).collect())
    }

    /// Changes moments for a request for the row with the index.
    fn touch(self, image: &mut [u8], held: &Held, index: usize, with: &Request, end: u64) {
        let now = match self.0 {
            Some(MomentInMilliseconds) => with.now_ms,
            Some(MomentRoundedUp) => with.now_ms.div_ceil(1000),
            Some(MomentOfSession) => end,
            _ => with.now_ms / 1000,
        };
        if held.edition == 1 {
            if self.is(OldMomentWritten) {
                let after = 8 + OLD_ROW * (index + 1);
                image[after..after + 8].copy_from_slice(&now.to_be_bytes());
            }
            return;
        }
        match self.0 {
            Some(MomentLowered) => {
                let at = 8 + NEW_ROW * index + OLD_ROW;
                image[at..at + 8].copy_from_slice(&now.to_be_bytes());
            }
            Some(MomentOfFirstRow) => raise(image, 0, now),
            Some(MomentOfAllRows) => (0..held.rows.len()).for_each(|row| raise(image, row, now)),
            _ => raise(image, index, now),
        }
    }
}

/// The indices in ascending order.
fn sorted(indices: &HashSet<usize>) -> Vec<usize> {
    let mut all: Vec<usize> = indices.iter().copied().collect();
    all.sort();
    all
}

/// Writes bytes to the start of others.
fn put(image: &mut [u8], start: &[u8]) {
    image[..start.len()].copy_from_slice(start);
}

/// Raises the moment of a row of edition 2 to now.
fn raise(image: &mut [u8], index: usize, now: u64) {
    let at = 8 + NEW_ROW * index + OLD_ROW;
    let moment: &mut [u8; 8] = image[at..].first_chunk_mut().expect("8 bytes");
    *moment = u64::from_be_bytes(*moment).max(now).to_be_bytes();
}

/// Adds a number to each offset of an image of edition 2.
fn move_offsets(image: &mut [u8], by: i64) {
    let rows = usize::from(u16::from_be_bytes([image[4], image[5]]));
    for row in image[8..].chunks_mut(NEW_ROW).take(rows) {
        let offset: &mut [u8; 4] = row[16..].first_chunk_mut().expect("4 bytes");
        *offset = ((i64::from(u32::from_be_bytes(*offset)) + by) as u32).to_be_bytes();
    }
}
