//! Wrong implementations, which a comparison has to notice.

use std::cmp::Reverse;
use std::collections::HashSet;

use cap::part;
use reference::{Request, Submission};

use super::encoder::NEW_ROW;
use super::gate::{Gate, Ordinary};
use super::id_slips::IdSlip;
use super::image_slips::ImageSlip;
use super::lease_slips::{self, LeaseSlip};
use super::{wrong_ids, wrong_image};

/// A slip that an implementation might make.
#[derive(Clone, Copy, Debug, PartialEq, Eq)]
pub enum Slip {
    EmptyStringAtZero,
    LongerHeadRead,
    PeriodOneShort,
    LastGrantRepeated,
    MatchingByPrefix,
    StarCounted,
    DeepCounted,
    TerminalCounted,
    NamesOfNo,
    NewImageCleared,
    EditionNotRead,
    DuplicateAccepted,
    TailCleared,
    AheadWraps,
    KeyNeverEnds,
    SessionNotCut,
    SessionWraps,
    RevokedIgnored,
    RevokedAtOnce,
    RevokedLate,
    RevokedByFirstRow,
    RevokedMomentReversed,
    ExpiryLate,
    FirstNamed,
    LastOfTieNamed,
    StarPreferred,
    OtherModeNamed,
    ConstrainedNamed,
    MaskOfFirst,
    HighestMode,
    LevelsAlwaysOne,
    /// A slip in the lease steps, or none.
    Lease(Option<LeaseSlip>),
    /// A slip with images, or none.
    Image(Option<ImageSlip>),
    /// A slip with ids, or none.
    Id(Option<IdSlip>),
}

/// All slips but those in the lease steps, those with images and those with ids.
pub const SLIPS: [Slip; 31] = [
    Slip::EmptyStringAtZero,
    Slip::LongerHeadRead,
    Slip::PeriodOneShort,
    Slip::LastGrantRepeated,
    Slip::MatchingByPrefix,
    Slip::StarCounted,
    Slip::DeepCounted,
    Slip::TerminalCounted,
    Slip::NamesOfNo,
    Slip::NewImageCleared,
    Slip::EditionNotRead,
    Slip::DuplicateAccepted,
    Slip::TailCleared,
    Slip::AheadWraps,
    Slip::KeyNeverEnds,
    Slip::SessionNotCut,
    Slip::SessionWraps,
    Slip::RevokedIgnored,
    Slip::RevokedAtOnce,
    Slip::RevokedLate,
    Slip::RevokedByFirstRow,
    Slip::RevokedMomentReversed,
    Slip::ExpiryLate,
    Slip::FirstNamed,
    Slip::LastOfTieNamed,
    Slip::StarPreferred,
    Slip::OtherModeNamed,
    Slip::ConstrainedNamed,
    Slip::MaskOfFirst,
    Slip::HighestMode,
    Slip::LevelsAlwaysOne,
];

/// The ordinary implementation with a slip.
pub struct Wrong(pub Slip);

impl Gate for Wrong {
    fn item_read(&self, bytes: &[u8], place: u64) -> Vec<u64> {
        let mut item = Ordinary.item_read(bytes, place);
        if self.0 == Slip::EmptyStringAtZero && item[4] == 0 {
            item[3] = 0;
        }
        if self.0 == Slip::LongerHeadRead && place == 0 && bytes.starts_with(&[0x18, 23]) {
            item = vec![0, 0, 23, 0, 0, 2];
        }
        item
    }

    fn descriptor_read(&self, bytes: &[u8]) -> Vec<u64> {
        if let Slip::Id(slip) = self.0 {
            return wrong_ids::descriptor_read(slip, bytes);
        }
        let read = Ordinary.descriptor_read(bytes);
        if self.0 == Slip::PeriodOneShort && read[5] - read[4] == 7_776_000 {
            let mut refused = vec![0; read.len()];
            refused[0] = 2;
            return refused;
        }
        read
    }

    fn grant_at(&self, bytes: &[u8], index: u64) -> Vec<u64> {
        let grants = reference::descriptor_read(bytes).grants;
        match self.0 {
            Slip::LastGrantRepeated if grants > 0 => {
                Ordinary.grant_at(bytes, index.min(grants - 1))
            }
            Slip::Id(slip) => wrong_ids::grant_at(slip, bytes, index),
            _ => Ordinary.grant_at(bytes, index),
        }
    }

    fn matching(&self, pattern: &[u8], resource: &[u8]) -> Vec<u64> {
        if let Slip::Id(slip) = self.0 {
            return wrong_ids::matching(slip, pattern, resource);
        }
        let mut answer = Ordinary.matching(pattern, resource);
        match (self.0, answer[0], answer[1]) {
            (Slip::MatchingByPrefix, 0, 0) if resource.starts_with(pattern) => answer[1] = 1,
            (Slip::StarCounted, 0, 1) => answer[2] += count_of(b"*", pattern),
            (Slip::DeepCounted, 0, 1) => answer[2] += count_of(b"**", pattern),
            (Slip::TerminalCounted, 0, 1) => answer[2] += 1,
            (Slip::NamesOfNo, 0, 0) => answer[2] = equal_levels(pattern, resource),
            _ => {}
        }
        answer
    }

    fn image_new(&self, image: &mut [u8]) -> Vec<u64> {
        if self.0 == Slip::NewImageCleared && image.len() >= 8 {
            image.fill(0);
        }
        if let Slip::Image(slip) = self.0 {
            return wrong_image::image_new(slip, image);
        }
        Ordinary.image_new(image)
    }

    fn image_upgrade(&self, old: &[u8], image: &mut [u8]) -> Vec<u64> {
        match self.0 {
            Slip::Image(slip) => wrong_image::image_upgrade(slip, old, image),
            Slip::Id(slip) => wrong_ids::image_upgrade(slip, old, image),
            _ => Ordinary.image_upgrade(old, image),
        }
    }

    fn image_find(&self, image: &[u8], id: &[u8]) -> Vec<u64> {
        match self.0 {
            Slip::Image(slip) => return wrong_image::image_find(slip, image, id),
            Slip::Id(slip) => return wrong_ids::image_find(slip, image, id),
            _ => {}
        }
        let mut image = image.to_vec();
        if self.0 == Slip::EditionNotRead && image.len() > 1 && !image.starts_with(&[0, 1]) {
            image[..2].copy_from_slice(&[0, 2]);
        }
        Ordinary.image_find(&image, id)
    }

    fn submit(&self, image: &mut [u8], descriptor: &[u8], with: &Submission) -> Vec<u64> {
        match self.0 {
            Slip::Image(slip) => return wrong_image::submit(slip, image, descriptor, with),
            Slip::Id(slip) => return wrong_ids::submit(slip, image, descriptor, with),
            _ => {}
        }
        let not_before = reference::descriptor_read(descriptor).not_before;
        let mut with = *with;
        if self.0 == Slip::KeyNeverEnds {
            with.has_valid_until = 0;
        }
        if self.0 == Slip::AheadWraps && not_before > with.now.wrapping_add(86_400) {
            return vec![2];
        }
        let before = image.to_vec();
        let answer = Ordinary.submit(image, descriptor, &with);
        match (self.0, answer[0]) {
            (Slip::DuplicateAccepted, 5) => return vec![0],
            (Slip::TailCleared, 0) if before != image => clear_tail(image),
            _ => {}
        }
        answer
    }

    fn request(&self, image: &mut [u8], with: &Request) -> Vec<u64> {
        match self.0 {
            Slip::Lease(slip) => return lease_slips::request(slip, image, with),
            Slip::Image(slip) => return wrong_image::request(slip, image, with),
            Slip::Id(slip) => return wrong_ids::request(slip, image, with),
            _ => {}
        }
        let mut with = *with;
        if self.0 == Slip::KeyNeverEnds {
            with.has_valid_until = 0;
        }
        let revoked = misread(self.0, with.revoked);
        with.revoked = &revoked;
        let mut decision = Ordinary.request(image, &with);
        let now = with.now_ms / 1000;
        let sum = now.checked_add(with.session_length);
        match (self.0, decision[0]) {
            (Slip::SessionNotCut, 0) => decision[3] = sum.unwrap_or(u64::MAX),
            (Slip::SessionWraps, 0) if sum.is_none() => {
                decision[3] = now.wrapping_add(with.session_length)
            }
            (Slip::ExpiryLate, 10) => {
                with.now_ms -= 1000;
                decision = Ordinary.request(image, &with);
            }
            (slip, 0) => {
                if let Some(named) = misnamed(slip, image, &with) {
                    (decision[1], decision[2]) = (named.place, named.mask);
                }
            }
            _ => {}
        }
        decision
    }

    fn narrow(&self, parent: &[u8], child: &[u8]) -> Vec<u64> {
        if let Slip::Id(slip) = self.0 {
            return wrong_ids::narrow(slip, parent, child);
        }
        let mut narrowing = Ordinary.narrow(parent, child);
        if narrowing[0] == 20 && self.0 == Slip::HighestMode {
            let mask = reference::grant_at(child, narrowing[1]).mask;
            narrowing[2] = u64::from(mask.ilog2());
        }
        if self.0 == Slip::LevelsAlwaysOne {
            narrowing[3] = narrowing[3].min(1);
        }
        narrowing
    }
}

/// The levels of a text, its terminal id as the first.
fn levels_of(text: &[u8]) -> impl Iterator<Item = &[u8]> {
    text.split(|&byte| byte == b'/')
}

/// How many levels of a text are this one.
fn count_of(level: &[u8], text: &[u8]) -> u64 {
    levels_of(text).filter(|&other| other == level).count() as u64
}

/// At how many places below the terminal id both texts have the same level.
fn equal_levels(one: &[u8], other: &[u8]) -> u64 {
    let pairs = levels_of(one).zip(levels_of(other)).skip(1);
    pairs.filter(|(one, other)| one == other).count() as u64
}

/// A grant whose pattern matches the resource id of a request.
struct Matched {
    place: u64,
    mask: u64,
    constraint_pairs: u64,
    /// How many levels are matched by equal names, and how many by "*".
    names: u64,
    stars: u64,
}

/// The grants of a stored descriptor that match.
fn matched(image: &[u8], with: &Request) -> Vec<Matched> {
    let body = wrong_image::body_of(image, with.id);
    let grants = 0..reference::descriptor_read(body).grants;
    let matched = grants.filter_map(|place| {
        let grant = reference::grant_at(body, place);
        let pattern = part(body, grant.pattern_at, grant.pattern_len);
        let matching = reference::matching(pattern, with.resource);
        (matching.yes == 1).then(|| Matched {
            place,
            mask: grant.mask,
            constraint_pairs: grant.constraint_pairs,
            names: matching.names,
            stars: count_of(b"*", pattern),
        })
    });
    matched.collect()
}

/// The grant that a slip names for a request that is granted, where it is a slip in that.
fn misnamed(slip: Slip, image: &[u8], with: &Request) -> Option<Matched> {
    let has_mode = |grant: &Matched| grant.mask >> with.mode & 1 == 1;
    let is_free = |grant: &Matched| grant.constraint_pairs == 0;
    let all = || matched(image, with).into_iter();
    let serving = || all().filter(has_mode).filter(is_free);
    // of several that are equal `min_by_key` answers the first and `max_by_key` the last
    match slip {
        Slip::FirstNamed => serving().next(),
        Slip::LastOfTieNamed => serving().max_by_key(|grant| grant.names),
        Slip::StarPreferred => serving().min_by_key(|grant| Reverse(grant.names + grant.stars)),
        Slip::OtherModeNamed => all()
            .filter(is_free)
            .min_by_key(|grant| Reverse(grant.names)),
        Slip::ConstrainedNamed => all()
            .filter(has_mode)
            .min_by_key(|grant| Reverse(grant.names)),
        Slip::MaskOfFirst => {
            let mask = serving().next()?.mask;
            let named = serving().min_by_key(|grant| Reverse(grant.names))?;
            Some(Matched { mask, ..named })
        }
        _ => None,
    }
}

/// A revocation list as a slip reads its rows; one that isn't of whole rows stays as it is.
fn misread(slip: Slip, list: &[u8]) -> Vec<u8> {
    let whole = list.chunks_exact(24);
    if !whole.remainder().is_empty() {
        return list.to_vec();
    }
    let mut rows: Vec<Vec<u8>> = whole.map(<[u8]>::to_vec).collect();
    match slip {
        Slip::RevokedIgnored => rows.clear(),
        Slip::RevokedAtOnce => rows.iter_mut().for_each(|row| row[16..].fill(0)),
        Slip::RevokedLate => rows.iter_mut().for_each(|row| one_later(&mut row[16..])),
        Slip::RevokedByFirstRow => {
            let mut ids = HashSet::new();
            rows.retain(|row| ids.insert(row[..16].to_vec()));
        }
        Slip::RevokedMomentReversed => rows.iter_mut().for_each(|row| row[16..].reverse()),
        _ => {}
    }
    rows.concat()
}

/// Sets a moment a second later.
fn one_later(moment: &mut [u8]) {
    let number = u64::from_be_bytes((&*moment).try_into().expect("8 bytes"));
    moment.copy_from_slice(&number.saturating_add(1).to_be_bytes());
}

/// Sets the bytes after the last body of a sound image of edition 2 to 0.
fn clear_tail(image: &mut [u8]) {
    let rows = usize::from(u16::from_be_bytes([image[4], image[5]]));
    let lengths = (0..rows).map(|row| &image[8 + NEW_ROW * row + 20..][..4]);
    let bodies: usize = lengths
        .map(|n| u32::from_be_bytes(n.try_into().expect("4 bytes")) as usize)
        .sum();
    image[8 + NEW_ROW * rows + bodies..].fill(0);
}
