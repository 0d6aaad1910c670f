//! Room for one more row: which expired rows are removed for it.

use std::collections::HashSet;

use crate::image::{Image, Row};

impl<'a> Image<'a> {
    /// The image with a row more, in a buffer of so many bytes at a clock. Where it doesn't fit, expired rows are removed, least
    /// recently used first, the earlier one on a tie, only until it fits; none where it doesn't fit without all of them.
    pub(crate) fn with_row(&self, new: Row<'a>, room: usize, now: u64) -> Option<Image<'a>> {
        let removed = self.removed_for(&new, room, now)?;
        let kept = (0..self.rows.len()).filter(|index| !removed.contains(index));
        let mut rows: Vec<Row> = kept.map(|index| self.rows[index]).collect();
        rows.push(new);
        let edition = self.edition;
        Some(Image { edition, rows })
    }

    /// The indices of the rows that are removed so that the new one fits, if that can be.
    fn removed_for(&self, new: &Row, room: usize, now: u64) -> Option<HashSet<usize>> {
        let mut count = self.rows.len() + 1;
        let mut bodies = self.rows.iter().map(|row| row.body.len()).sum::<usize>() + new.body.len();
        let mut expired = self.expired(now).into_iter();
        let mut removed = HashSet::new();
        while count > self.edition.most_rows || self.edition.row_place(count) + bodies > room {
            let index = expired.next()?;
            count -= 1;
            bodies -= self.rows[index].body.len();
            removed.insert(index);
        }
        Some(removed)
    }

    /// The indices of the expired rows in the order in which they are removed.
    fn expired(&self, now: u64) -> Vec<usize> {
        let is_expired = |&index: &usize| now >= self.rows[index].reading.numbers.not_after;
        let mut expired: Vec<usize> = (0..self.rows.len()).filter(is_expired).collect();
        expired.sort_by_key(|&index| (self.rows[index].last_used, index));
        expired
    }
}
