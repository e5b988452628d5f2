//! The rows that a scan visits, in the order of their pages: mergeable ones with a frame of their own, but for those that wait.

use crate::rows::{Page, Rows, State};

/// Arrivals up to so many are put in their places one by one, and more of them are sorted with all.
const FEW: usize = 8;

/// There are hardly more restless rows than frames. Where there are so many entries most have left, and are dropped.
const MANY: usize = 4096;

/// A restless row. It may have left since: another page may have its slot then.
#[derive(Clone, Copy)]
pub struct Entry {
    pub page: Page,
    pub slot: u32,
}

#[derive(Default)]
pub struct Restless {
    /// In order, no page twice.
    pub sorted: Vec<Entry>,
    /// Those that came since the last scan, in any order.
    arrivals: Vec<Entry>,
}

impl Restless {
    /// The row is to be visited, where it is mergeable.
    #[inline]
    pub fn add(&mut self, rows: &mut Rows, slot: u32) {
        let row = rows.at_mut(slot);
        if row.is_mergeable && !row.is_listed {
            row.is_listed = true;
            self.arrivals.push(Entry { page: row.page, slot });
            if self.arrivals.len() >= MANY {
                self.sort(rows);
            }
        }
    }

    /// Where the rows behind a page begin.
    #[inline]
    pub fn behind(&self, page: Page) -> usize {
        self.sorted.partition_point(|entry| entry.page <= page)
    }

    /// The arrivals come to their places.
    #[inline]
    pub fn gather(&mut self, rows: &mut Rows) {
        if self.arrivals.len() > FEW || self.sorted.len() >= MANY {
            return self.sort(rows);
        }
        while let Some(entry) = self.arrivals.pop() {
            place(&mut self.sorted, 0, entry);
        }
    }

    fn sort(&mut self, rows: &mut Rows) {
        if self.sorted.is_empty() {
            std::mem::swap(&mut self.sorted, &mut self.arrivals);
        } else {
            self.sorted.append(&mut self.arrivals);
        }
        if !self.sorted.is_sorted_by(|entry, next| entry.page < next.page) {
            self.sorted.sort_by_key(|entry| (entry.page, entry.slot));
            self.sorted.dedup_by_key(|entry| (entry.page, entry.slot));
        }
        if self.sorted.len() >= MANY {
            self.sorted.retain(|entry| is_restless(rows, entry));
        }
    }

    /// Puts the row that came during the visit of a page, if it comes behind it, among the next rows to visit.
    pub fn put_ahead(&mut self, list: &mut Vec<Entry>, next: usize, page: Page) {
        if let Some(entry) = self.arrivals.pop_if(|entry| entry.page > page) {
            place(list, next, entry);
        }
    }
}

/// Puts an entry in its place among those from `start` on, where it isn't there.
fn place(list: &mut Vec<Entry>, start: usize, entry: Entry) {
    let at = start + list[start..].partition_point(|other| (other.page, other.slot) < (entry.page, entry.slot));
    if list
        .get(at)
        .is_none_or(|other| (other.page, other.slot) != (entry.page, entry.slot))
    {
        list.insert(at, entry);
    }
}

/// Whether the entry's row is still there to be visited. One that isn't is listed no more.
fn is_restless(rows: &mut Rows, entry: &Entry) -> bool {
    let row = rows.at_mut(entry.slot);
    if row.page != entry.page {
        return false;
    }
    row.is_listed = row.is_mergeable && matches!(row.state, State::Own { .. });
    row.is_listed
}
