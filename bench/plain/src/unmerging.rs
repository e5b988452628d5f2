//! Commands on all pages of a guest, and on all pages.

use std::ops::RangeInclusive;

use crate::book::Book;
use crate::command::{Answer, Fault, Reply};
use crate::rows::{Page, Row, State, page};

/// The pages that a guest may have.
fn pages_of(guest: u32) -> RangeInclusive<Page> {
    page(guest, 0)..=page(guest, u32::MAX)
}

impl Book {
    pub(crate) fn make_mergeable(&mut self, guest: u32) -> Answer {
        let pages = pages_of(guest);
        if !self.order.has_any(&pages) {
            return Err(Fault::UnknownPage);
        }
        for page in self.order.mark(pages, true) {
            let slot = self.slot(page)?;
            self.rows.at_mut(slot).is_mergeable = true;
            self.restless.add(&mut self.rows, slot);
        }
        Ok(Reply::Done)
    }

    /// A row leaves its dup, or the zero page, for a frame of its own; tells whether it had none.
    fn unshare(&mut self, slot: u32) -> Result<bool, Fault> {
        let Row { state, home, .. } = *self.rows.at(slot);
        let is_shared = matches!(state, State::Merged { .. } | State::Zero);
        if is_shared {
            self.resettle(slot, u32::from(home), &self.known(slot))?;
        }
        Ok(is_shared)
    }

    pub(crate) fn unmerge(&mut self, guest: u32) -> Answer {
        let pages = self.order.within(pages_of(guest));
        let first = *pages.first().ok_or(Fault::UnknownPage)?;
        let (mut unshared, mut stop) = (0, None);
        for &page in &pages {
            let slot = self.slot(page)?;
            match self.unshare(slot) {
                Ok(was_shared) => unshared += u64::from(was_shared),
                Err(fault) => {
                    stop = Some((page, fault));
                    break;
                }
            }
            self.stop_waiting(slot);
            let row = self.rows.at_mut(slot);
            (row.is_unchanged, row.is_mergeable) = (false, false);
        }
        let end = stop.map_or(page(guest, u32::MAX) + 1, |(page, _)| page);
        if first < end {
            self.order.mark(first..=end - 1, false);
        }
        Ok(Reply::Unmerged(unshared, stop.map(|(_, fault)| fault)))
    }

    pub(crate) fn unmerge_all(&mut self) -> Reply {
        let mut unshared = 0;
        for page in self.order.within(0..=Page::MAX) {
            let slot = self.rows.find(page).expect("the page has a row");
            match self.unshare(slot) {
                Ok(false) => {}
                Ok(true) => {
                    self.rows.at_mut(slot).is_unchanged = false;
                    unshared += 1;
                }
                Err(fault) => {
                    self.knobs.run = 0;
                    return Reply::Unmerged(unshared, Some(fault));
                }
            }
        }
        self.all_stop_waiting();
        for row in self.rows.all_mut() {
            row.is_unchanged = false;
        }
        self.cursor = None;
        self.knobs.run = 2;
        Reply::Unmerged(unshared, None)
    }
}
