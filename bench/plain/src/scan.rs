//! The scan: visits of mergeable rows in order, pass after pass. Visits that change nothing are counted, and so are passes.

use std::mem;

use crate::book::Book;
use crate::command::{Answer, Fault, Reply};
use crate::contents::Waiting;
use crate::restless::Entry;
use crate::rows::{Page, State};
use crate::table::ZERO_PAGE;

/// What a visit comes to.
enum Visit {
    /// The row waits.
    Waits,
    /// It waits, in place of a row that is visited again.
    WaitsFirst,
    /// It keeps its frame, and is unchanged now.
    Stays,
    /// It was merged, or went to the zero page.
    Leaves,
    /// It was gone, had no frame of its own, or wasn't mergeable.
    WasGone,
}

impl Book {
    pub(crate) fn scan(&mut self, visits: u64) -> Answer {
        if self.knobs.run != 1 {
            return Err(Fault::NotRunning);
        }
        if self.order.mergeable() == 0 {
            return Ok(Reply::Scanned(0));
        }
        let mut left = visits;
        while left > 0 {
            let is_whole = self.cursor.is_none();
            if is_whole {
                self.waits_from = 0;
            }
            self.restless.gather(&mut self.rows);
            let (last, made) = self.order.ahead(self.cursor, left);
            let is_quiet = self.visit_up_to(last.unwrap_or(Page::MAX));
            self.cursor = last;
            left -= made;
            if last.is_none() {
                let mut passes = 1;
                if is_whole && is_quiet {
                    passes += left / made;
                    left %= made;
                }
                self.counters.full_scans = self.counters.full_scans.saturating_add(passes);
            }
        }
        Ok(Reply::Scanned(visits))
    }

    /// Visits the restless rows behind the cursor, up to a page; tells whether each was left as it was, or waiting.
    fn visit_up_to(&mut self, last: Page) -> bool {
        let first = self.cursor.map_or(0, |page| self.restless.behind(page));
        let mut list = mem::take(&mut self.restless.sorted);
        let (mut kept, mut next, mut is_quiet) = (first, first, true);
        while let Some(&entry) = list.get(next)
            && entry.page <= last
        {
            next += 1;
            match self.visit(entry) {
                Visit::Waits | Visit::WasGone => {}
                Visit::WaitsFirst => self.restless.put_ahead(&mut list, next, entry.page),
                Visit::Leaves => is_quiet = false,
                Visit::Stays => {
                    list[kept] = entry;
                    kept += 1;
                    is_quiet = false;
                }
            }
        }
        list.drain(kept..next);
        self.restless.sorted = list;
        is_quiet
    }

    #[inline]
    fn visit(&mut self, entry: Entry) -> Visit {
        let slot = entry.slot;
        let row = self.rows.at_mut(slot);
        if row.page != entry.page {
            return Visit::WasGone;
        }
        row.is_listed = false;
        let State::Own { frame } = row.state else {
            return Visit::WasGone;
        };
        if !row.is_mergeable {
            return Visit::WasGone;
        }
        let (home, is_unchanged) = (row.home, row.is_unchanged);
        let content = row.content.unwrap_or_else(|| self.learn_content(slot, frame));
        let tree = self.tree(home);
        let goes_to_zero = self.knobs.use_zero_pages == 1 && *self.contents.bytes(content) == ZERO_PAGE;
        let group = self.contents.group(content, tree);
        if let Some(best) = group.open.last() {
            let place = best.place;
            self.stop_waiting(slot);
            self.join_dup(place, slot, frame);
            Visit::Leaves
        } else if !is_unchanged {
            let row = self.rows.at_mut(slot);
            (row.is_unchanged, row.is_listed) = (true, true);
            Visit::Stays
        } else if goes_to_zero {
            self.stop_waiting(slot);
            self.keeper.sub(frame);
            self.rows.at_mut(slot).state = State::Zero;
            self.counters.zero += 1;
            Visit::Leaves
        } else if group.waiting.era == self.era {
            let other = group.waiting.slot;
            self.meet(other, (entry, frame), content, tree)
        } else {
            group.waiting = Waiting { slot, era: self.era };
            self.waiting.insert(entry);
            Visit::Waits
        }
    }

    /// A row with its frame merges with the one of its group, where that one waits in this pass by now, or waits in place of it.
    fn meet(&mut self, other: u32, (entry, frame): (Entry, u32), content: u32, tree: u32) -> Visit {
        if other == entry.slot {
            return Visit::Waits;
        }
        let row = self.rows.at(other);
        let State::Own { frame: first } = row.state else {
            unreachable!("a row that waits has a frame of its own")
        };
        let page = row.page;
        if (self.waits_from..entry.page).contains(&page) {
            self.make_dup((other, first), (entry.slot, frame), content, tree);
            return Visit::Leaves;
        }
        self.waiting.remove(page);
        self.restless.add(&mut self.rows, other);
        self.contents.group(content, tree).waiting.slot = entry.slot;
        self.waiting.insert(entry);
        Visit::WaitsFirst
    }

    /// The number of the row's bytes, which it keeps until it is stored to.
    fn learn_content(&mut self, slot: u32, frame: u32) -> u32 {
        let content = self.contents.enter(&self.keeper.table.load(frame));
        self.rows.at_mut(slot).content = Some(content);
        content
    }
}
