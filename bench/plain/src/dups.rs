//! The dups by place, with their items, and how they come and go.

use std::cmp::Reverse;

use crate::book::Book;
use crate::contents::{Group, Open};
use crate::numbers::Numbers;
use crate::rows::State;

#[derive(Default)]
pub struct Dup {
    pub number: u64,
    pub tree: u32,
    pub content: u32,
    pub frame: u32,
    /// The slots of its rows, in any order; none where no dup stands here, or a stale one.
    pub items: Vec<u32>,
}

/// The words of a set of places.
const PLACE_WORDS: usize = 1024 / u64::BITS as usize;

pub struct Dups {
    dups: Vec<Dup>,
    empty: Numbers<PLACE_WORDS>,
    stale: Numbers<PLACE_WORDS>,
    next: u64,
}

impl Dups {
    pub fn open(places: u32) -> Dups {
        Dups {
            dups: (0..places).map(|_| Dup::default()).collect(),
            empty: Numbers::below(places),
            stale: Numbers::default(),
            next: 0,
        }
    }

    #[inline]
    pub fn at(&self, place: u32) -> &Dup {
        &self.dups[place as usize]
    }

    #[inline]
    pub fn at_mut(&mut self, place: u32) -> &mut Dup {
        &mut self.dups[place as usize]
    }

    pub fn live_at(&self, place: u32) -> Option<&Dup> {
        let dup = self.dups.get(place as usize)?;
        (!dup.items.is_empty()).then_some(dup)
    }
}

impl Book {
    /// The dup had so many items and has so many now: it may be joined, or may no longer. Where it is the first that may be joined, the
    /// row that waits is to be visited.
    #[inline]
    fn count_items(&mut self, place: u32, before: u32, now: u32) {
        let limit = self.knobs.max_page_sharing;
        let dup = self.dups.at(place);
        let number = Reverse(dup.number);
        let Group { open, waiting, .. } = self.contents.group(dup.content, dup.tree);
        if open.is_empty() && waiting.era == self.era {
            self.restless.add(&mut self.rows, waiting.slot);
        }
        let entry = |items| Open { items, number, place };
        if 1 <= before && before < limit {
            if open.last() == Some(&entry(before)) {
                open.pop();
            } else if let Ok(at) = open.binary_search(&entry(before)) {
                open.remove(at);
            }
        }
        if 1 <= now && now < limit {
            if open.last().is_none_or(|last| *last < entry(now)) {
                open.push(entry(now));
            } else if let Err(at) = open.binary_search(&entry(now)) {
                open.insert(at, entry(now));
            }
        }
    }

    /// The row, which has left its frame, becomes an item.
    #[inline]
    fn add_item(&mut self, place: u32, slot: u32) {
        let items = &mut self.dups.at_mut(place).items;
        self.rows.at_mut(slot).state = State::Merged {
            place,
            item: items.len() as u32,
        };
        items.push(slot);
        self.counters.merged += 1;
    }

    pub(crate) fn join_dup(&mut self, place: u32, slot: u32, own: u32) {
        let dup = self.dups.at(place);
        let items = dup.items.len() as u32;
        self.keeper.add(dup.frame);
        self.keeper.sub(own);
        self.add_item(place, slot);
        self.count_items(place, items, items + 1);
    }

    pub(crate) fn leave_dup(&mut self, place: u32, item: u32) {
        let dup = self.dups.at_mut(place);
        let before = dup.items.len() as u32;
        dup.items.swap_remove(item as usize);
        if let Some(&moved) = dup.items.get(item as usize) {
            self.rows.at_mut(moved).state = State::Merged { place, item };
        }
        self.keeper.sub(dup.frame);
        self.count_items(place, before, before - 1);
        self.counters.merged -= 1;
        if before == 1 {
            self.counters.shared -= 1;
            self.dups.stale.insert(place);
        }
    }

    /// A dup of two rows with frames of their own, on the frame of the first.
    pub(crate) fn make_dup(&mut self, first: (u32, u32), second: (u32, u32), content: u32, tree: u32) {
        let place = self.take_place();
        self.stop_waiting(first.0);
        self.contents.share(content);
        let number = self.dups.next;
        self.dups.next += 1;
        *self.dups.at_mut(place) = Dup {
            number,
            tree,
            content,
            frame: first.1,
            items: Vec::new(),
        };
        self.counters.shared += 1;
        let group = self.contents.group(content, tree);
        group.dups += 1;
        match group.dups {
            1 => {}
            2 => {
                self.counters.chains += 1;
                self.counters.dups += 2;
            }
            _ => self.counters.dups += 1,
        }
        self.keeper.table.publish(place, first.1);
        self.keeper.add(first.1);
        self.keeper.sub(second.1);
        self.add_item(place, first.0);
        self.add_item(place, second.0);
        self.count_items(place, 0, 2);
    }

    /// The least empty place, or where there is none that of a stale dup, which goes.
    fn take_place(&mut self) -> u32 {
        if self.dups.empty.least().is_none()
            && let Some(stale) = self.dups.stale.least()
        {
            self.drop_stale(stale);
        }
        let place = self
            .dups
            .empty
            .least()
            .expect("each of two rows has a frame, and there are as many places as frames");
        self.dups.empty.remove(place);
        place
    }

    fn drop_stale(&mut self, place: u32) {
        self.keeper.table.withdraw(place);
        self.dups.stale.remove(place);
        self.dups.empty.insert(place);
        let Dup { content, tree, .. } = *self.dups.at(place);
        let group = self.contents.group(content, tree);
        group.dups -= 1;
        match group.dups {
            0 => {}
            1 => {
                self.counters.chains -= 1;
                self.counters.dups -= 2;
            }
            _ => self.counters.dups -= 1,
        }
        self.contents.leave(content);
    }

    /// All stale dups go; tells how many there were.
    pub(crate) fn prune(&mut self) -> u64 {
        let mut dropped = 0;
        while let Some(place) = self.dups.stale.least() {
            self.drop_stale(place);
            dropped += 1;
        }
        dropped
    }
}
