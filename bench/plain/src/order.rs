//! All pages in order, cut into runs that know how many of their pages are mergeable: so the visits between two pages are counted.

use std::ops::RangeInclusive;

use crate::rows::Page;

/// The most pages of a run. A full one is cut in two.
const LONGEST_RUN: usize = 512;

/// A page with whether it is mergeable, in the lowest bit: entries have the order of their pages.
#[derive(Clone, Copy)]
struct Entry(u64);

impl Entry {
    fn new(page: Page, is_mergeable: bool) -> Entry {
        Entry(page << 1 | u64::from(is_mergeable))
    }

    #[inline]
    fn page(self) -> Page {
        self.0 >> 1
    }

    #[inline]
    fn is_mergeable(self) -> bool {
        self.0 & 1 == 1
    }
}

#[derive(Default)]
pub struct Order {
    runs: Vec<Vec<Entry>>,
    /// The first page of each run.
    firsts: Vec<Page>,
    /// How many pages of each run are mergeable.
    counts: Vec<u32>,
    mergeable: u32,
}

impl Order {
    /// How many pages are mergeable.
    #[inline]
    pub fn mergeable(&self) -> u32 {
        self.mergeable
    }

    /// The run in which a page is, or would be.
    #[inline]
    fn run_of(&self, page: Page) -> usize {
        self.firsts.partition_point(|&first| first <= page).saturating_sub(1)
    }

    /// Adds a mergeable page.
    pub fn insert(&mut self, page: Page) {
        let mut run = self.run_of(page);
        if self.runs.get(run).is_none_or(|entries| entries.len() == LONGEST_RUN) {
            self.make_room(run, page);
            run = self.run_of(page);
        }
        let at = self.runs[run].partition_point(|entry| entry.page() < page);
        self.runs[run].insert(at, Entry::new(page, true));
        self.firsts[run] = self.runs[run][0].page();
        self.counts[run] += 1;
        self.mergeable += 1;
    }

    /// Cuts a full run in two, or makes an empty one for the page where there is none, or where the page comes behind the full one.
    fn make_room(&mut self, run: usize, page: Page) {
        let Some(entries) = self.runs.get_mut(run) else {
            return self.add_run(run, page, Vec::new());
        };
        if entries.last().is_some_and(|last| last.page() < page) {
            return self.add_run(run + 1, page, Vec::new());
        }
        let behind = entries.split_off(LONGEST_RUN / 2);
        self.add_run(run + 1, behind[0].page(), behind);
        self.counts[run] -= self.counts[run + 1];
    }

    fn add_run(&mut self, run: usize, first: Page, entries: Vec<Entry>) {
        self.firsts.insert(run, first);
        self.counts.insert(run, mergeable_of(&entries));
        self.runs.insert(run, entries);
    }

    pub fn remove(&mut self, page: Page) {
        let run = self.run_of(page);
        let at = self.runs[run].partition_point(|entry| entry.page() < page);
        let came = u32::from(self.runs[run].remove(at).is_mergeable());
        self.counts[run] -= came;
        self.mergeable -= came;
        match self.runs[run].first() {
            Some(first) => self.firsts[run] = first.page(),
            None => {
                self.runs.remove(run);
                self.firsts.remove(run);
                self.counts.remove(run);
            }
        }
    }

    /// Marks the pages from the first to the last of these; tells which were marked otherwise, in order.
    pub fn mark(&mut self, pages: RangeInclusive<Page>, is_mergeable: bool) -> Vec<Page> {
        let mut marked = Vec::new();
        for run in self.run_of(*pages.start())..self.runs.len() {
            let entries = &mut self.runs[run];
            let alike = if is_mergeable { entries.len() } else { 0 };
            if self.firsts[run] > *pages.end() {
                break;
            }
            if self.counts[run] as usize == alike {
                continue;
            }
            let differ = |entry: &&mut Entry| entry.is_mergeable() != is_mergeable && pages.contains(&entry.page());
            for entry in entries.iter_mut().filter(differ) {
                *entry = Entry::new(entry.page(), is_mergeable);
                marked.push(entry.page());
            }
            self.counts[run] = mergeable_of(entries);
        }
        let count = marked.len() as u32;
        self.mergeable = if is_mergeable {
            self.mergeable + count
        } else {
            self.mergeable - count
        };
        marked
    }

    /// Goes so many visits on behind the cursor, or to the end of the pass where that comes first: the last page visited, or none where
    /// the pass ends, and how many visits there are.
    pub fn ahead(&self, cursor: Option<Page>, visits: u64) -> (Option<Page>, u64) {
        if cursor.is_none() && visits >= u64::from(self.mergeable) {
            return (None, u64::from(self.mergeable));
        }
        let mut left = visits;
        let mut run = cursor.map_or(0, |page| self.run_of(page));
        let mut start = cursor.map_or(0, |page| self.runs[run].partition_point(|entry| entry.page() <= page));
        while run < self.runs.len() {
            let there = self.mergeable_from(run, start);
            if left <= there {
                let is_last = left == there && self.counts[run + 1..].iter().all(|&count| count == 0);
                return ((!is_last).then(|| self.nth(run, start, left)), visits);
            }
            left -= there;
            (run, start) = (run + 1, 0);
        }
        (None, visits - left)
    }

    /// How many pages of a run are mergeable, from an index on.
    #[inline]
    fn mergeable_from(&self, run: usize, start: usize) -> u64 {
        let entries = &self.runs[run];
        let count = self.counts[run];
        u64::from(if start == 0 {
            count
        } else if count as usize == entries.len() {
            count - start as u32
        } else {
            mergeable_of(&entries[start..])
        })
    }

    /// The page up to which so many of a run are mergeable, from an index on: one at least, and no more than there are.
    fn nth(&self, run: usize, start: usize, count: u64) -> Page {
        let entries = &self.runs[run][start..];
        let before = count as usize - 1;
        if self.counts[run] as usize == self.runs[run].len() {
            return entries[before].page();
        }
        let mut mergeable = entries.iter().filter(|entry| entry.is_mergeable());
        mergeable.nth(before).expect("the run has so many").page()
    }

    /// Whether there are pages from the first to the last of these.
    pub fn has_any(&self, pages: &RangeInclusive<Page>) -> bool {
        let Some(entries) = self.runs.get(self.run_of(*pages.start())) else {
            return false;
        };
        let at = entries.partition_point(|entry| entry.page() < *pages.start());
        let next = self.firsts.get(self.run_of(*pages.start()) + 1).copied();
        entries
            .get(at)
            .map(|entry| entry.page())
            .or(next)
            .is_some_and(|page| page <= *pages.end())
    }

    /// The pages from the first to the last of these, in order.
    pub fn within(&self, pages: RangeInclusive<Page>) -> Vec<Page> {
        if self.runs.is_empty() {
            return Vec::new();
        }
        let behind = self.runs[self.run_of(*pages.start())..].iter().flatten();
        let behind = behind.map(|entry| entry.page()).skip_while(|page| page < pages.start());
        behind.take_while(|page| page <= pages.end()).collect()
    }
}

fn mergeable_of(entries: &[Entry]) -> u32 {
    entries.iter().map(|entry| u32::from(entry.is_mergeable())).sum()
}
