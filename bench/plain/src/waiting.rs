//! The rows that wait, in the order of their pages. One that waits alone will wait again in each pass, until a dup of its group opens,
//! another row of its group waits first, it is stored to, or a knob is set. So no visit is made of it: it counts as waiting where the
//! pass went by it.

use crate::restless::Entry;
use crate::rows::Page;

/// The most rows of a run. A full one is cut in two.
const LONGEST_RUN: usize = 64;

/// These rows, cut into runs that are never empty.
#[derive(Default)]
pub struct WaitingRows {
    runs: Vec<Vec<Entry>>,
    /// The first page of each run.
    firsts: Vec<Page>,
    count: usize,
}

impl WaitingRows {
    pub fn count(&self) -> usize {
        self.count
    }

    /// The run in which a page is, or would be, and its place there.
    #[inline]
    fn place_of(&self, page: Page) -> (usize, usize) {
        let run = self.firsts.partition_point(|&first| first <= page).saturating_sub(1);
        let place = |entries: &Vec<Entry>| entries.partition_point(|entry| entry.page < page);
        (run, self.runs.get(run).map_or(0, place))
    }

    /// How many of them come before a page.
    pub fn before(&self, page: Page) -> usize {
        let (run, place) = self.place_of(page);
        self.runs[..run].iter().map(Vec::len).sum::<usize>() + place
    }

    #[inline]
    pub fn insert(&mut self, entry: Entry) {
        self.count += 1;
        let last = self.runs.last_mut();
        match last.filter(|run| run.last().is_some_and(|last| last.page < entry.page)) {
            Some(run) if run.len() < LONGEST_RUN => run.push(entry),
            _ => self.insert_within(entry),
        }
    }

    fn insert_within(&mut self, entry: Entry) {
        let (mut run, mut place) = self.place_of(entry.page);
        if self.runs.get(run).is_none_or(|entries| entries.len() == LONGEST_RUN) {
            self.make_room(run, place, entry.page);
            (run, place) = self.place_of(entry.page);
        }
        self.runs[run].insert(place, entry);
        self.firsts[run] = self.runs[run][0].page;
    }

    /// Cuts a full run in two, or makes an empty one for the page where there is none, or where the page comes behind the full one.
    fn make_room(&mut self, run: usize, place: usize, page: Page) {
        let mut behind = Vec::with_capacity(LONGEST_RUN);
        if let Some(entries) = self.runs.get_mut(run)
            && place < LONGEST_RUN
        {
            behind.extend(entries.drain(LONGEST_RUN / 2..));
        }
        let at = self.runs.len().min(run + 1);
        self.firsts.insert(at, behind.first().map_or(page, |first: &Entry| first.page));
        self.runs.insert(at, behind);
    }

    pub fn remove(&mut self, page: Page) {
        let (run, place) = self.place_of(page);
        self.count -= 1;
        self.runs[run].remove(place);
        match self.runs[run].first() {
            Some(first) => self.firsts[run] = first.page,
            None => {
                self.runs.remove(run);
                self.firsts.remove(run);
            }
        }
    }

    /// Keeps those that are told to be kept.
    pub fn retain(&mut self, mut is_kept: impl FnMut(Entry) -> bool) {
        for run in &mut self.runs {
            run.retain(|&entry| is_kept(entry));
        }
        self.runs.retain(|run| !run.is_empty());
        self.firsts = self.runs.iter().map(|run| run[0].page).collect();
        self.count = self.runs.iter().map(Vec::len).sum();
    }

    /// All of them, in order, who are taken out.
    pub fn take_all(&mut self) -> impl Iterator<Item = Entry> {
        std::mem::take(self).runs.into_iter().flatten()
    }
}
