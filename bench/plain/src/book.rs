//! The book: its rows and dups, and the commands on one page or dup.

use std::mem;

use crate::command::{Answer, Command, Fault, Reply};
use crate::contents::{Contents, Waiting};
use crate::counters::Counters;
use crate::dups::Dups;
use crate::keeper::Keeper;
use crate::knobs::Knobs;
use crate::order::Order;
use crate::restless::{Entry, Restless};
use crate::rows::{Page, Row, Rows, State};
use crate::table::{PageBytes, ZERO_PAGE};
use crate::waiting::WaitingRows;

pub struct Book {
    pub keeper: Keeper,
    pub knobs: Knobs,
    pub(crate) rows: Rows,
    pub(crate) order: Order,
    pub(crate) restless: Restless,
    pub(crate) waiting: WaitingRows,
    pub(crate) dups: Dups,
    pub(crate) contents: Contents,
    pub(crate) counters: Counters,
    pub(crate) cursor: Option<Page>,
    /// The first page at which a row of the list may wait in this pass: those before it stopped when a knob was set.
    pub(crate) waits_from: Page,
    /// One more whenever no row waits any longer in the group that it waited in.
    pub(crate) era: u64,
    pub(crate) nodes: u32,
    /// How many commands there were: the journal's entries are not kept.
    commands: u64,
}

impl Book {
    pub fn open(keeper: Keeper, nodes: u32) -> Book {
        let places = keeper.table.places();
        Book {
            keeper,
            knobs: Knobs::DEFAULT,
            rows: Rows::default(),
            order: Order::default(),
            restless: Restless::default(),
            waiting: WaitingRows::default(),
            dups: Dups::open(places),
            contents: Contents::new(nodes),
            counters: Counters::default(),
            cursor: None,
            waits_from: 0,
            era: 1,
            nodes,
            commands: 0,
        }
    }

    pub fn apply(&mut self, command: Command) -> Answer {
        self.commands += 1;
        self.answer(&command)
    }

    fn answer(&mut self, command: &Command) -> Answer {
        match *command {
            Command::Register(page, node, ref bytes) => self.register(page, node, bytes),
            Command::Drop(page) => self.drop_page(page),
            Command::Store(page, ref bytes) => self.store(page, bytes),
            Command::Scan(visits) => self.scan(visits),
            Command::Prune => Ok(Reply::Pruned(self.prune())),
            Command::Unmerge(guest) => self.unmerge(guest),
            Command::Mergeable(guest) => self.make_mergeable(guest),
            Command::MovePage(page, node) => self.move_page(page, node),
            Command::MoveDup(place, node) => self.move_dup(place, node),
            Command::SetRun(run) => self.set_run(run),
            Command::SetPagesToScan(pages) => self.set_pages_to_scan(pages),
            Command::SetAcross(across) => self.set_across(across),
            Command::SetLimit(limit) => self.set_limit(limit),
            Command::SetZeroPages(zero_pages) => self.set_zero_pages(zero_pages),
        }
    }

    pub fn read(&self, page: Page) -> Result<PageBytes, Fault> {
        let slot = self.slot(page)?;
        let frame = match self.rows.at(slot).state {
            State::Own { frame } => frame,
            State::Merged { place, .. } => self.dups.at(place).frame,
            State::Zero => return Ok(ZERO_PAGE),
        };
        Ok(self.keeper.table.load(frame))
    }

    /// The place of a merged page.
    pub fn ticket(&self, page: Page) -> Result<Option<u32>, Fault> {
        Ok(match self.rows.at(self.slot(page)?).state {
            State::Own { .. } | State::Zero => None,
            State::Merged { place, .. } => Some(place),
        })
    }

    /// The pages merged into the dup at a place, ascending.
    pub fn mappers(&self, place: u32) -> Result<Vec<Page>, Fault> {
        let dup = self.dups.live_at(place).ok_or(Fault::UnknownPlace)?;
        let mut pages: Vec<Page> = dup.items.iter().map(|&slot| self.rows.at(slot).page).collect();
        pages.sort_unstable();
        Ok(pages)
    }

    pub fn counters(&self) -> &Counters {
        &self.counters
    }

    /// How many rows are mergeable.
    pub fn mergeable(&self) -> u64 {
        u64::from(self.order.mergeable())
    }

    /// How many rows wait: those that the pass went by since they stopped last.
    pub fn waiting(&self) -> u64 {
        let waiting = match self.cursor {
            Some(page) => self.waiting.before(page + 1),
            None => self.waiting.count(),
        };
        let stopped = if self.waits_from > 0 {
            self.waiting.before(self.waits_from)
        } else {
            0
        };
        waiting.saturating_sub(stopped) as u64
    }

    #[inline]
    pub(crate) fn slot(&self, page: Page) -> Result<u32, Fault> {
        self.rows.find(page).ok_or(Fault::UnknownPage)
    }

    fn check_node(&self, node: u32) -> Result<(), Fault> {
        if node < self.nodes { Ok(()) } else { Err(Fault::BadNode) }
    }

    #[inline]
    pub(crate) fn tree(&self, home: u8) -> u32 {
        if self.knobs.merge_across_nodes == 1 { 0 } else { u32::from(home) }
    }

    /// Whether these are the bytes that the book knows a row to have.
    #[inline]
    fn has_bytes(&self, slot: u32, bytes: &PageBytes) -> bool {
        match self.rows.at(slot).state {
            State::Own { frame } => self.keeper.table.has(frame, bytes),
            State::Merged { place, .. } => self.contents.bytes(self.dups.at(place).content) == bytes,
            State::Zero => *bytes == ZERO_PAGE,
        }
    }

    /// The bytes that the book knows a row to have.
    pub(crate) fn known(&self, slot: u32) -> PageBytes {
        match self.rows.at(slot).state {
            State::Own { frame } => self.keeper.table.load(frame),
            State::Merged { place, .. } => *self.contents.bytes(self.dups.at(place).content),
            State::Zero => ZERO_PAGE,
        }
    }

    #[inline]
    pub(crate) fn stop_waiting(&mut self, slot: u32) {
        let Row { page, content, home, .. } = *self.rows.at(slot);
        let Some(content) = content else { return };
        let tree = self.tree(home);
        let waiting = &mut self.contents.group(content, tree).waiting;
        if *waiting == (Waiting { slot, era: self.era }) {
            *waiting = Waiting::default();
            self.waiting.remove(page);
        }
    }

    /// No row waits any longer, and each is visited again.
    pub(crate) fn all_stop_waiting(&mut self) {
        self.era += 1;
        for entry in self.waiting.take_all() {
            self.restless.add(&mut self.rows, entry.slot);
        }
    }

    /// No row waits until a pass comes to it, and then in the group that is its own now: the first of those in one group.
    pub(crate) fn all_wait_anew(&mut self) {
        self.era += 1;
        self.waits_from = self.cursor.map_or(Page::MAX, |page| page + 1);
        let mut waiting = mem::take(&mut self.waiting);
        waiting.retain(|Entry { slot, .. }| {
            let row = self.rows.at(slot);
            let content = row.content.expect("a row that waits was visited");
            let tree = self.tree(row.home);
            let first = &mut self.contents.group(content, tree).waiting;
            let is_first = first.era < self.era;
            if is_first {
                *first = Waiting { slot, era: self.era };
            } else {
                self.restless.add(&mut self.rows, slot);
            }
            is_first
        });
        self.waiting = waiting;
    }

    /// The row gives back the frame that it has, if it has one, or leaves its dup.
    fn release(&mut self, slot: u32) {
        match self.rows.at(slot).state {
            State::Own { frame } => {
                self.stop_waiting(slot);
                self.keeper.sub(frame);
            }
            State::Merged { place, item } => self.leave_dup(place, item),
            State::Zero => self.counters.zero -= 1,
        }
    }

    /// The row gets a frame of its own on the node, which is its home then.
    pub(crate) fn resettle(&mut self, slot: u32, node: u32, bytes: &PageBytes) -> Result<(), Fault> {
        let frame = self.keeper.take(node, bytes).ok_or(Fault::NoFrame)?;
        self.release(slot);
        let row = self.rows.at_mut(slot);
        row.home = node as u8;
        row.state = State::Own { frame };
        self.restless.add(&mut self.rows, slot);
        Ok(())
    }

    #[inline]
    fn forget_content(&mut self, slot: u32) {
        if let Some(content) = self.rows.at_mut(slot).content.take() {
            self.contents.leave(content);
        }
    }

    fn register(&mut self, page: Page, node: u32, bytes: &PageBytes) -> Answer {
        self.check_node(node)?;
        if self.rows.find(page).is_some() {
            return Err(Fault::AlreadyRegistered);
        }
        let frame = self.keeper.take(node, bytes).ok_or(Fault::NoFrame)?;
        let slot = self.rows.insert(Row {
            page,
            state: State::Own { frame },
            content: None,
            home: node as u8,
            is_unchanged: false,
            is_mergeable: true,
            is_listed: false,
        });
        self.order.insert(page);
        self.restless.add(&mut self.rows, slot);
        Ok(Reply::Done)
    }

    fn drop_page(&mut self, page: Page) -> Answer {
        let slot = self.slot(page)?;
        self.release(slot);
        self.forget_content(slot);
        self.rows.remove(slot);
        self.order.remove(page);
        Ok(Reply::Done)
    }

    fn store(&mut self, page: Page, bytes: &PageBytes) -> Answer {
        let slot = self.slot(page)?;
        let is_same = self.has_bytes(slot, bytes);
        let Row { state, home, .. } = *self.rows.at(slot);
        match state {
            State::Merged { .. } | State::Zero => self.resettle(slot, u32::from(home), bytes)?,
            State::Own { frame } => {
                self.stop_waiting(slot);
                self.restless.add(&mut self.rows, slot);
                if !is_same {
                    self.keeper.table.store(frame, bytes);
                }
            }
        }
        if !is_same {
            self.rows.at_mut(slot).is_unchanged = false;
            self.forget_content(slot);
        }
        Ok(Reply::Done)
    }

    fn move_page(&mut self, page: Page, node: u32) -> Answer {
        self.check_node(node)?;
        let slot = self.slot(page)?;
        if u32::from(self.rows.at(slot).home) != node {
            self.resettle(slot, node, &self.known(slot))?;
        }
        Ok(Reply::Done)
    }

    fn move_dup(&mut self, place: u32, node: u32) -> Answer {
        self.check_node(node)?;
        let dup = self.dups.live_at(place).ok_or(Fault::UnknownPlace)?;
        let (old, items, tree) = (dup.frame, dup.items.len() as u32, dup.tree);
        if self.knobs.merge_across_nodes == 0 && tree != node {
            return Err(Fault::CrossesNodes);
        }
        let new = self.keeper.search(node).ok_or(Fault::NoFrame)?;
        if !self.keeper.freeze(old) {
            return Err(Fault::InUse);
        }
        let bytes = self.keeper.table.load(old);
        self.keeper.give(new, &bytes, items);
        self.keeper.table.publish(place, new);
        self.dups.at_mut(place).frame = new;
        Ok(Reply::Done)
    }
}
