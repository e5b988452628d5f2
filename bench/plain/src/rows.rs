//! The rows in slots, found by their page.

/// A guest and a page of it, the guest in the upper half, so that numbers are in the order of pages.
pub type Page = u64;

/// The page of no row: no guest has so high a number.
const NO_PAGE: Page = Page::MAX;

/// The index of no slot.
const NO_SLOT: u32 = u32::MAX;

/// The fewest places of the index, which are a power of two.
const FEWEST_PLACES: usize = 64;

#[derive(Clone, Copy, PartialEq, Eq)]
pub enum State {
    /// On this frame of its own. It waits where its group says so.
    Own { frame: u32 },
    /// The item with this index of the dup at the place.
    Merged { place: u32, item: u32 },
    /// On the zero page, with no frame.
    Zero,
}

pub struct Row {
    pub page: Page,
    pub state: State,
    /// The number of its bytes, where a visit asked for it since the last store.
    pub content: Option<u32>,
    pub home: u8,
    pub is_unchanged: bool,
    pub is_mergeable: bool,
    /// Whether it is among the restless rows.
    pub is_listed: bool,
}

/// The rows, and an index of them: from the place of a page's hash on, the page's slot is found before the first place without one.
pub struct Rows {
    slots: Vec<Row>,
    unused: Vec<u32>,
    index: Vec<u32>,
    /// The bits of a hash below those that say its place.
    low_bits: u32,
}

impl Default for Rows {
    fn default() -> Rows {
        Rows {
            slots: Vec::new(),
            unused: Vec::new(),
            index: vec![NO_SLOT; FEWEST_PLACES],
            low_bits: u64::BITS - FEWEST_PLACES.ilog2(),
        }
    }
}

impl Rows {
    /// The place at which a page is looked for first: the highest bits of a product.
    #[inline]
    fn place_of(&self, page: Page) -> usize {
        const ODD: u64 = 0x9e37_79b9_7f4a_7c15;
        (page.wrapping_mul(ODD) >> self.low_bits) as usize
    }

    #[inline]
    fn next_place(&self, place: usize) -> usize {
        (place + 1) & (self.index.len() - 1)
    }

    #[inline]
    pub fn find(&self, page: Page) -> Option<u32> {
        let mut place = self.place_of(page);
        loop {
            let slot = self.index[place];
            if self.slots.get(slot as usize)?.page == page {
                return Some(slot);
            }
            place = self.next_place(place);
        }
    }

    #[inline]
    pub fn at(&self, slot: u32) -> &Row {
        &self.slots[slot as usize]
    }

    #[inline]
    pub fn at_mut(&mut self, slot: u32) -> &mut Row {
        &mut self.slots[slot as usize]
    }

    pub fn all_mut(&mut self) -> impl Iterator<Item = &mut Row> {
        self.slots.iter_mut()
    }

    /// Adds a row; tells its slot.
    pub fn insert(&mut self, row: Row) -> u32 {
        let page = row.page;
        let slot = match self.unused.pop() {
            Some(slot) => {
                self.slots[slot as usize] = row;
                slot
            }
            None => {
                self.slots.push(row);
                if 2 * self.slots.len() > self.index.len() {
                    self.widen();
                }
                self.slots.len() as u32 - 1
            }
        };
        self.enter(page, slot);
        slot
    }

    /// Doubles the index. All rows but the last, which is new, are in use, and enter it anew.
    fn widen(&mut self) {
        self.index = vec![NO_SLOT; 2 * self.index.len()];
        self.low_bits -= 1;
        for slot in 0..self.slots.len() - 1 {
            self.enter(self.slots[slot].page, slot as u32);
        }
    }

    #[inline]
    fn enter(&mut self, page: Page, slot: u32) {
        let mut place = self.place_of(page);
        while self.index[place] != NO_SLOT {
            place = self.next_place(place);
        }
        self.index[place] = slot;
    }

    pub fn remove(&mut self, slot: u32) {
        let mut place = self.place_of(self.slots[slot as usize].page);
        while self.index[place] != slot {
            place = self.next_place(place);
        }
        self.empty(place);
        self.slots[slot as usize].page = NO_PAGE;
        self.unused.push(slot);
    }

    /// Empties a place of the index. What is found only by way of it moves up.
    fn empty(&mut self, place: usize) {
        let last = self.index.len() - 1;
        let (mut hole, mut place) = (place, place);
        loop {
            place = self.next_place(place);
            let slot = self.index[place];
            let Some(row) = self.slots.get(slot as usize) else { break };
            let way = place.wrapping_sub(self.place_of(row.page)) & last;
            if way >= place.wrapping_sub(hole) & last {
                self.index[hole] = slot;
                hole = place;
            }
        }
        self.index[hole] = NO_SLOT;
    }
}

#[inline]
pub fn page(guest: u32, page: u32) -> Page {
    u64::from(guest) << 32 | u64::from(page)
}
