//! Each content once, by number, so that a visit compares numbers; with the group of its dups in each tree.

use std::cmp::Reverse;

use crate::table::PageBytes;

/// The number of no content.
const NO_CONTENT: u32 = u32::MAX;

/// The fewest places of the index, which are a power of two.
const FEWEST_PLACES: usize = 64;

/// A dup that may be joined: the greatest of a group is the one to join, the one with most items and of these the one made first.
#[derive(Clone, Copy, PartialEq, Eq, PartialOrd, Ord)]
pub struct Open {
    pub items: u32,
    pub number: Reverse<u64>,
    pub place: u32,
}

/// The dups of one tree and content, and the row that waits there.
#[derive(Default)]
pub struct Group {
    pub dups: u32,
    /// Those with an item and fewer than the limit, ascending.
    pub open: Vec<Open>,
    pub waiting: Waiting,
}

/// The row that waits in a group, by its slot, as of an era: when another era begins no row waits, and no group is told so.
#[derive(Clone, Copy, Default, PartialEq, Eq)]
pub struct Waiting {
    pub slot: u32,
    pub era: u64,
}

struct Content {
    bytes: PageBytes,
    hash: u64,
    users: u32,
}

/// The contents, and an index of them: from the place of a content's hash on, its number is found before the first place without one.
pub struct Contents {
    trees: u32,
    contents: Vec<Content>,
    groups: Vec<Group>,
    unused: Vec<u32>,
    index: Vec<u32>,
}

/// Mixes two words at a time by a long product, of which both halves are kept.
#[inline]
fn hash_of(bytes: &PageBytes) -> u64 {
    const KEYS: [u64; 2] = [0x9e37_79b9_7f4a_7c15, 0xf39c_c060_5ced_c835];
    let mut hash = KEYS[0];
    for pair in bytes.as_chunks::<2>().0 {
        let product = u128::from(pair[0] ^ hash) * u128::from(pair[1] ^ KEYS[1]);
        hash = (product as u64) ^ ((product >> 64) as u64).wrapping_add(hash);
    }
    hash
}

impl Contents {
    pub fn new(trees: u32) -> Contents {
        Contents {
            trees,
            contents: Vec::new(),
            groups: Vec::new(),
            unused: Vec::new(),
            index: vec![NO_CONTENT; FEWEST_PLACES],
        }
    }

    #[inline]
    fn place_of(&self, hash: u64) -> usize {
        hash as usize & (self.index.len() - 1)
    }

    /// The place of a content in the index, with its number, or the place where it would come.
    #[inline]
    fn look_for(&self, bytes: &PageBytes, hash: u64) -> (usize, Option<u32>) {
        let mut place = self.place_of(hash);
        loop {
            let number = self.index[place];
            let Some(content) = self.contents.get(number as usize) else {
                return (place, None);
            };
            if content.hash == hash && content.bytes == *bytes {
                return (place, Some(number));
            }
            place = self.place_of(place as u64 + 1);
        }
    }

    /// The number of these bytes, where they have one.
    pub fn number(&self, bytes: &PageBytes) -> Option<u32> {
        self.look_for(bytes, hash_of(bytes)).1
    }

    /// The number of these bytes, with one user more.
    pub fn enter(&mut self, bytes: &PageBytes) -> u32 {
        let hash = hash_of(bytes);
        let (place, number) = self.look_for(bytes, hash);
        if let Some(number) = number {
            self.share(number);
            return number;
        }
        let content = Content {
            bytes: *bytes,
            hash,
            users: 1,
        };
        if let Some(number) = self.unused.pop() {
            self.contents[number as usize] = content;
            self.index[place] = number;
            return number;
        }
        self.contents.push(content);
        self.groups.extend((0..self.trees).map(|_| Group::default()));
        let number = self.contents.len() as u32 - 1;
        self.index[place] = number;
        if 2 * self.contents.len() > self.index.len() {
            self.widen();
        }
        number
    }

    /// Doubles the index. All contents are in use, and enter it anew.
    fn widen(&mut self) {
        self.index = vec![NO_CONTENT; 2 * self.index.len()];
        for number in 0..self.contents.len() {
            let mut place = self.place_of(self.contents[number].hash);
            while self.index[place] != NO_CONTENT {
                place = self.place_of(place as u64 + 1);
            }
            self.index[place] = number as u32;
        }
    }

    #[inline]
    pub fn share(&mut self, number: u32) {
        self.contents[number as usize].users += 1;
    }

    #[inline]
    pub fn leave(&mut self, number: u32) {
        let content = &mut self.contents[number as usize];
        content.users -= 1;
        if content.users == 0 {
            self.forget(number);
        }
    }

    fn forget(&mut self, number: u32) {
        let mut place = self.place_of(self.contents[number as usize].hash);
        while self.index[place] != number {
            place = self.place_of(place as u64 + 1);
        }
        self.empty(place);
        self.unused.push(number);
    }

    /// Empties a place of the index. What is found only by way of it moves up.
    fn empty(&mut self, place: usize) {
        let (mut hole, mut place) = (place, place);
        loop {
            place = self.place_of(place as u64 + 1);
            let number = self.index[place];
            let Some(content) = self.contents.get(number as usize) else { break };
            let way = self.place_of((place as u64).wrapping_sub(content.hash));
            if way >= self.place_of((place as u64).wrapping_sub(hole as u64)) {
                self.index[hole] = number;
                hole = place;
            }
        }
        self.index[hole] = NO_CONTENT;
    }

    #[inline]
    pub fn bytes(&self, number: u32) -> &PageBytes {
        &self.contents[number as usize].bytes
    }

    #[inline]
    pub fn group(&mut self, number: u32, tree: u32) -> &mut Group {
        &mut self.groups[(number * self.trees + tree) as usize]
    }
}
