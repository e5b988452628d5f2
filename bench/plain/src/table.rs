//! The words that readers and the keeper share: places, and for each frame a word of generation and count, and its content. A content
//! is written only where no reader has a hold, and a reader gets a hold by the words, which are in one order: so contents need none.

use std::sync::atomic::AtomicU64;
use std::sync::atomic::Ordering::{Relaxed, SeqCst};

include!(concat!(env!("OUT_DIR"), "/page_words.rs"));

/// What a page reads, its first byte in the lowest bits of the first word.
pub type PageBytes = [u64; PAGE_WORDS];

pub const ZERO_PAGE: PageBytes = [0; PAGE_WORDS];

/// A frame word is the generation times this, and the count.
const LIFE: u64 = 1 << 16;

/// A place is the generation that it names times this, and the frame.
const NAMED: u64 = 1 << 10;

#[repr(align(64))]
struct Frame {
    word: AtomicU64,
    content: [AtomicU64; PAGE_WORDS],
}

pub struct Table {
    places: Vec<AtomicU64>,
    frames: Vec<Frame>,
    tries: u32,
}

/// A frame that a reader holds, in the life that its place named.
#[derive(Clone, Copy)]
pub struct Hold {
    pub frame: u32,
    pub generation: u64,
}

#[derive(Clone, Copy)]
pub enum Why {
    Vacant = 1,
    Zero = 2,
    Generation = 3,
}

pub enum Found {
    Held(Hold),
    Gone(Why),
    Busy,
}

impl Table {
    pub fn open(frames: u32, tries: u32) -> Table {
        let zero = |_| AtomicU64::new(0);
        let frame = |_| Frame {
            word: AtomicU64::new(0),
            content: std::array::from_fn(zero),
        };
        Table {
            places: (0..frames as usize).map(zero).collect(),
            frames: (0..frames).map(frame).collect(),
            tries,
        }
    }

    pub fn places(&self) -> u32 {
        self.places.len() as u32
    }

    /// Looks a place up: takes a reference on the frame that it names, in the life named.
    #[inline]
    pub fn find(&self, place: u32) -> Found {
        let named = self.places[place as usize].load(SeqCst);
        if named == 0 {
            return Found::Gone(Why::Vacant);
        }
        let hold = Hold {
            frame: (named % NAMED) as u32,
            generation: named / NAMED,
        };
        let word = &self.frames[hold.frame as usize].word;
        for _ in 0..self.tries {
            let seen = word.load(SeqCst);
            if seen % LIFE == 0 {
                return Found::Gone(Why::Zero);
            }
            if seen / LIFE != hold.generation {
                return Found::Gone(Why::Generation);
            }
            let exchange = word.compare_exchange(seen, seen + 1, SeqCst, SeqCst);
            if exchange.is_ok() {
                return Found::Held(hold);
            }
        }
        Found::Busy
    }

    #[inline]
    pub fn leave(&self, hold: Hold) {
        self.sub(hold.frame);
    }

    #[inline]
    pub fn load(&self, frame: u32) -> PageBytes {
        let content = &self.frames[frame as usize].content;
        std::array::from_fn(|i| content[i].load(Relaxed))
    }

    /// Whether a frame has these bytes. The first word that differs tells.
    #[inline]
    pub fn has(&self, frame: u32, bytes: &PageBytes) -> bool {
        let mut words = self.frames[frame as usize].content.iter().zip(bytes);
        words.all(|(word, value)| word.load(Relaxed) == *value)
    }

    #[inline]
    pub fn store(&self, frame: u32, bytes: &PageBytes) {
        for (word, value) in self.frames[frame as usize].content.iter().zip(bytes) {
            word.store(*value, Relaxed);
        }
    }

    #[inline]
    pub fn count(&self, frame: u32) -> u64 {
        self.frames[frame as usize].word.load(SeqCst) % LIFE
    }

    #[inline]
    pub fn generation(&self, frame: u32) -> u64 {
        self.frames[frame as usize].word.load(SeqCst) / LIFE
    }

    #[inline]
    pub fn raise(&self, frame: u32) {
        self.frames[frame as usize].word.fetch_add(LIFE, SeqCst);
    }

    #[inline]
    pub fn add(&self, frame: u32, references: u32) {
        self.frames[frame as usize].word.fetch_add(u64::from(references), SeqCst);
    }

    #[inline]
    pub fn sub(&self, frame: u32) {
        self.frames[frame as usize].word.fetch_sub(1, SeqCst);
    }

    /// Gives all of the keeper's references back at once, where nobody else has one.
    pub fn freeze(&self, frame: u32, base: u64) -> bool {
        let empty = self.generation(frame) * LIFE;
        let word = &self.frames[frame as usize].word;
        let exchange = word.compare_exchange(empty + base, empty, SeqCst, SeqCst);
        exchange.is_ok()
    }

    pub fn publish(&self, place: u32, frame: u32) {
        let named = self.generation(frame) * NAMED + u64::from(frame);
        self.places[place as usize].store(named, SeqCst);
    }

    pub fn withdraw(&self, place: u32) {
        self.places[place as usize].store(0, SeqCst);
    }
}
