//! The store: images of memory, page by page, and each content of a page once. A book decides which pages share.

use ksmbook::{Book, Command, Error, GuestPage, Page, Shape};
use std::collections::{BTreeMap, HashMap, HashSet};
use std::fmt;
use std::sync::{Arc, Mutex, MutexGuard, PoisonError, RwLock};

/// How many bytes a page has.
pub const PAGE: usize = 4096;

/// The bytes of a page.
pub type Bytes = [u8; PAGE];

const NODES: u32 = 4;
/// How many frames a node of a book has: several books, each with its own lock, serve several threads better than one.
const FRAMES_PER_NODE: u32 = if Shape::MOST_FRAMES_PER_NODE < 8192 { Shape::MOST_FRAMES_PER_NODE } else { 8192 };
/// How many contents a book is to have at most: each takes a frame, and a page that is new takes one until it is merged.
const CONTENTS: usize = (NODES * FRAMES_PER_NODE) as usize * 5 / 8;

/// Why a call of the store was refused.
#[derive(Debug)]
pub enum Fault {
    /// There is no room for so many contents.
    Full,
    /// There is no such image or page.
    Unknown,
    /// There is an image of this name.
    Known,
    /// Two contents have one digest.
    Digest,
    /// The book refused.
    Book(Error),
}

impl fmt::Display for Fault {
    fn fmt(&self, f: &mut fmt::Formatter<'_>) -> fmt::Result {
        match self {
            Fault::Full => f.write_str("there are more contents than the store was opened for"),
            Fault::Unknown => f.write_str("there is no such image or page"),
            Fault::Known => f.write_str("there is an image of this name"),
            Fault::Digest => f.write_str("two contents have one digest"),
            Fault::Book(error) => error.fmt(f),
        }
    }
}

impl From<Error> for Fault {
    fn from(error: Error) -> Fault {
        Fault::Book(error)
    }
}

/// What the store has.
#[derive(Clone, Copy, Debug, Default, PartialEq, Eq)]
pub struct Stat {
    /// Pages of all images.
    pub pages: u64,
    /// Contents that are stored, that of empty pages aside.
    pub contents: u64,
    /// Pages that share a frame with an earlier one, as the books count: what is saved beside empty pages.
    pub sharing: u64,
    /// Empty pages.
    pub zero: u64,
}

/// What the store has of an image.
#[derive(Clone, Debug, PartialEq, Eq)]
pub struct Listed {
    /// Its name.
    pub name: String,
    /// Its pages.
    pub pages: u64,
    /// Those that are empty.
    pub zero: u64,
    /// Contents that no other image has: what would go with it.
    pub alone: u64,
}

// The words by which a book tells contents apart; an empty page has those that it knows as the zero page.
fn digest(bytes: &Bytes) -> Page {
    if bytes.iter().all(|byte| *byte == 0) {
        return [0; 8];
    }
    let mut lanes: Page = std::array::from_fn(|i| 0x9E37_79B9_7F4A_7C15u64.wrapping_mul(2 * i as u64 + 1));
    for (i, chunk) in bytes.chunks_exact(8).enumerate() {
        let word = chunk.iter().fold(0, |word, byte| word << 8 | u64::from(*byte));
        for (lane, at) in lanes.iter_mut().zip(0u64..) {
            *lane = (*lane ^ word ^ (i as u64) << (7 * at)).wrapping_mul(0x0001_0000_01B3 + 2 * at).rotate_left(23 + at as u32);
        }
    }
    for lane in &mut lanes {
        *lane = (*lane ^ *lane >> 29).wrapping_mul(0xBF58_476D_1CE4_E5B9);
        *lane ^= *lane >> 32;
    }
    lanes
}

// A content, and how many pages have it.
struct Content {
    bytes: Arc<Bytes>,
    users: u64,
}

// The pages whose digests fall to one book.
struct Shard {
    book: Book,
    contents: HashMap<Page, Content>,
}

impl Shard {
    fn open() -> Result<Shard, Error> {
        let mut book = Book::open(Shape { nodes: NODES, frames_per_node: FRAMES_PER_NODE, passes: 1, ..Shape::SMALL })?;
        for knob in [Command::SetLimit(1024), Command::SetZeroPages(1), Command::SetRun(1)] {
            book.apply(knob)?;
        }
        Ok(Shard { book, contents: HashMap::new() })
    }

    // Two visits of each page: the first sees that it stays, the second merges it.
    fn merge(&mut self) -> Result<(), Error> {
        let counters = self.book.counters();
        let visits = 2 * (counters.unshared + counters.volatile + counters.sharing + counters.shared + counters.zero) + 4;
        self.book.apply(Command::Scan { visits })?;
        Ok(())
    }

    // A frame of any node; where none is free, after a merge.
    fn register(&mut self, page: GuestPage, bytes: Page) -> Result<(), Fault> {
        for _ in 0..2 {
            for i in 0..NODES {
                match self.book.apply(Command::Register { page, node: (page.page + i) % NODES, bytes }) {
                    Err(Error::NoFrame(_)) => {}
                    answer => return Ok(answer.map(|_| ())?),
                }
            }
            self.merge()?;
        }
        Err(Fault::Full)
    }

    fn add(&mut self, page: GuestPage, words: Page, bytes: &Bytes) -> Result<(), Fault> {
        if let Some(content) = self.contents.get(&words) {
            if *content.bytes != *bytes {
                return Err(Fault::Digest);
            }
        }
        self.register(page, words)?;
        self.contents.entry(words).or_insert_with(|| Content { bytes: Arc::new(*bytes), users: 0 }).users += 1;
        Ok(())
    }

    fn remove(&mut self, page: GuestPage) -> Result<(), Fault> {
        let words = self.book.read(page).ok_or(Fault::Unknown)?;
        self.book.apply(Command::Drop { page })?;
        let content = self.contents.get_mut(&words).ok_or(Fault::Unknown)?;
        content.users -= 1;
        if content.users == 0 {
            self.contents.remove(&words);
        }
        Ok(())
    }

    fn read(&mut self, page: GuestPage) -> Result<Arc<Bytes>, Fault> {
        let words = self.book.read(page).ok_or(Fault::Unknown)?;
        self.contents.get(&words).map(|content| Arc::clone(&content.bytes)).ok_or(Fault::Unknown)
    }
}

// An image: the guest that it is in the books, and the book of each of its pages.
struct Image {
    guest: u16,
    shards: Vec<u32>,
}

/// Images by name. Threads share it: each book has a lock of its own.
pub struct Store {
    shards: Vec<Mutex<Shard>>,
    images: RwLock<BTreeMap<String, Arc<Image>>>,
    guests: Mutex<Vec<u16>>,
}

fn locked<T>(lock: &Mutex<T>) -> MutexGuard<'_, T> {
    lock.lock().unwrap_or_else(PoisonError::into_inner)
}

impl Store {
    /// A store for so many contents.
    pub fn open(contents: usize) -> Result<Store, Error> {
        let shards = (0..contents / CONTENTS + 1).map(|_| Ok(Mutex::new(Shard::open()?))).collect::<Result<_, Error>>()?;
        Ok(Store { shards, images: RwLock::default(), guests: Mutex::new((0..u16::MAX).rev().collect()) })
    }

    fn image(&self, name: &str) -> Result<Arc<Image>, Fault> {
        let images = self.images.read().unwrap_or_else(PoisonError::into_inner);
        images.get(name).map(Arc::clone).ok_or(Fault::Unknown)
    }

    /// Puts an image in, of which the last page is filled up with zeroes. Refused, it leaves the store as it was.
    pub fn add(&self, name: &str, image: &[u8]) -> Result<(), Fault> {
        let guest = locked(&self.guests).pop().ok_or(Fault::Full)?;
        let mut shards = Vec::new();
        for (chunk, page) in image.chunks(PAGE).zip(0..) {
            let mut bytes = [0; PAGE];
            bytes[..chunk.len()].copy_from_slice(chunk);
            let words = digest(&bytes);
            let shard = (words[0] % self.shards.len() as u64) as u32;
            let added = locked(&self.shards[shard as usize]).add(GuestPage { guest, page }, words, &bytes);
            if let Err(fault) = added {
                self.drop_pages(guest, &shards)?;
                return Err(fault);
            }
            shards.push(shard);
        }
        for shard in &self.shards {
            locked(shard).merge()?;
        }
        let mut images = self.images.write().unwrap_or_else(PoisonError::into_inner);
        if images.contains_key(name) {
            drop(images);
            self.drop_pages(guest, &shards)?;
            return Err(Fault::Known);
        }
        images.insert(name.into(), Arc::new(Image { guest, shards }));
        Ok(())
    }

    fn drop_pages(&self, guest: u16, shards: &[u32]) -> Result<(), Fault> {
        for (shard, page) in shards.iter().zip(0..) {
            locked(&self.shards[*shard as usize]).remove(GuestPage { guest, page })?;
        }
        locked(&self.guests).push(guest);
        Ok(())
    }

    /// Takes an image out. Whoever reads it meanwhile is told that there is no such page.
    pub fn remove(&self, name: &str) -> Result<(), Fault> {
        let image = {
            let mut images = self.images.write().unwrap_or_else(PoisonError::into_inner);
            images.remove(name).ok_or(Fault::Unknown)?
        };
        self.drop_pages(image.guest, &image.shards)
    }

    /// The bytes of a page of an image.
    pub fn read(&self, name: &str, page: u32) -> Result<Arc<Bytes>, Fault> {
        let image = self.image(name)?;
        let shard = *image.shards.get(page as usize).ok_or(Fault::Unknown)?;
        locked(&self.shards[shard as usize]).read(GuestPage { guest: image.guest, page })
    }

    // The words of each page of an image.
    fn words_of(&self, image: &Image) -> Result<Vec<Page>, Fault> {
        let read = |(shard, page): (&u32, u32)| {
            locked(&self.shards[*shard as usize]).book.read(GuestPage { guest: image.guest, page }).ok_or(Fault::Unknown)
        };
        image.shards.iter().zip(0..).map(read).collect()
    }

    /// The images by name, with what the store has of each. Nobody may take one out meanwhile.
    pub fn list(&self) -> Result<Vec<Listed>, Fault> {
        let images = self.images.read().unwrap_or_else(PoisonError::into_inner);
        let mut having: HashMap<Page, u64> = HashMap::new();
        let mut listed = Vec::new();
        for (name, image) in images.iter() {
            let words = self.words_of(image)?;
            let zero = words.iter().filter(|words| **words == [0; 8]).count() as u64;
            let contents: HashSet<Page> = words.into_iter().filter(|words| *words != [0; 8]).collect();
            for words in &contents {
                *having.entry(*words).or_default() += 1;
            }
            listed.push((Listed { name: name.clone(), pages: image.shards.len() as u64, zero, alone: 0 }, contents));
        }
        let alone = |contents: HashSet<Page>| contents.iter().filter(|words| having[*words] == 1).count() as u64;
        Ok(listed.into_iter().map(|(image, contents)| Listed { alone: alone(contents), ..image }).collect())
    }

    /// What the store has.
    pub fn stat(&self) -> Stat {
        let mut stat = Stat::default();
        for shard in &self.shards {
            let mut shard = locked(shard);
            let counters = shard.book.counters();
            stat.sharing += counters.sharing;
            stat.zero += counters.zero;
            stat.pages += shard.contents.values().map(|content| content.users).sum::<u64>();
            stat.contents += shard.contents.keys().filter(|words| **words != [0; 8]).count() as u64;
        }
        stat
    }
}
