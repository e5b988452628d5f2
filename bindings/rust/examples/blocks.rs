//! Blocks of 4 KiB in a cache: threads read them, fill them and replace them, and no reader finds a key empty that has a value, a block of two
//! versions, or one older than a replacement that it knows of.
//!
//!   cargo run --release --example blocks -- [SECONDS [READERS [WRITERS]]]
//!
//! SECONDS (5), READERS (6), WRITERS (2). Ends with how often blocks were read and replaced, or panics at what was wrong.

use ksmbook::{Cache, Error};
use std::sync::atomic::{AtomicBool, AtomicU64, Ordering};
use std::time::{Duration, Instant};

const KEYS: u32 = 64;
const WORDS: usize = 512;

/// A block of 4 KiB, and how many of them there are.
struct Block([u64; WORDS]);

static BLOCKS: AtomicU64 = AtomicU64::new(0);

impl Block {
    fn new(key: u32, version: u64) -> Block {
        BLOCKS.fetch_add(1, Ordering::Relaxed);
        Block(std::array::from_fn(|i| word(key, version, i)))
    }

    /// The version of a block, whose words are all of it.
    fn version(&self, key: u32) -> u64 {
        let version = self.0[0] >> 16;
        assert!(self.0.iter().enumerate().all(|(i, found)| *found == word(key, version, i)), "words of two blocks");
        version
    }
}

impl Drop for Block {
    fn drop(&mut self) {
        // Whoever reads a block that was dropped sees this.
        self.0.fill(0);
        BLOCKS.fetch_sub(1, Ordering::Relaxed);
    }
}

fn word(key: u32, version: u64, i: usize) -> u64 {
    (version << 16 | u64::from(key)).wrapping_mul(2 * i as u64 + 1)
}

fn read(cache: &Cache<Block>, written: &[AtomicU64], done: &AtomicBool, first: u32) -> Result<u64, Error> {
    let (mut reader, mut key, mut reads) = (cache.reader()?, first, 0);
    while !done.load(Ordering::SeqCst) {
        key = (key + 37) % KEYS;
        let known = written[key as usize].load(Ordering::SeqCst);
        let block = reader.get(key)?.expect("each key has a value all the time");
        assert!(block.version(key) >= known, "an older block than was known");
        reads += 1;
    }
    assert!(reads > 0, "reader {first} read none");
    Ok(reads)
}

fn write(cache: &Cache<Block>, written: &[AtomicU64], done: &AtomicBool, keys: std::ops::Range<u32>) -> Result<u64, Error> {
    let mut writes = 0;
    while !done.load(Ordering::SeqCst) {
        for key in keys.clone() {
            let version = written[key as usize].load(Ordering::SeqCst) + 1;
            match cache.put(key, Block::new(key, version)) {
                // Readers may hold as many old blocks as there are frames for: then the writer waits for them.
                Err(Error::Full) => std::thread::yield_now(),
                answer => {
                    answer?;
                    written[key as usize].store(version, Ordering::SeqCst);
                    writes += 1;
                }
            }
        }
    }
    Ok(writes)
}

fn main() -> Result<(), Error> {
    let mut words = std::env::args().skip(1).map(|word| word.parse::<u32>().expect("a number"));
    let (seconds, readers, writers) = (words.next().unwrap_or(5), words.next().unwrap_or(6), words.next().unwrap_or(2));
    assert!((1..=KEYS).contains(&writers), "1 to {KEYS} writers");
    let cache = Cache::open(KEYS, readers + 1)?;
    let mut filler = cache.reader()?;
    for key in 0..KEYS {
        assert!(filler.get(key)?.is_none());
        assert_eq!(filler.get_or_fill(key, || Block::new(key, 0))?.version(key), 0);
    }
    let written: Vec<AtomicU64> = (0..KEYS).map(|_| AtomicU64::new(0)).collect();
    let done = AtomicBool::new(false);
    let (reads, writes) = std::thread::scope(|scope| {
        let (cache, written, done) = (&cache, &written[..], &done);
        let reading: Vec<_> = (0..readers).map(|first| scope.spawn(move || read(cache, written, done, first))).collect();
        let share = KEYS / writers;
        let writing: Vec<_> = (0..writers).map(|i| scope.spawn(move || write(cache, written, done, i * share..(i + 1) * share))).collect();
        let end = Instant::now() + Duration::from_secs(u64::from(seconds));
        while Instant::now() < end && !reading.iter().any(|thread| thread.is_finished()) {
            std::thread::sleep(Duration::from_millis(20));
        }
        done.store(true, Ordering::SeqCst);
        let sum = |threads: Vec<std::thread::ScopedJoinHandle<'_, Result<u64, Error>>>| {
            threads.into_iter().map(|thread| thread.join().expect("nothing wrong")).sum::<Result<u64, Error>>()
        };
        Ok::<_, Error>((sum(reading)?, sum(writing)?))
    })?;
    cache.collect();
    assert_eq!(BLOCKS.load(Ordering::Relaxed), u64::from(KEYS), "blocks that nobody reads are dropped");
    drop((filler, cache));
    assert_eq!(BLOCKS.load(Ordering::Relaxed), 0, "each block is dropped once");
    println!("{reads} blocks read by {readers} threads, {writes} replaced by {writers}, none empty, torn or older than known");
    Ok(())
}
