//! A page cache: one writer replaces pages while readers look them up, and each answer is compared with a plain map.
//!
//!   cargo run --release --example page_cache -- [SECONDS [READERS]]
//!
//! The writer replaces pages for SECONDS (5), under READERS (7). The map says how many times each page was written. A reader looks there before and
//! after its lookup: the version that it read has to be one of those between, and its words those of that version. Ends with how many pages were
//! written and found, or panics at what was wrong.

use ksmbook::{Error, Found, Gone, Kind, Page, Pass, Shape, Table};
use std::collections::HashMap;
use std::sync::Mutex;
use std::sync::atomic::{AtomicBool, Ordering};
use std::time::{Duration, Instant};

const KEYS: u32 = 100;

fn page(key: u32, version: u64) -> Page {
    std::array::from_fn(|i| match i {
        0 => u64::from(key),
        1 => version,
        i => (u64::from(key) << 32 ^ version).wrapping_mul(2 * i as u64 + 1),
    })
}

/// Pages by key: key and place are one number, and a page lies in some frame.
struct Cache {
    table: Table,
    frame_of: HashMap<u32, u32>,
    free: Vec<u32>,
    dying: Vec<u32>,
}

impl Cache {
    fn open(passes: u32) -> Result<Cache, Error> {
        let table = Table::open(Shape { frames_per_node: 128, passes, ..Shape::SMALL })?;
        Ok(Cache { table, frame_of: HashMap::new(), free: (0..128).collect(), dying: Vec::new() })
    }

    // A frame that nobody reads any more.
    fn free_frame(&mut self) -> Result<u32, Error> {
        loop {
            if let Some(frame) = self.free.pop() {
                return Ok(frame);
            }
            let left = self.table.reap_all(&mut self.dying)?;
            self.free.extend(self.dying.drain(left..));
        }
    }

    // Readers see the page before or this one.
    fn write(&mut self, key: u32, page: &Page) -> Result<(), Error> {
        let frame = self.free_frame()?;
        self.table.give(frame, page)?;
        match self.frame_of.insert(key, frame) {
            None => self.table.publish(key, frame),
            Some(old) => {
                self.table.replace(key, frame)?;
                self.table.sub(old)?;
                self.dying.push(old);
                Ok(())
            }
        }
    }

    // Replaces each page, again and again until it is told to end. Answers how many were written.
    fn write_all(&mut self, map: &Mutex<HashMap<u32, u64>>, is_over: impl Fn() -> bool) -> Result<u64, Error> {
        let mut writes = 0;
        while !is_over() {
            for key in (0..KEYS).map(|n| n * 61 % KEYS) {
                let version = map.lock().unwrap()[&key] + 1;
                self.write(key, &page(key, version))?;
                map.lock().unwrap().insert(key, version);
                writes += 1;
            }
        }
        Ok(writes)
    }
}

// Whom a replacement overtook looks again; no place is ever empty.
fn look_up(pass: &mut Pass, key: u32) -> Page {
    loop {
        match pass.look_up(key).expect("a key of the cache") {
            Found::Held(found) => return found,
            Found::Gone(why) => assert_ne!(why, Gone::Vacant, "a page that is replaced is never gone"),
        }
    }
}

fn read(pass: &mut Pass, key: u32, map: &Mutex<HashMap<u32, u64>>) {
    let written = || map.lock().unwrap()[&key];
    let before = written();
    let found = look_up(pass, key);
    // The writer may have published one page that the map does not say yet.
    let after = written() + 1;
    assert_eq!(found, page(key, found[1]), "words of two pages");
    assert!((before..=after).contains(&found[1]), "version {} of {key}, between {before} and {after}", found[1]);
}

// Reads until all is done. Answers how many pages were found.
fn read_all(pass: &mut Pass, map: &Mutex<HashMap<u32, u64>>, done: &AtomicBool, first: u32) -> u64 {
    let (mut key, mut found) = (first, 0);
    while !done.load(Ordering::SeqCst) {
        key = (key + 37) % KEYS;
        read(pass, key, map);
        found += 1;
    }
    assert!(found > 0, "reader {first} found nothing");
    found
}

fn main() -> Result<(), Error> {
    let mut words = std::env::args().skip(1).map(|word| word.parse::<u32>().expect("a number"));
    let (seconds, readers) = (words.next().unwrap_or(5), words.next().unwrap_or(7));
    let mut cache = Cache::open(readers)?;
    let mut passes = (0..readers).map(|_| cache.table.pass()).collect::<Result<Vec<Pass>, Error>>()?;
    for key in 0..KEYS {
        cache.write(key, &page(key, 0))?;
    }
    let map = Mutex::new((0..KEYS).map(|key| (key, 0)).collect::<HashMap<u32, u64>>());
    let done = AtomicBool::new(false);
    let (writes, found) = std::thread::scope(|scope| {
        let (map, done) = (&map, &done);
        let reading: Vec<_> = (0u32..).zip(&mut passes).map(|(first, pass)| scope.spawn(move || read_all(pass, map, done, first))).collect();
        let end = Instant::now() + Duration::from_secs(u64::from(seconds));
        // A reader ends before it is told to where it found something wrong.
        let writes = cache.write_all(map, || Instant::now() >= end || reading.iter().any(|thread| thread.is_finished()));
        done.store(true, Ordering::SeqCst);
        let found: u64 = reading.into_iter().map(|thread| thread.join().expect("nothing wrong")).sum();
        Ok::<_, Error>((writes?, found))
    })?;
    drop(passes);
    for frame in cache.frame_of.into_values() {
        assert!(cache.table.freeze(frame)?, "a reference is left");
        assert_eq!(cache.table.frame(frame)?.kind, Kind::Dying);
    }
    cache.table.close()?;
    println!("{writes} pages written, {found} found by {readers} readers, each as the map says");
    Ok(())
}
