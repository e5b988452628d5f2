//! `callers WORK THREADS ROUNDS`: the work of the program `caller_times` of bench/programs in plain Rust, with one mutex round table and book,
//! and one `RwLock` round the row of counters.
//!
//! The book has just what that work needs: rows in a map, the frame of each, a journal, and places for lookups. A page that is merged
//! already stays so, since no other page is stored to.

use std::collections::BTreeMap;
use std::hint::black_box;
use std::ops::Bound::{Excluded, Unbounded};
use std::sync::{Mutex, RwLock};
use std::sync::atomic::{AtomicBool, Ordering};
use std::thread;

include!(concat!(env!("OUT_DIR"), "/page_words.rs"));

type Page = (u16, u32);
type Bytes = [u64; PAGE_WORDS];

#[derive(Clone, Copy)]
enum Command {
    Register { page: Page, bytes: Bytes },
    Store { page: Page, bytes: Bytes },
    Scan { visits: u64 },
}

#[derive(Clone, Copy, PartialEq)]
enum Answer {
    Done,
    Scanned(u64),
    Refused(u32),
}

/// Counters, and after how many entries of the journal they stand. A reader copies them whole.
#[derive(Clone, Copy, Default)]
#[allow(dead_code)]
struct Counted {
    number: u64,
    shared: u64,
    sharing: u64,
    unshared: u64,
    volatile: u64,
    chains: u64,
    dups: u64,
    full_scans: u64,
}

struct Row {
    frame: usize,
    bytes: Bytes,
    unchanged: bool,
    merged: bool,
}

#[derive(Default)]
struct Frame {
    count: u64,
    generation: u64,
    words: Bytes,
}

#[derive(Default)]
struct Book {
    rows: BTreeMap<Page, Row>,
    frames: Vec<Frame>,
    places: Vec<(u64, usize)>,
    cursor: Option<Page>,
    passes: u64,
    journal: Vec<(Command, Answer)>,
}

impl Book {
    fn apply(&mut self, command: Command) -> Answer {
        self.journal.reserve(1);
        let answer = match command {
            Command::Register { page, bytes } => self.register(page, bytes),
            Command::Store { page, bytes } => self.store(page, bytes),
            Command::Scan { visits } => self.scan(visits),
        };
        self.journal.push((command, answer));
        answer
    }

    fn register(&mut self, page: Page, bytes: Bytes) -> Answer {
        if self.rows.contains_key(&page) {
            return Answer::Refused(3);
        }
        let frame = self.frames.len();
        self.frames.push(Frame {
            count: 1,
            generation: 1,
            words: bytes,
        });
        self.rows.insert(
            page,
            Row {
                frame,
                bytes,
                unchanged: false,
                merged: false,
            },
        );
        Answer::Done
    }

    fn store(&mut self, page: Page, bytes: Bytes) -> Answer {
        let Some(row) = self.rows.get_mut(&page) else {
            return Answer::Refused(2);
        };
        row.unchanged &= row.bytes == bytes;
        row.bytes = bytes;
        self.frames[row.frame].words = bytes;
        Answer::Done
    }

    /// Visits in order; a merged page stays as it is, another becomes unchanged.
    fn scan(&mut self, visits: u64) -> Answer {
        for _ in 0..visits {
            let from = self.cursor.map_or(Unbounded, Excluded);
            let next = self.rows.range_mut((from, Unbounded)).next();
            match next {
                Some((page, row)) => {
                    if !row.merged {
                        row.unchanged = true;
                    }
                    self.cursor = Some(*page);
                }
                None => {
                    self.passes += 1;
                    self.cursor = None;
                }
            }
        }
        Answer::Scanned(visits)
    }

    /// The pages of guest 0 are merged in pairs, each pair at a place of its own.
    fn merge_pairs(&mut self) {
        for pair in 0..32 {
            let frame = self.rows[&(0, 2 * pair)].frame;
            self.frames[frame].count = 2;
            self.places.push((1, frame));
            for page in [2 * pair, 2 * pair + 1] {
                let row = self.rows.get_mut(&(0, page)).unwrap();
                row.frame = frame;
                row.merged = true;
            }
        }
    }

    fn find(&mut self, place: usize) -> Option<usize> {
        let (generation, frame) = *self.places.get(place)?;
        let found = &mut self.frames[frame];
        if found.count == 0 || found.generation != generation {
            return None;
        }
        found.count += 1;
        Some(frame)
    }
}

impl Book {
    /// The counters; here no page changes from merged to private or back once the pairs are merged.
    fn counted(&self) -> Counted {
        let places = self.places.len() as u64;
        Counted {
            number: self.journal.len() as u64,
            shared: places,
            sharing: places,
            volatile: self.rows.len() as u64 - 2 * places,
            full_scans: self.passes,
            ..Counted::default()
        }
    }
}

fn prepared() -> Book {
    let mut book = Book::default();
    for page in 0..64 {
        book.apply(Command::Register {
            page: (0, page),
            bytes: [u64::from(page / 2) + 1; PAGE_WORDS],
        });
    }
    book.merge_pairs();
    for guest in 1..5 {
        book.apply(Command::Register {
            page: (guest, 0),
            bytes: [(1 << 40) + u64::from(guest); PAGE_WORDS],
        });
    }
    book
}

fn store_all(book: &Mutex<Book>, guest: u16, rounds: u64) {
    for round in 0..rounds {
        let bytes = [round; PAGE_WORDS];
        let page = (guest, 0);
        black_box(book.lock().unwrap().apply(Command::Store { page, bytes }));
    }
}

fn look_all(book: &Mutex<Book>, rounds: u64) -> u64 {
    let mut sum = 0u64;
    for round in 0..rounds {
        let mut book = book.lock().unwrap();
        if let Some(frame) = book.find(round as usize % 32) {
            for word in book.frames[frame].words {
                sum = sum.wrapping_add(black_box(word));
            }
            book.frames[frame].count -= 1;
        }
    }
    sum
}

fn look_in_threads(book: &Mutex<Book>, threads: u64, rounds: u64) -> u64 {
    thread::scope(|scope| {
        let lookers: Vec<_> = (0..4)
            .map(|number| {
                let rounds = if number < threads { rounds } else { 0 };
                scope.spawn(move || look_all(book, rounds))
            })
            .collect();
        lookers
            .into_iter()
            .map(|looker| looker.join().unwrap())
            .fold(0, u64::wrapping_add)
    })
}

fn ask_all(counted: &RwLock<Counted>, rounds: u64) -> u64 {
    let mut sum = 0u64;
    for _ in 0..rounds {
        let row = *counted.read().unwrap();
        let pages = row.shared + row.sharing + row.unshared + row.volatile;
        sum = sum.wrapping_add(black_box((row, pages)).1);
    }
    sum
}

/// One more thread stores, and writes the counters after each store, until all rows were asked for.
fn ask_beside(book: &Mutex<Book>, threads: u64, rounds: u64) -> u64 {
    let counted = RwLock::new(book.lock().unwrap().counted());
    let ended = AtomicBool::new(false);
    thread::scope(|scope| {
        scope.spawn(|| {
            let mut round = 0;
            while !ended.load(Ordering::SeqCst) {
                let mut book = book.lock().unwrap();
                let bytes = [round; PAGE_WORDS];
                black_box(book.apply(Command::Store { page: (1, 0), bytes }));
                *counted.write().unwrap() = book.counted();
                round += 1;
            }
        });
        let askers: Vec<_> = (0..4)
            .map(|number| {
                let rounds = if number < threads { rounds } else { 0 };
                let counted = &counted;
                scope.spawn(move || ask_all(counted, rounds))
            })
            .collect();
        let sums = askers.into_iter().map(|asker| asker.join().unwrap());
        let sum = sums.fold(0, u64::wrapping_add);
        ended.store(true, Ordering::SeqCst);
        sum
    })
}

fn look_beside(book: &Mutex<Book>, threads: u64, rounds: u64) -> u64 {
    let ended = AtomicBool::new(false);
    thread::scope(|scope| {
        scope.spawn(|| {
            while !ended.load(Ordering::SeqCst) {
                black_box(book.lock().unwrap().apply(Command::Scan { visits: 64 }));
            }
        });
        let sum = look_in_threads(book, threads, rounds);
        ended.store(true, Ordering::SeqCst);
        sum
    })
}

fn main() {
    let words: Vec<String> = std::env::args().skip(1).collect();
    let number = |at: usize| words.get(at).map_or(1, |word| word.parse().expect("a number"));
    let (threads, rounds) = (number(1), number(2));
    let book = Mutex::new(prepared());
    let sum = match words.first().map(String::as_str) {
        Some("lookups") => look_in_threads(&book, threads, rounds),
        Some("beside") => look_beside(&book, threads, rounds),
        Some("rows") => ask_beside(&book, threads, rounds),
        _ => {
            thread::scope(|scope| {
                for guest in 1..5 {
                    let rounds = if u64::from(guest) <= threads { rounds } else { 0 };
                    let book = &book;
                    scope.spawn(move || store_all(book, guest, rounds));
                }
            });
            0
        }
    };
    println!("{sum}");
}
