//! Memory images of guests in one store, each content once; images come and go while others are read by several threads, and each is read back
//! byte for byte.
//!
//!   snapshots [--readers N] [--contents N] [--json] FILE ..
//!
//! Each FILE is an image. They go in one after another, and each second one goes out and in again, while N threads (4) read pages of those that are
//! there and compare them with the files. Then all are listed and compared, and what is saved is printed, with --json as one line of JSON. The store
//! is opened for N contents, as many as the files have pages if none is given.

mod store;

use std::error::Error;
use std::sync::atomic::{AtomicBool, AtomicU64, Ordering};
use store::{Bytes, Fault, Listed, PAGE, Stat, Store};

struct Options {
    readers: usize,
    contents: Option<usize>,
    is_json: bool,
    files: Vec<String>,
}

fn options() -> Result<Options, Box<dyn Error>> {
    let mut options = Options { readers: 4, contents: None, is_json: false, files: Vec::new() };
    let mut words = std::env::args().skip(1);
    while let Some(word) = words.next() {
        match word.as_str() {
            "--readers" => options.readers = words.next().ok_or("--readers wants a number")?.parse()?,
            "--contents" => options.contents = Some(words.next().ok_or("--contents wants a number")?.parse()?),
            "--json" => options.is_json = true,
            _ => options.files.push(word),
        }
    }
    if options.files.is_empty() {
        return Err("snapshots [--readers N] [--contents N] [--json] FILE ..".into());
    }
    Ok(options)
}

/// An image as its file has it.
struct Given {
    name: String,
    bytes: Vec<u8>,
}

impl Given {
    fn pages(&self) -> u32 {
        ((self.bytes.len() + PAGE - 1) / PAGE) as u32
    }

    fn is_page(&self, page: u32, found: &Bytes) -> bool {
        let wanted = &self.bytes[page as usize * PAGE..self.bytes.len().min((page as usize + 1) * PAGE)];
        found[..wanted.len()] == *wanted && found[wanted.len()..].iter().all(|byte| *byte == 0)
    }
}

// Reads pages of images, until it is told to stop. `changes` counts how often each came or went: at an odd count it is there.
fn read(store: &Store, given: &[Given], changes: &[AtomicU64], done: &AtomicBool, first: u64, read: &AtomicU64) {
    let mut seed = first;
    while !done.load(Ordering::SeqCst) {
        seed = seed.wrapping_mul(6_364_136_223_846_793_005).wrapping_add(1_442_695_040_888_963_407);
        let at = (seed >> 33) as usize % given.len();
        let image = &given[at];
        let page = (seed >> 17) as u32 % image.pages().max(1);
        let before = changes[at].load(Ordering::SeqCst);
        match store.read(&image.name, page) {
            Ok(bytes) => assert!(image.is_page(page, &bytes), "page {page} of {} is not as it was", image.name),
            Err(Fault::Unknown) => {
                let is_lost = before % 2 == 1 && changes[at].load(Ordering::SeqCst) == before;
                assert!(!is_lost, "page {page} of {} is lost", image.name);
            }
            Err(fault) => panic!("{fault}"),
        }
        read.fetch_add(1, Ordering::Relaxed);
    }
}

// Images go in, and each second one goes out and in again.
fn come_and_go(store: &Store, given: &[Given], changes: &[AtomicU64]) -> Result<(), Fault> {
    for (image, changes) in given.iter().zip(changes) {
        store.add(&image.name, &image.bytes)?;
        changes.fetch_add(1, Ordering::SeqCst);
    }
    for (image, changes) in given.iter().zip(changes).step_by(2) {
        changes.fetch_add(1, Ordering::SeqCst);
        store.remove(&image.name)?;
        store.add(&image.name, &image.bytes)?;
        changes.fetch_add(1, Ordering::SeqCst);
    }
    Ok(())
}

fn megabytes(pages: u64) -> f64 {
    (pages * PAGE as u64) as f64 / 1e6
}

// How many bytes of this process are in memory.
fn resident() -> u64 {
    let told = std::fs::read_to_string("/proc/self/statm").unwrap_or_default();
    told.split_whitespace().nth(1).and_then(|pages| pages.parse::<u64>().ok()).unwrap_or(0) * 4096
}

/// What was stored, what the store took beside the files, and how many pages were read by how many threads.
struct Told {
    images: Vec<Listed>,
    stat: Stat,
    bytes: u64,
    reads: u64,
    readers: usize,
}

fn print(told: &Told) {
    let Stat { pages, contents, sharing, zero } = told.stat;
    for image in &told.images {
        println!("{}: {} pages, {} of them empty, {} contents of its own", image.name, image.pages, image.zero, image.alone);
    }
    println!("{pages} pages, {:.1} MB: {contents} contents, {:.1} MB, and {zero} empty pages", megabytes(pages), megabytes(contents));
    println!("the store takes {:.1} MB in all; the books share {sharing} pages: {:.1} MB are saved, {:.1} with the empty ones",
        told.bytes as f64 / 1e6, megabytes(sharing), megabytes(sharing + zero));
    println!("{} pages were read by {} threads while images came and went, and all again in the end: each as it was", told.reads, told.readers);
}

// A text between quotes, as JSON has it.
fn quoted(text: &str) -> String {
    let escaped = |letter: char| match letter {
        '"' | '\\' => format!("\\{letter}"),
        letter if letter < ' ' => format!("\\u{:04x}", u32::from(letter)),
        letter => letter.to_string(),
    };
    format!("\"{}\"", text.chars().map(escaped).collect::<String>())
}

fn print_json(told: &Told) {
    let Stat { pages, contents, sharing, zero } = told.stat;
    let images: Vec<String> = told
        .images
        .iter()
        .map(|of| format!("{{\"name\": {}, \"pages\": {}, \"zero\": {}, \"alone\": {}}}", quoted(&of.name), of.pages, of.zero, of.alone))
        .collect();
    println!(
        "{{\"images\": [{}], \"pages\": {pages}, \"contents\": {contents}, \"sharing\": {sharing}, \"zero\": {zero}, \"bytes\": {}, \
         \"reads\": {}, \"readers\": {}}}",
        images.join(", "),
        told.bytes,
        told.reads,
        told.readers
    );
}

fn main() -> Result<(), Box<dyn Error>> {
    let options = options()?;
    let given = options
        .files
        .iter()
        .map(|name| Ok(Given { name: name.clone(), bytes: std::fs::read(name)? }))
        .collect::<Result<Vec<Given>, std::io::Error>>()?;
    let pages: usize = given.iter().map(|image| image.pages() as usize).sum();
    let before = resident();
    let store = Store::open(options.contents.unwrap_or(pages))?;
    let changes: Vec<AtomicU64> = given.iter().map(|_| AtomicU64::new(0)).collect();
    let (done, reads) = (AtomicBool::new(false), AtomicU64::new(0));
    std::thread::scope(|scope| {
        for first in 0..options.readers as u64 {
            let (store, given, changes, done, reads) = (&store, &given[..], &changes[..], &done, &reads);
            scope.spawn(move || read(store, given, changes, done, first, reads));
        }
        let ended = come_and_go(&store, &given, &changes);
        done.store(true, Ordering::SeqCst);
        ended
    })
    .map_err(|fault| fault.to_string())?;
    let bytes = resident().saturating_sub(before);
    for image in &given {
        for page in 0..image.pages() {
            let bytes = store.read(&image.name, page).map_err(|fault| fault.to_string())?;
            assert!(image.is_page(page, &bytes), "page {page} of {} is not as it was", image.name);
        }
    }
    let images = store.list().map_err(|fault| fault.to_string())?;
    let told = Told { images, stat: store.stat(), bytes, reads: reads.load(Ordering::Relaxed), readers: options.readers };
    if options.is_json {
        print_json(&told);
    } else {
        print(&told);
    }
    for image in &given {
        store.remove(&image.name).map_err(|fault| fault.to_string())?;
    }
    assert_eq!(store.stat(), Stat::default(), "an empty store has nothing");
    Ok(())
}
