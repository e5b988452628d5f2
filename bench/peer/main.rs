//! So many lookups by one thread, each on the next of 64 places: find, read eight words, leave. The first word names what is looked up.
//!
//! `none` is the loop alone: the index, and the sum of eight words that lie where they are.

use ksmbook::{Found, Page, Shape, Table};
use std::hint::black_box;
use std::sync::{Mutex, RwLock};

const PLACES: u32 = 64;

fn page(place: u32) -> Page {
    std::array::from_fn(|i| u64::from(place) + i as u64)
}

fn sum(page: &Page) -> u64 {
    page.iter().fold(0, |sum, word| sum.wrapping_add(*word))
}

// The loop of every mode.
#[inline(always)]
fn run(lookups: u64, mut look: impl FnMut(u32) -> u64) -> u64 {
    let (mut place, mut total) = (0, 0u64);
    for _ in 0..lookups {
        place = (place + 37) % PLACES;
        total = total.wrapping_add(look(place));
    }
    total
}

fn table() -> Table {
    let mut table = Table::open(Shape { frames_per_node: PLACES, ..Shape::SMALL }).expect("a table");
    for place in 0..PLACES {
        table.give(place, &page(place)).expect("a free frame");
        table.publish(place, place).expect("an empty place");
    }
    table
}

fn main() {
    let words: Vec<String> = std::env::args().collect();
    let lookups: u64 = words[2].parse().expect("a number");
    let pages: Vec<Page> = (0..PLACES).map(page).collect();
    let total = match words[1].as_str() {
        "none" => {
            let pages = black_box(&pages[..]);
            run(lookups, |place| sum(black_box(&pages[place as usize])))
        }
        "ksmbook-held" => {
            let table = table();
            let mut pass = table.pass().expect("a pass");
            run(lookups, |place| match pass.find(place) {
                Ok(Found::Held(hold)) => sum(&hold),
                _ => 0,
            })
        }
        "ksmbook" => {
            let table = table();
            let mut pass = table.pass().expect("a pass");
            let mut page = [0; 8];
            run(lookups, |place| match pass.look_up_into(place, &mut page) {
                Ok(None) => sum(&page),
                _ => 0,
            })
        }
        "mutex" => {
            let pages: Vec<Mutex<Page>> = pages.into_iter().map(Mutex::new).collect();
            let pages = black_box(&pages[..]);
            run(lookups, |place| sum(&pages[place as usize].lock().expect("no panic")))
        }
        "rwlock" => {
            let pages: Vec<RwLock<Page>> = pages.into_iter().map(RwLock::new).collect();
            let pages = black_box(&pages[..]);
            run(lookups, |place| sum(&pages[place as usize].read().expect("no panic")))
        }
        #[cfg(feature = "peers")]
        "arc-swap" => {
            let pages: Vec<arc_swap::ArcSwap<Page>> = pages.into_iter().map(arc_swap::ArcSwap::from_pointee).collect();
            let pages = black_box(&pages[..]);
            run(lookups, |place| sum(&pages[place as usize].load()))
        }
        #[cfg(feature = "peers")]
        "crossbeam-epoch" => {
            let pages: Vec<crossbeam_epoch::Atomic<Page>> = pages.into_iter().map(crossbeam_epoch::Atomic::new).collect();
            let pages = black_box(&pages[..]);
            run(lookups, |place| {
                let guard = crossbeam_epoch::pin();
                let page = pages[place as usize].load(std::sync::atomic::Ordering::Acquire, &guard);
                // SAFETY: no page is replaced here.
                unsafe { page.as_ref() }.map_or(0, sum)
            })
        }
        #[cfg(feature = "peers")]
        "sharded-slab" => {
            let slab = sharded_slab::Slab::new();
            let keys: Vec<usize> = pages.into_iter().map(|page| slab.insert(page).expect("room")).collect();
            let (slab, keys) = (black_box(&slab), black_box(&keys[..]));
            run(lookups, |place| slab.get(keys[place as usize]).map_or(0, |page| sum(&page)))
        }
        other => panic!("no mode {other}"),
    };
    println!("{total}");
}
