//! Four threads look pages up while the keeper moves them: each hold's words are of one life, and the counts at the end are the keeper's.
//! KSMBOOK_LOOKUPS says how many lookups are made in all (4,000,000).

use ksmbook::{Found, Kind, PAGE_WORDS, Page, Pass, Shape, Table};
use std::sync::atomic::{AtomicBool, AtomicUsize, Ordering};

const READERS: usize = 4;
const PLACES: u32 = 24;

fn page_of(frame: u32, life: u64) -> Page {
    std::array::from_fn(|i| (life << 20 | u64::from(frame) << 8 | i as u64).wrapping_mul(0x9E37_79B9_7F4A_7C15))
}

// Whether the words are those of one frame in one life, which the first of them tells.
fn is_one_life(page: &Page) -> bool {
    let told = page[0].wrapping_mul(0xF1DE_83E1_9937_733D);
    *page == page_of((told >> 8 & 0xFFF) as u32, told >> 20)
}

// Looks up so many times, and answers how many lookups held a frame.
fn read(pass: &mut Pass, lookups: u64, first: u32) -> u64 {
    let (mut place, mut held) = (first, 0);
    for n in 0..lookups {
        place = (place + 7) % PLACES;
        if n % 8 == 0 {
            if let Found::Held(hold) = pass.find(place).unwrap() {
                let told = hold.told();
                assert_eq!((told.place, hold.words()), (place, page_of(told.frame, told.life)));
                assert!((0..PAGE_WORDS).all(|i| hold.word(i) == Some(hold[i])));
                held += 1;
            }
        } else if let Found::Held(page) = pass.look_up(place).unwrap() {
            assert!(is_one_life(&page));
            held += 1;
        }
    }
    held
}

// Gives each place in turn a new frame, until nobody reads. `begun` is told once each has one.
fn keep(table: &mut Table, reading: &AtomicUsize, begun: &AtomicBool, frames: u32) -> u64 {
    let (mut at, mut place, mut moves) = ([None; PLACES as usize], 0, 0);
    while reading.load(Ordering::SeqCst) > 0 {
        for frame in 0..frames {
            let _is_held = table.reap(frame);
            let known = table.frame(frame).unwrap();
            if known.kind != Kind::Free {
                continue;
            }
            table.give(frame, &page_of(frame, known.life + 1)).unwrap();
            place = (place + 5) % PLACES;
            if let Some(old) = at[place as usize].replace(frame) {
                table.sub(old).unwrap();
            }
            table.publish(place, frame).unwrap();
            moves += 1;
            begun.store(moves >= u64::from(PLACES), Ordering::SeqCst);
        }
    }
    moves
}

#[test]
fn four_threads_and_a_keeper() {
    let lookups = std::env::var("KSMBOOK_LOOKUPS").map_or(4_000_000, |told| told.parse().unwrap());
    let mut table = Table::open(Shape { nodes: 4, frames_per_node: 8, ..Shape::SMALL }).unwrap();
    let mut passes: Vec<Pass> = (0..READERS).map(|_| table.pass().unwrap()).collect();
    let (reading, begun) = (AtomicUsize::new(READERS), AtomicBool::new(false));
    let (held, moves) = std::thread::scope(|scope| {
        let readers: Vec<_> = passes
            .iter_mut()
            .enumerate()
            .map(|(i, pass)| {
                let (reading, begun) = (&reading, &begun);
                scope.spawn(move || {
                    while !begun.load(Ordering::SeqCst) {
                        std::thread::yield_now();
                    }
                    let held = read(pass, lookups / READERS as u64, i as u32 * 5);
                    reading.fetch_sub(1, Ordering::SeqCst);
                    held
                })
            })
            .collect();
        let moves = keep(&mut table, &reading, &begun, 32);
        (readers.into_iter().map(|reader| reader.join().unwrap()).sum::<u64>(), moves)
    });
    drop(passes);
    for frame in 0..32 {
        if table.frame(frame).unwrap().kind == Kind::Stable {
            assert_eq!(table.freeze(frame), Ok(true), "a count that is not the keeper's");
        }
        if table.frame(frame).unwrap().kind == Kind::Dying {
            assert_eq!(table.reap(frame), Ok(true), "a count that is not 0");
        }
    }
    table.close().unwrap();
    assert!(held > 0 && moves > 0);
    println!("{lookups} lookups, {held} held; {moves} moves");
}
