//! A cache of values of any size.

use ksmbook::{Cache, Error, Shape};
use std::sync::Arc;
use std::sync::atomic::{AtomicBool, AtomicUsize, Ordering};

/// Counts the values that there are.
struct Counted(Arc<AtomicUsize>, u32);

fn counted(count: &Arc<AtomicUsize>, of: u32) -> Counted {
    count.fetch_add(1, Ordering::SeqCst);
    Counted(Arc::clone(count), of)
}

impl Drop for Counted {
    fn drop(&mut self) {
        self.0.fetch_sub(1, Ordering::SeqCst);
    }
}

#[test]
fn a_value_lives_as_long_as_it_is_read() {
    let count = Arc::new(AtomicUsize::new(0));
    let cache = Cache::open(2, 2).unwrap();
    let (mut one, mut other) = (cache.reader().unwrap(), cache.reader().unwrap());
    assert_eq!(cache.reader().err(), Some(Error::NoPass));
    cache.put(1, counted(&count, 10)).unwrap();
    let held = one.get(1).unwrap().unwrap();
    cache.put(1, counted(&count, 11)).unwrap();
    assert_eq!((cache.collect(), count.load(Ordering::SeqCst)), (0, 2));
    assert_eq!((held.1, other.get(1).unwrap().unwrap().1), (10, 11));
    drop(held);
    assert_eq!((cache.collect(), count.load(Ordering::SeqCst)), (1, 1));
    assert_eq!((cache.remove(1), cache.remove(1), cache.remove(0)), (Ok(true), Ok(false), Ok(false)));
    assert_eq!(count.load(Ordering::SeqCst), 0);
    assert!(one.get(1).unwrap().is_none());
    assert_eq!(other.get_or_fill(1, || counted(&count, 12)).unwrap().1, 12);
    assert_eq!(one.get_or_fill(1, || unreachable!()).unwrap().1, 12);
    drop((one, other, cache));
    assert_eq!(count.load(Ordering::SeqCst), 0);
}

#[test]
fn what_is_refused() {
    assert_eq!(Cache::<u8>::open(0, 1).err(), Some(Error::Shape));
    assert_eq!(Cache::<u8>::open(Shape::MOST_NODES * Shape::MOST_FRAMES_PER_NODE, 1).err(), Some(Error::Shape));
    assert_eq!(Cache::<u8>::open(1, Shape::MOST_PASSES + 1).err(), Some(Error::Shape));
    let cache = Cache::open(1, 2).unwrap();
    let (mut one, mut other) = (cache.reader().unwrap(), cache.reader().unwrap());
    assert_eq!((cache.put(1, 0), one.get(1).err(), cache.remove(1)), (Err(Error::Range), Some(Error::Range), Err(Error::Range)));
    cache.put(0, 5).unwrap();
    let first = one.get(0).unwrap().unwrap();
    cache.put(0, 6).unwrap();
    // Two frames: the one is held, the other has the value.
    assert_eq!(cache.put(0, 7), Err(Error::Full));
    assert_eq!((*first, *other.get(0).unwrap().unwrap()), (5, 6));
    drop(first);
    cache.put(0, 7).unwrap();
    assert_eq!(*one.get(0).unwrap().unwrap(), 7);
}

// Of a host's size it would take all memory.
#[test]
fn the_largest_cache() {
    let keys = (Shape::MOST_NODES * Shape::MOST_FRAMES_PER_NODE).min(1024) - 1;
    let cache = Cache::open(keys, Shape::MOST_PASSES).unwrap();
    let mut reader = cache.reader().unwrap();
    for round in 0..3u32 {
        for key in 0..keys {
            cache.put(key, round * 2000 + key).unwrap();
        }
    }
    for key in 0..keys {
        assert_eq!(*reader.get(key).unwrap().unwrap(), 4000 + key);
    }
}

// One key is filled and emptied again and again under three readers: each finds a value that was put, or none, and never waits.
#[test]
fn a_key_that_is_emptied_is_found_empty() {
    let cache = Cache::open(2, 4).unwrap();
    let done = AtomicBool::new(false);
    let (found, none) = std::thread::scope(|scope| {
        let readers: Vec<_> = (0..3)
            .map(|_| {
                scope.spawn(|| {
                    let (mut reader, mut last, mut found, mut none) = (cache.reader().unwrap(), 0, 0u64, 0u64);
                    while !done.load(Ordering::SeqCst) {
                        match reader.get(1).unwrap() {
                            Some(value) => {
                                assert!(*value >= last && *value % 2 == 1, "{} after {last}", *value);
                                (last, found) = (*value, found + 1);
                            }
                            None => none += 1,
                        }
                    }
                    (found, none)
                })
            })
            .collect();
        for round in 0..50_000u64 {
            while cache.put(1, 2 * round + 1) == Err(Error::Full) {
                std::thread::yield_now();
            }
            assert_eq!(cache.remove(1), Ok(true));
        }
        done.store(true, Ordering::SeqCst);
        readers.into_iter().map(|reader| reader.join().unwrap()).fold((0, 0), |sum, one| (sum.0 + one.0, sum.1 + one.1))
    });
    assert!(cache.reader().unwrap().get(1).unwrap().is_none());
    println!("{found} found, {none} found empty");
}

#[test]
fn a_panic_leaves_the_cache_as_it_was() {
    let cache = Cache::open(1, 1).unwrap();
    let theirs = cache.clone();
    let panicked = std::thread::spawn(move || {
        let mut reader = theirs.reader().unwrap();
        let _ = reader.get_or_fill(0, || -> u32 { panic!("on purpose") });
    });
    assert!(panicked.join().is_err());
    // Its pass came back, and its lock is free.
    let mut reader = cache.reader().unwrap();
    assert!(reader.get(0).unwrap().is_none());
    assert_eq!(*reader.get_or_fill(0, || 3).unwrap(), 3);
}

// A value whose drop changes the cache: values are dropped where no lock is held.
#[test]
fn a_value_may_call_its_cache_when_it_is_dropped() {
    struct Again(Option<Cache<Again>>);
    impl Drop for Again {
        fn drop(&mut self) {
            if let Some(cache) = self.0.take() {
                cache.put(1, Again(None)).unwrap();
            }
        }
    }
    let cache = Cache::open(2, 1).unwrap();
    cache.put(0, Again(Some(cache.clone()))).unwrap();
    assert_eq!(cache.remove(0), Ok(true));
    assert!(cache.reader().unwrap().get(1).unwrap().is_some());
}

// One key is replaced so many times (KSMBOOK_REPLACED, 200,000) under six readers: none finds it empty, or goes back.
#[test]
fn a_key_that_is_replaced_is_never_empty() {
    let replaced = std::env::var("KSMBOOK_REPLACED").map_or(200_000, |told| told.parse().unwrap());
    let cache = Cache::open(8, 6).unwrap();
    cache.put(3, 0u64).unwrap();
    let done = AtomicBool::new(false);
    let reads: u64 = std::thread::scope(|scope| {
        let readers: Vec<_> = (0..6)
            .map(|_| {
                scope.spawn(|| {
                    let (mut reader, mut last, mut reads) = (cache.reader().unwrap(), 0, 0);
                    loop {
                        let value = *reader.get(3).unwrap().expect("never empty");
                        assert!(value >= last, "{value} after {last}");
                        (last, reads) = (value, reads + 1);
                        if done.load(Ordering::SeqCst) {
                            return reads;
                        }
                    }
                })
            })
            .collect();
        for value in 1..=replaced {
            while cache.put(3, value) == Err(Error::Full) {
                std::thread::yield_now();
            }
        }
        done.store(true, Ordering::SeqCst);
        readers.into_iter().map(|reader| reader.join().unwrap()).sum()
    });
    assert!(reads > 0);
    println!("{replaced} replacements under six readers, {reads} reads");
}
