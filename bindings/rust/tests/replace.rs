//! One place is replaced again and again under six readers: none finds it empty, and each time that one finds its frame gone a replacement came
//! between. KSMBOOK_REPLACED says how often (200,000).

use ksmbook::{Found, Gone, PAGE_WORDS, Page, Pass, Shape, Table};
use std::sync::atomic::{AtomicBool, AtomicU64, Ordering};

const READERS: u32 = 6;
const FRAMES: u32 = 16;

// Looks the place up until a frame is found. Answers its words, and how many lookups found a frame gone.
fn look_up(pass: &mut Pass) -> (Page, u64) {
    let mut gone = 0;
    loop {
        match pass.look_up(0).unwrap() {
            Found::Held(page) => return (page, gone),
            Found::Gone(Gone::Busy) => {}
            Found::Gone(why) => {
                assert_ne!(why, Gone::Vacant, "a place that is replaced is never empty");
                gone += 1;
            }
        }
    }
}

// Reads once, and until all is done. Answers how often, and how many lookups were overtaken.
fn read(pass: &mut Pass, begun: &AtomicU64, done: &AtomicBool) -> (u64, u64) {
    let (mut reads, mut overtaken, mut last) = (0, 0, 0);
    loop {
        let before = begun.load(Ordering::SeqCst);
        let (page, gone) = look_up(pass);
        // The last of those that had begun before may have been made behind that.
        let between = begun.load(Ordering::SeqCst) - before + 1;
        assert!(gone <= between, "{gone} times gone, {between} replacements");
        assert!(page == [page[0]; PAGE_WORDS] && page[0] >= last, "{page:?} after {last}");
        (reads, overtaken, last) = (reads + 1, overtaken + gone, page[0]);
        if done.load(Ordering::SeqCst) {
            return (reads, overtaken);
        }
    }
}

// Replaces the place so often; the number of each replacement is told before it is made.
fn replace(table: &mut Table, begun: &AtomicU64, replaced: u64) {
    let (mut named, mut free, mut dying) = (0, (1..FRAMES).collect::<Vec<u32>>(), Vec::new());
    for n in 1..=replaced {
        while free.is_empty() {
            let left = table.reap_all(&mut dying).unwrap();
            free.extend(dying.drain(left..));
        }
        let frame = free.pop().unwrap();
        table.give(frame, &[n; PAGE_WORDS]).unwrap();
        begun.store(n, Ordering::SeqCst);
        table.replace(0, frame).unwrap();
        table.sub(named).unwrap();
        dying.push(named);
        named = frame;
    }
}

#[test]
fn whoever_is_overtaken_finds_another_frame() {
    let replaced = std::env::var("KSMBOOK_REPLACED").map_or(200_000, |told| told.parse().unwrap());
    let mut table = Table::open(Shape { frames_per_node: FRAMES, passes: READERS, ..Shape::SMALL }).unwrap();
    let mut passes: Vec<Pass> = (0..READERS).map(|_| table.pass().unwrap()).collect();
    table.give(0, &[0; PAGE_WORDS]).unwrap();
    table.publish(0, 0).unwrap();
    let (begun, done) = (AtomicU64::new(0), AtomicBool::new(false));
    let (reads, overtaken) = std::thread::scope(|scope| {
        let readers: Vec<_> = passes.iter_mut().map(|pass| scope.spawn(|| read(pass, &begun, &done))).collect();
        replace(&mut table, &begun, replaced);
        done.store(true, Ordering::SeqCst);
        readers.into_iter().map(|reader| reader.join().unwrap()).fold((0, 0), |sum, one| (sum.0 + one.0, sum.1 + one.1))
    });
    assert!(reads > 0);
    println!("{replaced} replacements under six readers, {reads} reads, {overtaken} lookups overtaken");
}
