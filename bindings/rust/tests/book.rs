//! The book through the safe types, and against a plain map.

use ksmbook::{Book, Command, Error, Found, GuestPage, Pass, Reply, Shape};
use std::collections::BTreeMap;
use std::sync::atomic::{AtomicBool, AtomicU64, Ordering};

const NONE: Option<Error> = None;

fn page(guest: u16, page: u32) -> GuestPage {
    GuestPage { guest, page }
}

fn register(of: GuestPage, node: u32, word: u64) -> Command {
    Command::Register { page: of, node, bytes: [word; 8] }
}

fn done(count: u64) -> Result<Reply, Error> {
    Ok(Reply { count, stop: NONE })
}

#[test]
fn equal_pages_are_merged_and_looked_up() {
    let mut book = Book::open(Shape { frames_per_node: 4, ..Shape::SMALL }).unwrap();
    let mut pass = book.pass().unwrap();
    assert_eq!(book.apply(register(page(0, 0), 0, 7)), done(0));
    assert_eq!(book.apply(register(page(1, 5), 0, 7)), done(0));
    assert_eq!(book.apply(Command::Scan { visits: 4 }), Err(Error::NotRunning));
    assert_eq!(book.apply(Command::SetRun(1)), done(0));
    assert_eq!(book.apply(Command::Scan { visits: 4 }), done(4));
    let place = book.ticket(page(0, 0)).unwrap();
    assert_eq!(book.mappers(place).unwrap(), Some(vec![page(0, 0), page(1, 5)]));
    assert_eq!((book.counters().shared, book.counters().sharing), (1, 1));
    let hold = pass.find(place).unwrap().held().expect("a hold");
    assert_eq!(hold.words(), [7; 8]);
    assert_eq!(book.apply(Command::MoveDup { place, node: 0 }), Err(Error::InUse));
    hold.leave();
    assert_eq!(book.apply(Command::MoveDup { place, node: 0 }), done(0));
    assert_eq!(book.apply(Command::Store { page: page(0, 0), bytes: [8; 8] }), done(0));
    assert_eq!(book.read(page(0, 0)), Some([8; 8]));
    assert_eq!(book.read(page(1, 5)), Some([7; 8]));
    assert_eq!((book.read(page(1, 6)), book.ticket(page(1, 6)), book.mappers(9).unwrap()), (None, None, None));
    assert_eq!(book.close(), Err(Error::PassesOut));
    // It is closed with its pass.
    assert_eq!(pass.look_up(place).unwrap(), Found::Held([7; 8]));
}

#[test]
fn what_is_refused() {
    let mut book = Book::open(Shape { nodes: 2, frames_per_node: 1, ..Shape::SMALL }).unwrap();
    let apply = |book: &mut Book, command| book.apply(command).err();
    assert_eq!(Book::open(Shape { nodes: 0, ..Shape::SMALL }).err(), Some(Error::Shape));
    assert_eq!(apply(&mut book, register(page(0, 0), 1, 7)), None);
    assert_eq!(apply(&mut book, register(page(0, 0), 1, 7)), Some(Error::AlreadyRegistered));
    assert_eq!(apply(&mut book, register(page(0, 1), 1, 7)), Some(Error::NoFrame(1)));
    assert_eq!(apply(&mut book, register(page(0, 1), 2, 7)), Some(Error::BadNode));
    assert_eq!(apply(&mut book, Command::Drop { page: page(0, 1) }), Some(Error::UnknownPage));
    assert_eq!(apply(&mut book, Command::Unmerge { guest: 1 }), Some(Error::UnknownPage));
    assert_eq!(apply(&mut book, Command::MoveDup { place: 0, node: 0 }), Some(Error::UnknownPlace));
    assert_eq!(apply(&mut book, Command::SetLimit(1)), Some(Error::BadValue));
}

// Looks each place up until it is told, and counts the lookups that found a frame. The words of each have to be those of one frame.
fn look(pass: &mut Pass, found: &AtomicU64, done: &AtomicBool) {
    while !done.load(Ordering::SeqCst) {
        for place in 0..16 {
            if let Found::Held(words) = pass.look_up(place).unwrap() {
                assert!(words.iter().all(|word| *word == words[0]), "words of two frames: {words:?}");
                found.fetch_add(1, Ordering::SeqCst);
            }
        }
    }
}

// Each store breaks sharing, each scan merges again, and the dup moves where nobody holds it.
fn store_and_move(book: &mut Book, n: u32) {
    let of = page(0, n % 8);
    match book.apply(Command::Store { page: of, bytes: [u64::from(n / 64); 8] }) {
        Ok(_) | Err(Error::NoFrame(0)) => {}
        refused => panic!("{refused:?}"),
    }
    assert_eq!(book.apply(Command::Scan { visits: 16 }).map(|reply| reply.stop), Ok(NONE));
    match book.ticket(of).map(|place| book.apply(Command::MoveDup { place, node: 0 })) {
        None | Some(Ok(_) | Err(Error::InUse | Error::NoFrame(0))) => {}
        Some(refused) => panic!("{refused:?}"),
    }
}

// It goes on for 5,000 rounds, and until a reader has found a frame.
#[test]
fn readers_look_merged_frames_up_beside_the_book() {
    let mut book = Book::open(Shape::SMALL).unwrap();
    let mut passes: Vec<Pass> = (0..4).map(|_| book.pass().unwrap()).collect();
    let (found, done) = (AtomicU64::new(0), AtomicBool::new(false));
    for n in 0..8 {
        book.apply(register(page(0, n), 0, 1)).unwrap();
    }
    book.apply(Command::SetRun(1)).unwrap();
    std::thread::scope(|scope| {
        for pass in &mut passes {
            scope.spawn(|| look(pass, &found, &done));
        }
        for n in 0.. {
            assert!(n < 50_000_000, "no lookup found a frame");
            if n >= 5000 && found.load(Ordering::SeqCst) > 0 {
                break;
            }
            store_and_move(&mut book, n);
        }
        done.store(true, Ordering::SeqCst);
    });
    drop(passes);
    book.close().unwrap();
}

#[test]
fn what_was_stored_last_is_read() {
    let mut book = Book::open(Shape { frames_per_node: 64, ..Shape::SMALL }).unwrap();
    let mut plain: BTreeMap<GuestPage, u64> = BTreeMap::new();
    let mut seed = 3u64;
    let mut drawn = |below: u64| {
        seed = seed.wrapping_mul(6364136223846793005).wrapping_add(1442695040888963407);
        (seed >> 33) % below
    };
    book.apply(Command::SetRun(1)).unwrap();
    for _ in 0..5000 {
        let of = page(drawn(3) as u16, drawn(16) as u32);
        let word = drawn(4);
        match (drawn(8), plain.contains_key(&of)) {
            (0, _) => assert_eq!(book.apply(Command::Scan { visits: 100 }).map(|reply| reply.stop), Ok(NONE)),
            (_, false) => assert_eq!((book.apply(register(of, 0, word)), plain.insert(of, word)), (done(0), None)),
            (1, true) => assert_eq!((book.apply(Command::Drop { page: of }), plain.remove(&of).is_some()), (done(0), true)),
            (_, true) => {
                assert_eq!(book.apply(Command::Store { page: of, bytes: [word; 8] }), done(0));
                plain.insert(of, word);
            }
        }
        let asked = page(drawn(3) as u16, drawn(16) as u32);
        assert_eq!(book.read(asked), plain.get(&asked).map(|word| [*word; 8]));
    }
    book.close().unwrap();
}

// The random commands of the test above, shortly: each is answered alike, and the kept journal tells each with its answer.
#[test]
fn a_kept_journal_tells_what_was_answered() {
    let shape = Shape { nodes: 2, frames_per_node: 3, ..Shape::SMALL };
    let (mut counted, mut kept) = (Book::open(shape).unwrap(), Book::open_kept(shape).unwrap());
    let mut seed = 5u64;
    let mut drawn = |below: u64| {
        seed = seed.wrapping_mul(6364136223846793005).wrapping_add(1442695040888963407);
        (seed >> 33) % below
    };
    let mut given = vec![Command::SetRun(1), Command::SetAcross(0), Command::SetPagesToScan(7), Command::SetLimit(2), Command::SetZeroPages(1)];
    for _ in 0..2000 {
        let of = page(drawn(2) as u16, drawn(4) as u32);
        let (word, node) = (drawn(3), drawn(3) as u32);
        given.push(match drawn(9) {
            0 => Command::Scan { visits: drawn(20) },
            1 => Command::Drop { page: of },
            2 | 3 => register(of, node, word),
            4 => Command::MovePage { page: of, node },
            5 => Command::MoveDup { place: drawn(7) as u32, node },
            6 if drawn(8) == 0 => Command::Unmerge { guest: of.guest },
            6 => Command::Mergeable { guest: of.guest },
            7 => Command::Prune,
            _ => Command::Store { page: of, bytes: [word, 1, 2, 3, 4, 5, 6, 7] },
        });
    }
    let answers: Vec<_> = given.iter().map(|command| counted.apply(*command)).collect();
    for (command, answer) in given.iter().zip(&answers) {
        assert_eq!(kept.apply(*command), *answer);
    }
    assert_eq!((counted.entries(), kept.entries()), (given.len() as u64, given.len() as u64));
    for (number, told) in given.iter().copied().zip(answers).enumerate() {
        assert_eq!((counted.entry(number as u64), kept.entry(number as u64)), (None, Some(told)));
    }
    assert_eq!(kept.entry(given.len() as u64), None);
}
