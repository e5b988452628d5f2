//! A shared book under eight threads, beside a plain map for each and a book of one thread.

use ksmbook::{Book, Command, Counters, Error, Found, GuestPage, Reply, Shape, SharedBook};
use std::collections::BTreeMap;
use std::sync::atomic::{AtomicBool, Ordering};

const THREADS: u16 = 8;
const PAGES: u32 = 8;
const SHAPE: Shape = Shape { frames_per_node: 256, passes: 12, ..Shape::SMALL };

/// What a thread gave and was answered, and the counters that it read, each behind so many commands of its own.
#[derive(Default)]
struct Log {
    given: Vec<(Command, Result<Reply, Error>)>,
    rows: Vec<(usize, Counters)>,
    held: u64,
}

struct Drawn(u64);

impl Drawn {
    fn below(&mut self, below: u64) -> u64 {
        self.0 = self.0.wrapping_mul(6364136223846793005).wrapping_add(1442695040888963407);
        (self.0 >> 33) % below
    }
}

// A command that tells whose it is: by its guest, a scan by its visits; the knobs are thread 0's.
fn command(guest: u16, drawn: &mut Drawn, known: &BTreeMap<GuestPage, u64>) -> Command {
    let page = GuestPage { guest, page: drawn.below(PAGES.into()) as u32 };
    let bytes = [drawn.below(5); 8];
    match drawn.below(16) {
        0 if guest == 0 => Command::SetRun(1),
        1 if guest == 0 => Command::SetZeroPages(drawn.below(2) as u32),
        2 if guest == 0 => Command::Prune,
        0..=4 => Command::Scan { visits: 8 * drawn.below(20) + u64::from(guest) },
        5 => Command::Drop { page },
        6 if drawn.below(4) == 0 => Command::Unmerge { guest },
        6 => Command::Mergeable { guest },
        _ if known.contains_key(&page) => Command::Store { page, bytes },
        _ => Command::Register { page, node: 0, bytes },
    }
}

fn thread_of(command: &Command) -> usize {
    match command {
        Command::Register { page, .. } | Command::Store { page, .. } | Command::Drop { page } => page.guest.into(),
        Command::Unmerge { guest } | Command::Mergeable { guest } => (*guest).into(),
        Command::Scan { visits } => (visits % 8) as usize,
        _ => 0,
    }
}

fn learn(known: &mut BTreeMap<GuestPage, u64>, given: &Command) {
    match given {
        Command::Register { page, bytes, .. } | Command::Store { page, bytes } => known.insert(*page, bytes[0]),
        Command::Drop { page } => known.remove(page),
        _ => None,
    };
}

// One thread: each page of its guest reads what it stored last, and a lookup holds words of one page.
fn call(book: &SharedBook, guest: u16, commands: usize) -> Log {
    let (mut log, mut known, mut drawn) = (Log::default(), BTreeMap::new(), Drawn(guest.into()));
    let mut pass = book.pass().unwrap();
    while log.given.len() < commands {
        let given = command(guest, &mut drawn, &known);
        let answer = book.apply(given);
        if answer.is_ok() {
            learn(&mut known, &given);
        }
        log.given.push((given, answer));
        log.rows.push((log.given.len(), book.counters()));
        let page = GuestPage { guest, page: drawn.below(PAGES.into()) as u32 };
        assert_eq!(book.read(page), known.get(&page).map(|word| [*word; 8]));
        if let Some(Found::Held(words)) = book.ticket(page).map(|place| pass.look_up(place).unwrap()) {
            assert!(words.iter().all(|word| *word == words[0]), "words of two pages: {words:?}");
            log.held += 1;
        }
    }
    log
}

// The journal has each thread's commands in its order; tells where.
fn places_of(book: &SharedBook, logs: &[Log]) -> Vec<Vec<usize>> {
    let mut places = vec![Vec::new(); logs.len()];
    for number in 0..book.entries() {
        let entry = book.entry(number).unwrap();
        let thread = thread_of(&entry.0);
        assert_eq!(Some(&entry), logs[thread].given.get(places[thread].len()), "entry {number}");
        places[thread].push(number as usize);
    }
    for (log, places) in logs.iter().zip(&places) {
        assert_eq!(log.given.len(), places.len());
    }
    places
}

// A book of one thread answers alike; tells the counters behind each entry, from the first on.
fn replayed(book: &SharedBook) -> Vec<Counters> {
    let mut again = Book::open(SHAPE).unwrap();
    let mut moments = vec![again.counters()];
    for number in 0..book.entries() {
        let (command, answer) = book.entry(number).unwrap();
        assert_eq!(again.apply(command), answer, "entry {number}");
        moments.push(again.counters());
    }
    moments
}

// Each row is of a moment between two commands of its thread, and moments go forward.
fn place_rows(log: &Log, places: &[usize], moments: &[Counters]) {
    let mut at = 0;
    for (own, row) in &log.rows {
        let (first, last) = (places[own - 1] + 1, places.get(*own).map_or(moments.len() - 1, |next| *next));
        at = at.max(first);
        let found = (at..=last).find(|moment| moments[*moment] == *row);
        at = found.unwrap_or_else(|| panic!("{row:?} is of no moment from {at} to {last}"));
    }
}

#[test]
fn eight_threads_are_one_book() {
    let commands = std::env::var("KSMBOOK_COMMANDS").map_or(2000, |word| word.parse().unwrap());
    let book = SharedBook::open_kept(SHAPE).unwrap();
    let logs: Vec<Log> = std::thread::scope(|scope| {
        let threads: Vec<_> = (0..THREADS).map(|guest| scope.spawn({ let book = &book; move || call(book, guest, commands) })).collect();
        threads.into_iter().map(|thread| thread.join().unwrap()).collect()
    });
    let (places, moments) = (places_of(&book, &logs), replayed(&book));
    for (log, places) in logs.iter().zip(&places) {
        place_rows(log, places, &moments);
    }
    assert!(logs.iter().map(|log| log.held).sum::<u64>() > 0, "nothing was held");
    let rows = book.audit(4).unwrap();
    for (place, row) in (0..).zip(rows) {
        if let Some(pages) = book.mappers(place).unwrap() {
            assert_eq!(row.held().map(|found| found.words), book.read(pages[0]), "place {place}");
        }
    }
    book.close().unwrap();
}

#[test]
fn audits_and_counters_beside_commands() {
    let book = SharedBook::open(Shape { passes: 4, ..SHAPE }).unwrap();
    let done = AtomicBool::new(false);
    book.apply(Command::SetRun(1)).unwrap();
    std::thread::scope(|scope| {
        for _ in 0..2 {
            scope.spawn(|| {
                let (mut passes, mut audits) = (0, 0);
                while audits < 20 || !done.load(Ordering::SeqCst) {
                    let now = book.counters().full_scans;
                    assert!(now >= passes, "older than what was read before");
                    passes = now;
                    match book.audit(2) {
                        Ok(rows) => assert!(rows.iter().filter_map(|row| row.held()).all(|row| row.words == [row.words[0]; 8])),
                        Err(error) => assert_eq!(error, Error::NoPass),
                    }
                    audits += 1;
                }
            });
        }
        for n in 0..2000u64 {
            let page = GuestPage { guest: 0, page: (n % 16) as u32 };
            let bytes = [n / 64; 8];
            let given = if n < 16 { Command::Register { page, node: 0, bytes } } else { Command::Store { page, bytes } };
            book.apply(given).unwrap();
            book.apply(Command::Scan { visits: 16 }).unwrap();
        }
        done.store(true, Ordering::SeqCst);
    });
    book.close().unwrap();
}

#[test]
fn what_is_refused() {
    assert_eq!(SharedBook::open(Shape { nodes: 0, ..SHAPE }).err(), Some(Error::Shape));
    let book = SharedBook::open(Shape { frames_per_node: 2, passes: 1, ..SHAPE }).unwrap();
    let page = GuestPage { guest: 0, page: 0 };
    assert_eq!(book.apply(Command::Drop { page }).err(), Some(Error::UnknownPage));
    assert_eq!((book.read(page), book.ticket(page), book.mappers(0).unwrap(), book.entries(), book.entry(0)), (None, None, None, 1, None));
    assert_eq!(book.audit(0).err(), Some(Error::Shape));
    assert_eq!(book.audit(Shape::MOST_PASSES + 1).err(), Some(Error::Shape));
    assert_eq!(book.audit(2).err(), Some(Error::NoPass));
    assert_eq!(book.audit(1).unwrap(), [Found::Gone(ksmbook::Gone::Vacant); 2]);
    let passes = book.passes();
    let mut pass = passes.take().unwrap();
    assert_eq!((passes.take().err(), book.audit(1).err()), (Some(Error::NoPass), Some(Error::NoPass)));
    assert_eq!(book.close().err(), Some(Error::PassesOut));
    // It is closed with its pass.
    assert_eq!(pass.look_up(0).unwrap(), Found::Gone(ksmbook::Gone::Vacant));
}
