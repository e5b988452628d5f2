//! The lookup over the same words in plain Rust, in one block: those of the places, those of the frames, generation and count in one, then
//! the contents. From one frame word to the next there are `LINE` words, and as many between the last of them and the contents: 1 where
//! all lie one behind another, 8 where they lie as those of the table.
//! Nothing is proved of it. All accesses are sequentially consistent, as those of the table.

use std::sync::atomic::AtomicU64;
use std::sync::atomic::Ordering::SeqCst;
use std::thread;

const FRAMES: usize = 1024;
const TRIES: u32 = 64;
/// From one place to the next, where lookups are spread.
const STRIDE: usize = 619;
/// What a frame word grows by with each life.
const ONE_LIFE: u64 = 65536;

/// A table whose every place names the frame of its number, in its first life.
struct Table<const W: usize, const LINE: usize>(Vec<AtomicU64>);

impl<const W: usize, const LINE: usize> Table<W, LINE> {
    fn published() -> Self {
        let words = FRAMES + (FRAMES + 1) * LINE + FRAMES * W;
        let table = Table((0..words).map(|_| AtomicU64::new(0)).collect());
        for frame in 0..FRAMES {
            for i in 0..W {
                table
                    .content(frame, i)
                    .store((16 * frame + i + 1) as u64, SeqCst);
            }
            table.frame_word(frame).store(ONE_LIFE + 2, SeqCst);
            table.0[frame].store(1024 + frame as u64, SeqCst);
        }
        table
    }

    fn frame_word(&self, frame: usize) -> &AtomicU64 {
        &self.0[FRAMES + frame * LINE]
    }

    fn content(&self, frame: usize, i: usize) -> &AtomicU64 {
        &self.0[FRAMES + (FRAMES + 1) * LINE + frame * W + i]
    }

    /// The frame that a place names, held from now on.
    fn find(&self, place: usize) -> Option<usize> {
        let named = self.0[place].load(SeqCst);
        if named == 0 {
            return None;
        }
        let (frame, generation) = ((named % 1024) as usize, named / 1024);
        for _ in 0..TRIES {
            let seen = self.frame_word(frame).load(SeqCst);
            if seen % ONE_LIFE == 0 || seen / ONE_LIFE != generation {
                return None;
            }
            if self
                .frame_word(frame)
                .compare_exchange(seen, seen + 1, SeqCst, SeqCst)
                .is_ok()
            {
                return Some(frame);
            }
        }
        None
    }

    fn leave(&self, frame: usize) {
        self.frame_word(frame).fetch_sub(1, SeqCst);
    }

    fn look(&self, place: usize) -> u64 {
        let frame = loop {
            if let Some(frame) = self.find(place) {
                break frame;
            }
        };
        let sum = (0..W).fold(0, |sum: u64, i| {
            sum.wrapping_add(self.content(frame, i).load(SeqCst))
        });
        self.leave(frame);
        sum
    }
}

/// The lookups of one thread, and the sum of all words that they read.
struct Worker {
    place: usize,
    step: usize,
    rounds: u64,
    sum: u64,
}

impl Worker {
    fn work<const W: usize, const LINE: usize>(&mut self, table: &Table<W, LINE>) {
        let (mut place, mut sum) = (self.place, 0u64);
        for _ in 0..self.rounds {
            sum = sum.wrapping_add(table.look(place));
            place = (place + self.step) % FRAMES;
        }
        self.sum = sum;
    }
}

/// Lets each work at once: a thread more for the front half, and so on in each half, as `for_each_mut` of the table's program does.
fn work_all<const W: usize, const LINE: usize>(table: &Table<W, LINE>, workers: &mut [Worker]) {
    if let [worker] = workers {
        return worker.work(table);
    }
    let (front, back) = workers.split_at_mut(workers.len() / 2);
    thread::scope(|scope| {
        scope.spawn(|| work_all(table, front));
        work_all(table, back);
    });
}

/// The sum of all words read, by so many threads, four at most, of so many lookups each.
pub fn run<const W: usize, const LINE: usize>(spread: bool, threads: usize, rounds: u64) -> u64 {
    let table = Table::<W, LINE>::published();
    let worker = |number: usize| Worker {
        place: if spread { 256 * number } else { 0 },
        step: if spread { STRIDE } else { 0 },
        rounds: if number < threads { rounds } else { 0 },
        sum: 0,
    };
    let mut workers = [0, 1, 2, 3].map(worker);
    work_all(&table, &mut workers);
    workers.iter().fold(0, |sum, worker| sum.wrapping_add(worker.sum))
}
