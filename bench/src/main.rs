//! `lookups [ROUNDS [RUNS [BEFORE]]]`: the instructions and the processor time of a lookup (find, read all words, leave) on a
//! table of 1,024 frames: of the table, by the program `lookup_times` of bench/programs, and of the same words in plain Rust,
//! by this program, one behind another and, as `lined`, where the table has them; where BEFORE is the path of the
//! `lookup_times` of another tree, of that one too. All run as programs of their own, in turn, and the median of the runs
//! counts; the least that a run with no lookup takes is taken off. A run whose threads were not on processors at once is made
//! again, up to eight times; at the end it is said how many counted all the same.
//!
//! `lookups plain PLACES THREADS ROUNDS` and `lookups lined PLACES THREADS ROUNDS` are the plain forms alone.

mod plain;

use std::process::{Command, Output};
use std::time::Instant;

include!(concat!(env!("OUT_DIR"), "/page_words.rs"));

const TABLE: &str = concat!(
    env!("CARGO_MANIFEST_DIR"),
    "/target/programs/lookup_times"
);

#[repr(C)]
#[derive(Default)]
struct Usage {
    user: [i64; 2],
    system: [i64; 2],
    other: [i64; 14],
}

unsafe extern "C" {
    fn getrusage(who: i32, usage: *mut Usage) -> i32;
}

/// The nanoseconds that programs run by this one have been on a processor (Linux, 64 bits).
fn children() -> f64 {
    const CHILDREN: i32 = -1;
    let mut usage = Usage::default();
    // Safety: `usage` is room for what the call writes.
    assert_eq!(unsafe { getrusage(CHILDREN, &mut usage) }, 0);
    let nanoseconds = |time: [i64; 2]| time[0] as f64 * 1e9 + time[1] as f64 * 1e3;
    nanoseconds(usage.user) + nanoseconds(usage.system)
}

/// A run of a program: what it printed, its nanoseconds on processors, and how many of its threads were on one at once.
struct Run {
    told: String,
    processor: f64,
    at_once: f64,
}

fn run(program: &str, first: &[&str], places: &str, threads: usize, rounds: u64) -> Run {
    let (before, start) = (children(), Instant::now());
    let Output { stdout, status, .. } = Command::new(program)
        .args(first)
        .args([places, &threads.to_string(), &rounds.to_string()])
        .output()
        .unwrap_or_else(|error| panic!("{program}: {error}; build it by bench/program lookup_times --build"));
    assert!(status.success(), "{program}: {status}");
    let processor = children() - before;
    let at_once = processor / start.elapsed().as_nanos() as f64;
    Run { told: String::from_utf8(stdout).unwrap(), processor, at_once }
}

/// A run whose threads were on processors at once, or the last of eight that were not, and whether they were.
fn run_at_once(program: &str, first: &[&str], places: &str, threads: usize, rounds: u64) -> (Run, bool) {
    const PART: f64 = 0.9;
    let mut tries = 1;
    loop {
        let run = run(program, first, places, threads, rounds);
        let is_at_once = run.at_once >= PART * threads as f64;
        if is_at_once || tries == 8 {
            return (run, is_at_once);
        }
        tries += 1;
    }
}

fn measure(rounds: u64, runs: usize, other: Option<&str>) {
    let this = std::env::current_exe().unwrap();
    let mut subjects = vec![
        ("plain", this.to_str().unwrap(), &["plain"][..]),
        ("lined", this.to_str().unwrap(), &["lined"][..]),
        ("table", TABLE, &[][..]),
    ];
    subjects.extend(other.map(|path| ("before", path, &[][..])));
    println!("a lookup, {PAGE_WORDS} words: instructions counted, and processor ns,");
    println!("the median of {runs} runs of {rounds} lookups a thread");
    let mut apart = 0;
    for places in ["hot", "spread"] {
        print!("{places:6} 1 thread:  instructions");
        show(&subjects, &counted(&subjects, places));
        for threads in 1..=4 {
            print!("{places:6} {threads} threads: ns          ");
            let (times, others) = median_times(&subjects, places, threads, rounds, runs);
            apart += others;
            show(&subjects, &times);
        }
    }
    println!("in {apart} of {} runs the threads were not on processors at once", 8 * runs * subjects.len());
}

/// What each program took, and its share of what the first one took.
fn show(subjects: &[(&str, &str, &[&str])], took: &[f64]) {
    for ((name, ..), each) in subjects.iter().zip(took) {
        print!(" {name} {each:6.1} ({:.2}x)", each / took[0]);
    }
    println!();
}

/// The instructions of a lookup of each program, counted by valgrind, by one thread: the same whatever else the machine does.
fn counted(subjects: &[(&str, &str, &[&str])], places: &str) -> Vec<f64> {
    const ROUNDS: u64 = 10_000;
    let count = |program: &str, first: &[&str], rounds: u64| {
        let Output { stderr, status, .. } = Command::new("valgrind")
            .args(["--tool=callgrind", "--callgrind-out-file=/dev/null", program])
            .args(first)
            .args([places, "1", &rounds.to_string()])
            .output()
            .unwrap_or_else(|error| panic!("valgrind: {error}"));
        assert!(status.success(), "{program}: {status}");
        let said = String::from_utf8_lossy(&stderr);
        let line = said.lines().find(|line| line.contains("Collected")).expect("a count");
        line.rsplit(' ').next().unwrap().parse::<f64>().expect("a number")
    };
    let lookup = |(_, program, first): &(&str, &str, &[&str])| {
        (count(program, first, 2 * ROUNDS) - count(program, first, ROUNDS)) / ROUNDS as f64
    };
    subjects.iter().map(lookup).collect()
}

/// The processor time of a lookup of each program, in nanoseconds: what a run took in the median, without the least that a run with no
/// lookup took; and in how many runs the threads were not on processors at once. Threads that look one place up wait for each other, more
/// in one run than in the next, so the least of several runs says how seldom they met. All must print the same sum.
fn median_times(
    subjects: &[(&str, &str, &[&str])],
    places: &str,
    threads: usize,
    rounds: u64,
    runs: usize,
) -> (Vec<f64>, usize) {
    let mut idle = vec![f64::INFINITY; subjects.len()];
    let mut busy = vec![Vec::new(); subjects.len()];
    let mut apart = 0;
    for _ in 0..runs {
        let mut sums = Vec::new();
        for (at, (_, program, first)) in subjects.iter().enumerate() {
            idle[at] = idle[at].min(run(program, first, places, threads, 0).processor);
            let (run, is_at_once) = run_at_once(program, first, places, threads, rounds);
            apart += usize::from(!is_at_once);
            busy[at].push(run.processor);
            sums.push(run.told);
        }
        assert!(sums.iter().all(|sum| *sum == sums[0]), "the words read");
    }
    let lookups = (threads as u64 * rounds) as f64;
    let times = busy.iter_mut().zip(&idle).map(|(busy, idle)| (median(busy) - idle) / lookups);
    (times.collect(), apart)
}

/// The time in the middle, once they are in order.
fn median(times: &mut [f64]) -> f64 {
    times.sort_by(f64::total_cmp);
    times[times.len() / 2]
}

fn main() {
    let words: Vec<String> = std::env::args().skip(1).collect();
    let number = |at: usize| words.get(at).map(|word| word.parse().expect("a number"));
    let form = match words.first().map(String::as_str) {
        Some("plain") => Some(plain::run::<PAGE_WORDS, 1> as fn(bool, usize, u64) -> u64),
        Some("lined") => Some(plain::run::<PAGE_WORDS, 8> as fn(bool, usize, u64) -> u64),
        _ => None,
    };
    if let Some(form) = form {
        let threads = number(2).unwrap_or(1) as usize;
        let spread = words.get(1).is_none_or(|word| word != "hot");
        println!("{}", form(spread, threads, number(3).unwrap_or(1)));
    } else {
        let runs = number(1).unwrap_or(15) as usize;
        measure(number(0).unwrap_or(1_000_000), runs, words.get(2).map(String::as_str));
    }
}
