//! `plain --nodes N --frames N [--passes N] [--tries N] [--last-generation N]`: the language of ksmbook in plain Rust. It is what ksmbook's
//! speed and memory are compared with, and no part of the product: nothing of it is proved, and want of memory ends it.

mod book;
mod command;
mod contents;
mod counters;
mod dups;
mod input;
mod keeper;
mod knobs;
mod line;
mod numbers;
mod order;
mod restless;
mod rows;
mod scan;
mod session;
mod table;
mod text;
mod unmerging;
mod waiting;

use std::process::ExitCode;

use book::Book;
use keeper::Keeper;
use session::Session;

/// Each option with its greatest value and its default; none where it is required.
const OPTIONS: [(&str, u64, Option<u64>); 5] = [
    ("--nodes", 4, None),
    ("--frames", 256, None),
    ("--passes", 16, Some(2)),
    ("--tries", 64, Some(8)),
    ("--last-generation", 1 << 40, Some(1 << 40)),
];

/// The values of the options, in their order.
fn options() -> Option<[u64; 5]> {
    let mut given = [None; 5];
    let mut words = std::env::args().skip(1);
    while let Some(word) = words.next() {
        let (name, value) = match word.split_once('=') {
            Some((name, value)) => (name.to_owned(), value.to_owned()),
            None => (word, words.next()?),
        };
        let at = OPTIONS.iter().position(|option| option.0 == name)?;
        let value = value.parse().ok().filter(|value| (1..=OPTIONS[at].1).contains(value));
        if given[at].replace(value?).is_some() {
            return None;
        }
    }
    let mut values = [0; 5];
    for (i, value) in values.iter_mut().enumerate() {
        *value = given[i].or(OPTIONS[i].2)?;
    }
    Some(values)
}

fn main() -> ExitCode {
    let Some([nodes, frames, passes, tries, last_generation]) = options() else {
        eprintln!(
            "plain: the options are --nodes 1..4 --frames 1..256 [--passes 1..16] [--tries 1..64] [--last-generation 1..1099511627776]"
        );
        return ExitCode::from(2);
    };
    let keeper = Keeper::open(nodes as u32, frames as u32, last_generation, tries as u32);
    let mut session = Session::open(Book::open(keeper, nodes as u32), passes as u32);
    let status = match input::run(&mut session) {
        Ok(true) => 0,
        Ok(false) => 2,
        Err(_) => 3,
    };
    // The end of the process takes the rows.
    std::mem::forget(session);
    ExitCode::from(status)
}
