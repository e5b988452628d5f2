//! The counters that are kept, and what a line of them tells.

use crate::book::Book;
use crate::text::write_number;

#[derive(Default)]
pub struct Counters {
    pub shared: u64,
    pub merged: u64,
    pub zero: u64,
    pub chains: u64,
    pub dups: u64,
    pub full_scans: u64,
}

pub fn write_counters(text: &mut Vec<u8>, book: &Book) {
    let (counters, waiting) = (book.counters(), book.waiting());
    write_number(text, b"stat shared=", counters.shared);
    write_number(text, b" sharing=", counters.merged - counters.shared);
    write_number(text, b" unshared=", waiting);
    write_number(text, b" volatile=", book.mergeable() - counters.merged - waiting - counters.zero);
    write_number(text, b" chains=", counters.chains);
    write_number(text, b" dups=", counters.dups);
    write_number(text, b" full_scans=", counters.full_scans);
}
