//! Commands, their answers, and what they count.

use crate::rows::Page;
use crate::table::PageBytes;

#[derive(Clone, Copy)]
pub enum Command {
    Register(Page, u32, PageBytes),
    Drop(Page),
    Store(Page, PageBytes),
    Scan(u64),
    Prune,
    Unmerge(u32),
    Mergeable(u32),
    MovePage(Page, u32),
    MoveDup(u32, u32),
    SetRun(u32),
    SetPagesToScan(u32),
    SetAcross(u32),
    SetLimit(u32),
    SetZeroPages(u32),
}

#[derive(Clone, Copy)]
pub enum Reply {
    Done,
    Scanned(u64),
    Pruned(u64),
    Unmerged(u64, Option<Fault>),
}

/// A refusal, with its number; 1, for memory, is for the proved program alone.
#[derive(Clone, Copy, PartialEq, Eq)]
pub enum Fault {
    UnknownPage = 2,
    AlreadyRegistered = 3,
    NoFrame = 4,
    NotRunning = 5,
    SharedPages = 6,
    BadValue = 7,
    InUse = 8,
    CrossesNodes = 9,
    UnknownPlace = 10,
    BadNode = 11,
    NoPass = 12,
    Holding = 13,
    NotHolding = 14,
}

pub type Answer = Result<Reply, Fault>;
