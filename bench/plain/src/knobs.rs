//! The knobs, and the commands that set them.

use crate::book::Book;
use crate::command::{Answer, Command, Fault, Reply};
use crate::table::ZERO_PAGE;

/// The knobs, from a row for each: its variant, its field, whose name is the word for it, the command that sets it, and its first value.
macro_rules! knobs {
    ($($knob:ident, $field:ident, $command:ident, $first:literal;)*) => {
        #[derive(Clone, Copy)]
        pub enum Knob {
            $($knob,)*
        }

        impl Knob {
            pub const NAMED: [(&[u8], Knob); [$(Knob::$knob),*].len()] = [$((stringify!($field).as_bytes(), Knob::$knob)),*];

            pub fn command(self, value: u32) -> Command {
                match self {
                    $(Knob::$knob => Command::$command(value),)*
                }
            }
        }

        pub struct Knobs {
            $(pub $field: u32,)*
        }

        impl Knobs {
            pub const DEFAULT: Knobs = Knobs { $($field: $first,)* };

            pub fn value(&self, knob: Knob) -> u32 {
                match knob {
                    $(Knob::$knob => self.$field,)*
                }
            }
        }
    };
}

knobs! {
    Run, run, SetRun, 0;
    PagesToScan, pages_to_scan, SetPagesToScan, 100;
    MergeAcrossNodes, merge_across_nodes, SetAcross, 1;
    MaxPageSharing, max_page_sharing, SetLimit, 256;
    UseZeroPages, use_zero_pages, SetZeroPages, 0;
}

impl Book {
    pub(crate) fn set_run(&mut self, run: u32) -> Answer {
        match run {
            0 | 1 => {
                self.knobs.run = run;
                Ok(Reply::Done)
            }
            2 => Ok(self.unmerge_all()),
            _ => Err(Fault::BadValue),
        }
    }

    pub(crate) fn set_pages_to_scan(&mut self, pages: u32) -> Answer {
        if !(1..=1_000_000).contains(&pages) {
            return Err(Fault::BadValue);
        }
        self.knobs.pages_to_scan = pages;
        Ok(Reply::Done)
    }

    pub(crate) fn set_zero_pages(&mut self, zero_pages: u32) -> Answer {
        if zero_pages > 1 {
            return Err(Fault::BadValue);
        }
        self.knobs.use_zero_pages = zero_pages;
        if zero_pages == 1
            && let Some(zero) = self.contents.number(&ZERO_PAGE)
        {
            self.visit_waiting(zero);
        }
        Ok(Reply::Done)
    }

    /// The rows of a content that wait are to be visited.
    fn visit_waiting(&mut self, content: u32) {
        for tree in 0..self.nodes {
            let waiting = self.contents.group(content, tree).waiting;
            if waiting.era == self.era {
                self.restless.add(&mut self.rows, waiting.slot);
            }
        }
    }

    /// A knob of sharing gets another value only while nothing is shared; stale dups go then.
    fn begin_to_set(&mut self) -> Result<(), Fault> {
        if self.counters.shared > 0 {
            return Err(Fault::SharedPages);
        }
        self.prune();
        Ok(())
    }

    pub(crate) fn set_across(&mut self, across: u32) -> Answer {
        if across > 1 {
            return Err(Fault::BadValue);
        }
        if across != self.knobs.merge_across_nodes {
            self.begin_to_set()?;
            self.knobs.merge_across_nodes = across;
            self.all_wait_anew();
        }
        Ok(Reply::Done)
    }

    pub(crate) fn set_limit(&mut self, limit: u32) -> Answer {
        if !(2..=1_024).contains(&limit) {
            return Err(Fault::BadValue);
        }
        if limit != self.knobs.max_page_sharing {
            self.begin_to_set()?;
            self.knobs.max_page_sharing = limit;
        }
        Ok(Reply::Done)
    }
}
