//! A book with its passes: does what lines say, and writes their replies.

use std::sync::Mutex;
use std::sync::atomic::AtomicU32;
use std::sync::atomic::Ordering::SeqCst;
use std::thread;

use crate::book::Book;
use crate::command::{Answer, Command, Fault, Reply};
use crate::counters::write_counters;
use crate::line::Line;
use crate::table::{Found, Hold, PageBytes, Table, Why};
use crate::text::{write_content, write_number};

pub struct Session {
    book: Book,
    holds: Vec<Option<Hold>>,
}

impl Session {
    pub fn open(book: Book, passes: u32) -> Session {
        Session {
            book,
            holds: vec![None; passes as usize],
        }
    }

    /// Does what a line says, and writes its reply.
    #[inline]
    pub fn answer(&mut self, line: Line, text: &mut Vec<u8>) {
        if let Err(fault) = self.write_reply(line, text) {
            write_refusal(text, fault);
        }
        text.push(b'\n');
    }

    fn write_reply(&mut self, line: Line, text: &mut Vec<u8>) -> Result<(), Fault> {
        match line {
            Line::Command(command) => write_answer(text, self.book.apply(command)),
            Line::ScanPages => {
                let visits = u64::from(self.book.knobs.pages_to_scan);
                write_answer(text, self.book.apply(Command::Scan(visits)));
            }
            Line::Get(page) => write_content(text, &self.book.read(page)?),
            Line::Ticket(page) => match self.book.ticket(page)? {
                None => text.extend_from_slice(b"private"),
                Some(place) => write_number(text, b"place ", place),
            },
            Line::Rmap(place) => self.write_mappers(text, place)?,
            Line::Show(knob) => write_number(text, b"", self.book.knobs.value(knob)),
            Line::ShowZeroPages => write_number(text, b"", self.book.counters().zero),
            Line::Stat => write_counters(text, &self.book),
            Line::Find(pass, place) => self.find(text, pass, place, None)?,
            Line::Equal(pass, place, content) => self.find(text, pass, place, Some(content))?,
            Line::Look(pass) => {
                let hold = self.hold(pass)?.ok_or(Fault::NotHolding)?;
                write_content(text, &self.book.keeper.table.load(hold.frame));
            }
            Line::Leave(pass) => {
                let hold = self.hold(pass)?.take().ok_or(Fault::NotHolding)?;
                self.book.keeper.table.leave(hold);
                text.extend_from_slice(b"ok");
            }
            Line::Audit => self.audit(text)?,
        }
        Ok(())
    }

    fn write_mappers(&self, text: &mut Vec<u8>, place: u32) -> Result<(), Fault> {
        let pages = self.book.mappers(place)?;
        text.extend_from_slice(b"rmap");
        for page in pages {
            write_number(text, b" ", page >> 32);
            write_number(text, b":", page & u64::from(u32::MAX));
        }
        Ok(())
    }

    fn hold(&mut self, pass: u32) -> Result<&mut Option<Hold>, Fault> {
        self.holds.get_mut(pass as usize).ok_or(Fault::NoPass)
    }

    fn find(&mut self, text: &mut Vec<u8>, pass: u32, place: u32, content: Option<PageBytes>) -> Result<(), Fault> {
        if self.hold(pass)?.is_some() {
            return Err(Fault::Holding);
        }
        let table = &self.book.keeper.table;
        if place >= table.places() {
            return Err(Fault::UnknownPlace);
        }
        match table.find(place) {
            Found::Gone(why) => write_number(text, b"gone ", why as u32),
            Found::Busy => text.extend_from_slice(b"busy"),
            Found::Held(hold) => {
                let is_equal = content.is_none_or(|content| table.load(hold.frame) == content);
                let name: &[u8] = if is_equal { b"held " } else { b"differs " };
                write_number(text, name, hold.frame);
                write_number(text, b" ", hold.generation);
                self.holds[pass as usize] = Some(hold);
            }
        }
        Ok(())
    }

    fn audit(&self, text: &mut Vec<u8>) -> Result<(), Fault> {
        let idle = self.holds.iter().filter(|hold| hold.is_none()).count();
        if idle == 0 {
            return Err(Fault::Holding);
        }
        text.extend_from_slice(b"audit");
        for seen in audit(&self.book.keeper.table, idle) {
            match seen {
                Seen::Found(generation, content) => {
                    write_number(text, b" found:", generation);
                    text.push(b':');
                    write_content(text, &content);
                }
                Seen::Gone(why) => write_number(text, b" gone:", why as u32),
                Seen::Busy => text.extend_from_slice(b" busy"),
            }
        }
        Ok(())
    }
}

/// What a lookup of an audit saw.
#[derive(Clone, Copy)]
enum Seen {
    Found(u64, PageBytes),
    Gone(Why),
    Busy,
}

fn look_up(table: &Table, place: u32) -> Seen {
    match table.find(place) {
        Found::Gone(why) => Seen::Gone(why),
        Found::Busy => Seen::Busy,
        Found::Held(hold) => {
            let content = table.load(hold.frame);
            table.leave(hold);
            Seen::Found(hold.generation, content)
        }
    }
}

/// Looks each place up, by so many workers, of which each draws the next place.
fn audit(table: &Table, workers: usize) -> Vec<Seen> {
    let next = AtomicU32::new(0);
    let rows = Mutex::new(vec![Seen::Busy; table.places() as usize]);
    let work = || {
        let mut seen = Vec::new();
        loop {
            let place = next.fetch_add(1, SeqCst);
            if place >= table.places() {
                break;
            }
            seen.push((place, look_up(table, place)));
        }
        let mut rows = rows.lock().expect("no worker panics");
        for (place, row) in seen {
            rows[place as usize] = row;
        }
    };
    thread::scope(|scope| {
        for _ in 1..workers {
            scope.spawn(work);
        }
        work();
    });
    rows.into_inner().expect("no worker panics")
}

fn write_answer(text: &mut Vec<u8>, answer: Answer) {
    match answer {
        Err(fault) => write_refusal(text, fault),
        Ok(Reply::Done) => text.extend_from_slice(b"ok"),
        Ok(Reply::Scanned(visits)) => write_number(text, b"scanned ", visits),
        Ok(Reply::Pruned(dups)) => write_number(text, b"pruned ", dups),
        Ok(Reply::Unmerged(pages, stop)) => {
            write_number(text, b"unmerged ", pages);
            if let Some(fault) = stop {
                text.push(b' ');
                write_refusal(text, fault);
            }
        }
    }
}

fn write_refusal(text: &mut Vec<u8>, fault: Fault) {
    write_number(text, b"refused ", fault as u32);
}
