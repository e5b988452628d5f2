//! Lines of the script language, read where they lie.

use crate::command::Command;
use crate::knobs::Knob;
use crate::rows::{Page, page};
use crate::table::{PAGE_WORDS, PageBytes};

/// The most bytes of a line. No line of the language has as many, so a longer one is found out as it is read.
pub const LONGEST_LINE: usize = 256;

/// The digits of a page.
const PAGE_DIGITS: usize = 16 * PAGE_WORDS;

pub enum Line {
    Command(Command),
    ScanPages,
    Get(Page),
    Ticket(Page),
    Rmap(u32),
    Show(Knob),
    ShowZeroPages,
    Stat,
    Find(u32, u32),
    Equal(u32, u32, PageBytes),
    Look(u32),
    Leave(u32),
    Audit,
}

/// The line that a text begins with, and its length with the newline; none where it begins with none. The text has a newline, or more
/// bytes than a line may have.
#[inline]
pub fn parse(text: &[u8]) -> Option<(Line, usize)> {
    let mut words = Words { text, at: 4 };
    let line = words.line(*text.first_chunk()?)?;
    words.take(b"\n")?;
    Some((line, words.at))
}

/// The first four bytes of a line as one number.
const fn head(bytes: &[u8; 4]) -> u32 {
    u32::from_le_bytes(*bytes)
}

const REG: u32 = head(b"reg ");
const DROP: u32 = head(b"drop");
const PUT: u32 = head(b"put ");
const GET: u32 = head(b"get ");
const TICKET: u32 = head(b"tick");
const RMAP: u32 = head(b"rmap");
const SCAN: u32 = head(b"scan");
const PRUNE: u32 = head(b"prun");
const UNMERGE: u32 = head(b"unme");
const MERGEABLE: u32 = head(b"merg");
const MOVE: u32 = head(b"move");
const SET: u32 = head(b"set ");
const SHOW: u32 = head(b"show");
const STAT: u32 = head(b"stat");
const FIND: u32 = head(b"find");
const EQUAL: u32 = head(b"equa");
const LOOK: u32 = head(b"look");
const LEAVE: u32 = head(b"leav");
const AUDIT: u32 = head(b"audi");

/// A text, and how far it is read.
struct Words<'a> {
    text: &'a [u8],
    at: usize,
}

impl Words<'_> {
    /// The line that begins with these bytes, the newline left.
    #[inline]
    fn line(&mut self, first: [u8; 4]) -> Option<Line> {
        Some(match head(&first) {
            PUT => Line::Command(Command::Store(self.page()?, self.content()?)),
            GET => Line::Get(self.page()?),
            STAT => Line::Stat,
            FIND => self.behind(b" ", |words| Some(Line::Find(words.number()?, words.next_number()?)))?,
            LOOK => self.behind(b" ", |words| Some(Line::Look(words.number()?)))?,
            LEAVE => self.behind(b"e ", |words| Some(Line::Leave(words.number()?)))?,
            TICKET => self.behind(b"et ", |words| Some(Line::Ticket(words.page()?)))?,
            REG => Line::Command(Command::Register(self.page()?, self.next_number()?, self.content()?)),
            DROP => self.behind(b" ", |words| Some(Line::Command(Command::Drop(words.page()?))))?,
            SCAN if self.take(b" ").is_none() => Line::ScanPages,
            SCAN => Line::Command(Command::Scan(u64::from(self.number()?))),
            EQUAL => self.behind(b"l ", Words::equal)?,
            RMAP => self.behind(b" ", |words| Some(Line::Rmap(words.number()?)))?,
            SET => Line::Command(self.setting()?),
            MOVE => Line::Command(self.moving()?),
            SHOW => self.behind(b" ", Words::shown)?,
            PRUNE => self.behind(b"e", |_| Some(Line::Command(Command::Prune)))?,
            UNMERGE => self.behind(b"rge ", |words| Some(Line::Command(Command::Unmerge(words.guest()?))))?,
            MERGEABLE => self.behind(b"eable ", |words| Some(Line::Command(Command::Mergeable(words.guest()?))))?,
            AUDIT => self.behind(b"t", |_| Some(Line::Audit))?,
            _ => return None,
        })
    }

    /// Reads the rest of a name, and what follows it.
    #[inline]
    fn behind(&mut self, rest: &[u8], then: impl FnOnce(&mut Self) -> Option<Line>) -> Option<Line> {
        self.take(rest)?;
        then(self)
    }

    #[inline]
    fn take(&mut self, bytes: &[u8]) -> Option<()> {
        let is_there = self.text[self.at..].starts_with(bytes);
        is_there.then(|| self.at += bytes.len())
    }

    #[inline]
    fn digit(&mut self) -> Option<u64> {
        let digit = self.text.get(self.at)?.wrapping_sub(b'0');
        if digit > 9 {
            return None;
        }
        self.at += 1;
        Some(u64::from(digit))
    }

    /// A decimal. What follows a zero is left, and is a digit in no line.
    #[inline]
    fn number(&mut self) -> Option<u32> {
        let mut number = self.digit()?;
        if number > 0 {
            while let Some(digit) = self.digit() {
                number = 10 * number + digit;
                if number > u64::from(u32::MAX) {
                    return None;
                }
            }
        }
        Some(number as u32)
    }

    #[inline]
    fn next_number(&mut self) -> Option<u32> {
        self.take(b" ")?;
        self.number()
    }

    #[inline]
    fn guest(&mut self) -> Option<u32> {
        self.number().filter(|&guest| guest <= u32::from(u16::MAX))
    }

    #[inline]
    fn page(&mut self) -> Option<Page> {
        Some(page(self.guest()?, self.next_number()?))
    }

    /// A space, and a content as the last word of its line.
    #[inline]
    fn content(&mut self) -> Option<PageBytes> {
        self.take(b" ")?;
        let left = &self.text[self.at..];
        if let &[high, low, b'\n', ..] = left {
            self.at += 2;
            let byte = value_of(high) << 4 | value_of(low);
            let is_well = value_of(high).max(value_of(low)) < 16;
            return is_well.then_some([u64::from_le_bytes([byte; 8]); PAGE_WORDS]);
        }
        self.at += PAGE_DIGITS;
        bytes_of(left.first_chunk()?)
    }

    fn equal(&mut self) -> Option<Line> {
        Some(Line::Equal(self.number()?, self.next_number()?, self.content()?))
    }

    fn moving(&mut self) -> Option<Command> {
        if self.take(b"dup ").is_some() {
            return Some(Command::MoveDup(self.number()?, self.next_number()?));
        }
        self.take(b" ")?;
        Some(Command::MovePage(self.page()?, self.next_number()?))
    }

    fn shown(&mut self) -> Option<Line> {
        match self.take(b"ksm_zero_pages") {
            Some(()) => Some(Line::ShowZeroPages),
            None => Some(Line::Show(self.knob()?)),
        }
    }

    fn knob(&mut self) -> Option<Knob> {
        Knob::NAMED.into_iter().find_map(|(name, knob)| self.take(name).map(|()| knob))
    }

    fn setting(&mut self) -> Option<Command> {
        Some(self.knob()?.command(self.next_number()?))
    }
}

/// What a byte is worth as a hexadecimal digit, or more than sixteen.
#[inline]
fn value_of(digit: u8) -> u8 {
    const SMALL: u8 = b'a' ^ b'A';
    let number = digit.wrapping_sub(b'0');
    let letter = (digit | SMALL).wrapping_sub(b'a');
    if number < 10 {
        number
    } else if letter < 6 {
        letter + 10
    } else {
        u8::MAX
    }
}

/// The page that the digits write. No digit is a branch, so many are read at once.
#[inline]
fn bytes_of(digits: &[u8; PAGE_DIGITS]) -> Option<PageBytes> {
    let values = digits.map(value_of);
    if values.iter().fold(0, |most, &value| most.max(value)) > 15 {
        return None;
    }
    let mut bytes = [0; PAGE_DIGITS / 2];
    for (byte, pair) in bytes.iter_mut().zip(values.as_chunks().0) {
        let pair = u16::from_le_bytes(*pair);
        *byte = (pair << 4 | pair >> 8) as u8;
    }
    let mut words = bytes.as_chunks().0.iter().map(|word| u64::from_le_bytes(*word));
    Some(std::array::from_fn(|_| words.next().unwrap_or_default()))
}
