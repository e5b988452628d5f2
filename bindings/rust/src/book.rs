//! The book: which page of which guest reads what, and which pages are merged.

use crate::error::{Error, Result, done};
use crate::pass::Pass;
use crate::raw::{self, Made, Request};
use crate::shared::{Shape, Shared};
use crate::table::Passes;
use crate::{PAGE_WORDS, Page};
use alloc::sync::Arc;
use alloc::vec;
use alloc::vec::Vec;

/// A page of a guest.
#[derive(Clone, Copy, Debug, Default, PartialEq, Eq, PartialOrd, Ord, Hash)]
pub struct GuestPage {
    /// The guest.
    pub guest: u16,
    /// The number of the page in its guest.
    pub page: u32,
}

/// What can be asked of a book. What each does is in the project's `docs/MODEL.md`. Each may be refused for [`Error::Memory`].
#[derive(Clone, Copy, Debug, PartialEq, Eq)]
#[non_exhaustive]
#[allow(missing_docs)]
pub enum Command {
    /// A new page with these bytes, on a frame of this node. [`Error::BadNode`], [`Error::AlreadyRegistered`], [`Error::NoFrame`].
    Register { page: GuestPage, node: u32, bytes: Page },
    /// The page goes. [`Error::UnknownPage`].
    Drop { page: GuestPage },
    /// The page gets these bytes: in place, or in a copy where it is shared. [`Error::UnknownPage`], [`Error::NoFrame`].
    Store { page: GuestPage, bytes: Page },
    /// So many visits of the scan, which goes on where it stopped. [`Error::NotRunning`].
    Scan { visits: u64 },
    /// Every dup without items goes.
    Prune,
    /// All pages of the guest are unmerged, and the scan visits them no more. [`Error::UnknownPage`].
    Unmerge { guest: u16 },
    /// The scan visits all pages of the guest again. [`Error::UnknownPage`].
    Mergeable { guest: u16 },
    /// The page gets a frame of its own on another node. [`Error::BadNode`], [`Error::UnknownPage`], [`Error::NoFrame`].
    MovePage { page: GuestPage, node: u32 },
    /// The dup at a place gets another frame of this node. [`Error::BadNode`], [`Error::UnknownPlace`], [`Error::CrossesNodes`],
    /// [`Error::NoFrame`], [`Error::InUse`].
    MoveDup { place: u32, node: u32 },
    /// `run`, 0 to 2; 2 unmerges all pages. [`Error::BadValue`].
    SetRun(u32),
    /// `pages_to_scan`, 1 to 1,000,000. [`Error::BadValue`].
    SetPagesToScan(u32),
    /// `merge_across_nodes`, 0 or 1. [`Error::BadValue`], [`Error::SharedPages`].
    SetAcross(u32),
    /// `max_page_sharing`, 2 to [`Shape::MOST_REFERENCES`](crate::Shape::MOST_REFERENCES). [`Error::BadValue`], [`Error::SharedPages`].
    SetLimit(u32),
    /// `use_zero_pages`, 0 or 1. [`Error::BadValue`].
    SetZeroPages(u32),
}

/// A part of a request by its name: read, or set where something is given. A page has two fields.
macro_rules! part {
    ($request:ident page) => {
        GuestPage { guest: $request.guest, page: $request.page }
    };
    ($request:ident page $given:ident) => {
        ($request.guest, $request.page) = ($given.guest, $given.page)
    };
    ($request:ident $part:ident) => {
        $request.$part
    };
    ($request:ident $part:ident $given:ident) => {
        $request.$part = $given
    };
}

/// What C has of the commands: the number of each, and which part of a request each of its fields is.
macro_rules! kinds {
    ($($kind:literal $name:ident { $($field:tt: $part:ident),* })*) => {
        impl Command {
            // What the library tells of a command that it was given.
            pub(crate) fn of(request: &Request) -> Command {
                match request.kind {
                    $($kind => Command::$name { $($field: part!(request $part)),* },)*
                    kind => unreachable!("the library tells commands alone: {kind}"),
                }
            }

            pub(crate) fn request(self) -> Request {
                let mut request = Request::default();
                match self {
                    $(Command::$name { $($field: $part),* } => {
                        request.kind = $kind;
                        $(part!(request $part $part);)*
                    })*
                }
                request
            }
        }
    };
}

kinds! {
    1 Register { page: page, node: node, bytes: bytes }
    2 Drop { page: page }
    3 Store { page: page, bytes: bytes }
    4 Scan { visits: visits }
    5 Prune {}
    6 Unmerge { guest: guest }
    7 Mergeable { guest: guest }
    8 MovePage { page: page, node: node }
    9 MoveDup { place: value, node: node }
    10 SetRun { 0: value }
    11 SetPagesToScan { 0: value }
    12 SetAcross { 0: value }
    13 SetLimit { 0: value }
    14 SetZeroPages { 0: value }
}

/// What a command did.
#[derive(Clone, Copy, Debug, PartialEq, Eq)]
pub struct Reply {
    /// How many: visits made, dups pruned, pages unmerged; else 0.
    pub count: u64,
    /// Why a scan or an unmerging stopped, if it did.
    pub stop: Option<Error>,
}

/// The counters, each with the kernel's name for it.
#[repr(C)]
#[derive(Clone, Copy, Debug, Default, PartialEq, Eq)]
pub struct Counters {
    /// Dups that have an item (`pages_shared`).
    pub shared: u64,
    /// Merged pages beyond one for each such dup: frames saved (`pages_sharing`).
    pub sharing: u64,
    /// Pages that wait for an equal one (`pages_unshared`).
    pub unshared: u64,
    /// Mergeable pages that are private (`pages_volatile`).
    pub volatile: u64,
    /// Pages that are mapped from the zero page (`ksm_zero_pages`).
    pub zero: u64,
    /// Groups of two or more dups of one content (`stable_node_chains`).
    pub chains: u64,
    /// Dups in these groups (`stable_node_dups`).
    pub dups: u64,
    /// Passes of the scan that have ended (`full_scans`).
    pub full_scans: u64,
}

/// A book with its table: the pages of guests, of which those that read the same are merged into one frame, a dup. Its passes look the merged
/// frames up beside it.
///
/// Dropped while passes are out, it is closed and freed with the last of them, and of its [`Passes`].
///
/// ```
/// use ksmbook::{Book, Command, GuestPage, Shape};
///
/// let mut book = Book::open(Shape::SMALL)?;
/// let (one, other) = (GuestPage { guest: 0, page: 0 }, GuestPage { guest: 1, page: 0 });
/// for page in [one, other] {
///     book.apply(Command::Register { page, node: 0, bytes: [7; 8] })?;
/// }
/// book.apply(Command::SetRun(1))?;
/// book.apply(Command::Scan { visits: 4 })?;
/// assert_eq!(book.ticket(one), book.ticket(other));
/// assert_eq!((book.counters().shared, book.counters().sharing), (1, 1));
/// # Ok::<(), ksmbook::Error>(())
/// ```
#[derive(Debug)]
pub struct Book {
    shared: Arc<Shared>,
}

// Whether there was something to tell.
pub(crate) fn told<T>(answer: u32, value: T) -> Option<T> {
    (answer == raw::DONE).then_some(value)
}

// What a command was answered.
pub(crate) fn answered(answer: u32, made: &Made) -> Result<Reply> {
    match answer {
        raw::DONE => Ok(Reply { count: made.count, stop: (made.stop != 0).then(|| Error::of(made.stop, made.node)) }),
        answer => Err(Error::of(answer, made.node)),
    }
}

// The pages that a call tells to a slice, with their number; once more where the slice was too short, and none where there is nothing to tell.
pub(crate) fn mappers(mut call: impl FnMut(&mut [u64], &mut u64) -> u32) -> Result<Option<Vec<GuestPage>>> {
    let (mut pages, mut count) = (vec![0; 16], 0);
    let mut answer = call(&mut pages, &mut count);
    while answer == raw::RANGE {
        pages.resize(usize::try_from(count).unwrap_or(usize::MAX), 0);
        answer = call(&mut pages, &mut count);
    }
    if answer == raw::NOTHING {
        return Ok(None);
    }
    done(answer)?;
    pages.truncate(usize::try_from(count).unwrap_or(usize::MAX));
    let pages = pages.into_iter().map(|page| GuestPage { guest: (page >> 32) as u16, page: page as u32 });
    Ok(Some(pages.collect()))
}

impl Book {
    /// Opens a book without pages, on a table of its own. Its journal is counted: only how many entries there are can be read, and no command takes
    /// memory for one.
    ///
    /// # Errors
    ///
    /// [`Error::Shape`] where a size is out of its range; [`Error::Memory`].
    pub fn open(shape: Shape) -> Result<Book> {
        Ok(Book { shared: Shared::open(raw::ksm_book_open, shape)? })
    }

    /// Opens a book that keeps its journal, so that its entries can be read ([`Book::entry`]). Each command but those refused for memory then takes
    /// nine bytes or more, for good.
    ///
    /// ```
    /// use ksmbook::{Book, Command, Error, Shape};
    ///
    /// let mut book = Book::open_kept(Shape::SMALL)?;
    /// book.apply(Command::Prune)?;
    /// let _ = book.apply(Command::Scan { visits: 1 });
    /// assert_eq!(book.entries(), 2);
    /// assert_eq!(book.entry(1), Some((Command::Scan { visits: 1 }, Err(Error::NotRunning))));
    /// # Ok::<(), ksmbook::Error>(())
    /// ```
    ///
    /// # Errors
    ///
    /// Those of [`Book::open`].
    pub fn open_kept(shape: Shape) -> Result<Book> {
        Ok(Book { shared: Shared::open(raw::ksm_book_open_kept, shape)? })
    }

    /// Closes the book and frees its memory.
    ///
    /// # Errors
    ///
    /// [`Error::PassesOut`]: the book is closed and freed then when the last of its passes, and of its [`Passes`], is dropped.
    pub fn close(self) -> Result<()> {
        self.shared.close()
    }

    /// Takes a pass out of the book's table, which comes back when it is dropped.
    ///
    /// # Errors
    ///
    /// [`Error::NoPass`] where all are out; [`Error::Memory`].
    pub fn pass(&self) -> Result<Pass> {
        Pass::of(self.shared.clone())
    }

    /// What takes passes out of this book's table, and may go to any thread.
    #[must_use]
    pub fn passes(&self) -> Passes {
        Passes::of(self.shared.clone())
    }

    /// Does a command, and answers what it did.
    ///
    /// # Errors
    ///
    /// Those that [`Command`] names. A refusal changes no page, dup, knob or counter; the journal has an entry of it, but for [`Error::Memory`], and
    /// a frame that nobody held any more may have been taken back.
    pub fn apply(&mut self, command: Command) -> Result<Reply> {
        let mut made = Made::default();
        // SAFETY: `&mut` shows that this is the only call of the book, here and below; each other pointer is of a reference.
        let answer = unsafe { raw::ksm_book_apply(self.shared.handle(), &command.request(), &mut made) };
        answered(answer, &made)
    }

    /// The bytes of a page: those stored last. None where it is not registered.
    pub fn read(&mut self, page: GuestPage) -> Option<Page> {
        let mut bytes = [0; PAGE_WORDS];
        // SAFETY: as above.
        let answer = unsafe { raw::ksm_book_read(self.shared.handle(), page.guest, page.page, bytes.as_mut_ptr()) };
        told(answer, bytes)
    }

    /// The place of the dup into which a page is merged; none where it is not merged.
    pub fn ticket(&mut self, page: GuestPage) -> Option<u32> {
        let mut place = 0;
        // SAFETY: as above.
        let answer = unsafe { raw::ksm_book_ticket(self.shared.handle(), page.guest, page.page, &mut place) };
        told(answer, place)
    }

    /// The pages merged into the dup at a place, ascending; none where no dup with items stands there.
    ///
    /// # Errors
    ///
    /// [`Error::Memory`].
    pub fn mappers(&mut self, place: u32) -> Result<Option<Vec<GuestPage>>> {
        // SAFETY: as above.
        mappers(|pages, count| unsafe { raw::ksm_book_mappers(self.shared.handle(), place, pages.as_mut_ptr(), pages.len(), count) })
    }

    /// The counters, as they are now.
    pub fn counters(&mut self) -> Counters {
        let mut counters = Counters::default();
        // SAFETY: as above. It is refused only where this is no open book.
        let _ = unsafe { raw::ksm_book_counters(self.shared.handle(), &mut counters) };
        counters
    }

    /// How many entries the journal has: the commands that were given, but those refused for memory.
    pub fn entries(&mut self) -> u64 {
        let mut count = 0;
        // SAFETY: as above. It is refused only where this is no open book.
        let _ = unsafe { raw::ksm_book_entries(self.shared.handle(), &mut count) };
        count
    }

    /// An entry of the journal, by its number from 0 on: a command with its answer. None where there are not so many, or the journal is counted.
    pub fn entry(&mut self, number: u64) -> Option<(Command, Result<Reply>)> {
        let (mut request, mut answer, mut made) = (Request::default(), 0, Made::default());
        // SAFETY: as above.
        let told_if = unsafe { raw::ksm_book_entry(self.shared.handle(), number, &mut request, &mut answer, &mut made) };
        told(told_if, ()).map(|()| (Command::of(&request), answered(answer, &made)))
    }
}
