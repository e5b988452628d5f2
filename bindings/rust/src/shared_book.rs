//! A book with a lock of its own.

use crate::book::{Command, Counters, GuestPage, Reply, answered, mappers, told};
use crate::error::{Result, done};
use crate::pass::{Found, Pass, why};
use crate::raw::{self, Handle, Made, Request, SharedHandle};
use crate::shared::{Home, Shape};
use crate::table::Passes;
use crate::{PAGE_WORDS, Page};
use alloc::sync::Arc;
use alloc::vec;
use alloc::vec::Vec;
use core::cell::UnsafeCell;
use core::fmt;

/// A [`Book`](crate::Book) for several threads, by `&`: it has a lock, under which one command or read at a time is done. The counters are read
/// without the lock, as the last command left them, and so is what passes look up.
///
/// Dropped while passes are out, it is closed and freed with the last of them, and of its [`Passes`].
///
/// ```
/// use ksmbook::{Command, GuestPage, Shape, SharedBook};
///
/// let book = SharedBook::open(Shape::SMALL)?;
/// book.apply(Command::SetRun(1))?;
/// std::thread::scope(|scope| {
///     for guest in 0..4 {
///         let book = &book;
///         scope.spawn(move || {
///             let page = GuestPage { guest, page: 0 };
///             book.apply(Command::Register { page, node: 0, bytes: [7; 8] }).unwrap();
///             book.apply(Command::Scan { visits: 8 }).unwrap();
///             assert_eq!(book.read(page), Some([7; 8]));
///         });
///     }
/// });
/// assert_eq!((book.counters().shared, book.counters().sharing), (1, 3));
/// let rows = book.audit(2)?;
/// assert_eq!(rows.iter().filter_map(|row| row.held()).map(|found| found.words).collect::<Vec<_>>(), [[7; 8]]);
/// # Ok::<(), ksmbook::Error>(())
/// ```
#[derive(Debug)]
pub struct SharedBook {
    locked: Arc<Locked>,
    places: usize,
}

/// What an audit's lookup of a place found.
#[derive(Clone, Copy, Debug, PartialEq, Eq)]
pub struct Audited {
    /// The frame that the place named.
    pub frame: u32,
    /// The life of the frame that it named.
    pub life: u64,
    /// The words of the page, all of this life.
    pub words: Page,
}

// A shared book that is open.
struct Locked {
    handle: UnsafeCell<SharedHandle>,
}

// SAFETY: the library allows any call of a shared book by any thread at any time. The handle lies still, as long as anybody has it.
unsafe impl Send for Locked {}
// SAFETY: the same.
unsafe impl Sync for Locked {}

impl fmt::Debug for Locked {
    fn fmt(&self, f: &mut fmt::Formatter<'_>) -> fmt::Result {
        f.write_str("Locked")
    }
}

impl Home for Locked {
    fn open_pass(&self, pass: &mut Handle) -> u32 {
        // SAFETY: any thread may, here and below, and the pass is the caller's.
        unsafe { raw::ksm_shared_pass_open(self.handle.get(), pass) }
    }

    fn close_pass(&self, pass: &mut Handle) -> u32 {
        // SAFETY: the same.
        unsafe { raw::ksm_shared_pass_close(self.handle.get(), pass) }
    }
}

impl Drop for Locked {
    // Each pass has a part of this, so all are back. It is not open where it was closed before, or did not open.
    fn drop(&mut self) {
        // SAFETY: nobody else has it.
        let _ = unsafe { raw::ksm_shared_close(self.handle.get_mut()) };
    }
}

type Open = unsafe extern "C" fn(*mut SharedHandle, u32, u32, u32, u64, u32) -> u32;

impl SharedBook {
    /// Opens a book without pages, whose journal is counted, as [`Book::open`](crate::Book::open) does.
    ///
    /// # Errors
    ///
    /// [`Error::Shape`](crate::Error::Shape) where a size is out of its range; [`Error::Memory`](crate::Error::Memory).
    pub fn open(shape: Shape) -> Result<SharedBook> {
        SharedBook::by(raw::ksm_shared_open, shape)
    }

    /// Opens a book that keeps its journal, as [`Book::open_kept`](crate::Book::open_kept) does.
    ///
    /// # Errors
    ///
    /// Those of [`SharedBook::open`].
    pub fn open_kept(shape: Shape) -> Result<SharedBook> {
        SharedBook::by(raw::ksm_shared_open_kept, shape)
    }

    fn by(call: Open, shape: Shape) -> Result<SharedBook> {
        let locked = Arc::new(Locked { handle: UnsafeCell::new(SharedHandle::NONE) });
        let Shape { nodes, frames_per_node, passes, last_generation, tries } = shape;
        // SAFETY: the handle is closed and lies still.
        done(unsafe { call(locked.handle.get(), nodes, frames_per_node, passes, last_generation, tries) })?;
        Ok(SharedBook { locked, places: nodes as usize * frames_per_node as usize })
    }

    /// Closes the book and frees its memory.
    ///
    /// # Errors
    ///
    /// [`Error::PassesOut`](crate::Error::PassesOut): the book is closed and freed then when the last of its passes, and of its [`Passes`], is
    /// dropped.
    pub fn close(self) -> Result<()> {
        // SAFETY: any thread may, here and below; each other pointer is of a reference.
        done(unsafe { raw::ksm_shared_close(self.handle()) })
    }

    fn handle(&self) -> *mut SharedHandle {
        self.locked.handle.get()
    }

    /// Takes a pass out of the book's table, which comes back when it is dropped. It looks places up without the lock.
    ///
    /// # Errors
    ///
    /// [`Error::NoPass`](crate::Error::NoPass) where all are out; [`Error::Memory`](crate::Error::Memory).
    pub fn pass(&self) -> Result<Pass> {
        Pass::of(self.locked.clone())
    }

    /// What takes passes out of this book's table, and may go to any thread.
    #[must_use]
    pub fn passes(&self) -> Passes {
        Passes::of(self.locked.clone())
    }

    /// Does a command, and answers what it did, as [`Book::apply`](crate::Book::apply) does.
    ///
    /// # Errors
    ///
    /// Those that [`Command`] names.
    pub fn apply(&self, command: Command) -> Result<Reply> {
        let mut made = Made::default();
        // SAFETY: as above.
        let answer = unsafe { raw::ksm_shared_apply(self.handle(), &command.request(), &mut made) };
        answered(answer, &made)
    }

    /// The bytes of a page: those stored last. None where it is not registered.
    #[must_use]
    pub fn read(&self, page: GuestPage) -> Option<Page> {
        let mut bytes = [0; PAGE_WORDS];
        // SAFETY: as above.
        let answer = unsafe { raw::ksm_shared_read(self.handle(), page.guest, page.page, bytes.as_mut_ptr()) };
        told(answer, bytes)
    }

    /// The place of the dup into which a page is merged; none where it is not merged. Another thread may change that at any time.
    #[must_use]
    pub fn ticket(&self, page: GuestPage) -> Option<u32> {
        let mut place = 0;
        // SAFETY: as above.
        let answer = unsafe { raw::ksm_shared_ticket(self.handle(), page.guest, page.page, &mut place) };
        told(answer, place)
    }

    /// The pages merged into the dup at a place, ascending; none where no dup with items stands there.
    ///
    /// # Errors
    ///
    /// [`Error::Memory`](crate::Error::Memory).
    pub fn mappers(&self, place: u32) -> Result<Option<Vec<GuestPage>>> {
        // SAFETY: as above.
        mappers(|pages, count| unsafe { raw::ksm_shared_mappers(self.handle(), place, pages.as_mut_ptr(), pages.len(), count) })
    }

    /// The counters that the last command left, all of one moment, without the lock: of no earlier moment than any that this thread was told before,
    /// nor than the end of a command that came before.
    #[must_use]
    pub fn counters(&self) -> Counters {
        let mut counters = Counters::default();
        // SAFETY: as above. It is refused only where this is not open.
        let _ = unsafe { raw::ksm_shared_counters(self.handle(), &mut counters) };
        counters
    }

    /// Looks each place up once, by so many threads, 1 to [`Shape::MOST_PASSES`], each with a pass of the book: a row for each place, in order. No
    /// lock is taken for a lookup.
    ///
    /// # Errors
    ///
    /// [`Error::Shape`](crate::Error::Shape) where `threads` is out of its range; [`Error::NoPass`](crate::Error::NoPass) where fewer passes are in;
    /// [`Error::Memory`](crate::Error::Memory).
    pub fn audit(&self, threads: u32) -> Result<Vec<Found<Audited>>> {
        let (mut rows, mut count) = (vec![raw::Row::default(); self.places], 0);
        // SAFETY: as above.
        done(unsafe { raw::ksm_shared_audit(self.handle(), threads, rows.as_mut_ptr(), rows.len(), &mut count) })?;
        let rows = rows.into_iter().map(|raw::Row { answer, frame, life, words }| match answer {
            raw::DONE => Found::Held(Audited { frame, life, words }),
            answer => Found::Gone(why(answer)),
        });
        Ok(rows.collect())
    }

    /// How many entries the journal has: the commands that were given, but those refused for memory.
    #[must_use]
    pub fn entries(&self) -> u64 {
        let mut count = 0;
        // SAFETY: as above. It is refused only where this is not open.
        let _ = unsafe { raw::ksm_shared_entries(self.handle(), &mut count) };
        count
    }

    /// An entry of the journal, as [`Book::entry`](crate::Book::entry): the order of commands, by which thread soever.
    #[must_use]
    pub fn entry(&self, number: u64) -> Option<(Command, Result<Reply>)> {
        let (mut request, mut answer, mut made) = (Request::default(), 0, Made::default());
        // SAFETY: as above.
        let told_if = unsafe { raw::ksm_shared_entry(self.handle(), number, &mut request, &mut answer, &mut made) };
        told(told_if, ()).map(|()| (Command::of(&request), answered(answer, &made)))
    }
}
