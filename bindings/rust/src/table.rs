//! The table, for its keeper.

use crate::error::{Error, Result, done, done_or_used};
use crate::pass::Pass;
use crate::raw;
use crate::shared::{Home, Shape, Shared};
use crate::Page;
use alloc::sync::Arc;

/// What the keeper uses a frame for.
#[derive(Clone, Copy, Debug, PartialEq, Eq, Hash)]
#[non_exhaustive]
pub enum Kind {
    /// It waits for its next life.
    Free,
    /// It has a life, and no reference yet.
    Filling,
    /// It has the keeper's references, and is named nowhere.
    Private,
    /// It was named at a place: its words stay as they are until its life ends.
    Stable,
    /// The keeper has given its last reference back; readers may hold it still.
    Dying,
    /// It has had its last life.
    Retired,
}

/// What the keeper knows of a frame.
#[derive(Clone, Copy, Debug, PartialEq, Eq)]
pub struct Frame {
    /// What the keeper uses it for.
    pub kind: Kind,
    /// How many references on it are the keeper's own.
    pub references: u64,
    /// How many times it was given.
    pub life: u64,
}

/// A table with its keeper. Threads may share it to take passes; what the keeper does asks for `&mut`.
///
/// Dropped while passes are out, it is closed and freed with the last of them, and of its [`Passes`].
#[derive(Debug)]
pub struct Table {
    shared: Arc<Shared>,
}

/// Takes passes out of a table or a book, from any thread, also while another has the table.
#[derive(Clone, Debug)]
pub struct Passes {
    home: Arc<dyn Home>,
}

impl Passes {
    pub(crate) fn of(home: Arc<dyn Home>) -> Passes {
        Passes { home }
    }

    /// Takes a pass out.
    ///
    /// # Errors
    ///
    /// [`Error::NoPass`] where all are out, or the table was closed; [`Error::Memory`].
    pub fn take(&self) -> Result<Pass> {
        Pass::of(Arc::clone(&self.home))
    }
}

impl Table {
    /// Opens a table with all frames free and all places empty.
    ///
    /// # Errors
    ///
    /// [`Error::Shape`] where a size is out of its range; [`Error::Memory`].
    pub fn open(shape: Shape) -> Result<Table> {
        Ok(Table { shared: Shared::open(raw::ksm_table_open, shape)? })
    }

    /// Closes the table and frees its memory.
    ///
    /// # Errors
    ///
    /// [`Error::PassesOut`]: the table is closed and freed then when the last of its passes, and of its [`Passes`], is dropped.
    pub fn close(self) -> Result<()> {
        self.shared.close()
    }

    /// Takes a pass out of the table, which comes back when it is dropped.
    ///
    /// # Errors
    ///
    /// [`Error::NoPass`] where all are out; [`Error::Memory`].
    pub fn pass(&self) -> Result<Pass> {
        Pass::of(self.shared.clone())
    }

    /// What takes passes out of this table, and may go to any thread.
    #[must_use]
    pub fn passes(&self) -> Passes {
        Passes::of(self.shared.clone())
    }

    /// Gives a free frame its next life: it is [`Kind::Filling`] then.
    ///
    /// # Errors
    ///
    /// [`Error::Range`]; [`Error::State`] where it is not free.
    pub fn raise(&mut self, frame: u32) -> Result<()> {
        // SAFETY: `&mut` shows that this is the keeper's only call, here and below; each other pointer is of a reference.
        done(unsafe { raw::ksm_raise(self.shared.handle(), frame) })
    }

    /// Stores a word of a frame that is filling or private.
    ///
    /// # Errors
    ///
    /// [`Error::Range`] where there is no such frame or word; [`Error::State`].
    pub fn put(&mut self, frame: u32, i: usize, word: u64) -> Result<()> {
        // SAFETY: as above.
        done(unsafe { raw::ksm_put(self.shared.handle(), frame, i, word) })
    }

    /// Opens a frame that is filling: it is [`Kind::Private`] then, with one reference.
    ///
    /// # Errors
    ///
    /// [`Error::Range`]; [`Error::State`].
    pub fn open_frame(&mut self, frame: u32) -> Result<()> {
        // SAFETY: as above.
        done(unsafe { raw::ksm_open_frame(self.shared.handle(), frame) })
    }

    /// Gives a free frame its next life with these words: [`Table::raise`], [`Table::put`] and [`Table::open_frame`].
    ///
    /// # Errors
    ///
    /// [`Error::Range`]; [`Error::State`] where it is not free.
    pub fn give(&mut self, frame: u32, page: &Page) -> Result<()> {
        self.raise(frame)?;
        self.fill(frame, page)
    }

    // The words of a frame that is filling, which is opened then.
    pub(crate) fn fill(&mut self, frame: u32, page: &Page) -> Result<()> {
        for (i, word) in page.iter().enumerate() {
            self.put(frame, i, *word)?;
        }
        self.open_frame(frame)
    }

    /// Names a private frame at a place: it is [`Kind::Stable`] then.
    ///
    /// # Errors
    ///
    /// [`Error::Range`]; [`Error::State`] where the frame is not private, or the place names a frame that is stable in the life named.
    pub fn publish(&mut self, place: u32, frame: u32) -> Result<()> {
        // SAFETY: as above.
        done(unsafe { raw::ksm_publish(self.shared.handle(), place, frame) })
    }

    /// Names a private frame at a place in place of the one that it names, by one step: a reader finds the one frame or the other, and never an
    /// empty place. The new one is [`Kind::Stable`] then. The old one is as it was, and named there no more: give its references back just after,
    /// by [`Table::sub`] or [`Table::freeze`]. A lookup that this overtakes may answer [`Gone::Zero`](crate::Gone::Zero) or
    /// [`Gone::Life`](crate::Gone::Life); who looks the place up again finds another frame.
    ///
    /// # Errors
    ///
    /// [`Error::Range`]; [`Error::State`] where the frame is not private, or the place does not name a frame that is stable in the life named.
    pub fn replace(&mut self, place: u32, frame: u32) -> Result<()> {
        // SAFETY: as above.
        done(unsafe { raw::ksm_replace(self.shared.handle(), place, frame) })
    }

    /// Empties a place.
    ///
    /// # Errors
    ///
    /// [`Error::Range`]; [`Error::State`] where it names a frame that is stable in the life named.
    pub fn withdraw(&mut self, place: u32) -> Result<()> {
        // SAFETY: as above.
        done(unsafe { raw::ksm_withdraw(self.shared.handle(), place) })
    }

    /// Takes one reference more on a frame on which the keeper has one, and fewer than [`Shape::MOST_REFERENCES`].
    ///
    /// # Errors
    ///
    /// [`Error::Range`]; [`Error::State`].
    pub fn add(&mut self, frame: u32) -> Result<()> {
        // SAFETY: as above.
        done(unsafe { raw::ksm_add(self.shared.handle(), frame) })
    }

    /// Gives one reference back: with the last one the frame is [`Kind::Dying`].
    ///
    /// # Errors
    ///
    /// [`Error::Range`]; [`Error::State`] where the keeper has none.
    pub fn sub(&mut self, frame: u32) -> Result<()> {
        // SAFETY: as above.
        done(unsafe { raw::ksm_sub(self.shared.handle(), frame) })
    }

    /// Takes all of the keeper's references on a stable frame back, and answers true, unless a reader has one.
    ///
    /// # Errors
    ///
    /// [`Error::Range`]; [`Error::State`] where it is not stable.
    pub fn freeze(&mut self, frame: u32) -> Result<bool> {
        // SAFETY: as above.
        done_or_used(unsafe { raw::ksm_freeze(self.shared.handle(), frame) })
    }

    /// Takes a dying frame back, and answers true, unless a reader has a reference on it. Where it is true, every read of every reader that held
    /// the frame is over.
    ///
    /// # Errors
    ///
    /// [`Error::Range`]; [`Error::State`] where it is not dying.
    pub fn reap(&mut self, frame: u32) -> Result<bool> {
        // SAFETY: as above.
        done_or_used(unsafe { raw::ksm_reap(self.shared.handle(), frame) })
    }

    /// Reaps each of these frames: those that readers hold are moved to the front, in their order, and their number is answered. Behind them stand
    /// those that were reaped.
    ///
    /// # Errors
    ///
    /// [`Error::Range`], [`Error::State`]: the first that a frame was refused with. All others were tried, and those that were reaped stand last.
    pub fn reap_all(&mut self, frames: &mut [u32]) -> Result<usize> {
        let mut count = frames.len();
        // SAFETY: as above.
        let answer = unsafe { raw::ksm_reap_all(self.shared.handle(), frames.as_mut_ptr(), &mut count) };
        if answer < raw::FIRST_REFUSAL { Ok(count) } else { Err(Error::of(answer, 0)) }
    }

    /// Loads a word of a frame that is private, stable or dying.
    ///
    /// # Errors
    ///
    /// [`Error::Range`] where there is no such frame or word; [`Error::State`].
    pub fn load(&mut self, frame: u32, i: usize) -> Result<u64> {
        let mut word = 0;
        // SAFETY: as above.
        done(unsafe { raw::ksm_load(self.shared.handle(), frame, i, &mut word) })?;
        Ok(word)
    }

    /// What the keeper knows of a frame.
    ///
    /// # Errors
    ///
    /// [`Error::Range`].
    pub fn frame(&mut self, frame: u32) -> Result<Frame> {
        let (mut kind, mut references, mut life) = (0, 0, 0);
        // SAFETY: as above.
        done(unsafe { raw::ksm_frame(self.shared.handle(), frame, &mut kind, &mut references, &mut life) })?;
        let kind = match kind {
            0 => Kind::Free,
            1 => Kind::Filling,
            2 => Kind::Private,
            3 => Kind::Stable,
            4 => Kind::Dying,
            _ => Kind::Retired,
        };
        Ok(Frame { kind, references, life })
    }
}
