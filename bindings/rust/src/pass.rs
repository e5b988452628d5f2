//! A pass, its lookups, and what they hold.

use crate::error::{Error, Result, done};
use crate::raw::{self, Handle};
use crate::shared::Home;
use crate::{PAGE_WORDS, Page};
use alloc::sync::Arc;
use core::cell::UnsafeCell;
use core::fmt;
use core::mem::ManuallyDrop;
use core::ops::Deref;

/// Why a lookup found no frame to hold.
#[derive(Clone, Copy, Debug, PartialEq, Eq, Hash)]
#[non_exhaustive]
pub enum Gone {
    /// The place was empty.
    Vacant,
    /// The frame that the place named had no reference.
    Zero,
    /// The frame was in another life than the place named.
    Life,
    /// As many exchanges as [`Shape::tries`](crate::Shape::tries) were lost to others.
    Busy,
}

/// What a lookup found: the frame or its words, or why there was nothing.
#[derive(Clone, Copy, Debug, PartialEq, Eq)]
#[must_use]
pub enum Found<T> {
    /// The frame that the place named.
    Held(T),
    /// There was nothing to hold.
    Gone(Gone),
}

impl<T> Found<T> {
    /// What was found, if anything was.
    #[inline]
    pub fn held(self) -> Option<T> {
        match self {
            Found::Held(held) => Some(held),
            Found::Gone(_) => None,
        }
    }
}

/// What a lookup that compares found.
#[derive(Debug)]
#[must_use]
pub enum FoundEqual<T> {
    /// The frame is held, and each of its words is the page's.
    Held(T),
    /// The frame is held, and a word of it is not the page's.
    Differs(T),
    /// There was nothing to hold.
    Gone(Gone),
}

/// Where a frame was found.
#[derive(Clone, Copy, Debug, PartialEq, Eq, Hash)]
pub struct Told {
    /// The place that was looked up.
    pub place: u32,
    /// The frame that it named.
    pub frame: u32,
    /// The life of the frame that it named.
    pub life: u64,
}

/// What looks places up. Each thread that does has its own. It comes back to its table when it is dropped, also where its thread panics.
pub struct Pass {
    // A hold reads by `&`: the library asks that a handle is in one call at a time, and neither a pass nor a hold is `Sync`.
    handle: UnsafeCell<Handle>,
    // What was read of the frame that is held, if `is_read`.
    page: UnsafeCell<Page>,
    is_read: UnsafeCell<bool>,
    home: Arc<dyn Home>,
}

// SAFETY: the archive's handle is proved to be one that may go to another thread.
unsafe impl Send for Pass {}

impl fmt::Debug for Pass {
    fn fmt(&self, f: &mut fmt::Formatter<'_>) -> fmt::Result {
        f.debug_struct("Pass").finish_non_exhaustive()
    }
}

// Why a lookup found nothing, by a number from 1 to 4.
#[inline]
pub(crate) fn why(answer: u32) -> Gone {
    match answer {
        raw::VACANT => Gone::Vacant,
        raw::ZERO => Gone::Zero,
        raw::LIFE => Gone::Life,
        answer => {
            debug_assert_eq!(answer, raw::BUSY);
            Gone::Busy
        }
    }
}

impl Pass {
    pub(crate) fn of(home: Arc<dyn Home>) -> Result<Pass> {
        let mut handle = Handle::NONE;
        done(home.open_pass(&mut handle))?;
        Ok(Pass {
            handle: UnsafeCell::new(handle),
            page: UnsafeCell::new([0; PAGE_WORDS]),
            is_read: UnsafeCell::new(false),
            home,
        })
    }

    // A hold that was kept or forgotten is given up by the next lookup.
    #[cold]
    fn again(&mut self, answer: u32, look: impl FnOnce(*mut Handle) -> u32) -> Result<u32> {
        if answer != raw::HOLDING {
            return Err(Error::of(answer, 0));
        }
        self.give_back();
        let answer = look(self.handle.get_mut());
        if answer < raw::FIRST_REFUSAL { Ok(answer) } else { Err(Error::of(answer, 0)) }
    }

    #[inline]
    fn give_back(&mut self) {
        // SAFETY: `&mut` shows that the handle is in no other call. It holds a frame or is refused.
        let _ = unsafe { raw::ksm_leave(self.handle.get_mut()) };
    }

    #[inline]
    fn find_number(&mut self, place: u32) -> Result<u32> {
        *self.is_read.get_mut() = false;
        // SAFETY: as above.
        let answer = unsafe { raw::ksm_find(self.handle.get_mut(), place) };
        if answer < raw::FIRST_REFUSAL {
            return Ok(answer);
        }
        // SAFETY: as above.
        self.again(answer, |handle| unsafe { raw::ksm_find(handle, place) })
    }

    /// Looks a place up, and holds the frame that it names.
    ///
    /// # Errors
    ///
    /// [`Error::Range`] where there is no such place.
    #[inline]
    pub fn find(&mut self, place: u32) -> Result<Found<Hold<'_>>> {
        Ok(match self.find_number(place)? {
            raw::DONE => Found::Held(Hold { pass: self }),
            answer => Found::Gone(why(answer)),
        })
    }

    /// Looks a place up, and holds the frame that it names by a hold that has the pass with it: it may lie in a struct, or go to another thread.
    /// Where nothing is held the pass comes back with why.
    ///
    /// # Errors
    ///
    /// [`Error::Range`] where there is no such place; the pass comes back then too.
    #[inline]
    pub fn hold(mut self, place: u32) -> core::result::Result<OwnedHold, (Result<Gone>, Pass)> {
        match self.find_number(place) {
            Ok(raw::DONE) => Ok(OwnedHold { pass: self }),
            Ok(answer) => Err((Ok(why(answer)), self)),
            Err(error) => Err((Err(error), self)),
        }
    }

    /// Looks a place up, holds the frame that it names, and compares its words with a page.
    ///
    /// # Errors
    ///
    /// [`Error::Range`] where there is no such place.
    pub fn find_equal(&mut self, place: u32, page: &Page) -> Result<FoundEqual<Hold<'_>>> {
        *self.is_read.get_mut() = false;
        // SAFETY: as above; the page is a reference's.
        let look = |handle| unsafe { raw::ksm_find_equal(handle, place, page.as_ptr()) };
        let mut answer = look(self.handle.get_mut());
        if answer >= raw::FIRST_REFUSAL {
            answer = self.again(answer, look)?;
        }
        Ok(match answer {
            raw::DONE => FoundEqual::Held(Hold { pass: self }),
            raw::DIFFERS => FoundEqual::Differs(Hold { pass: self }),
            answer => FoundEqual::Gone(why(answer)),
        })
    }

    /// The words of the frame that a place names, all of one life: a find, every word, and a leave in one call.
    ///
    /// # Errors
    ///
    /// [`Error::Range`] where there is no such place.
    #[inline]
    pub fn look_up(&mut self, place: u32) -> Result<Found<Page>> {
        let mut page = [0; PAGE_WORDS];
        Ok(match self.look_up_into(place, &mut page)? {
            None => Found::Held(page),
            Some(gone) => Found::Gone(gone),
        })
    }

    /// The same, with the words to `page`, which is as it was where nothing was found. It saves a copy.
    ///
    /// # Errors
    ///
    /// [`Error::Range`] where there is no such place.
    #[inline]
    pub fn look_up_into(&mut self, place: u32, page: &mut Page) -> Result<Option<Gone>> {
        // SAFETY: as above; the page is a reference's.
        let mut answer = unsafe { raw::ksm_look_up(self.handle.get_mut(), place, page.as_mut_ptr()) };
        if answer >= raw::FIRST_REFUSAL {
            // SAFETY: the same.
            answer = self.again(answer, |handle| unsafe { raw::ksm_look_up(handle, place, page.as_mut_ptr()) })?;
        }
        Ok(if answer == raw::DONE { None } else { Some(why(answer)) })
    }

    // Looks a place up. Where it answers no reason, a frame is held then; `held` is the hold.
    #[cfg(feature = "std")]
    #[inline]
    pub(crate) fn hold_at(&mut self, place: u32) -> Result<Option<Gone>> {
        Ok(match self.find_number(place)? {
            raw::DONE => None,
            answer => Some(why(answer)),
        })
    }

    #[cfg(feature = "std")]
    #[inline]
    pub(crate) fn held(&mut self) -> Hold<'_> {
        Hold { pass: self }
    }

    // The words of the frame that is held, which are read once.
    #[inline]
    fn page(&self) -> &Page {
        // SAFETY: a hold calls this, and is neither `Sync` nor calls out, so nobody reads or writes the cells meanwhile. Once the page is read it
        // stays for as long as the hold, by which the reference is bounded: each lookup wants `&mut`.
        unsafe {
            if !*self.is_read.get() {
                let _ = raw::ksm_words(self.handle.get(), (*self.page.get()).as_mut_ptr());
                *self.is_read.get() = true;
            }
            &*self.page.get()
        }
    }

    fn told(&self) -> Told {
        let (mut place, mut frame, mut life) = (0, 0, 0);
        // SAFETY: as in `page`. A hold calls this, so a frame is held.
        let _ = unsafe { raw::ksm_held(self.handle.get(), &mut place, &mut frame, &mut life) };
        Told { place, frame, life }
    }
}

impl Drop for Pass {
    fn drop(&mut self) {
        self.give_back();
        let answer = self.home.close_pass(self.handle.get_mut());
        debug_assert!(done(answer).is_ok(), "a pass comes back to its table");
    }
}

macro_rules! a_hold {
    ($hold:ty) => {
        impl Deref for $hold {
            type Target = Page;

            /// Every word of the page. They are read from the frame once.
            #[inline]
            fn deref(&self) -> &Page {
                self.pass.page()
            }
        }

        impl AsRef<Page> for $hold {
            fn as_ref(&self) -> &Page {
                self
            }
        }

        impl $hold {
            /// Every word of the page.
            #[inline]
            #[must_use]
            pub fn words(&self) -> Page {
                *self.pass.page()
            }

            /// The word `i` of the page, if there is one.
            #[inline]
            #[must_use]
            pub fn word(&self, i: usize) -> Option<u64> {
                let mut word = 0;
                // SAFETY: as in `Pass::page`.
                (unsafe { raw::ksm_word(self.pass.handle.get(), i, &mut word) } == raw::DONE).then_some(word)
            }

            /// The place, the frame and the life that are held.
            #[must_use]
            pub fn told(&self) -> Told {
                self.pass.told()
            }
        }

        impl fmt::Debug for $hold {
            fn fmt(&self, f: &mut fmt::Formatter<'_>) -> fmt::Result {
                f.debug_struct("Hold").field("told", &self.told()).field("words", &**self).finish()
            }
        }
    };
}

/// A frame that is held: while it is, its life does not end and its words do not change. It is given back when this is dropped.
#[must_use = "the frame is given back at once"]
pub struct Hold<'a> {
    pass: &'a mut Pass,
}

/// A frame that is held, with its pass: it may lie in a struct, or go to another thread.
#[must_use = "the frame and its pass are given back at once"]
pub struct OwnedHold {
    pass: Pass,
}

a_hold!(Hold<'_>);
a_hold!(OwnedHold);

impl Hold<'_> {
    /// Gives the frame back.
    #[inline]
    pub fn leave(self) {}

    /// Keeps the frame held, until the pass looks up again or is dropped.
    pub fn keep(self) {
        let _kept = ManuallyDrop::new(self);
    }
}

impl OwnedHold {
    /// Gives the frame back. The pass is left.
    #[inline]
    #[must_use = "the pass is given back to its table at once"]
    pub fn leave(mut self) -> Pass {
        self.pass.give_back();
        self.pass
    }
}

impl Drop for Hold<'_> {
    #[inline]
    fn drop(&mut self) {
        self.pass.give_back();
    }
}
