//! Values of any size by number, which threads read without a lock while others replace them.

use crate::error::{Error, Result};
use crate::pass::{Gone, Hold, Pass};
use crate::shared::Shape;
use crate::table::{Passes, Table};
use crate::{PAGE_WORDS, Page};
use alloc::boxed::Box;
use alloc::sync::Arc;
use alloc::vec;
use alloc::vec::Vec;
use core::fmt;
use core::ops::Deref;
use core::ptr::NonNull;
use core::sync::atomic::{AtomicBool, Ordering};
use std::sync::{Mutex, MutexGuard, PoisonError};

/// The most frames and places that a table has.
const MOST_FRAMES: u32 = Shape::MOST_NODES * Shape::MOST_FRAMES_PER_NODE;
/// The most keys that a cache has: each has a place, and the value that replaces another wants one frame more.
const MOST_KEYS: u32 = MOST_FRAMES - 1;

/// Values of type `T` by number. A reader takes no lock, and finds the value before or the value after a replacement, never neither; what it found
/// it may read for as long as it likes, and the value is dropped when its last reader has left. What changes the cache takes its one lock.
///
/// A value lies in a block of its own, to which a word of a frame points, and a key is a place. A new value's frame replaces the old one there by
/// one step ([`Table::replace`]), and then the old one gives its reference up. So a reader finds the place empty only where the key has no value.
/// One that finds the frame gone which the place named was overtaken, unless the value was taken away: it looks the place up again, which names
/// another frame by then, and so it looks again only where a whole replacement came between.
///
/// ```
/// use ksmbook::Cache;
///
/// let cache = Cache::open(100, 4)?;
/// let mut reader = cache.reader()?;
/// cache.put(7, [1u8; 4096])?;
/// let old = reader.get(7)?.expect("a value");
/// cache.put(7, [2u8; 4096])?;
/// assert_eq!(old[0], 1);
/// drop(old);
/// assert_eq!(reader.get(7)?.expect("a value")[0], 2);
/// assert_eq!(reader.get_or_fill(8, || [3u8; 4096])?[0], 3);
/// # Ok::<(), ksmbook::Error>(())
/// ```
pub struct Cache<T> {
    inner: Arc<Inner<T>>,
}

struct Inner<T> {
    // Whether a key has a value: told after its place is named, and taken back before the frame there is given up.
    filled: Box<[AtomicBool]>,
    passes: Passes,
    keeper: Mutex<Keeper<T>>,
}

// What changes the cache.
struct Keeper<T> {
    table: Table,
    // The frame of each key, the block of each frame that has one, and the frames that have none or wait for their readers.
    frame_of: Vec<Option<u32>>,
    block_of: Vec<Option<NonNull<T>>>,
    free: Vec<u32>,
    dying: Vec<u32>,
}

// SAFETY: a keeper owns its values, which go to whoever reads or drops them.
unsafe impl<T: Send + Sync> Send for Keeper<T> {}

impl<T> Clone for Cache<T> {
    fn clone(&self) -> Cache<T> {
        Cache { inner: Arc::clone(&self.inner) }
    }
}

impl<T> fmt::Debug for Cache<T> {
    fn fmt(&self, f: &mut fmt::Formatter<'_>) -> fmt::Result {
        f.debug_struct("Cache").field("keys", &self.inner.filled.len()).finish_non_exhaustive()
    }
}

/// What reads a cache. Each thread that does has its own; it is given back when it is dropped.
pub struct Reader<T> {
    pass: Pass,
    cache: Cache<T>,
}

impl<T> fmt::Debug for Reader<T> {
    fn fmt(&self, f: &mut fmt::Formatter<'_>) -> fmt::Result {
        f.debug_struct("Reader").field("cache", &self.cache).finish_non_exhaustive()
    }
}

/// A value that is read. It is not dropped while this is there.
#[must_use = "the value is left at once"]
pub struct Value<'a, T> {
    at: NonNull<T>,
    _hold: Hold<'a>,
}

impl<T> Deref for Value<'_, T> {
    type Target = T;

    #[inline]
    fn deref(&self) -> &T {
        // SAFETY: the block is dropped by the keeper alone, once it has reaped the frame, which the hold prevents.
        unsafe { self.at.as_ref() }
    }
}

impl<T: fmt::Debug> fmt::Debug for Value<'_, T> {
    fn fmt(&self, f: &mut fmt::Formatter<'_>) -> fmt::Result {
        T::fmt(self, f)
    }
}

// The words of a frame whose value lies in this block.
fn page_of<T>(block: NonNull<T>) -> Page {
    let mut page = [0; PAGE_WORDS];
    page[0] = block.as_ptr() as usize as u64;
    page
}

impl<T: Send + Sync> Cache<T> {
    /// Opens a cache for keys below `keys` (1 to 1,023: one less than the largest table's frames), without values, for as many readers at a time
    /// (1 to [`Shape::MOST_PASSES`]). It has two frames for each key as far as there are so many: the more keys, the fewer old values may be read
    /// still before [`Cache::put`] is refused.
    ///
    /// # Errors
    ///
    /// [`Error::Shape`] where a number is out of its range; [`Error::Memory`].
    pub fn open(keys: u32, readers: u32) -> Result<Cache<T>> {
        Cache::of_lives(keys, readers, Shape::MOST_LIVES)
    }

    // One whose frames are given at most so many times.
    fn of_lives(keys: u32, readers: u32, last_generation: u64) -> Result<Cache<T>> {
        if keys == 0 || keys > MOST_KEYS {
            return Err(Error::Shape);
        }
        let wanted = MOST_FRAMES.min(2 * keys);
        let nodes = (wanted + Shape::MOST_FRAMES_PER_NODE - 1) / Shape::MOST_FRAMES_PER_NODE;
        let frames_per_node = (wanted + nodes - 1) / nodes;
        let table = Table::open(Shape { nodes, frames_per_node, passes: readers, last_generation, ..Shape::SMALL })?;
        let frames = nodes * frames_per_node;
        let keeper = Keeper {
            frame_of: vec![None; keys as usize],
            block_of: vec![None; frames as usize],
            free: (0..frames).rev().collect(),
            dying: Vec::new(),
            table,
        };
        let filled = (0..keys).map(|_| AtomicBool::new(false)).collect();
        Ok(Cache { inner: Arc::new(Inner { filled, passes: keeper.table.passes(), keeper: Mutex::new(keeper) }) })
    }

    /// What reads the cache, from any thread.
    ///
    /// # Errors
    ///
    /// [`Error::NoPass`] where as many readers are there as the cache is for; [`Error::Memory`].
    pub fn reader(&self) -> Result<Reader<T>> {
        Ok(Reader { pass: self.inner.passes.take()?, cache: self.clone() })
    }

    // A panic of the caller's code comes while nothing is changed, so a poisoned lock is as good as another.
    fn keeper(&self) -> MutexGuard<'_, Keeper<T>> {
        self.inner.keeper.lock().unwrap_or_else(PoisonError::into_inner)
    }

    fn filled(&self, key: u32) -> Result<&AtomicBool> {
        self.inner.filled.get(key as usize).ok_or(Error::Range)
    }

    /// Gives a key a value. The one before is dropped once its last reader has left, by what next changes the cache.
    ///
    /// # Errors
    ///
    /// [`Error::Range`] where there is no such key; [`Error::Full`] where readers hold so many old values that no frame is left, or each frame
    /// that is left was given [`Shape::MOST_LIVES`] times. The value is dropped then, and the cache is as it was.
    pub fn put(&self, key: u32, value: T) -> Result<()> {
        let filled = self.filled(key)?;
        let mut keeper = self.keeper();
        let gone = keeper.collect()?;
        let answer = keeper.put(key, filled, value);
        // Values are dropped where no lock is held, since their code may call the cache.
        drop(keeper);
        drop(gone);
        answer.map_err(|(error, _)| error)
    }

    /// Takes the value of a key away, if it has one, and tells whether it had. It is dropped once its last reader has left, by what next changes
    /// the cache, or by [`Cache::collect`].
    ///
    /// # Errors
    ///
    /// [`Error::Range`] where there is no such key.
    pub fn remove(&self, key: u32) -> Result<bool> {
        let filled = self.filled(key)?;
        let mut keeper = self.keeper();
        let had = keeper.remove(key, filled)?;
        let gone = keeper.collect()?;
        drop(keeper);
        drop(gone);
        Ok(had)
    }

    /// Drops the values that were replaced or taken away and that nobody reads any more. Answers how many were dropped.
    pub fn collect(&self) -> usize {
        let gone = self.keeper().collect();
        gone.map_or(0, |gone| gone.len())
    }
}

impl<T> Keeper<T> {
    // Reaps what nobody reads any more, and answers the values.
    fn collect(&mut self) -> Result<Vec<Box<T>>> {
        let left = self.table.reap_all(&mut self.dying)?;
        let mut gone = Vec::with_capacity(self.dying.len() - left);
        for frame in self.dying.drain(left..) {
            self.free.push(frame);
            if let Some(block) = self.block_of[frame as usize].take() {
                // SAFETY: the block came from a box, nobody reads it any more, and nothing points to it.
                gone.push(unsafe { Box::from_raw(block.as_ptr()) });
            }
        }
        Ok(gone)
    }

    fn put(&mut self, key: u32, filled: &AtomicBool, value: T) -> core::result::Result<(), (Error, T)> {
        let frame = loop {
            match self.free.pop() {
                Some(frame) if self.table.raise(frame).is_ok() => break frame,
                // It has had its last life.
                Some(_) => {}
                None => return Err((Error::Full, value)),
            }
        };
        let block = NonNull::from(Box::leak(Box::new(value)));
        self.block_of[frame as usize] = Some(block);
        let old = self.frame_of[key as usize].replace(frame);
        let given = self.table.fill(frame, &page_of(block));
        let named = given.and_then(|()| if old.is_some() { self.table.replace(key, frame) } else { self.table.publish(key, frame) });
        debug_assert_eq!(named, Ok(()), "the frame was free, and the place names the key's value, if it has one");
        filled.store(true, Ordering::SeqCst);
        if let Some(old) = old {
            let retired = self.retire(old);
            debug_assert_eq!(retired, Ok(()), "the frame of a value has a reference");
        }
        Ok(())
    }

    // Takes a key's value away, if it has one, and tells whether it had.
    fn remove(&mut self, key: u32, filled: &AtomicBool) -> Result<bool> {
        let old = match self.frame_of[key as usize].take() {
            Some(old) => old,
            None => return Ok(false),
        };
        filled.store(false, Ordering::SeqCst);
        self.retire(old)?;
        self.table.withdraw(key)?;
        Ok(true)
    }

    // A value's frame gives its reference up, and waits for its readers.
    fn retire(&mut self, old: u32) -> Result<()> {
        self.table.sub(old)?;
        self.dying.push(old);
        Ok(())
    }
}

impl<T> Drop for Keeper<T> {
    // No reader is there: each has a part of the cache.
    fn drop(&mut self) {
        for block in self.block_of.drain(..).flatten() {
            // SAFETY: the block came from a box, and nobody reads it.
            drop(unsafe { Box::from_raw(block.as_ptr()) });
        }
    }
}

impl<T: Send + Sync> Reader<T> {
    /// The cache that is read.
    #[must_use]
    pub fn cache(&self) -> &Cache<T> {
        &self.cache
    }

    // Holds the frame of a key's value, if it has one.
    #[inline]
    fn find(&mut self, key: u32) -> Result<bool> {
        let filled = self.cache.inner.filled.get(key as usize).ok_or(Error::Range)?;
        loop {
            match self.pass.hold_at(key)? {
                None => return Ok(true),
                Some(Gone::Vacant) => return Ok(false),
                // A key that has a value was replaced, and names another by now; else the value was taken away.
                Some(_) if filled.load(Ordering::SeqCst) => {}
                Some(_) => return Ok(false),
            }
        }
    }

    // The value whose frame is held.
    #[inline]
    fn held(&mut self) -> Value<'_, T> {
        let hold = self.pass.held();
        let at = hold[0] as usize as *mut T;
        // SAFETY: each frame that is named has the address of a block in its first word.
        Value { at: unsafe { NonNull::new_unchecked(at) }, _hold: hold }
    }

    /// The value of a key; none where it has none. No lock is taken.
    ///
    /// # Errors
    ///
    /// [`Error::Range`] where there is no such key.
    #[inline]
    pub fn get(&mut self, key: u32) -> Result<Option<Value<'_, T>>> {
        Ok(if self.find(key)? { Some(self.held()) } else { None })
    }

    /// The value of a key, which is made and put where it has none. One thread at a time makes values, and others read meanwhile.
    ///
    /// # Errors
    ///
    /// [`Error::Range`] where there is no such key; [`Error::Full`] as of [`Cache::put`].
    ///
    /// # Panics
    ///
    /// Where `make` does; the cache is as it was then. `make` must not change the cache, which would wait for itself.
    pub fn get_or_fill(&mut self, key: u32, make: impl FnOnce() -> T) -> Result<Value<'_, T>> {
        if !self.find(key)? {
            let cache = self.cache.clone();
            let filled = cache.filled(key)?;
            let mut keeper = cache.keeper();
            let gone = keeper.collect()?;
            let mut answer = Ok(());
            // Somebody else may have put one; and nobody takes away what is put here before it is found.
            if !self.find(key)? {
                answer = keeper.put(key, filled, make());
                self.find(key)?;
            }
            drop(keeper);
            drop(gone);
            answer.map_err(|(error, _)| error)?;
        }
        Ok(self.held())
    }
}

#[cfg(test)]
mod tests {
    use super::*;

    // Two frames of three lives each.
    #[test]
    fn a_frame_that_has_had_its_last_life_is_used_no_more() {
        let cache = Cache::of_lives(1, 1, 3).unwrap();
        let mut reader = cache.reader().unwrap();
        for value in 1..=6 {
            cache.put(0, value).unwrap();
            assert_eq!(reader.get(0).unwrap().as_deref(), Some(&value));
        }
        assert_eq!(cache.put(0, 7), Err(Error::Full));
        assert_eq!(reader.get(0).unwrap().as_deref(), Some(&6));
        assert_eq!(cache.remove(0), Ok(true));
        assert_eq!(reader.get_or_fill(0, || 8).err(), Some(Error::Full));
        assert!(reader.get(0).unwrap().is_none());
    }
}
