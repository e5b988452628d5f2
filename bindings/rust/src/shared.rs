//! A table or a book in one place, where its keeper and its passes find it.

use crate::error::{Result, done};
use crate::raw::{self, Handle};
use alloc::sync::Arc;
use core::cell::UnsafeCell;
use core::fmt::Debug;

/// The sizes of a table.
///
/// ```
/// use ksmbook::Shape;
///
/// let shape = Shape { frames_per_node: 64, ..Shape::default() };
/// assert_eq!((shape.nodes, shape.passes), (1, 4));
/// ```
#[derive(Clone, Copy, Debug, PartialEq, Eq, Hash)]
pub struct Shape {
    /// How many nodes, 1 to [`Shape::MOST_NODES`].
    pub nodes: u32,
    /// How many frames each node has, 1 to [`Shape::MOST_FRAMES_PER_NODE`]; those of node n are numbered from
    /// `n * frames_per_node` on.
    pub frames_per_node: u32,
    /// How many passes there are, 1 to [`Shape::MOST_PASSES`].
    pub passes: u32,
    /// How many times a frame is given at most, 1 to [`Shape::MOST_LIVES`].
    pub last_generation: u64,
    /// How many exchanges a lookup makes at most, 1 to [`Shape::MOST_TRIES`].
    pub tries: u32,
}

/// The limits of libksmbook-host.
#[cfg(feature = "host")]
impl Shape {
    /// How many nodes a table has at most.
    pub const MOST_NODES: u32 = 64;
    /// How many frames a node has at most.
    pub const MOST_FRAMES_PER_NODE: u32 = 1048576;
    /// How many passes a table has at most.
    pub const MOST_PASSES: u32 = 256;
    /// How many times a frame is given at most.
    pub const MOST_LIVES: u64 = 1 << 36;
}

/// The limits of libksmbook; those of the feature `host` are larger.
#[cfg(not(feature = "host"))]
impl Shape {
    /// How many nodes a table has at most.
    pub const MOST_NODES: u32 = 4;
    /// How many frames a node has at most.
    pub const MOST_FRAMES_PER_NODE: u32 = 256;
    /// How many passes a table has at most.
    pub const MOST_PASSES: u32 = 16;
    /// How many times a frame is given at most.
    pub const MOST_LIVES: u64 = 1 << 40;
}

impl Shape {
    /// How many exchanges a lookup makes at most.
    pub const MOST_TRIES: u32 = 64;
    /// How many references on one frame are the keeper's at most, and so how many pages are merged into one.
    pub const MOST_REFERENCES: u32 = 1024;

    /// One node of 16 frames, with 4 passes.
    pub const SMALL: Shape = Shape {
        nodes: 1,
        frames_per_node: 16,
        passes: 4,
        last_generation: Shape::MOST_LIVES,
        tries: Shape::MOST_TRIES,
    };
}

impl Default for Shape {
    /// [`Shape::SMALL`].
    fn default() -> Shape {
        Shape::SMALL
    }
}

/// Where passes are taken and come back to, by any thread. It is closed when its keeper and all of its passes are gone.
pub(crate) trait Home: Send + Sync + Debug {
    /// Opens a pass that is not open, by the library's call.
    fn open_pass(&self, pass: &mut Handle) -> u32;

    /// Closes a pass of this home.
    fn close_pass(&self, pass: &mut Handle) -> u32;
}

/// A table or a book that is open.
#[derive(Debug)]
pub(crate) struct Shared {
    handle: UnsafeCell<Handle>,
}

// SAFETY: the archive's handles may go to other threads. Of calls with this one at the same time the library allows what this crate makes: one of
// the keeper, whose type is there once and asks for `&mut`, beside any number that open and close passes.
unsafe impl Send for Shared {}
// SAFETY: the same.
unsafe impl Sync for Shared {}

type Open = unsafe extern "C" fn(*mut Handle, u32, u32, u32, u64, u32) -> u32;

impl Shared {
    /// Opens a table or a book by its call.
    pub fn open(call: Open, shape: Shape) -> Result<Arc<Shared>> {
        let shared = Arc::new(Shared { handle: UnsafeCell::new(Handle::NONE) });
        let Shape { nodes, frames_per_node, passes, last_generation, tries } = shape;
        // SAFETY: the handle is closed, lies still, and nobody else has it.
        done(unsafe { call(shared.handle(), nodes, frames_per_node, passes, last_generation, tries) })?;
        Ok(shared)
    }

    /// Where the handle lies.
    pub fn handle(&self) -> *mut Handle {
        self.handle.get()
    }

    /// Closes what is open, for the keeper, if all passes are back.
    pub fn close(&self) -> Result<()> {
        // SAFETY: the keeper calls, or nobody else has it.
        done(unsafe { raw::ksm_table_close(self.handle()) })
    }
}

impl Home for Shared {
    fn open_pass(&self, pass: &mut Handle) -> u32 {
        // SAFETY: any thread may, and the pass is the caller's.
        unsafe { raw::ksm_pass_open(self.handle(), pass) }
    }

    fn close_pass(&self, pass: &mut Handle) -> u32 {
        // SAFETY: the same.
        unsafe { raw::ksm_pass_close(self.handle(), pass) }
    }
}

impl Drop for Shared {
    // Each pass has a part of this, so all are back. It is not open where it was closed before, or did not open.
    fn drop(&mut self) {
        // SAFETY: nobody else has it.
        let _ = unsafe { raw::ksm_table_close(self.handle.get_mut()) };
    }
}

impl core::fmt::Debug for Handle {
    fn fmt(&self, f: &mut core::fmt::Formatter<'_>) -> core::fmt::Result {
        f.write_str("Handle")
    }
}
