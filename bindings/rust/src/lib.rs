//! Pages that one thread keeps, and that other threads look up without a lock; a [`Cache`] over them; and a book of pages that are merged, for one
//! thread ([`Book`]) or several ([`SharedBook`]).
//!
//! A [`Table`] has frames and places, as many of each. A frame has a [`Page`], and a life: how many times it was given. The keeper, who has the
//! table, gives frames and names them at places; readers, who have a [`Pass`] each, look places up and hold the frames that they name. While a
//! frame is held its life does not end and its words do not change.
//!
//! What each call promises is proved of the code that this crate links, libksmbook. What a caller in C has to keep is kept here by types: a pass is
//! `Send` and not `Sync`, a [`Hold`] borrows its pass and gives the frame back when it is dropped, a pass comes back to its table when it is
//! dropped, and the keeper is one.
//!
//! ```
//! use ksmbook::{Found, Shape, Table};
//!
//! let mut table = Table::open(Shape { frames_per_node: 8, ..Shape::SMALL })?;
//! let mut pass = table.pass()?;
//! table.give(0, &[7; 8])?;
//! table.publish(3, 0)?;
//! match pass.find(3)? {
//!     Found::Held(hold) => assert_eq!(hold.words(), [7; 8]),
//!     Found::Gone(why) => println!("nothing there: {why:?}"),
//! }
//! # Ok::<(), ksmbook::Error>(())
//! ```
//!
//! The crate is `no_std` with `alloc`; the feature `std`, which is on, has the [`Cache`].

#![no_std]
#![warn(missing_docs, missing_debug_implementations)]

extern crate alloc;
#[cfg(feature = "std")]
extern crate std;

mod book;
#[cfg(feature = "std")]
mod cache;
mod error;
mod pass;
mod raw;
mod shared;
mod shared_book;
mod table;

pub use book::{Book, Command, Counters, GuestPage, Reply};
#[cfg(feature = "std")]
pub use cache::{Cache, Reader, Value};
pub use error::{Error, Result};
pub use pass::{Found, FoundEqual, Gone, Hold, OwnedHold, Pass, Told};
pub use shared::Shape;
pub use shared_book::{Audited, SharedBook};
pub use table::{Frame, Kind, Passes, Table};

/// How many words a page has.
pub const PAGE_WORDS: usize = 8;

/// The words of a page.
pub type Page = [u64; PAGE_WORDS];

/// The version of libksmbook that is linked: major * 10,000 + minor * 100 + patch.
#[must_use]
pub fn library_version() -> u32 {
    // SAFETY: it asks for nothing.
    unsafe { raw::ksm_version() }
}
