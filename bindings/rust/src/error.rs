//! Why a call was refused.

use crate::raw;
use core::fmt;

/// Why a call was refused. Nothing has changed then, but for what [`Book::apply`](crate::Book::apply) says.
#[derive(Clone, Copy, Debug, PartialEq, Eq, Hash)]
#[non_exhaustive]
pub enum Error {
    /// A size of the shape is out of its range.
    Shape,
    /// There is no memory.
    Memory,
    /// There is no such frame, place, word or key.
    Range,
    /// The frame or the place is in a state that does not allow the call.
    State,
    /// All passes of the table are out.
    NoPass,
    /// Passes of the table are out.
    PassesOut,
    /// Each frame of the cache has a value, is held by a reader, or has had its last life.
    Full,
    /// Of a book: the page, or a page of the guest, is not registered.
    UnknownPage,
    /// Of a book: the page is registered.
    AlreadyRegistered,
    /// Of a book: no frame of this node is free.
    NoFrame(u32),
    /// Of a book: a scan while `run` is not 1.
    NotRunning,
    /// Of a book: the knob does not change while pages are shared.
    SharedPages,
    /// Of a book: the value is out of its knob's range.
    BadValue,
    /// Of a book: somebody holds the frame of the dup.
    InUse,
    /// Of a book: the dup was to move to another node, while pages are not merged across nodes.
    CrossesNodes,
    /// Of a book: no dup with items stands at the place.
    UnknownPlace,
    /// Of a book: there is no such node.
    BadNode,
}

/// What a call of this crate answers.
pub type Result<T> = core::result::Result<T, Error>;

impl Error {
    // What a number of the header says, with the node of `NoFrame`. The types rule the others out.
    #[cold]
    pub(crate) fn of(answer: u32, node: u32) -> Error {
        match answer {
            raw::SHAPE => Error::Shape,
            raw::MEMORY => Error::Memory,
            raw::RANGE => Error::Range,
            raw::STATE => Error::State,
            // What is closed has no passes any more.
            raw::CLOSED | raw::NO_PASS => Error::NoPass,
            raw::PASSES_OUT => Error::PassesOut,
            raw::UNKNOWN_PAGE => Error::UnknownPage,
            raw::ALREADY_REGISTERED => Error::AlreadyRegistered,
            raw::NO_FRAME => Error::NoFrame(node),
            raw::NOT_RUNNING => Error::NotRunning,
            raw::SHARED_PAGES => Error::SharedPages,
            raw::BAD_VALUE => Error::BadValue,
            raw::IN_USE => Error::InUse,
            raw::CROSSES_NODES => Error::CrossesNodes,
            raw::UNKNOWN_PLACE => Error::UnknownPlace,
            raw::BAD_NODE => Error::BadNode,
            answer => unreachable!("the types rule this answer out: {answer}"),
        }
    }
}

impl fmt::Display for Error {
    fn fmt(&self, f: &mut fmt::Formatter<'_>) -> fmt::Result {
        f.write_str(match self {
            Error::Shape => "a size of the shape is out of its range",
            Error::Memory => "there is no memory",
            Error::Range => "there is no such frame, place, word or key",
            Error::State => "the frame or the place is in a state that does not allow the call",
            Error::NoPass => "all passes of the table are out",
            Error::PassesOut => "passes of the table are out",
            Error::Full => "each frame of the cache has a value, is held by a reader, or has had its last life",
            Error::UnknownPage => "the page, or a page of the guest, is not registered",
            Error::AlreadyRegistered => "the page is registered",
            Error::NoFrame(node) => return write!(f, "no frame of node {node} is free"),
            Error::NotRunning => "the scan does not run",
            Error::SharedPages => "the knob does not change while pages are shared",
            Error::BadValue => "the value is out of its knob's range",
            Error::InUse => "somebody holds the frame of the dup",
            Error::CrossesNodes => "pages are not merged across nodes",
            Error::UnknownPlace => "no dup with items stands at the place",
            Error::BadNode => "there is no such node",
        })
    }
}

#[cfg(feature = "std")]
impl std::error::Error for Error {}

/// Whether a call was done.
pub(crate) fn done(answer: u32) -> Result<()> {
    if answer == raw::DONE { Ok(()) } else { Err(Error::of(answer, 0)) }
}

/// Whether a call was done that a reader's reference prevents.
pub(crate) fn done_or_used(answer: u32) -> Result<bool> {
    if answer == raw::USED { Ok(false) } else { done(answer).map(|()| true) }
}
