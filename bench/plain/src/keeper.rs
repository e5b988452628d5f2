//! The keeper of the frames: which are free, which are dying, and how many references on each are its own.

use crate::numbers::Numbers;
use crate::table::{PageBytes, Table};

/// The words of a set of a node's frames.
const NODE_WORDS: usize = 256 / u64::BITS as usize;

/// Frames of a node, told by how many come before them there.
struct Node {
    first: u32,
    free: Numbers<NODE_WORDS>,
    dying: Numbers<NODE_WORDS>,
}

/// What the keeper has of a frame.
struct Base {
    references: u32,
    node: u32,
}

pub struct Keeper {
    pub table: Table,
    last_generation: u64,
    nodes: Vec<Node>,
    bases: Vec<Base>,
}

impl Keeper {
    pub fn open(nodes: u32, frames_per_node: u32, last_generation: u64, tries: u32) -> Keeper {
        let frames = nodes * frames_per_node;
        let node = |number| Node {
            first: number * frames_per_node,
            free: Numbers::below(frames_per_node),
            dying: Numbers::default(),
        };
        let base = |frame| Base {
            references: 0,
            node: frame / frames_per_node,
        };
        Keeper {
            table: Table::open(frames, tries),
            last_generation,
            nodes: (0..nodes).map(node).collect(),
            bases: (0..frames).map(base).collect(),
        }
    }

    /// Reaps each dying frame of the node, and tells the lowest free one.
    #[inline]
    pub fn search(&mut self, node: u32) -> Option<u32> {
        let node = &mut self.nodes[node as usize];
        let mut dying = node.dying.least();
        while let Some(number) = dying {
            reap(node, number, &self.table, self.last_generation);
            dying = node.dying.next(number);
        }
        Some(node.first + node.free.least()?)
    }

    /// A free frame begins its next life with these bytes and so many references.
    #[inline]
    pub fn give(&mut self, frame: u32, bytes: &PageBytes, references: u32) {
        let base = &mut self.bases[frame as usize];
        base.references = references;
        let node = &mut self.nodes[base.node as usize];
        node.free.remove(frame - node.first);
        self.table.raise(frame);
        self.table.store(frame, bytes);
        self.table.add(frame, references);
    }

    /// A frame of the node with these bytes and one reference.
    pub fn take(&mut self, node: u32, bytes: &PageBytes) -> Option<u32> {
        let frame = self.search(node)?;
        self.give(frame, bytes, 1);
        Some(frame)
    }

    #[inline]
    pub fn add(&mut self, frame: u32) {
        self.table.add(frame, 1);
        self.bases[frame as usize].references += 1;
    }

    #[inline]
    pub fn sub(&mut self, frame: u32) {
        self.table.sub(frame);
        let base = &mut self.bases[frame as usize];
        base.references -= 1;
        if base.references == 0 {
            let node = &mut self.nodes[base.node as usize];
            node.dying.insert(frame - node.first);
        }
    }

    /// Gives the keeper's references on a frame back at once, where nobody else has one.
    pub fn freeze(&mut self, frame: u32) -> bool {
        let base = &mut self.bases[frame as usize];
        let made = self.table.freeze(frame, u64::from(base.references));
        if made {
            base.references = 0;
            let node = &mut self.nodes[base.node as usize];
            node.dying.insert(frame - node.first);
        }
        made
    }
}

/// A dying frame that nobody has a reference on is free, or spent after its last life.
fn reap(node: &mut Node, number: u32, table: &Table, last_generation: u64) {
    let frame = node.first + number;
    if table.count(frame) > 0 {
        return;
    }
    node.dying.remove(number);
    if table.generation(frame) < last_generation {
        node.free.insert(number);
    }
}
