//! The log, a persistent vector: whole chunks of 32 entries in a tree, and after them the last entries.
use crate::values::Entry;
use std::sync::Arc;

const CHUNK: usize = 32;

type Chunk = Arc<Vec<Arc<Entry>>>;

// The number of chunks on a fork's left side is a power of two, and at least that on its right side.
#[derive(Clone)]
enum Tree {
    Leaf(Chunk),
    Fork(Arc<Fork>),
}

struct Fork {
    left_chunks: usize,
    chunks: usize,
    left: Tree,
    right: Tree,
}

pub struct Log {
    len: u64,
    front: Option<Tree>,
    tail: Chunk,
}

impl Log {
    pub fn empty() -> Log {
        Log { len: 0, front: None, tail: Arc::new(Vec::with_capacity(CHUNK)) }
    }

    /// How many entries there are, which is the point of the last one.
    pub fn len(&self) -> u64 {
        self.len
    }

    /// Adds an entry. If the last entries are a whole chunk, that goes into the tree, and the nodes on its way are copied.
    pub fn push(&mut self, entry: Arc<Entry>) {
        if self.tail.len() == CHUNK {
            let chunk = std::mem::replace(&mut self.tail, Arc::new(Vec::with_capacity(CHUNK)));
            self.front = Some(match &self.front {
                None => Tree::Leaf(chunk),
                Some(front) => front.with(chunk),
            });
        }
        Arc::make_mut(&mut self.tail).push(entry);
        self.len += 1;
    }

    /// All entries, in order.
    pub fn entries(&self) -> Vec<&Arc<Entry>> {
        let mut entries = Vec::with_capacity(self.len as usize);
        if let Some(front) = &self.front {
            front.list(&mut entries);
        }
        entries.extend(self.tail.iter());
        entries
    }
}

impl Tree {
    fn chunks(&self) -> usize {
        match self {
            Tree::Leaf(_) => 1,
            Tree::Fork(fork) => fork.chunks,
        }
    }

    // The tree with one chunk more at its end. If both sides have as many chunks, the new one becomes the right side of a new root.
    fn with(&self, chunk: Chunk) -> Tree {
        let (left, right) = match self {
            Tree::Fork(fork) if fork.chunks < 2 * fork.left_chunks => (fork.left.clone(), fork.right.with(chunk)),
            _ => (self.clone(), Tree::Leaf(chunk)),
        };
        Tree::Fork(Arc::new(Fork { left_chunks: left.chunks(), chunks: self.chunks() + 1, left, right }))
    }

    fn list<'a>(&'a self, entries: &mut Vec<&'a Arc<Entry>>) {
        match self {
            Tree::Leaf(chunk) => entries.extend(chunk.iter()),
            Tree::Fork(fork) => {
                fork.left.list(entries);
                fork.right.list(entries);
            }
        }
    }
}
