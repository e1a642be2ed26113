//! The persistent map of refs: a tree whose forks have four children each and whose leaves hold one ref each.
//!
//! A clone shares all nodes. A change copies the nodes on its way that have other owners, and changes the others in place.
use crate::values::Value;
use std::sync::Arc;

// A fork has 2^BITS children.
const BITS: u32 = 2;
const WIDTH: usize = 1 << BITS;

/// A ref: its value, and the point of its last change.
#[derive(Clone)]
pub struct Held {
    pub value: Value,
    pub changed_at: u64,
}

#[derive(Clone)]
enum Tree {
    Leaf(Arc<Held>),
    Fork(Arc<[Tree; WIDTH]>),
}

#[derive(Clone)]
pub struct Map {
    len: u32,
    // How many forks lie above each leaf.
    height: u32,
    root: Tree,
}

impl Map {
    /// So many refs, numbered from 0, each of which holds 0.
    pub fn of(len: u32) -> Map {
        let mut height = 0;
        while 1u64 << (BITS * height) < len as u64 {
            height += 1;
        }
        Map { len, height, root: Tree::of(height) }
    }

    pub fn get(&self, r: u32) -> Option<&Held> {
        if r >= self.len {
            return None;
        }
        let mut tree = &self.root;
        let mut shift = BITS * self.height;
        loop {
            match tree {
                Tree::Leaf(held) => return Some(held),
                Tree::Fork(children) => {
                    shift -= BITS;
                    tree = &children[(r >> shift) as usize % WIDTH];
                }
            }
        }
    }

    /// The ref has to be there.
    pub fn set(&mut self, r: u32, held: Held) {
        let mut tree = &mut self.root;
        let mut shift = BITS * self.height;
        loop {
            match tree {
                Tree::Leaf(leaf) => {
                    *Arc::make_mut(leaf) = held;
                    return;
                }
                Tree::Fork(children) => {
                    shift -= BITS;
                    tree = &mut Arc::make_mut(children)[(r >> shift) as usize % WIDTH];
                }
            }
        }
    }
}

impl Tree {
    // A whole tree, each node of which is a block of its own.
    fn of(height: u32) -> Tree {
        match height {
            0 => Tree::Leaf(Arc::new(Held { value: Value::Int(0), changed_at: 0 })),
            _ => Tree::Fork(Arc::new(std::array::from_fn(|_| Tree::of(height - 1)))),
        }
    }
}
