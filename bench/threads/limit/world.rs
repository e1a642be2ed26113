//! The world under its lock, shares of it, and atoms.
use crate::agents::Agent;
use crate::log::Log;
use crate::map::Map;
use crate::values::{Args, Entry, Op, Receipt, Table, Value};
use std::collections::VecDeque;
use std::sync::{Arc, Condvar, Mutex, MutexGuard};

/// The rule and the watches of a ref or an atom. There are none here, but each change looks for them.
pub struct Guard;

pub type Guards = Vec<Option<Box<Guard>>>;

/// Looks for a rule and for watches.
pub fn ask(guards: &Guards, number: u32) {
    assert!(guards[number as usize].is_none(), "rules and watches are left out");
}

pub struct World {
    pub log: Log,
    pub refs: Map,
    pub ref_guards: Guards,
    /// The number of the ref that only `+` and `-` change, by commute.
    pub tally: u32,
    pub atoms: Vec<Value>,
    pub atom_guards: Guards,
    pub agents: Vec<Agent>,
    /// The agents that have an action to run, in the order in which they are taken.
    pub ready: VecDeque<u32>,
    pub is_closed: bool,
    pub books: Books,
}

/// How many transactions were committed, what they added to the tally, and what they took from it.
#[derive(Clone, Copy, Default, PartialEq)]
pub struct Books {
    pub commits: u64,
    pub added: u64,
    pub taken: u64,
}

impl Books {
    pub fn book(&mut self, other: Books) {
        self.commits += other.commits;
        self.added += other.added;
        self.taken += other.taken;
    }
}

/// A thread's part of the books, and a receipt of each entry that it wrote.
#[derive(Default)]
pub struct Share {
    pub books: Books,
    pub receipts: Vec<Receipt>,
}

impl Share {
    pub fn join(&mut self, mut other: Share) {
        self.books.book(other.books);
        self.receipts.append(&mut other.receipts);
    }
}

pub struct Shared {
    world: Mutex<World>,
    // Woken when an agent has become ready, and at the end.
    pub ready: Condvar,
}

// How often the processor pauses between one look at a lock that is held and the next, before a thread sleeps: as in ref_shared.
const PAUSES: [u32; 6] = [1_024, 4_096, 16_384, 16_384, 16_384, 16_384];

fn no_guards(many: u32) -> Guards {
    (0..many).map(|_| None).collect()
}

impl Shared {
    /// So many refs and the tally, atoms and agents, each of which holds 0.
    pub fn new(refs: u32, atoms: u32, agents: u32) -> Shared {
        let world = World {
            log: Log::empty(),
            refs: Map::of(refs + 1),
            ref_guards: no_guards(refs + 1),
            tally: refs,
            atoms: (0..atoms).map(|_| Value::Int(0)).collect(),
            atom_guards: no_guards(atoms),
            agents: (0..agents).map(|_| Agent::new(Value::Int(0))).collect(),
            ready: VecDeque::new(),
            is_closed: false,
            books: Books::default(),
        };
        Shared { world: Mutex::new(world), ready: Condvar::new() }
    }

    pub fn lock(&self) -> MutexGuard<'_, World> {
        for pauses in PAUSES {
            if let Ok(guard) = self.world.try_lock() {
                return guard;
            }
            for _ in 0..pauses {
                std::hint::spin_loop();
            }
        }
        self.world.lock().unwrap()
    }

    pub fn into_world(self) -> World {
        self.world.into_inner().unwrap()
    }

    /// Changes an atom by a function, and returns the value before and after it. The entry's block is made before the lock is taken,
    /// and its answer is filled in under it.
    pub fn swap(&self, table: &Table, share: &mut Share, a: u32, code: u32, args: Args) -> Option<(Value, Value)> {
        share.receipts.reserve(1);
        let op = Op::Alter(code, args.clone());
        let mut entry = Arc::new(Entry::Atom { a, op, answer: Value::Nil });
        let mut guard = self.lock();
        let world = &mut *guard;
        let value = world.atoms.get_mut(a as usize)?;
        let new = table.call(code, value, &args)?;
        ask(&world.atom_guards, a);
        if let Some(Entry::Atom { answer, .. }) = Arc::get_mut(&mut entry) {
            *answer = new.clone();
        }
        let old = std::mem::replace(value, new.clone());
        world.log.push(entry.clone());
        let point = world.log.len();
        drop(guard);
        share.receipts.push(Receipt { point, entry });
        Some((old, new))
    }
}
