//! Transactions: begin, the calls of a body, commit.
//!
//! Begin and commit take the lock once each. A commit is refused if a ref that it protects has changed since the transaction began.
use crate::map::{Held, Map};
use crate::values::{Args, Done, Entry, MINUS, Op, PLUS, Receipt, Stamp, Table, Value};
use crate::world::{Books, Share, Shared, World, ask};
use std::sync::Arc;

/// An open transaction: the version of the refs that it began with, and its operations, in which its own values are looked up.
pub struct Tx {
    read_point: u64,
    began: Map,
    tally: u32,
    dones: Vec<Done>,
}

impl Tx {
    /// The value of a ref in the transaction.
    pub fn deref(&self, r: u32) -> Option<&Value> {
        match self.dones.iter().rev().find(|done| done.r == r) {
            Some(done) => Some(&done.answer),
            None => Some(&self.began.get(r)?.value),
        }
    }

    /// None if the function refuses, if the ref was commuted before, and for the tally.
    pub fn alter(&mut self, table: &Table, r: u32, code: u32, args: Args) -> Option<Value> {
        if r == self.tally || self.dones.iter().any(|done| done.r == r && done.op.is_commute()) {
            return None;
        }
        let answer = table.call(code, self.deref(r)?, &args)?;
        self.dones.push(Done { r, op: Op::Alter(code, args), answer: answer.clone() });
        Some(answer)
    }

    /// None if the function refuses, and for the tally if it is neither `+` nor `-`.
    pub fn commute(&mut self, table: &Table, r: u32, code: u32, args: Args) -> Option<Value> {
        if r == self.tally && code != PLUS && code != MINUS {
            return None;
        }
        let answer = table.call(code, self.deref(r)?, &args)?;
        self.dones.push(Done { r, op: Op::Commute(code, args), answer: answer.clone() });
        Some(answer)
    }
}

/// What the ref of each operation held when the transaction began. The first two need no block.
struct Begun {
    first: [Value; 2],
    rest: Vec<Value>,
}

impl Begun {
    fn of(tx: &Tx) -> Begun {
        let value = |done: &Done| tx.began.get(done.r).map_or(Value::Nil, |held| held.value.clone());
        Begun {
            first: std::array::from_fn(|i| tx.dones.get(i).map_or(Value::Nil, value)),
            rest: tx.dones.iter().skip(2).map(value).collect(),
        }
    }

    fn at(&self, i: usize) -> &Value {
        self.first.get(i).unwrap_or_else(|| &self.rest[i - 2])
    }
}

impl Shared {
    /// Runs a body on a transaction and commits it, again and again until the commit isn't in conflict. It returns how often.
    #[inline(never)] // so that its instructions can be counted by its name
    pub fn transact(&self, table: &Table, share: &mut Share, stamp: Stamp, body: impl Fn(&mut Tx) -> Option<()>) -> u64 {
        for tries in 1.. {
            let mut tx = self.begin();
            body(&mut tx).expect("no body refuses here");
            if self.commit(table, share, stamp, tx) {
                return tries;
            }
        }
        unreachable!()
    }

    fn begin(&self) -> Tx {
        let world = self.lock();
        let (began, read_point, tally) = (world.refs.clone(), world.log.len(), world.tally);
        drop(world);
        Tx { read_point, began, tally, dones: Vec::with_capacity(1) }
    }

    // Commits, or returns false if it is in conflict. The entry and the room for its receipt are made before the lock is taken. The
    // version that the transaction began with is dropped before it too, so that the map changes its nodes in place if it alone owns them.
    fn commit(&self, table: &Table, share: &mut Share, stamp: Stamp, tx: Tx) -> bool {
        share.receipts.reserve(1);
        let begun = Begun::of(&tx);
        let Tx { read_point, began, dones, .. } = tx;
        drop(began);
        let entry = Arc::new(Entry::Trans { stamp, read_point, dones });
        let kept = entry.clone();
        let Entry::Trans { dones, .. } = &*kept else { unreachable!() };
        let mut world = self.lock();
        if world.is_in_conflict(read_point, dones, &begun) {
            return false;
        }
        let booked = world.install(table, dones);
        world.log.push(entry);
        let point = world.log.len();
        world.books.book(booked);
        drop(world);
        share.books.book(booked);
        share.receipts.push(Receipt { point, entry: kept });
        true
    }
}

impl World {
    // Whether a ref that isn't only commuted has changed: by the point of its last change, and by its value.
    fn is_in_conflict(&self, read_point: u64, dones: &[Done], begun: &Begun) -> bool {
        dones.iter().enumerate().any(|(i, done)| match self.refs.get(done.r) {
            None => true,
            Some(_) if done.op.is_commute() => false,
            Some(now) => now.changed_at > read_point || now.value != *begun.at(i),
        })
    }

    // Makes the operations on the refs, and returns what goes into the books. A ref that was only commuted is changed by the function
    // again, from the value that it has now; the others get the values that the transaction gave them.
    fn install(&mut self, table: &Table, dones: &[Done]) -> Books {
        let is_protected = |r: u32| dones.iter().any(|done| done.r == r && !done.op.is_commute());
        let changed_at = self.log.len() + 1;
        let mut booked = Books { commits: 1, ..Books::default() };
        for done in dones {
            let value = match &done.op {
                Op::Ensure => continue,
                Op::Commute(code, args) if !is_protected(done.r) => {
                    if done.r == self.tally {
                        booked.count(*code, args);
                    }
                    let now = &self.refs.get(done.r).expect("it was found before").value;
                    table.call(*code, now, args).expect("no commuted function refuses here")
                }
                _ => done.answer.clone(),
            };
            ask(&self.ref_guards, done.r);
            self.refs.set(done.r, Held { value, changed_at });
        }
        booked
    }
}

impl Books {
    // What `+` or `-` does to the tally.
    fn count(&mut self, code: u32, args: &Args) {
        if let [Value::Int(n)] = args.as_slice() {
            match code {
                PLUS => self.added += *n as u64,
                _ => self.taken += *n as u64,
            }
        }
    }
}
