//! What is compared at the end of a round.
use crate::rounds::Counts;
use crate::values::{Args, Entry, Op, Table, Value};
use crate::world::{Books, Share, World};
use std::collections::BTreeMap;
use std::sync::Arc;

/// Compares log and receipts, and what is in the world with what the threads counted, as the product's program does after each round.
pub fn check(world: &World, share: &Share, counts: Counts) {
    match_receipts(world, share);
    assert!(world.books == share.books, "the books differ from the shares");
    let Counts { commits, added, .. } = counts;
    assert!(world.books == Books { commits, added, taken: 0 }, "the books differ from what was counted");
    assert_eq!(sum((0..world.tally).map(|r| ref_value(world, r))), counts.raised, "the refs have another sum");
    assert_eq!(sum([ref_value(world, world.tally)]), added, "the tally is another one");
    assert_eq!(sum(world.atoms.iter().map(Value::int)), counts.swaps, "the atoms have another sum");
    assert_eq!(sum(world.agents.iter().map(|agent| agent.value.int())), counts.sends, "the agents have another sum");
    assert_eq!(counts.ran, counts.sends, "other actions were run than were sent");
    assert!(world.agents.iter().all(|agent| agent.queue.is_empty()), "an action waits still");
}

fn sum(values: impl IntoIterator<Item = i64>) -> u64 {
    values.into_iter().sum::<i64>() as u64
}

pub fn ref_value(world: &World, r: u32) -> i64 {
    world.refs.get(r).expect("the ref is there").value.int()
}

// Each entry has its receipt, each receipt its entry, and the steps of each worker rise along the log. An entry is the receipt's if it
// is the same block.
fn match_receipts(world: &World, share: &Share) {
    let entries = world.log.entries();
    let mut met = vec![false; entries.len()];
    for receipt in &share.receipts {
        let i = receipt.point as usize - 1;
        assert!(Arc::ptr_eq(entries[i], &receipt.entry), "a receipt is of another entry");
        assert!(!std::mem::replace(&mut met[i], true), "two receipts are of one entry");
    }
    assert!(met.iter().all(|is_met| *is_met), "an entry has no receipt");
    let mut latest = BTreeMap::new();
    for (i, entry) in entries.iter().enumerate() {
        if let Entry::Trans { stamp, read_point, .. } = &***entry {
            let point = i as u64 + 1;
            if let Some((step, before)) = latest.insert(stamp.worker, (stamp.step, point)) {
                assert!(step < stamp.step && before <= *read_point, "a worker's entries are out of order");
            }
        }
    }
}

/// Replays the log, and compares what comes out with the answers that it holds, with the values and with the points of last change;
/// the same for what each agent has handled.
pub fn replay(world: &World, table: &Table) {
    let mut refs = vec![(Value::Int(0), 0); world.tally as usize + 1];
    let mut atoms = vec![Value::Int(0); world.atoms.len()];
    for (i, entry) in world.log.entries().into_iter().enumerate() {
        match &**entry {
            Entry::Trans { dones, .. } => {
                for done in dones {
                    let (value, changed_at) = &mut refs[done.r as usize];
                    *value = applied(table, value, &done.op);
                    *changed_at = i as u64 + 1;
                    assert!(done.op.is_commute() || *value == done.answer, "a kept answer is another one");
                }
            }
            Entry::Atom { a, op, answer } => {
                let value = &mut atoms[*a as usize];
                *value = applied(table, value, op);
                assert!(value == answer, "a kept answer is another one");
            }
        }
    }
    for (r, (value, changed_at)) in refs.iter().enumerate() {
        let held = world.refs.get(r as u32).expect("the ref is there");
        assert!(held.value == *value && held.changed_at == *changed_at, "the replay has another ref");
    }
    assert!(world.atoms == atoms, "the replay has other atoms");
    for agent in &world.agents {
        let by = |value: Value, code: u32, args: &Args| table.call(code, &value, args).expect("no action refuses here");
        let value = agent.handled.iter().fold(Value::Int(0), |value, action| by(value, action.code, &action.args));
        assert!(agent.value == value, "the replay has another agent");
    }
}

// A value after an operation of the log.
fn applied(table: &Table, value: &Value, op: &Op) -> Value {
    match op {
        Op::Set(value) => value.clone(),
        Op::Alter(code, args) | Op::Commute(code, args) => table.call(*code, value, args).expect("the log's functions accept"),
        Op::Ensure => value.clone(),
    }
}
