//! Rounds: a world is made, the threads do what is planned, and the world is taken out.
use crate::agents::{Action, Carry};
use crate::plans::{Act, Body, Dice, Plan};
use crate::transactions::Tx;
use crate::values::{Args, MINUS, PLUS, Stamp, Table, Value};
use crate::world::{Share, Shared, World};
use std::sync::Arc;
use std::thread::{Scope, ScopedJoinHandle};
use std::time::{Duration, Instant};

/// What threads count.
#[derive(Clone, Copy, Default)]
pub struct Counts {
    pub commits: u64,
    /// How often the body of a transaction was run.
    pub tries: u64,
    /// How much the refs grew in all, and the tally.
    pub raised: u64,
    pub added: u64,
    pub swaps: u64,
    pub sends: u64,
    /// How many actions the pool ran.
    pub ran: u64,
}

impl Counts {
    fn join(&mut self, other: Counts) {
        self.commits += other.commits;
        self.tries += other.tries;
        self.raised += other.raised;
        self.added += other.added;
        self.swaps += other.swaps;
        self.sends += other.sends;
        self.ran += other.ran;
    }
}

/// What came of a round, and how long the threads took.
pub struct Round {
    pub took: Duration,
    pub counts: Counts,
    pub world: World,
    pub share: Share,
}

pub fn play(plan: Plan, table: &Table) -> Round {
    let shared = Shared::new(plan.refs, plan.atoms, plan.agents);
    let start = Instant::now();
    let (share, counts) = work_all(plan, table, &shared);
    Round { took: start.elapsed(), counts, world: shared.into_world(), share }
}

// All workers make their acts, each in a thread, while the pool, if there is one, runs what they send.
fn work_all(plan: Plan, table: &Table, shared: &Shared) -> (Share, Counts) {
    std::thread::scope(|scope| {
        let pool: Vec<_> = (0..plan.pool()).map(|_| spawn_helper(scope, table, shared)).collect();
        let workers: Vec<_> = (0..plan.threads).map(|number| scope.spawn(move || act_all(plan, table, shared, number))).collect();
        let (mut share, mut counts) = (Share::default(), Counts::default());
        for worker in workers {
            let (more, counted) = worker.join().unwrap();
            share.join(more);
            counts.join(counted);
        }
        shared.close();
        counts.ran = pool.into_iter().map(|helper| helper.join().unwrap()).sum();
        (share, counts)
    })
}

// A thread of the pool. It counts the actions that it runs.
fn spawn_helper<'a>(scope: &'a Scope<'a, '_>, table: &'a Table, shared: &'a Shared) -> ScopedJoinHandle<'a, u64> {
    scope.spawn(|| {
        let mut ran = 0;
        while shared.work_once(table) {
            ran += 1;
        }
        ran
    })
}

// The acts of one worker.
fn act_all(plan: Plan, table: &Table, shared: &Shared, number: u32) -> (Share, Counts) {
    let mut worker = Worker { table, shared, refs: plan.refs, share: Share::default(), counts: Counts::default() };
    let mut dice = Dice::of(plan.seed, number);
    for step in 0..plan.acts {
        let act = plan.act(number, &mut dice);
        worker.perform(Stamp { worker: number, step }, act);
    }
    (worker.share, worker.counts)
}

struct Worker<'a> {
    table: &'a Table,
    shared: &'a Shared,
    refs: u32,
    share: Share,
    counts: Counts,
}

fn one() -> Args {
    Args::One(Value::Int(1))
}

impl Worker<'_> {
    // Makes an act.
    #[inline(never)] // so that its instructions can be counted by its name
    fn perform(&mut self, stamp: Stamp, act: Act) {
        match act {
            Act::Swap(a) => {
                self.shared.swap(self.table, &mut self.share, a, PLUS, one()).expect("no swap is refused here");
                self.counts.swaps += 1;
            }
            Act::Send(g) => {
                self.shared.send(g, Action { code: PLUS, args: one(), carries: None });
                self.counts.sends += 1;
            }
            Act::SendOn(g, next) => {
                let carry = Carry { g: next, code: PLUS, args: one() };
                self.shared.send(g, Action { code: PLUS, args: one(), carries: Some(Arc::new(vec![carry])) });
                self.counts.sends += 2;
            }
            Act::Transact(body) => self.transact(stamp, body),
        }
    }

    fn transact(&mut self, stamp: Stamp, body: Body) {
        let (table, refs) = (self.table, self.refs);
        self.counts.tries += self.shared.transact(table, &mut self.share, stamp, |tx| run(table, refs, tx, body));
        self.counts.commits += 1;
        match body {
            Body::Alter(_) | Body::Read(_) => self.counts.raised += 1,
            Body::Commute => self.counts.added += 1,
            Body::Transfer(..) => {}
        }
    }
}

// The body of a transaction.
fn run(table: &Table, refs: u32, tx: &mut Tx, body: Body) -> Option<()> {
    match body {
        Body::Alter(r) => tx.alter(table, r, PLUS, one()).map(drop),
        Body::Commute => tx.commute(table, refs, PLUS, one()).map(drop),
        Body::Transfer(from, to) => {
            tx.alter(table, from, MINUS, one())?;
            tx.alter(table, to, PLUS, one()).map(drop)
        }
        Body::Read(raised) => {
            for r in 0..refs {
                std::hint::black_box(tx.deref(r)?);
            }
            tx.alter(table, raised, PLUS, one()).map(drop)
        }
    }
}
