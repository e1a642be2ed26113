//! The shapes, and the acts that are drawn for them: number for number as in `../src/plans.rt.txt`.

/// What the threads of a round do.
#[derive(Clone, Copy)]
enum Shape {
    OneRef,
    Tally,
    OwnRefs,
    Transfers,
    Reads,
    OneAtom,
    OwnAtoms,
    Sends,
    Chains,
}

/// A round.
#[derive(Clone, Copy)]
pub struct Plan {
    shape: Shape,
    pub seed: u64,
    pub threads: u32,
    /// How many acts each thread makes.
    pub acts: u32,
    /// How many refs there are. The tally comes after them.
    pub refs: u32,
    pub atoms: u32,
    pub agents: u32,
}

/// What a thread does in one step.
#[derive(Clone, Copy)]
pub enum Act {
    Swap(u32),
    Send(u32),
    /// Sends to an agent an action that sends on to the next one.
    SendOn(u32, u32),
    Transact(Body),
}

/// What a transaction does.
#[derive(Clone, Copy)]
pub enum Body {
    Alter(u32),
    Commute,
    Transfer(u32, u32),
    Read(u32),
}

/// Numbers that are drawn from a seed: SplitMix64.
pub struct Dice(u64);

impl Dice {
    pub fn of(seed: u64, who: u32) -> Dice {
        Dice(seed ^ (who as u64 + 1).wrapping_mul(0xD1B5_4A32_D192_ED03))
    }

    fn below(&mut self, n: u32) -> u32 {
        self.0 = self.0.wrapping_add(0x9E37_79B9_7F4A_7C15);
        let mixed = (self.0 ^ (self.0 >> 30)).wrapping_mul(0xBF58_476D_1CE4_E5B9);
        let mixed = (mixed ^ (mixed >> 27)).wrapping_mul(0x94D0_49BB_1331_11EB);
        ((mixed ^ (mixed >> 31)) % n as u64) as u32
    }
}

impl Plan {
    /// The round that is measured under a name; `bench/threads.py` describes each. Its acts are drawn from a seed.
    pub fn of(name: &str, seed: u64, threads: u32, acts: u32) -> Option<Plan> {
        let (shape, refs, atoms, agents) = match name {
            "one-ref" => (Shape::OneRef, 1, 0, 0),
            "tally" => (Shape::Tally, 0, 0, 0),
            "own-refs" => (Shape::OwnRefs, 64, 0, 0),
            "own-4096" => (Shape::OwnRefs, 4_096, 0, 0),
            "transfers-64" => (Shape::Transfers, 64, 0, 0),
            "transfers-1000" => (Shape::Transfers, 1_000, 0, 0),
            "transfers-4096" => (Shape::Transfers, 4_096, 0, 0),
            "reads" => (Shape::Reads, 100, 0, 0),
            "one-atom" => (Shape::OneAtom, 0, 1, 0),
            "own-atoms" => (Shape::OwnAtoms, 0, 64, 0),
            "agents" => (Shape::Sends, 0, 0, 64),
            "chains" => (Shape::Chains, 0, 0, 64),
            _ => return None,
        };
        Some(Plan { shape, seed, threads, acts, refs, atoms, agents })
    }

    /// How many threads run actions.
    pub fn pool(&self) -> u32 {
        if self.agents > 0 { 2 } else { 0 }
    }

    /// The next act of a worker.
    pub fn act(&self, worker: u32, dice: &mut Dice) -> Act {
        match self.shape {
            Shape::OneRef => Act::Transact(Body::Alter(0)),
            Shape::Tally => Act::Transact(Body::Commute),
            Shape::OwnRefs => Act::Transact(Body::Alter(self.own(worker, self.refs, dice))),
            Shape::Transfers => {
                let from = dice.below(self.refs);
                let to = dice.below(self.refs - 1);
                Act::Transact(Body::Transfer(from, if to < from { to } else { to + 1 }))
            }
            Shape::Reads => Act::Transact(Body::Read(dice.below(self.refs))),
            Shape::OneAtom => Act::Swap(0),
            Shape::OwnAtoms => Act::Swap(self.own(worker, self.atoms, dice)),
            Shape::Sends => Act::Send(dice.below(self.agents)),
            Shape::Chains => {
                let g = dice.below(self.agents);
                Act::SendOn(g, (g + 1) % self.agents)
            }
        }
    }

    // One of the worker's own of so many: each thread has as many, and those of two threads differ.
    fn own(&self, worker: u32, many: u32, dice: &mut Dice) -> u32 {
        worker + self.threads * dice.below(many / self.threads)
    }
}
