//! Agents: sends, and the pool that runs them.
//!
//! What an action carries is sent at its end, in the same step. The product releases it in a second one, after the watches were called.
use crate::values::{Args, Table, Value};
use crate::world::{Shared, World};
use std::collections::VecDeque;
use std::sync::Arc;

/// A function on an agent's state, and the sends that it carries.
#[derive(Clone)]
pub struct Action {
    pub code: u32,
    pub args: Args,
    pub carries: Option<Arc<Vec<Carry>>>,
}

/// An action that is sent to an agent at the end of another one.
pub struct Carry {
    pub g: u32,
    pub code: u32,
    pub args: Args,
}

/// An agent with its account: the actions that ended, and those that wait. The first that waits may be on its way.
pub struct Agent {
    pub value: Value,
    pub handled: Vec<Action>,
    pub queue: VecDeque<Action>,
    is_out: bool,
}

impl Agent {
    pub fn new(value: Value) -> Agent {
        Agent { value, handled: Vec::new(), queue: VecDeque::new(), is_out: false }
    }
}

impl World {
    // One more action waits. Returns whether the agent has become ready by it.
    fn queue(&mut self, g: u32, action: Action) -> bool {
        let agent = &mut self.agents[g as usize];
        agent.queue.push_back(action);
        let is_ready = agent.queue.len() == 1 && !agent.is_out;
        if is_ready {
            self.ready.push_back(g);
        }
        is_ready
    }

    // Takes the next action of a ready agent, with the agent's state.
    fn take(&mut self) -> Option<(u32, Action, Value)> {
        let g = self.ready.pop_front()?;
        let agent = &mut self.agents[g as usize];
        agent.is_out = true;
        let action = agent.queue.front().expect("a ready agent has an action");
        Some((g, action.clone(), agent.value.clone()))
    }

    // Ends the action that is on its way, and sends what it carries. Returns how many agents have become ready.
    fn end(&mut self, g: u32, state: &Value, new: Value) -> usize {
        let agent = &mut self.agents[g as usize];
        assert!(agent.value == *state, "a state changed while an action was on its way");
        agent.value = new;
        agent.is_out = false;
        let action = agent.queue.pop_front().expect("the action waits until it has ended");
        let carries = action.carries.clone();
        agent.handled.push(action);
        let mut many = 0;
        if !agent.queue.is_empty() {
            self.ready.push_back(g);
            many += 1;
        }
        for carry in carries.iter().flat_map(|carries| carries.iter()) {
            let action = Action { code: carry.code, args: carry.args.clone(), carries: None };
            many += self.queue(carry.g, action) as usize;
        }
        many
    }
}

impl Shared {
    pub fn send(&self, g: u32, action: Action) {
        let is_ready = self.lock().queue(g, action);
        if is_ready {
            self.ready.notify_one();
        }
    }

    /// Waits for a ready agent, and runs its next action with the lock free. It returns false if the world is closed and no agent is ready.
    pub fn work_once(&self, table: &Table) -> bool {
        let Some((g, action, state)) = self.next_job() else { return false };
        let new = table.call(action.code, &state, &action.args).expect("no action refuses here");
        let many = self.lock().end(g, &state, new);
        match many {
            0 => {}
            1 => self.ready.notify_one(),
            _ => self.ready.notify_all(),
        }
        true
    }

    /// From now on `work_once` doesn't wait.
    pub fn close(&self) {
        self.lock().is_closed = true;
        self.ready.notify_all();
    }

    fn next_job(&self) -> Option<(u32, Action, Value)> {
        let mut world = self.lock();
        loop {
            if let Some(job) = world.take() {
                return Some(job);
            }
            if world.is_closed {
                return None;
            }
            world = self.ready.wait(world).unwrap();
        }
    }
}
