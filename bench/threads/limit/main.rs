//! The limit program: the worlds and the acts of the product's program, `../src`, by hand in plain Rust and without proofs.
//!
//! It has what the design fixes, and nothing else:
//!
//! - one lock, which begin, commit and swap take once each;
//! - refs in a persistent map, of which an open transaction holds the version that it began with;
//! - a log in a persistent vector, with an entry for each commit and each swap: the stamp, the read point, and the operations with their
//!   arguments and answers;
//! - a receipt of each entry in the share of the thread that wrote it; they are compared with the log at the end of a round;
//! - a conflict found by the points of last change, and by comparing the value that the transaction began with;
//! - functions called by their number in a table;
//! - a queue for each agent, the actions that ended, and a pool of two threads.
//!
//! `limit measure SHAPE THREADS ACTS MILLIS` makes rounds until so many milliseconds are over, and prints of each its nanoseconds, its
//! acts, and how often the body of a transaction was run. `limit totals SHAPE THREADS ACTS SEED` makes one round, replays its log, and
//! prints what is in the world at its end.
mod agents;
mod checks;
mod log;
mod map;
mod plans;
mod rounds;
mod transactions;
mod values;
mod world;

use plans::Plan;
use std::process::ExitCode;
use std::time::Instant;
use values::Table;

const USAGE: &str = "limit: measure SHAPE THREADS ACTS MILLIS, or totals SHAPE THREADS ACTS SEED";

// The seed of the rounds that are measured.
const MEASURED: u64 = 1;

fn main() -> ExitCode {
    let words: Vec<String> = std::env::args().skip(1).collect();
    match asked_for(&words) {
        Some(()) => ExitCode::SUCCESS,
        None => {
            eprintln!("{USAGE}");
            ExitCode::FAILURE
        }
    }
}

fn asked_for(words: &[String]) -> Option<()> {
    let [command, shape, threads, acts, last] = words else { return None };
    let number = |word: &String| word.parse::<u32>().ok();
    let (threads, acts, last) = (number(threads)?, number(acts)?, number(last)?);
    match command.as_str() {
        "measure" => measure(Plan::of(shape, MEASURED, threads, acts)?, last),
        "totals" => show_totals(Plan::of(shape, last.into(), threads, acts)?),
        _ => return None,
    }
    Some(())
}

// Rounds until so many milliseconds are over, one at least.
fn measure(plan: Plan, millis: u32) {
    let table = Table::core();
    let start = Instant::now();
    loop {
        let round = rounds::play(plan, &table);
        checks::check(&round.world, &round.share, round.counts);
        let counts = round.counts;
        println!("round {} {} {}", round.took.as_nanos(), counts.commits + counts.swaps + counts.sends, counts.tries);
        if start.elapsed().as_millis() >= millis as u128 {
            return;
        }
    }
}

// One round, and what is in the world at its end.
fn show_totals(plan: Plan) {
    let table = Table::core();
    let round = rounds::play(plan, &table);
    let world = &round.world;
    checks::check(world, &round.share, round.counts);
    checks::replay(world, &table);
    println!("commits {}", world.books.commits);
    println!("added {} taken {}", world.books.added, world.books.taken);
    println!("entries {}", world.log.len());
    for r in 0..world.tally {
        println!("ref {r} {}", checks::ref_value(world, r));
    }
    println!("tally {}", checks::ref_value(world, world.tally));
    for (a, value) in world.atoms.iter().enumerate() {
        println!("atom {a} {}", value.int());
    }
    for (g, agent) in world.agents.iter().enumerate() {
        println!("agent {g} {}", agent.value.int());
    }
}
