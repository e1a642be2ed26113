//! Reads JSON from standard input into a `serde_json::Value` and prints it, so many times as the argument says. Standard
//! output tells the microseconds of each round, those for which it had a processor, and how much memory was in use, in the
//! lines of the program beside it.

use serde_json::Value;
use std::error::Error;
use std::io::Read;
use std::time::Instant;

// For how many microseconds this process had a processor so far; Linux tells it.
fn processor_time() -> Result<u64, Box<dyn Error>> {
    let told = std::fs::read_to_string("/proc/self/schedstat")?;
    let nanoseconds: u64 = told.split_whitespace().next().ok_or("no time")?.parse()?;
    Ok(nanoseconds / 1000)
}

// A time that began then is over.
fn tell_times(what: &str, start: Instant, before: u64) -> Result<(), Box<dyn Error>> {
    let took = start.elapsed().as_micros();
    let ran = processor_time()?.saturating_sub(before);
    println!("{what} {took}");
    println!("{what}_ran {ran}");
    Ok(())
}

fn read(text: &[u8]) -> Result<Value, Box<dyn Error>> {
    let before = processor_time()?;
    let start = Instant::now();
    let value = serde_json::from_slice(text)?;
    tell_times("read", start, before)?;
    Ok(value)
}

fn print(value: &Value) -> Result<usize, Box<dyn Error>> {
    let before = processor_time()?;
    let start = Instant::now();
    let text = serde_json::to_vec(value)?;
    tell_times("print", start, before)?;
    Ok(text.len())
}

// The greatest number of KiB that were in use so far; Linux tells it.
fn tell_peak(what: &str) -> std::io::Result<()> {
    let status = std::fs::read_to_string("/proc/self/status")?;
    let peak = status.lines().find_map(|line| line.strip_prefix("VmHWM:"));
    if let Some(peak) = peak {
        println!("{what} {}", peak.trim().trim_end_matches(" kB"));
    }
    Ok(())
}

fn main() -> Result<(), Box<dyn Error>> {
    let rounds: u64 = std::env::args()
        .nth(1)
        .ok_or("the number of rounds")?
        .parse()?;
    let mut text = Vec::new();
    std::io::stdin().read_to_end(&mut text)?;
    tell_peak("text_peak")?;
    for round in 0..rounds {
        let value = read(&text)?;
        if round == 0 {
            tell_peak("read_peak")?;
        }
        let printed = print(&value)?;
        if round == 0 {
            tell_peak("print_peak")?;
            println!("printed {printed}");
        }
    }
    Ok(())
}
