//! Compares the published Rust with our static library, in one process, on many bodies.
//!
//! Stops at the first answer that is neither the Rust's nor the one that a rule of
//! docs/DIFFERENCES.md gives, with the smallest body found that shows it.

mod check;
mod flat;
mod generate;
mod smallest;
mod tally;

use check::{Checker, Failure};
use generate::Plan;
use party_answers::random::Random;
use party_answers::{format, reference};
use std::process::ExitCode;
use std::sync::atomic::{AtomicBool, AtomicU64, Ordering};
use std::thread;
use std::time::Instant;
use tally::Tally;

const BODIES: u64 = 12_000_000;
const SEED: u64 = 5059;
const THREADS: usize = 2;
/// Bodies that one thread takes at a time.
const CHUNK: u64 = 4096;
/// One body in so many is read with every letter.
const LETTERS: u64 = 16;

fn main() -> ExitCode {
    let arguments: Vec<String> = std::env::args().skip(1).collect();
    match numbers(&arguments).and_then(|(bodies, seed)| compared(bodies, seed)) {
        Ok(()) => ExitCode::SUCCESS,
        Err(error) => {
            eprintln!("{error}");
            ExitCode::FAILURE
        }
    }
}

/// The count of bodies and the seed.
fn numbers(arguments: &[String]) -> Result<(u64, u64), String> {
    let (mut bodies, mut seed) = (BODIES, SEED);
    for pair in arguments.chunks(2) {
        let number = pair.get(1).and_then(|number| number.parse().ok());
        match (pair[0].as_str(), number) {
            ("--bodies", Some(number)) => bodies = number,
            ("--seed", Some(number)) => seed = number,
            _ => return Err("arguments: [--bodies N] [--seed S]".to_string()),
        }
    }
    Ok((bodies, seed))
}

fn compared(bodies: u64, seed: u64) -> Result<(), String> {
    let start = Instant::now();
    reference::silence_panics();
    let plan = Plan::new(bodies);
    println!("seed {seed}, {bodies} bodies and {} refused by 12 or 13", plan.refused);
    let mut checker = Checker::new();
    checker.stale(&mut Random::new(seed));
    checker.edges()?;
    let mut tally = checker.tally;
    let work = Work { plan, seed, next: AtomicU64::new(0), stop: AtomicBool::new(false) };
    let mut failures = Vec::new();
    for (part, failure) in work.done() {
        tally.add(&part);
        failures.extend(failure.map(smallest::smallest));
    }
    if let Some(failure) = failures.into_iter().min_by_key(|failure| failure.body.len()) {
        return Err(told(&failure));
    }
    print!("{}", tally.text(&work.plan));
    println!("no other difference; {} seconds", start.elapsed().as_secs());
    Ok(())
}

struct Work {
    plan: Plan,
    seed: u64,
    /// The next chunk.
    next: AtomicU64,
    stop: AtomicBool,
}

impl Work {
    fn done(&self) -> Vec<(Tally, Option<Failure>)> {
        thread::scope(|scope| {
            let threads: Vec<_> = (0..THREADS).map(|_| scope.spawn(|| self.part())).collect();
            threads.into_iter().map(|thread| thread.join().expect("no panic")).collect()
        })
    }

    /// Chunks until none is left or a difference was met.
    fn part(&self) -> (Tally, Option<Failure>) {
        let mut checker = Checker::new();
        let end = self.plan.bodies + self.plan.refused;
        while !self.stop.load(Ordering::Relaxed) {
            let chunk = self.next.fetch_add(1, Ordering::Relaxed);
            let first = chunk * CHUNK;
            if first >= end {
                break;
            }
            if let Err(failure) = self.chunk(&mut checker, chunk, first..end.min(first + CHUNK)) {
                self.stop.store(true, Ordering::Relaxed);
                return (checker.tally, Some(failure));
            }
        }
        (checker.tally, None)
    }

    /// The bodies of a chunk follow from the seed and the chunk alone.
    fn chunk(
        &self,
        checker: &mut Checker,
        chunk: u64,
        indices: std::ops::Range<u64>,
    ) -> Result<(), Failure> {
        let own = (chunk + 1).wrapping_mul(0xd134_2543_de82_ef95);
        let mut random = Random::new(self.seed ^ own);
        checker.stale(&mut random);
        for index in indices {
            let (family, body) = self.plan.body(index, &mut random);
            checker.body(family, &body, index % LETTERS == 0, &mut random)?;
        }
        Ok(())
    }
}

fn told(failure: &Failure) -> String {
    let Failure { reader, call, body, what, .. } = failure;
    let (reader, call, text) = (reader.name(), format::letter(*call), format::escaped(body));
    format!("a difference: {reader}, {call}, {} bytes {text}\n  {what}", body.len())
}
