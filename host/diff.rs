//! Differential tests: the library that is linked in, called through its C border, against the independent reference.
//! Random images (most of them accepted), random lists of steps, hostile states, written images; see `usage`.

#[path = "diff/case.rs"]
mod case;
#[path = "diff/crash.rs"]
mod crash;
#[path = "diff/ends.rs"]
mod ends;
#[path = "diff/library.rs"]
mod library;
#[path = "diff/make.rs"]
mod make;
#[path = "diff/papers.rs"]
mod papers;
#[path = "diff/program.rs"]
mod program;
#[path = "diff/random.rs"]
mod random;
#[path = "diff/shrink.rs"]
mod shrink;
#[path = "diff/tally.rs"]
mod tally;
#[path = "diff/writer.rs"]
mod writer;

use case::Case;
use random::Random;
use std::process::ExitCode;
use std::time::{Duration, Instant};
use tally::Tally;

const DEFAULT_SEED: u64 = 637;
const DEFAULT_STEPS: u64 = 1_000_000;
const WRITINGS_PER_CASE: usize = 3;
const LOADS_PER_CASE: usize = 3;
/// A long run says so often how far it is.
const HEARTBEAT: Duration = Duration::from_secs(300);

struct Options {
    seed: u64,
    steps: u64,
    time: Option<Duration>,
    only: Option<u64>,
    papers: bool,
}

fn usage() {
    println!("usage: diff [--seed S] [--steps N | --hours H] [--case K] [--random]");
    println!("Compares the library with the reference until N steps were done (default {DEFAULT_STEPS}), or for H hours.");
    println!("--case K does the one case of that number; --random leaves the papers' own examples out.");
    println!("The default seed is {DEFAULT_SEED}.");
}

fn options() -> Option<Options> {
    let mut options = Options { seed: DEFAULT_SEED, steps: DEFAULT_STEPS, time: None, only: None, papers: true };
    let mut words = std::env::args().skip(1);
    while let Some(word) = words.next() {
        if word == "--random" {
            options.papers = false;
            continue;
        }
        let value = words.next()?;
        match word.as_str() {
            "--seed" => options.seed = value.parse().ok()?,
            "--steps" => options.steps = value.parse().ok()?,
            "--case" => options.only = Some(value.parse().ok()?),
            "--hours" => {
                let hours: f64 = value.parse().ok()?;
                options.time = Some(Duration::try_from_secs_f64(3600.0 * hours).ok()?);
            }
            _ => return None,
        }
    }
    Some(options)
}

fn main() -> ExitCode {
    let Some(options) = options() else {
        usage();
        return ExitCode::from(2);
    };
    crash::watch(options.seed);
    match compare(&options) {
        Ok(()) => ExitCode::SUCCESS,
        Err(message) => {
            println!("{message}");
            ExitCode::FAILURE
        }
    }
}

/// The papers' cases, then random ones, then what was met.
fn compare(options: &Options) -> Result<(), String> {
    let begun = Instant::now();
    let mut tally = Tally::new();
    if let Some(only) = options.only {
        return random_case(options.seed, only, &mut tally);
    }
    if options.papers {
        papers::check(&mut tally)?;
    }
    let mut number = 0;
    let on = |tally: &Tally| match options.time {
        Some(time) => begun.elapsed() < time,
        None => tally.steps_done() < options.steps,
    };
    let mut said = begun;
    while on(&tally) {
        random_case(options.seed, number, &mut tally)?;
        number += 1;
        if said.elapsed() > HEARTBEAT {
            println!("{number} cases, {} steps, no difference so far", tally.steps_done());
            said = Instant::now();
        }
    }
    println!("seed {}, {number} cases, {:.1} s", options.seed, begun.elapsed().as_secs_f64());
    let missing = tally.report();
    if missing.is_empty() {
        println!("no difference; all 59 commands carried out, all numbers 0 to 23 met,");
        println!("58s that passed and that a move held back, halts right behind a move, jumps by a variable,");
        println!("all ends of ranges");
        return Ok(());
    }
    Err(format!("not all was met: {}", missing.join(", ")))
}

fn random_case(seed: u64, number: u64, tally: &mut Tally) -> Result<(), String> {
    crash::now(number);
    let mut random = Random::of_case(seed, number);
    let loads = (0..LOADS_PER_CASE).map(|_| make::load(&mut random)).collect::<Vec<Case>>();
    for case in std::iter::once(make::case(&mut random)).chain(loads) {
        if case.run(tally).is_err() {
            return Err(found(number, &case));
        }
    }
    for _ in 0..WRITINGS_PER_CASE {
        let writing = writer::random_writing(&mut random);
        if let Err(what) = writing.run(tally) {
            writing.shrunk().print();
            return Err(format!("case {number}: {} differs: {what}", writing.function()));
        }
    }
    Ok(())
}

/// Prints the smallest case that still differs.
fn found(number: u64, case: &Case) -> String {
    let smallest = shrink::shrunk(case);
    println!("DIFFERENCE in case {number}; the smallest case that still differs:");
    shrink::print(&smallest);
    match smallest.run(&mut Tally::new()) {
        Ok(()) => "the difference did not come again".to_string(),
        Err(difference) => match difference.action {
            Some(step) => format!("step {step}: {}", difference.what),
            None => difference.what,
        },
    }
}
