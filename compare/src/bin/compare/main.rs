//! Compares the library with the checker on random texts, large ones among them. It fails where anything differs.

mod checks;
mod designs;
mod overwrites;
mod records;
mod subjects;
mod tally;

use checker::random::Random;
use checker::session::Reply;
use std::process::ExitCode;
use std::str::FromStr;
use std::sync::atomic::{AtomicU64, Ordering};
use std::sync::Mutex;
use std::thread;
use std::time::Duration;
use subjects::{subject, Scale};
use tally::Tally;

const USAGE: &str = "usage: compare [--tables N] [--seed S] [--only K]";
const TABLES: u64 = 200;
const SEED: u64 = 20_260_731;

/// How many tables a run has at least that has to meet every verdict.
const WHOLE_RUN: u64 = 200;

/// How much stack a thread has that calls the library.
const STACK: usize = 8 << 20;

struct Options {
    tables: u64,
    seed: u64,
    only: Option<u64>,
}

/// A table in which something differs.
struct Difference {
    number: u64,
    what: String,
}

#[derive(Default)]
struct Progress {
    tally: Tally,
    difference: Option<Difference>,
}

/// What was met on one table.
struct Met {
    scale: Scale,
    replies: Vec<Reply>,
    overwritten: Duration,
}

fn main() -> ExitCode {
    let options = match options(std::env::args().skip(1)) {
        Ok(options) => options,
        Err(error) => {
            eprintln!("{error}\n{USAGE}");
            return ExitCode::from(2);
        }
    };
    println!("seed {}", options.seed);
    let Progress { tally, difference } = run(&options);
    if let Some(Difference { number, what }) = difference {
        println!("table {number}: {what}\nit alone: --seed {} --only {number}", options.seed);
        return ExitCode::FAILURE;
    }
    print!("{tally}");
    let missing = tally.missing();
    if options.only.is_none() && options.tables >= WHOLE_RUN && !missing.is_empty() {
        println!("nothing differs, but these never occurred: {}", missing.join(", "));
        return ExitCode::FAILURE;
    }
    println!("nothing differs");
    ExitCode::SUCCESS
}

fn options(mut arguments: impl Iterator<Item = String>) -> Result<Options, String> {
    let mut options = Options { tables: TABLES, seed: SEED, only: None };
    while let Some(name) = arguments.next() {
        let value = arguments.next().ok_or_else(|| format!("{name} has no value"))?;
        let number = u64::from_str(&value).map_err(|_| format!("{name} {value}: not a number"))?;
        match name.as_str() {
            "--tables" => options.tables = number,
            "--seed" => options.seed = number,
            "--only" => options.only = Some(number),
            _ => return Err(format!("{name} is no option")),
        }
    }
    Ok(options)
}

/// Compares the tables, several at a time, until something differs.
fn run(options: &Options) -> Progress {
    let (first, end) = match options.only {
        Some(only) => (only, only + 1),
        None => (0, options.tables),
    };
    let next = AtomicU64::new(first);
    let progress = Mutex::new(Progress::default());
    let work = || loop {
        let number = next.fetch_add(1, Ordering::Relaxed);
        if number >= end || progress.lock().expect("no thread panics").difference.is_some() {
            return;
        }
        let met = compare(options.seed, number);
        let mut progress = progress.lock().expect("no thread panics");
        match met {
            Ok(Met { scale, replies, overwritten }) => progress.tally.add(scale, &replies, overwritten),
            Err(what) => progress.difference = Some(Difference { number, what }),
        }
    };
    let threads = thread::available_parallelism().map_or(1, usize::from);
    thread::scope(|scope| {
        for _ in 0..threads {
            let builder = thread::Builder::new().stack_size(STACK);
            builder.spawn_scoped(scope, work).expect("a thread starts");
        }
    });
    progress.into_inner().expect("no thread panics")
}

/// Makes all comparisons on one table.
fn compare(seed: u64, number: u64) -> Result<Met, String> {
    let mut random = Random::numbered(seed, number);
    let subject = subject(&mut random, seed, number);
    let replies = checks::check_output(&subject, &mut random)?;
    checks::check_verdicts(&subject, &mut random)?;
    checks::check_rebuilt(&subject, &mut random)?;
    let overwritten = overwrites::check_overwritten(&subject, &mut random)?;
    Ok(Met { scale: subject.scale, replies, overwritten })
}
