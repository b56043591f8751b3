//! Compares the program `clockmark` with the model on random texts.

use std::panic;
use std::path::{Path, PathBuf};
use std::process::ExitCode;
use std::str::FromStr;
use std::sync::atomic::{AtomicU64, Ordering};
use std::sync::Mutex;
use std::thread;

use checker::compare::{compare, shown, Agreed, Difference};
use checker::program::{self, Run};
use checker::session::{print, replies, Limits};
use checker::shrink::shrink;
use checker::tally::Tally;
use checker::texts::{text, Text};
use checker::windows::Order;

const USAGE: &str = "usage: checker --program PATH [--texts N] [--seed S] [--only K]";
const TEXTS: u64 = 5_000;
const SEED: u64 = 20_260_707;

struct Options {
    program: PathBuf,
    texts: u64,
    seed: u64,
    only: Option<u64>,
}

/// A text in which something differs.
struct Found {
    number: u64,
    text: Text,
    difference: Difference,
}

/// What is known of a run while several threads make it.
#[derive(Default)]
struct Progress {
    tally: Tally,
    found: Option<Found>,
}

fn main() -> ExitCode {
    let options = match options(std::env::args().skip(1)) {
        Ok(options) => options,
        Err(error) => {
            eprintln!("{error}\n{USAGE}");
            return ExitCode::from(2);
        }
    };
    println!("seed {}", options.seed);
    let Progress { tally, found } = run(&options);
    if let Some(found) = found {
        report(&options, &found);
        return ExitCode::FAILURE;
    }
    print!("{tally}");
    if options.only.is_some() {
        return ExitCode::SUCCESS;
    }
    let missing = tally.missing();
    if !missing.is_empty() {
        println!("\nnothing differs, but these never occurred: {}", missing.join(", "));
        return ExitCode::FAILURE;
    }
    println!("\nnothing differs");
    ExitCode::SUCCESS
}

fn options(mut arguments: impl Iterator<Item = String>) -> Result<Options, String> {
    let mut program = None;
    let (mut texts, mut seed, mut only) = (TEXTS, SEED, None);
    while let Some(name) = arguments.next() {
        let value = arguments.next().ok_or_else(|| format!("{name} has no value"))?;
        match name.as_str() {
            "--program" => program = Some(PathBuf::from(value)),
            "--texts" => texts = number(&name, &value)?,
            "--seed" => seed = number(&name, &value)?,
            "--only" => only = Some(number(&name, &value)?),
            _ => return Err(format!("{name} is no option")),
        }
    }
    let program = program.ok_or("no program is named")?;
    Ok(Options { program, texts, seed, only })
}

fn number(name: &str, value: &str) -> Result<u64, String> {
    u64::from_str(value).map_err(|_| format!("{name} {value}: not a number"))
}

/// Compares the texts, several at a time, until something differs in one. It is the text with the least number where
/// several differ.
fn run(options: &Options) -> Progress {
    let (first, end) = match options.only {
        Some(only) => (only, only + 1),
        None => (0, options.texts),
    };
    let next = AtomicU64::new(first);
    let progress = Mutex::new(Progress::default());
    let work = || {
        let mut tally = Tally::default();
        loop {
            let number = next.fetch_add(1, Ordering::Relaxed);
            let found = progress.lock().expect("no thread panics").found.as_ref().map(|found| found.number);
            if number >= found.unwrap_or(end) {
                break;
            }
            let text = text(options.seed, number);
            match compare_with(&options.program, &text, &text.bytes) {
                Ok(agreed) => tally.add(text.scenario, &text.bytes, &agreed),
                Err(difference) => {
                    let found = &mut progress.lock().expect("no thread panics").found;
                    if found.as_ref().is_none_or(|found| number < found.number) {
                        *found = Some(Found { number, text, difference });
                    }
                }
            }
        }
        progress.lock().expect("no thread panics").tally.merge(&tally);
    };
    let threads = thread::available_parallelism().map_or(1, usize::from);
    thread::scope(|scope| {
        for _ in 0..threads {
            scope.spawn(work);
        }
    });
    progress.into_inner().expect("no thread panics")
}

fn compare_with(path: &Path, text: &Text, bytes: &[u8]) -> Result<Agreed, Difference> {
    compare(bytes, Order::Shuffled(text.shuffling), &|bytes: &[u8]| program::run(path, bytes))
}

/// Shrinks the text and prints it with what the program and the model print for it.
fn report(options: &Options, found: &Found) {
    let Found { number, text, difference } = found;
    println!("seed {}, text {number} ({:?}): {difference}", options.seed, text.scenario);
    println!("it alone: --seed {} --only {number}", options.seed);
    // A model that breaks off is told as a difference; each smaller text would tell its panic again.
    panic::set_hook(Box::new(|_| {}));
    let shrunk = shrink(&text.bytes, |bytes| compare_with(&options.program, text, bytes).is_err());
    if let Err(difference) = compare_with(&options.program, text, &shrunk) {
        println!("\nshrunk from {} bytes to {}: {difference}", text.bytes.len(), shrunk.len());
    }
    print_lines("text", &shrunk);
    match program::run(&options.program, &shrunk) {
        Ok(Run { output, status }) => {
            print_lines("program", &output);
            println!("\nstatus of the program: {status:?}");
        }
        Err(error) => println!("\nprogram: {error}"),
    }
    let order = Order::Shuffled(text.shuffling);
    match panic::catch_unwind(|| replies(&shrunk, Limits::CLOCKMARK, order, |_, _, _| {})) {
        Ok(replies) => print_lines("model", &print(&replies)),
        Err(_) => println!("\nmodel: it breaks off"),
    }
}

fn print_lines(title: &str, bytes: &[u8]) {
    println!("\n{title}:");
    for line in bytes.split_inclusive(|&byte| byte == b'\n') {
        println!("{}", shown(line));
    }
}
