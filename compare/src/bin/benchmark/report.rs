//! The tables that are printed.

use crate::measure::{ratio, Measured, LONGEST_RELAXATION};
use compare::rows::Row;
use std::time::Duration;

const MOST_TO_PLAIN: f64 = 1.1;
const LEAST_RELAXATION: f64 = 20.0;
const SLOWEST: Duration = Duration::from_secs(10);

/// The size at which the bars on single rows are held.
const FULL: usize = 4096;

pub fn print_heading() {
    println!(
        "| row | nodes | couplings | rounds | sweeps | connections visited | library, µs | plain, µs | relaxation, µs \
         | library / plain | relaxation / library | ns for a connection |"
    );
    println!("|---|---|---|---|---|---|---|---|---|---|---|---|");
}

pub fn print_row(measured: &Measured) {
    let relaxation = measured.relaxation.map_or(over(), microseconds);
    let to_library = measured.relaxation_to_library().map_or("".into(), |ratio| format!("{ratio:.1}"));
    println!(
        "| {} | {} | {} | {} | {} | {} | {} | {} | {relaxation} | {:.2} | {to_library} | {:.1} |",
        measured.row.name(),
        measured.nodes,
        measured.couplings,
        measured.rounds,
        measured.sweeps,
        measured.connections,
        microseconds(measured.library),
        microseconds(measured.plain),
        measured.library_to_plain(),
        measured.nanoseconds_for_a_connection(),
    );
}

fn over() -> String {
    format!("over {} s", LONGEST_RELAXATION.as_secs())
}

fn microseconds(time: Duration) -> String {
    format!("{:.1}", 1e6 * time.as_secs_f64())
}

/// By how much the time of the library and the connections visited grow from each size to the next.
pub fn print_growth(all: &[Measured]) {
    println!("\n| row | from | to | nodes | connections visited | time of the library |");
    println!("|---|---|---|---|---|---|");
    for row in Row::ALL {
        let sizes: Vec<&Measured> = all.iter().filter(|measured| measured.row == row).collect();
        for pair in sizes.windows(2) {
            print_growth_between(pair[0], pair[1]);
        }
    }
}

fn print_growth_between(small: &Measured, large: &Measured) {
    println!(
        "| {} | {} | {} | {:.1} | {:.1} | {:.1} |",
        small.row.name(),
        small.nodes,
        large.nodes,
        large.nodes as f64 / small.nodes as f64,
        large.connections as f64 / small.connections as f64,
        ratio(large.library, small.library),
    );
}

pub fn print_bars(all: &[Measured]) {
    println!();
    let slow: Vec<String> =
        all.iter().filter(|row| row.library_to_plain() > MOST_TO_PLAIN).map(against_plain).collect();
    let title = format!("library / plain at most {MOST_TO_PLAIN} on every row");
    print_bar(&title, slow.is_empty(), &slow.join(", "));
    let full: Vec<&Measured> = all.iter().filter(|measured| measured.nodes == FULL).collect();
    if let Some(typical) = full.iter().find(|measured| measured.row == Row::Typical) {
        let title = format!("relaxation / library at least {LEAST_RELAXATION} on the typical design of {FULL} nodes");
        match typical.relaxation_to_library() {
            Some(ratio) => print_bar(&title, ratio >= LEAST_RELAXATION, &format!("{ratio:.1}")),
            None => print_bar(&title, true, &format!("relaxation takes {}", over())),
        }
    }
    if let Some(slowest) = full.iter().max_by_key(|measured| measured.library) {
        let title = format!("slowest row of {FULL} nodes under {} s", SLOWEST.as_secs());
        let said = format!("{}, {:.2} s", slowest.row.name(), slowest.library.as_secs_f64());
        print_bar(&title, slowest.library < SLOWEST, &said);
    }
}

fn against_plain(measured: &Measured) -> String {
    format!("{} of {} nodes {:.2}", measured.row.name(), measured.nodes, measured.library_to_plain())
}

fn print_bar(title: &str, is_met: bool, said: &str) {
    let outcome = if is_met { "met" } else { "missed" };
    if said.is_empty() {
        println!("{title}: {outcome}");
    } else {
        println!("{title}: {outcome} ({said})");
    }
}
