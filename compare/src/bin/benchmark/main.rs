//! Measures how long a verdict takes, by the library, by a plain version of the same algorithm, and by relaxation. It fails
//! where these do not agree, and never because of a time.

mod measure;
mod report;

use compare::rows::Row;
use measure::measure;
use std::process::ExitCode;

const SIZES: [usize; 3] = [100, 1000, 4096];

fn main() -> ExitCode {
    let mut all = Vec::new();
    report::print_heading();
    for row in Row::ALL {
        for nodes in SIZES {
            match measure(row, nodes) {
                Ok(measured) => {
                    report::print_row(&measured);
                    all.push(measured);
                }
                Err(error) => {
                    eprintln!("{} of {nodes} nodes: {error}", row.name());
                    return ExitCode::FAILURE;
                }
            }
        }
    }
    report::print_growth(&all);
    report::print_bars(&all);
    ExitCode::SUCCESS
}
