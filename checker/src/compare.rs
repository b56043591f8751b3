//! One text: what the program prints against what the model prints, and the model's verdicts against all closed sets.

use std::any::Any;
use std::fmt;
use std::panic::catch_unwind;

use crate::closed;
use crate::program::{Program, Run};
use crate::session::{print, replies, Limits, Reply};
use crate::windows::Order;

/// In what a program and the model differ, or the model and the definition of closed sets.
#[derive(Clone, Debug, PartialEq, Eq)]
pub enum Difference {
    /// The model broke off with a panic.
    Model(String),
    /// The program could not be run to its end.
    Failed(String),
    Status(Option<i32>),
    /// The first printed line that differs, from 1; a line that is missing is nothing.
    Line {
        number: usize,
        program: Option<String>,
        model: Option<String>,
    },
    /// What a verdict says wrongly of the closed sets.
    ClosedSets(String),
}

/// What was compared for a text in which nothing differs.
#[derive(Clone, Debug)]
pub struct Agreed {
    pub replies: Vec<Reply>,
    /// How many sets are closed, for each verdict that was checked against all sets of couplings.
    pub closed_sets: Vec<usize>,
}

pub fn compare(text: &[u8], order: Order, program: &Program) -> Result<Agreed, Difference> {
    let (replies, closed_sets) =
        catch_unwind(|| judged(text, order)).map_err(|panic| Difference::Model(said(&*panic)))?;
    let run = program(text).map_err(|error| Difference::Failed(error.to_string()))?;
    compare_output(&run, &print(&replies))?;
    let closed_sets = closed_sets.map_err(Difference::ClosedSets)?;
    Ok(Agreed { replies, closed_sets })
}

/// The model's replies, and what the check of its verdicts against all closed sets says.
fn judged(text: &[u8], order: Order) -> (Vec<Reply>, Result<Vec<usize>, String>) {
    let mut closed_sets = Vec::new();
    let replies = replies(text, Limits::CLOCKMARK, order, |table, rule, judgement| {
        if table.couplings.len() <= closed::MOST_COUPLINGS {
            closed_sets.push(closed::check(table, rule, judgement));
        }
    });
    (replies, closed_sets.into_iter().collect())
}

fn said(panic: &(dyn Any + Send)) -> String {
    let literal = panic.downcast_ref::<&str>().map(|said| said.to_string());
    literal.or_else(|| panic.downcast_ref::<String>().cloned()).unwrap_or_else(|| "a panic".to_string())
}

fn compare_output(run: &Run, model: &[u8]) -> Result<(), Difference> {
    if run.output != model {
        let mut printed = run.output.split_inclusive(|&byte| byte == b'\n').map(shown);
        let mut expected = model.split_inclusive(|&byte| byte == b'\n').map(shown);
        for number in 1.. {
            let (program, model) = (printed.next(), expected.next());
            if program != model {
                return Err(Difference::Line { number, program, model });
            }
        }
    }
    if run.status != Some(0) {
        return Err(Difference::Status(run.status));
    }
    Ok(())
}

/// A line with everything that is no plain character made visible, a missing line feed too.
pub fn shown(line: &[u8]) -> String {
    match line.strip_suffix(b"\n") {
        Some(whole) => whole.escape_ascii().to_string(),
        None => format!("{} (without a line feed)", line.escape_ascii()),
    }
}

impl fmt::Display for Difference {
    fn fmt(&self, f: &mut fmt::Formatter<'_>) -> fmt::Result {
        let line = |line: &Option<String>| line.clone().unwrap_or_else(|| "nothing more".to_string());
        match self {
            Difference::Model(panic) => write!(f, "the model broke off: {panic}"),
            Difference::Failed(error) => write!(f, "the program could not be run: {error}"),
            Difference::Status(Some(status)) => write!(f, "the program ended with status {status}"),
            Difference::Status(None) => write!(f, "the program was ended by a signal"),
            Difference::Line { number, program, model } => {
                write!(f, "printed line {number}: the program has {}, the model {}", line(program), line(model))
            }
            Difference::ClosedSets(fault) => write!(f, "a verdict is wrong of the closed sets: {fault}"),
        }
    }
}
