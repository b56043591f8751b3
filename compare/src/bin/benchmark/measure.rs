//! Judging a design by the library, by the plain version of its algorithm and by relaxation, and timing each.

use checker::design::Table;
use checker::rules::Rule;
use checker::verdicts::{judge_while, Judgement};
use checker::windows::Order;
use compare::answers::{named, printed, printed_verdict};
use compare::plain::{self, Circuit, Counted, Uncounted};
use compare::rows::Row;
use std::hint::black_box;
use std::time::{Duration, Instant};

const RULE: Rule = Rule::ThreeOccurrences;

/// The order in which relaxation goes along the connections.
const ORDER: Order = Order::Shuffled(20_260_731);

/// How long a relaxation may take. Whether it is over is asked before each round.
pub const LONGEST_RELAXATION: Duration = Duration::from_secs(20);

/// How long one measurement of the library and of the plain version takes at least. Short judgements are repeated in it. It
/// is short enough that some measurements are made without a break while the machine does other work.
const SHORTEST: Duration = Duration::from_millis(2);

/// How often all are measured in turn: so many times at least and at most, and in between for so long.
const FEWEST: usize = 3;
const MOST: usize = 400;
const ENOUGH: Duration = Duration::from_secs(6);

/// A row that is measured.
pub struct Measured {
    pub row: Row,
    pub nodes: usize,
    pub couplings: usize,
    pub rounds: usize,
    pub sweeps: u64,
    pub connections: u64,
    pub library: Duration,
    pub plain: Duration,
    /// None where it takes longer than it may.
    pub relaxation: Option<Duration>,
}

/// A design in the form in which each judge takes it.
struct Subject {
    text: Vec<u8>,
    circuit: Circuit,
    table: Table,
}

impl Measured {
    pub fn library_to_plain(&self) -> f64 {
        ratio(self.library, self.plain)
    }

    pub fn relaxation_to_library(&self) -> Option<f64> {
        Some(ratio(self.relaxation?, self.library))
    }

    pub fn nanoseconds_for_a_connection(&self) -> f64 {
        1e9 * self.library.as_secs_f64() / self.connections as f64
    }
}

pub fn ratio(one: Duration, other: Duration) -> f64 {
    one.as_secs_f64() / other.as_secs_f64()
}

/// Checks that the judges agree on a row, and then measures it.
pub fn measure(row: Row, nodes: usize) -> Result<Measured, String> {
    let design = row.design(nodes);
    let table = design.table().ok_or("the design is refused")?;
    let subject = Subject { text: design.text(), circuit: Circuit::of(&table), table };
    let mut counted = Counted::default();
    let judgement = plain::judge(&subject.circuit, RULE, &mut counted);
    let relaxes = subject.check(&judgement)?;
    let mut measured = Measured {
        row,
        nodes: design.nodes(),
        couplings: design.couplings(),
        rounds: judgement.rounds,
        sweeps: counted.sweeps,
        connections: counted.connections,
        library: Duration::MAX,
        plain: Duration::MAX,
        relaxation: relaxes.then_some(Duration::MAX),
    };
    subject.time(&mut measured)?;
    Ok(measured)
}

impl Subject {
    /// Checks that the library and relaxation judge as the plain version does, with the same flags and windows. Answers
    /// whether relaxation came to an end in its time.
    fn check(&self, judgement: &Judgement) -> Result<bool, String> {
        let printed_by_library = printed_verdict(&self.text, RULE).map_err(|refusal| refusal.to_string())?;
        if printed_by_library != printed(RULE, judgement) {
            return Err("the library and the plain version differ".into());
        }
        match self.relax() {
            Some(relaxed) if relaxed != *judgement => Err("relaxation and the plain version differ".into()),
            relaxed => Ok(relaxed.is_some()),
        }
    }

    fn relax(&self) -> Option<Judgement> {
        let start = Instant::now();
        judge_while(&self.table, RULE, ORDER, || start.elapsed() < LONGEST_RELAXATION)
    }

    /// Measures all in turn. The quickest of each counts, since whatever else the machine does only makes them slower.
    fn time(&self, measured: &mut Measured) -> Result<(), String> {
        let times = self.times();
        let mut loading = Duration::MAX;
        let mut judging = Duration::MAX;
        let start = Instant::now();
        for repetition in 0..MOST {
            if repetition >= FEWEST && start.elapsed() > ENOUGH {
                break;
            }
            loading = loading.min(self.time_library(1)?);
            judging = judging.min(self.time_library(1 + times)?);
            measured.plain = measured.plain.min(self.time_plain(times) / times);
            if let Some(quickest) = &mut measured.relaxation {
                *quickest = (*quickest).min(self.time_relaxation());
            }
        }
        measured.library = judging.saturating_sub(loading) / times;
        Ok(())
    }

    /// How many judgements one measurement makes.
    fn times(&self) -> u32 {
        let one = self.time_plain(1).as_secs_f64();
        (SHORTEST.as_secs_f64() / one).ceil().max(1.0) as u32
    }

    /// One load of the text with so many judgements.
    fn time_library(&self, times: u32) -> Result<Duration, String> {
        let start = Instant::now();
        let verdict = ravokimpy::judge(&self.text, named(RULE), times);
        let passed = start.elapsed();
        verdict.map_err(|refusal| refusal.to_string())?;
        Ok(passed)
    }

    fn time_plain(&self, times: u32) -> Duration {
        let start = Instant::now();
        for _ in 0..times {
            black_box(plain::judge(black_box(&self.circuit), RULE, &mut Uncounted));
        }
        start.elapsed()
    }

    fn time_relaxation(&self) -> Duration {
        let start = Instant::now();
        black_box(self.relax());
        start.elapsed()
    }
}
