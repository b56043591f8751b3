//! How often what occurred in a run.

use crate::subjects::Scale;
use checker::session::Reply;
use std::collections::BTreeMap;
use std::fmt::{Display, Formatter};
use std::time::Duration;

const VERDICTS: [(u8, &str); 4] = [(0, "pass"), (64, "gain"), (65, "late"), (66, "early")];

#[derive(Default)]
pub struct Tally {
    scales: BTreeMap<Scale, u64>,
    verdicts: BTreeMap<u8, u64>,
    refusals: BTreeMap<u8, u64>,
    most_rounds: usize,
    refused_at_the_limit: u64,
    longest_overwritten: Duration,
}

impl Tally {
    pub fn add(&mut self, scale: Scale, replies: &[Reply], overwritten: Duration) {
        *self.scales.entry(scale).or_default() += 1;
        self.longest_overwritten = self.longest_overwritten.max(overwritten);
        for reply in replies {
            match reply {
                Reply::Refused(refusal) => {
                    *self.refusals.entry(refusal.number()).or_default() += 1;
                    if scale == Scale::Full && refusal.number() == 1 {
                        self.refused_at_the_limit += 1;
                    }
                }
                Reply::Judged(_, judgement) => {
                    *self.verdicts.entry(judgement.verdict.number()).or_default() += 1;
                    self.most_rounds = self.most_rounds.max(judgement.rounds);
                }
                Reply::Done | Reply::Number(_) => {}
            }
        }
    }

    /// What a whole run has to meet and did not.
    pub fn missing(&self) -> Vec<&'static str> {
        let verdicts = VERDICTS.iter().filter(|(number, _)| !self.verdicts.contains_key(number));
        let mut missing: Vec<&str> = verdicts.map(|(_, name)| *name).collect();
        if self.refused_at_the_limit == 0 {
            missing.push("a row more than a book takes");
        }
        missing
    }
}

impl Display for Tally {
    fn fmt(&self, f: &mut Formatter<'_>) -> std::fmt::Result {
        for (scale, count) in &self.scales {
            writeln!(f, "{:<28}{count}", format!("{scale:?} texts").to_lowercase())?;
        }
        for (number, name) in VERDICTS {
            let count = self.verdicts.get(&number).copied().unwrap_or(0);
            writeln!(f, "{:<28}{count}", format!("verdicts: {name}"))?;
        }
        for (number, count) in &self.refusals {
            writeln!(f, "{:<28}{count}", format!("refusals: {number}"))?;
        }
        writeln!(f, "{:<28}{}", "refused at the book's limit", self.refused_at_the_limit)?;
        writeln!(f, "{:<28}{}", "most rounds", self.most_rounds)?;
        writeln!(f, "{:<28}{:?}", "longest call on overwritten", self.longest_overwritten)
    }
}
