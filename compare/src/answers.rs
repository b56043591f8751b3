//! What the library answers, in the words of the checker.

use checker::rules::Rule;
use checker::session::{print, Limits, Reply};
use checker::verdicts::Judgement;
use ravokimpy::Refusal;

use crate::design::SIZE;

/// What the library takes: a text of any length.
pub const LIMITS: Limits = Limits { size: SIZE, text: None };

/// The output of the library for a text. Room for all of it is made first.
pub fn output(text: &[u8]) -> Result<Vec<u8>, Refusal> {
    let mut out = vec![0; ravokimpy::room(text)];
    let written = ravokimpy::output(text, &mut out)?;
    out.truncate(written);
    Ok(out)
}

/// The text that the library writes for the table of a text.
pub fn rebuilt(text: &[u8]) -> Result<Vec<u8>, Refusal> {
    let mut out = vec![0; LONGEST_TABLE];
    let written = ravokimpy::rebuild(text, &mut out)?;
    out.truncate(written);
    Ok(out)
}

/// The length of the text of the largest table.
pub const LONGEST_TABLE: usize = 277 + 48 * SIZE.nodes + 27 * SIZE.couplings;

/// The library's name of a rule.
pub fn named(rule: Rule) -> ravokimpy::Rule {
    match rule {
        Rule::Never => ravokimpy::Rule::Never,
        Rule::ThreeOccurrences => ravokimpy::Rule::ThreeOccurrences,
        Rule::Always => ravokimpy::Rule::Always,
    }
}

/// The bytes of the verdict's line for a judgement.
pub fn verdict_bytes(rule: Rule, judgement: &Judgement) -> Vec<u8> {
    let printed = print(&[Reply::Judged(rule, judgement.clone())]);
    let line = checker::frames::lines(&printed)[0];
    checker::frames::decode(line).expect("verdicts are printed in digits")
}

/// The text of a table which is sealed, with a line that asks for a verdict.
pub fn verify(text: &[u8], rule: Rule) -> Vec<u8> {
    let mut text = text.to_vec();
    text.extend(checker::frames::Frame::Verify(rule).line());
    text.push(b'\n');
    text
}

/// What the library prints for a verdict on the table of a text which seals it.
pub fn printed_verdict(text: &[u8], rule: Rule) -> Result<Vec<u8>, Refusal> {
    let before = output(text)?.len();
    let mut printed = output(&verify(text, rule))?;
    Ok(printed.split_off(before))
}

/// What the checker prints for a judgement.
pub fn printed(rule: Rule, judgement: &Judgement) -> Vec<u8> {
    print(&[Reply::Judged(rule, judgement.clone())])
}
