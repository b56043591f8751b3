//! Texts whose tables are overwritten on the way: with rows of any kind and any figures, with none, and with a row that a
//! table may have.

use crate::checks::{buffer, hold, is_untouched, library_output, sealed, short_buffer, UNTOUCHED};
use crate::records;
use crate::subjects::{Scale, Subject};
use checker::clock::GREATEST_TIME;
use checker::design::{Node, Refusal, Table, GREATEST_FIGURE, MOST_SOURCES};
use checker::random::Random;
use checker::rules::Rule;
use checker::session::{print, Reply};
use checker::verdicts::judge;
use checker::windows::Order;
use std::fs;
use std::time::Duration;

/// How long a call may run. It runs a second or two at the most.
const LONGEST: Duration = Duration::from_secs(4);

/// How many bytes behind a buffer are looked at after a call.
const GUARD: usize = 4096;

/// Lines that ask for a verdict under every rule.
const VERDICTS: &[u8] = b"0700\n0701\n0702\n";

/// A text that is cut at a place, and the records of what is overwritten there.
struct Cut {
    text: Vec<u8>,
    place: usize,
    records: Vec<u8>,
}

/// How long this thread has run so far. What it waited while others ran is no part of it.
fn running() -> Result<Duration, String> {
    let path = "/proc/thread-self/schedstat";
    let told = fs::read_to_string(path).map_err(|error| format!("{path}: {error}"))?;
    let nanoseconds = told.split_whitespace().next().and_then(|figure| figure.parse().ok());
    nanoseconds.map(Duration::from_nanos).ok_or_else(|| format!("{path} tells no time"))
}

/// Checks calls on a table that is overwritten, and answers how long the longest ran.
pub fn check_overwritten(subject: &Subject, random: &mut Random) -> Result<Duration, String> {
    let mut longest = Duration::ZERO;
    for _ in 0..calls(subject.scale) {
        let cut = cut(subject, random);
        let passed = check_any_rows(&cut, random)?;
        hold(passed < LONGEST, "a call on an overwritten table runs too long")?;
        longest = longest.max(passed);
    }
    check_without_effect(&cut(subject, random), random)?;
    if let Ok(table) = sealed(&subject.loaded) {
        check_altered_row(subject, table, random)?;
    }
    Ok(longest)
}

fn calls(scale: Scale) -> usize {
    match scale {
        Scale::Small | Scale::Row => 4,
        Scale::Medium => 2,
        Scale::Large | Scale::Full => 1,
    }
}

/// A text that is loaded, with its last line feed.
fn lines_of(subject: &Subject) -> Vec<u8> {
    let mut text = subject.loaded.clone();
    if text.last().is_some_and(|&byte| byte != b'\n') {
        text.push(b'\n');
    }
    text
}

/// The loaded text, most often cut at its end, and then verdicts, now and then on a draft that is sealed again.
fn cut(subject: &Subject, random: &mut Random) -> Cut {
    let mut text = lines_of(subject);
    let place = match random.below(12) {
        0..=3 => random.index(text.len() + 1),
        4 => usize::MAX,
        _ => text.len(),
    };
    if random.one_in(3) {
        text.extend_from_slice(b"09\n08\n");
    }
    text.extend_from_slice(VERDICTS);
    let records = (0..random.pick(&[1, 3, 30, 300])).flat_map(|_| records::any(random)).collect();
    Cut { text, place, records }
}

fn parts(cut: &Cut) -> (&[u8], &[u8]) {
    cut.text.split_at(cut.place.min(cut.text.len()))
}

/// For how many bytes there has to be room in the output.
fn room(cut: &Cut) -> usize {
    let (first, rest) = parts(cut);
    ravokimpy::room(first) + ravokimpy::room(rest)
}

/// The output of the library for a text whose tables are overwritten.
fn output(cut: &Cut) -> Result<Vec<u8>, String> {
    let mut out = buffer(room(cut));
    let written = ravokimpy::output_overwritten(&cut.text, cut.place, &cut.records, &mut out);
    out.truncate(written.map_err(|refusal| format!("an overwritten table is {refusal}"))?);
    Ok(out)
}

/// Checks that a call on a table with any rows stays within its buffer and answers the first part as ever. Answers how long
/// it ran.
fn check_any_rows(cut: &Cut, random: &mut Random) -> Result<Duration, String> {
    let room = room(cut);
    let mut guarded = buffer(room + GUARD);
    let (out, guard) = guarded.split_at_mut(room);
    let start = running()?;
    let written = ravokimpy::output_overwritten(&cut.text, cut.place, &cut.records, out);
    let passed = running()? - start;
    let written = written.map_err(|refusal| format!("an overwritten table is {refusal}"))?;
    hold(written <= room && is_untouched(&out[written..]), "an output on an overwritten table goes past its end")?;
    hold(is_untouched(guard), "an output on an overwritten table goes past its buffer")?;
    hold(!out[..written].contains(&UNTOUCHED), "an output on an overwritten table has gaps")?;
    let first = library_output(parts(cut).0)?;
    hold(out.starts_with(&first), "lines before the overwriting are answered otherwise")?;
    let mut short = short_buffer(room, random);
    let refused = ravokimpy::output_overwritten(&cut.text, cut.place, &cut.records, &mut short);
    let refused = refused.map_err(ravokimpy::Refusal::number);
    hold(refused == Err(Refusal::Short.number()), "a short buffer is not refused with 11 beside records")?;
    hold(is_untouched(&short), "a refused output on an overwritten table writes")?;
    Ok(passed)
}

/// Checks that records which write nothing leave the output of both parts one after the other.
fn check_without_effect(cut: &Cut, random: &mut Random) -> Result<(), String> {
    let (first, rest) = parts(cut);
    let feed: &[u8] = if first.is_empty() || first.ends_with(b"\n") { b"" } else { b"\n" };
    let wanted = library_output(&[first, feed, rest].concat())?;
    let record = records::without_effect(random);
    let part_of_one = &records::any(random)[..random.index(records::LENGTH)];
    for records in [&[], &record[..], part_of_one] {
        let cut = Cut { text: cut.text.clone(), place: cut.place, records: records.to_vec() };
        hold(output(&cut)? == wanted, "records without effect have one")?;
    }
    Ok(())
}

/// Checks that a sealed table with another row, such as it may have, is judged as the table that it then is.
fn check_altered_row(subject: &Subject, mut table: Table, random: &mut Random) -> Result<(), String> {
    let record = alter(&mut table, random);
    let first = lines_of(subject);
    let place = first.len();
    let order = Order::Shuffled(random.number());
    let replies = Rule::ALL.map(|rule| Reply::Judged(rule, judge(&table, rule, order)));
    let wanted = [library_output(&first)?, print(&replies)].concat();
    let cut = Cut { text: [&first, VERDICTS].concat(), place, records: record.map(Vec::from).unwrap_or_default() };
    hold(output(&cut)? == wanted, "a table with another row is judged otherwise")
}

/// Alters a row of a table in what calls on a book may make of it, and answers the record that does the same. A table
/// without rows stays as it is.
fn alter(table: &mut Table, random: &mut Random) -> Option<records::Record> {
    if !table.couplings.is_empty() && random.one_in(4) {
        let number = random.index(table.couplings.len());
        table.couplings[number].opposing = figure(random);
        return Some(records::of_coupling(number, &table.couplings[number]));
    }
    if table.nodes.is_empty() {
        return None;
    }
    let nodes = table.nodes.len();
    let number = random.index(nodes);
    match &mut table.nodes[number] {
        Node::Input { earliest, latest, .. } => {
            *earliest = random.within(0..=*latest);
            *latest = random.within(*earliest..=GREATEST_TIME);
        }
        Node::Gate { delay, sources, .. } => {
            delay.greatest = figure(random).max(delay.least);
            *sources = (0..random.count(1..=MOST_SOURCES)).map(|_| random.index(number)).collect();
        }
        Node::Latch { delay, setup, hold, source, .. } => {
            delay.greatest = figure(random).max(delay.least);
            *setup = figure(random);
            *hold = figure(random);
            *source = Some(random.index(nodes));
        }
    }
    Some(records::of_node(number, &table.nodes[number]))
}

/// A figure of a row, small or up to its limit.
fn figure(random: &mut Random) -> u32 {
    let most = random.pick(&[10, 1_000, GREATEST_FIGURE]);
    random.within(0..=most)
}
