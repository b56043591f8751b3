//! Shrinking a text in which something differs, while it still does.

use std::ops::Range;

use crate::frames::{decode, encode, lines, Frame};
use crate::session::{Granted, Limits, Session};

/// How many smaller texts are tried at most.
const TRIALS: usize = 6_000;

/// The smallest text found for which `differs` still holds, as it does for the given one.
pub fn shrink(text: &[u8], differs: impl FnMut(&[u8]) -> bool) -> Vec<u8> {
    let lines = lines(text).into_iter().map(<[u8]>::to_vec).collect();
    let mut shrinking = Shrinking { lines, last_feed: text.last() == Some(&b'\n'), trials: TRIALS, differs };
    while shrinking.improve() {}
    text_of(&shrinking.lines, shrinking.last_feed)
}

fn text_of(lines: &[Vec<u8>], last_feed: bool) -> Vec<u8> {
    let mut text = lines.join(&b'\n');
    if last_feed && !lines.is_empty() {
        text.push(b'\n');
    }
    text
}

struct Shrinking<D> {
    lines: Vec<Vec<u8>>,
    last_feed: bool,
    trials: usize,
    differs: D,
}

impl<D: FnMut(&[u8]) -> bool> Shrinking<D> {
    /// Goes through all ways to make the text smaller once, and answers whether one did.
    fn improve(&mut self) -> bool {
        let mut improved = self.drop_lines();
        improved |= self.drop_nodes();
        improved |= self.drop_phases();
        improved |= self.shorten_lines();
        improved |= self.drop_listed();
        improved |= self.lessen_figures();
        improved
    }

    /// Takes the lines if the text of them still differs.
    fn take(&mut self, lines: Vec<Vec<u8>>) -> bool {
        if self.trials == 0 || lines == self.lines {
            return false;
        }
        self.trials -= 1;
        let differs = (self.differs)(&text_of(&lines, self.last_feed));
        if differs {
            self.lines = lines;
        }
        differs
    }

    fn take_line(&mut self, place: usize, line: Vec<u8>) -> bool {
        let mut lines = self.lines.clone();
        lines[place] = line;
        self.take(lines)
    }

    /// Drops lines, half of them at first and one at a time in the end.
    fn drop_lines(&mut self) -> bool {
        let mut improved = false;
        let mut length = self.lines.len().div_ceil(2);
        while length > 0 {
            let mut place = 0;
            while place < self.lines.len() {
                let mut lines = self.lines.clone();
                lines.drain(place..(place + length).min(lines.len()));
                if self.take(lines) {
                    improved = true;
                } else {
                    place += length;
                }
            }
            length /= 2;
        }
        improved
    }

    /// Drops the line of a node, and renumbers the nodes in the lines after it.
    fn drop_nodes(&mut self) -> bool {
        let mut improved = false;
        for place in (0..self.lines.len()).rev() {
            if place >= self.lines.len() {
                continue;
            }
            if let Some(node) = granted_node(&self.lines, place) {
                let substitute = first_source(&self.lines[place]).unwrap_or(0);
                improved |= self.take(without_node(&self.lines, place, node, None))
                    || self.take(without_node(&self.lines, place, node, Some(substitute)));
            }
        }
        improved
    }

    /// Drops a phase from all schedules, and renumbers the phases in all lines.
    fn drop_phases(&mut self) -> bool {
        let schedules = self.lines.iter().filter_map(|line| match frame_of(line) {
            Some(Frame::Schedule(schedule)) => Some(schedule.phases.len()),
            _ => None,
        });
        let most = schedules.max().unwrap_or(0).min(255) as u8;
        let mut improved = false;
        for phase in (1..=most).rev() {
            improved |= self.take(without_phase(&self.lines, phase));
        }
        improved
    }

    /// Drops halves of lines, then ever smaller parts of them.
    fn shorten_lines(&mut self) -> bool {
        let mut improved = false;
        for place in 0..self.lines.len() {
            let mut length = self.lines[place].len().div_ceil(2);
            while length > 0 {
                let mut from = 0;
                while from < self.lines[place].len() {
                    let mut line = self.lines[place].clone();
                    line.drain(from..(from + length).min(line.len()));
                    if self.take_line(place, line) {
                        improved = true;
                    } else {
                        from += length;
                    }
                }
                length /= 2;
            }
        }
        improved
    }

    /// Drops sources of gates.
    fn drop_listed(&mut self) -> bool {
        let mut improved = false;
        for place in 0..self.lines.len() {
            while let Some(line) = without_last_source(&self.lines[place]) {
                if !self.take_line(place, line) {
                    break;
                }
                improved = true;
            }
        }
        improved
    }

    /// Lessens each figure and number of each frame, to 0 or as far as the text still differs.
    fn lessen_figures(&mut self) -> bool {
        let mut improved = false;
        for place in 0..self.lines.len() {
            if let Some(frame) = frame_of(&self.lines[place]) {
                for field in frame.fields() {
                    improved |= self.lessen_figure(place, field);
                }
            }
        }
        improved
    }

    fn lessen_figure(&mut self, place: usize, field: Range<usize>) -> bool {
        let bytes = decode(&self.lines[place]).expect("the digits of a frame");
        let value = figure(&bytes[field.clone()]);
        let with = |value: u64| {
            let mut bytes = bytes.clone();
            let width = field.len();
            bytes[field.clone()].copy_from_slice(&value.to_be_bytes()[8 - width..]);
            encode(&bytes)
        };
        if value == 0 || self.take_line(place, with(0)) {
            return value > 0;
        }
        let (mut agrees, mut differs) = (0, value);
        while differs - agrees > 1 {
            let middle = agrees + (differs - agrees) / 2;
            if self.take_line(place, with(middle)) {
                differs = middle;
            } else {
                agrees = middle;
            }
        }
        differs < value
    }
}

fn frame_of(line: &[u8]) -> Option<Frame> {
    decode(line).and_then(|bytes| Frame::read(&bytes))
}

fn figure(bytes: &[u8]) -> u64 {
    bytes.iter().fold(0, |figure, &byte| figure << 8 | u64::from(byte))
}

/// The number of the node that a line adds, if it adds one.
fn granted_node(lines: &[Vec<u8>], place: usize) -> Option<u16> {
    if !matches!(frame_of(&lines[place])?, Frame::Input { .. } | Frame::Gate { .. } | Frame::Latch { .. }) {
        return None;
    }
    let mut session = Session::new(Limits::CLOCKMARK.size);
    let granted = lines[..=place].iter().map(|line| session.put_line(line)).last()?;
    match granted {
        Ok(Granted::Number(node)) => u16::try_from(node).ok(),
        _ => None,
    }
}

fn first_source(line: &[u8]) -> Option<u16> {
    match frame_of(line)? {
        Frame::Gate { sources, .. } => sources.first().copied(),
        _ => None,
    }
}

fn without_last_source(line: &[u8]) -> Option<Vec<u8>> {
    match frame_of(line)? {
        Frame::Gate { phase, least, greatest, mut sources } => {
            sources.pop()?;
            Some(Frame::Gate { phase, least, greatest, sources }.line())
        }
        _ => None,
    }
}

/// The lines without that of a node. Where it was named the substitute is named, if there is one.
fn without_node(lines: &[Vec<u8>], place: usize, node: u16, substitute: Option<u16>) -> Vec<Vec<u8>> {
    let renamed = |named: u16| {
        let named = if named == node { substitute? } else { named };
        Some(if named > node { named - 1 } else { named })
    };
    let after = lines[place + 1..].iter().filter_map(|line| match frame_of(line) {
        Some(Frame::Gate { phase, least, greatest, sources }) => {
            let sources = sources.into_iter().filter_map(renamed).collect();
            Some(Frame::Gate { phase, least, greatest, sources }.line())
        }
        Some(Frame::Feed { latch, source }) => {
            (latch != node).then_some(())?;
            Some(Frame::Feed { latch: renamed(latch)?, source: renamed(source)? }.line())
        }
        Some(Frame::Couple { victim, aggressor, assisting, opposing }) => {
            (victim != node).then_some(())?;
            let (victim, aggressor) = (renamed(victim)?, renamed(aggressor)?);
            Some(Frame::Couple { victim, aggressor, assisting, opposing }.line())
        }
        _ => Some(line.clone()),
    });
    lines[..place].iter().cloned().chain(after).collect()
}

/// The lines without a phase in any schedule. Rows of the phase have the one before it, or the first.
fn without_phase(lines: &[Vec<u8>], dropped: u8) -> Vec<Vec<u8>> {
    let renamed = |phase: u8| if phase >= dropped && phase > 1 { phase - 1 } else { phase };
    let changed = |line: &Vec<u8>| {
        let mut frame = frame_of(line)?;
        match &mut frame {
            Frame::Schedule(schedule) if schedule.phases.len() >= usize::from(dropped) => {
                schedule.phases.remove(usize::from(dropped) - 1);
            }
            Frame::Input { phase, .. } | Frame::Gate { phase, .. } | Frame::Latch { phase, .. } => {
                *phase = renamed(*phase);
            }
            _ => {}
        }
        Some(frame.line())
    };
    lines.iter().map(|line| changed(line).unwrap_or_else(|| line.clone())).collect()
}

#[cfg(test)]
mod tests {
    use super::*;
    use crate::compare::{compare, Difference};
    use crate::design::Refusal;
    use crate::program::Run;
    use crate::session::{print, replies, Reply};
    use crate::texts::text;
    use crate::windows::Order;

    /// A program that answers as the model does, but refuses the couplings of node 3 by another number.
    fn mistaken(text: &[u8]) -> Run {
        let mut replies = replies(text, Limits::CLOCKMARK, Order::HighestFirst, |_, _, _| {});
        for (line, reply) in lines(text).into_iter().zip(&mut replies) {
            if let (Some(Frame::Couple { victim: 3, .. }), Reply::Refused(refusal)) = (frame_of(line), reply) {
                *refusal = Refusal::Phase;
            }
        }
        Run { output: print(&replies), status: Some(0) }
    }

    #[test]
    fn a_planted_difference_is_found_and_shrunk_to_one_line() {
        let differs = |text: &[u8]| {
            let found = compare(text, Order::HighestFirst, &|text: &[u8]| Ok(mistaken(text)));
            matches!(found, Err(Difference::Line { .. }))
        };
        let mut texts = (0..500).map(|number| text(1, number).bytes);
        let found = texts.find(|text| differs(text)).expect("couplings of node 3 are refused in some text");
        assert_eq!(shrink(&found, differs), b"06000300000000000000000000\n");
    }
}
