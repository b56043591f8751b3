//! The lines of a text: their digits, and the frames that they spell.

use std::ops::Range;

use crate::clock::{Phase, Schedule};
use crate::rules::Rule;

#[derive(Clone, Debug, PartialEq, Eq)]
pub enum Frame {
    Schedule(Schedule),
    Input { phase: u8, earliest: u32, latest: u32 },
    Gate { phase: u8, least: u32, greatest: u32, sources: Vec<u16> },
    Latch { phase: u8, least: u32, greatest: u32, setup: u32, hold: u32 },
    Feed { latch: u16, source: u16 },
    Couple { victim: u16, aggressor: u16, assisting: u32, opposing: u32 },
    Verify(Rule),
    Seal,
    Reopen,
}

/// The names of the kinds of frames, by the byte with which a frame begins less 1.
pub const KINDS: [&str; 9] = ["schedule", "input", "gate", "latch", "feed", "couple", "verify", "seal", "reopen"];

/// The lines of a text, without their line feeds. A last line feed begins no line.
pub fn lines(text: &[u8]) -> Vec<&[u8]> {
    let mut lines: Vec<&[u8]> = text.split(|&byte| byte == b'\n').collect();
    if lines.last().is_some_and(|last| last.is_empty()) {
        lines.pop();
    }
    lines
}

/// The bytes that a line of digits spells, or nothing if it fails the test of digits.
pub fn decode(line: &[u8]) -> Option<Vec<u8>> {
    if line.is_empty() || line.len() % 2 == 1 {
        return None;
    }
    let digits = line.iter().map(|&digit| value(digit)).collect::<Option<Vec<u8>>>()?;
    Some(digits.chunks(2).map(|pair| 16 * pair[0] + pair[1]).collect())
}

pub fn encode(bytes: &[u8]) -> Vec<u8> {
    bytes.iter().flat_map(|byte| format!("{byte:02X}").into_bytes()).collect()
}

fn value(digit: u8) -> Option<u8> {
    match digit {
        b'0'..=b'9' => Some(digit - b'0'),
        b'A'..=b'F' => Some(digit - b'A' + 10),
        _ => None,
    }
}

/// Fields that are taken from the front of bytes, highest byte first.
struct Fields<'a>(&'a [u8]);

impl Fields<'_> {
    fn bytes<const WIDTH: usize>(&mut self) -> Option<[u8; WIDTH]> {
        let (field, rest) = self.0.split_first_chunk::<WIDTH>()?;
        self.0 = rest;
        Some(*field)
    }

    fn byte(&mut self) -> Option<u8> {
        self.bytes().map(u8::from_be_bytes)
    }

    fn number(&mut self) -> Option<u16> {
        self.bytes().map(u16::from_be_bytes)
    }

    fn figure(&mut self) -> Option<u32> {
        self.bytes().map(u32::from_be_bytes)
    }

    fn listed<T>(&mut self, count: u8, one: impl Fn(&mut Self) -> Option<T>) -> Option<Vec<T>> {
        (0..count).map(|_| one(self)).collect()
    }
}

impl Frame {
    /// The frame that the bytes are, if they are one.
    pub fn read(bytes: &[u8]) -> Option<Frame> {
        let mut fields = Fields(bytes);
        let frame = match fields.byte()? {
            1 => Frame::Schedule(Frame::read_schedule(&mut fields)?),
            2 => Frame::Input { phase: fields.byte()?, earliest: fields.figure()?, latest: fields.figure()? },
            3 => Frame::read_gate(&mut fields)?,
            4 => Frame::Latch {
                phase: fields.byte()?,
                least: fields.figure()?,
                greatest: fields.figure()?,
                setup: fields.figure()?,
                hold: fields.figure()?,
            },
            5 => Frame::Feed { latch: fields.number()?, source: fields.number()? },
            6 => Frame::Couple {
                victim: fields.number()?,
                aggressor: fields.number()?,
                assisting: fields.figure()?,
                opposing: fields.figure()?,
            },
            7 => Frame::Verify(Rule::of_byte(fields.byte()?)?),
            8 => Frame::Seal,
            9 => Frame::Reopen,
            _ => return None,
        };
        fields.0.is_empty().then_some(frame)
    }

    fn read_schedule(fields: &mut Fields) -> Option<Schedule> {
        let period = fields.figure()?;
        let proximity = fields.figure()?;
        let count = fields.byte()?;
        let phases = fields.listed(count, |fields| Some(Phase { start: fields.figure()?, width: fields.figure()? }))?;
        Some(Schedule { period, proximity, phases })
    }

    fn read_gate(fields: &mut Fields) -> Option<Frame> {
        let phase = fields.byte()?;
        let least = fields.figure()?;
        let greatest = fields.figure()?;
        let count = fields.byte()?;
        let sources = fields.listed(count, Fields::number)?;
        Some(Frame::Gate { phase, least, greatest, sources })
    }

    /// The bytes of a frame. It lists at most 255 phases or sources.
    pub fn bytes(&self) -> Vec<u8> {
        let mut bytes = vec![self.kind()];
        match self {
            Frame::Schedule(schedule) => {
                push_figures(&mut bytes, &[schedule.period, schedule.proximity]);
                bytes.push(count(&schedule.phases));
                for phase in &schedule.phases {
                    push_figures(&mut bytes, &[phase.start, phase.width]);
                }
            }
            Frame::Input { phase, earliest, latest } => {
                bytes.push(*phase);
                push_figures(&mut bytes, &[*earliest, *latest]);
            }
            Frame::Gate { phase, least, greatest, sources } => {
                bytes.push(*phase);
                push_figures(&mut bytes, &[*least, *greatest]);
                bytes.push(count(sources));
                push_numbers(&mut bytes, sources);
            }
            Frame::Latch { phase, least, greatest, setup, hold } => {
                bytes.push(*phase);
                push_figures(&mut bytes, &[*least, *greatest, *setup, *hold]);
            }
            Frame::Feed { latch, source } => push_numbers(&mut bytes, &[*latch, *source]),
            Frame::Couple { victim, aggressor, assisting, opposing } => {
                push_numbers(&mut bytes, &[*victim, *aggressor]);
                push_figures(&mut bytes, &[*assisting, *opposing]);
            }
            Frame::Verify(rule) => bytes.push(rule.byte()),
            Frame::Seal | Frame::Reopen => {}
        }
        bytes
    }

    pub fn line(&self) -> Vec<u8> {
        encode(&self.bytes())
    }

    /// The byte with which the frame begins.
    pub fn kind(&self) -> u8 {
        match self {
            Frame::Schedule(_) => 1,
            Frame::Input { .. } => 2,
            Frame::Gate { .. } => 3,
            Frame::Latch { .. } => 4,
            Frame::Feed { .. } => 5,
            Frame::Couple { .. } => 6,
            Frame::Verify(_) => 7,
            Frame::Seal => 8,
            Frame::Reopen => 9,
        }
    }

    /// Where the figures and numbers of the frame stand in its bytes: all but its kind and its count.
    pub fn fields(&self) -> Vec<Range<usize>> {
        let widths: Vec<usize> = match self {
            Frame::Schedule(schedule) => [&[4, 4, 1][..], &vec![4; 2 * schedule.phases.len()]].concat(),
            Frame::Input { .. } => vec![1, 4, 4],
            Frame::Gate { sources, .. } => [&[1, 4, 4, 1][..], &vec![2; sources.len()]].concat(),
            Frame::Latch { .. } => vec![1, 4, 4, 4, 4],
            Frame::Feed { .. } => vec![2, 2],
            Frame::Couple { .. } => vec![2, 2, 4, 4],
            Frame::Verify(_) => vec![1],
            Frame::Seal | Frame::Reopen => vec![],
        };
        let count = match self {
            Frame::Schedule(_) => Some(2),
            Frame::Gate { .. } => Some(3),
            _ => None,
        };
        let mut place = 1;
        let mut ranges = Vec::new();
        for (field, width) in widths.into_iter().enumerate() {
            if Some(field) != count {
                ranges.push(place..place + width);
            }
            place += width;
        }
        ranges
    }
}

fn count<T>(listed: &[T]) -> u8 {
    u8::try_from(listed.len()).expect("a frame lists at most 255")
}

fn push_figures(bytes: &mut Vec<u8>, figures: &[u32]) {
    bytes.extend(figures.iter().flat_map(|figure| figure.to_be_bytes()));
}

fn push_numbers(bytes: &mut Vec<u8>, numbers: &[u16]) {
    bytes.extend(numbers.iter().flat_map(|number| number.to_be_bytes()));
}
