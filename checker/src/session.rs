//! What the program does with a text: its lines put to a book one after another, and what is printed for each.

use crate::design::{Delay, Refusal, Size, Table};
use crate::frames::{decode, encode, lines, Frame};
use crate::rules::Rule;
use crate::verdicts::{judge, Judgement};
use crate::windows::Order;

/// How much the program takes: a book of some size, and a text of so many bytes, if that is limited.
#[derive(Clone, Copy, Debug)]
pub struct Limits {
    pub size: Size,
    pub text: Option<usize>,
}

impl Limits {
    pub const CLOCKMARK: Limits = Limits { size: Size { nodes: 256, couplings: 256 }, text: Some(65_536) };
}

#[derive(Clone, Copy, Debug, PartialEq, Eq)]
pub enum Stage {
    Draft,
    Sealed,
}

#[derive(Clone, Debug)]
struct Book {
    stage: Stage,
    table: Table,
}

/// What a granted line asks for or answers.
#[derive(Clone, Copy, Debug, PartialEq, Eq)]
pub enum Granted {
    Done,
    Number(usize),
    Verify(Rule),
}

#[derive(Clone, Debug, PartialEq, Eq)]
pub enum Reply {
    Refused(Refusal),
    Done,
    Number(usize),
    Judged(Rule, Judgement),
}

#[derive(Clone, Debug)]
pub struct Session {
    size: Size,
    book: Option<Book>,
}

impl Session {
    pub fn new(size: Size) -> Self {
        Session { size, book: None }
    }

    pub fn table(&self) -> Option<&Table> {
        self.book.as_ref().map(|book| &book.table)
    }

    pub fn stage(&self) -> Option<Stage> {
        self.book.as_ref().map(|book| book.stage)
    }

    /// Puts a line to the book. A verify that is granted is not judged here.
    pub fn put_line(&mut self, line: &[u8]) -> Result<Granted, Refusal> {
        let bytes = decode(line).ok_or(Refusal::Digits)?;
        self.put(&Frame::read(&bytes).ok_or(Refusal::Frame)?)
    }

    pub fn put(&mut self, frame: &Frame) -> Result<Granted, Refusal> {
        let Some(book) = &mut self.book else {
            let Frame::Schedule(schedule) = frame else {
                return Err(Refusal::Order);
            };
            let table = Table::open(schedule.clone(), self.size)?;
            self.book = Some(Book { stage: Stage::Draft, table });
            return Ok(Granted::Done);
        };
        match (book.stage, frame) {
            (_, Frame::Schedule(schedule)) => book.table.retime(schedule.clone()).map(|()| Granted::Done),
            (Stage::Draft, _) => book.change_draft(frame),
            (Stage::Sealed, Frame::Verify(rule)) => Ok(Granted::Verify(*rule)),
            (Stage::Sealed, Frame::Reopen) => {
                book.stage = Stage::Draft;
                Ok(Granted::Done)
            }
            (Stage::Sealed, _) => Err(Refusal::Order),
        }
    }

    fn answer(&mut self, line: &[u8], order: Order) -> Reply {
        match self.put_line(line) {
            Err(refusal) => Reply::Refused(refusal),
            Ok(Granted::Done) => Reply::Done,
            Ok(Granted::Number(number)) => Reply::Number(number),
            Ok(Granted::Verify(rule)) => {
                let table = self.table().expect("only a sealed table is verified");
                Reply::Judged(rule, judge(table, rule, order))
            }
        }
    }
}

impl Book {
    fn change_draft(&mut self, frame: &Frame) -> Result<Granted, Refusal> {
        let table = &mut self.table;
        match frame {
            Frame::Input { phase, earliest, latest } => {
                table.add_input(*phase, *earliest, *latest).map(Granted::Number)
            }
            Frame::Gate { phase, least, greatest, sources } => {
                let delay = Delay { least: *least, greatest: *greatest };
                table.add_gate(*phase, delay, sources).map(Granted::Number)
            }
            Frame::Latch { phase, least, greatest, setup, hold } => {
                let delay = Delay { least: *least, greatest: *greatest };
                table.add_latch(*phase, delay, *setup, *hold).map(Granted::Number)
            }
            Frame::Feed { latch, source } => table.feed(*latch, *source).map(|()| Granted::Done),
            Frame::Couple { victim, aggressor, assisting, opposing } => {
                table.couple(*victim, *aggressor, *assisting, *opposing).map(Granted::Number)
            }
            Frame::Seal => {
                table.test_seal()?;
                self.stage = Stage::Sealed;
                Ok(Granted::Done)
            }
            Frame::Schedule(_) | Frame::Verify(_) | Frame::Reopen => Err(Refusal::Order),
        }
    }
}

/// The replies to the lines of a text. `judged` is called with each table that is judged, the rule and the judgement.
pub fn replies(
    text: &[u8],
    limits: Limits,
    order: Order,
    mut judged: impl FnMut(&Table, Rule, &Judgement),
) -> Vec<Reply> {
    if limits.text.is_some_and(|most| text.len() > most) {
        return vec![Reply::Refused(Refusal::Full)];
    }
    let mut session = Session::new(limits.size);
    let mut replies = Vec::new();
    for line in lines(text) {
        let reply = session.answer(line, order);
        if let (Reply::Judged(rule, judgement), Some(table)) = (&reply, session.table()) {
            judged(table, *rule, judgement);
        }
        replies.push(reply);
    }
    replies
}

/// What is printed for the replies.
pub fn print(replies: &[Reply]) -> Vec<u8> {
    let mut printed = Vec::new();
    for reply in replies {
        match reply {
            Reply::Refused(refusal) => print_line(&mut printed, &[refusal.number()]),
            Reply::Done => print_line(&mut printed, &[0]),
            Reply::Number(number) => {
                let [high, low] = field(*number);
                print_line(&mut printed, &[0, high, low]);
            }
            Reply::Judged(_, judgement) => print_judgement(&mut printed, judgement),
        }
    }
    printed
}

fn print_judgement(printed: &mut Vec<u8>, judgement: &Judgement) {
    let Judgement { verdict, rounds, flags, windows } = judgement;
    let set = flags.iter().filter(|&&set| set).count();
    let mut line = vec![verdict.number()];
    line.extend(verdict.latch().map_or([0xFF; 2], field));
    line.extend(verdict.excess().to_be_bytes());
    line.extend(field(*rounds));
    line.extend(field(set));
    print_line(printed, &line);
    for window in windows.iter().flatten() {
        print_line(printed, &[window.begin.to_be_bytes(), window.end.to_be_bytes()].concat());
    }
    for &flag in flags {
        print_line(printed, &[u8::from(flag)]);
    }
}

fn print_line(printed: &mut Vec<u8>, bytes: &[u8]) {
    printed.extend(encode(bytes));
    printed.push(b'\n');
}

/// A number in two bytes.
fn field(number: usize) -> [u8; 2] {
    u16::try_from(number).expect("numbers of two bytes").to_be_bytes()
}
