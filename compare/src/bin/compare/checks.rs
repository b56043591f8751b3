//! What the library answers, held against the checker.

use crate::subjects::Subject;
use checker::design::{Refusal, Table};
use checker::frames::{decode, lines, Frame};
use checker::random::Random;
use checker::rules::Rule;
use checker::session::{print, replies, Granted, Reply, Session, Stage};
use checker::verdicts::judge;
use checker::windows::Order;
use compare::answers::{output, rebuilt, verdict_bytes, LIMITS, LONGEST_TABLE};
use compare::design::SIZE;
use ravokimpy::VERDICT_LENGTH;

/// What stands in each place of a buffer before a call. It is in no line of an output.
pub const UNTOUCHED: u8 = 0xA5;

/// A buffer before a call.
pub fn buffer(length: usize) -> Vec<u8> {
    vec![UNTOUCHED; length]
}

/// A buffer that is shorter than the room, often by one place alone.
pub fn short_buffer(room: usize, random: &mut Random) -> Vec<u8> {
    buffer(if random.one_in(2) { room - 1 } else { random.index(room) })
}

pub fn is_untouched(bytes: &[u8]) -> bool {
    bytes.iter().all(|&byte| byte == UNTOUCHED)
}

/// An error, where what ought to hold does not.
pub fn hold(holds: bool, what: &str) -> Result<(), String> {
    if holds {
        Ok(())
    } else {
        Err(what.to_string())
    }
}

/// How many bytes the longest output of a line has.
fn longest_output(line: &[u8]) -> usize {
    match decode(line).and_then(|bytes| Frame::read(&bytes)) {
        Some(Frame::Verify(_)) => 31 + 33 * SIZE.nodes + 3 * SIZE.couplings,
        _ => 7,
    }
}

/// Checks the output of a text against that of the checker, whose replies are the answer.
pub fn check_output(subject: &Subject, random: &mut Random) -> Result<Vec<Reply>, String> {
    let text = &subject.text;
    let room = ravokimpy::room(text);
    hold(room == lines(text).into_iter().map(longest_output).sum(), "the room of the text is another")?;
    let replies = replies(text, LIMITS, Order::Shuffled(random.number()), |_, _, _| {});
    let wanted = print(&replies);
    let mut out = buffer(room + random.index(3));
    let written = ravokimpy::output(text, &mut out);
    hold(written == Ok(wanted.len()), "the output has another length")?;
    let (printed, rest) = out.split_at(wanted.len());
    hold(printed == wanted, "the output is another")?;
    hold(is_untouched(rest), "the output goes past its end")?;
    if room > 0 {
        let mut short = short_buffer(room, random);
        let refused = ravokimpy::output(text, &mut short).map_err(ravokimpy::Refusal::number);
        hold(refused == Err(Refusal::Short.number()), "a buffer that is too short is not refused with 11")?;
        hold(is_untouched(&short), "a refused output writes")?;
    }
    Ok(replies)
}

/// The book that a text leaves, or the refusal of its first line that is refused. A verify is not loaded.
fn loaded(text: &[u8]) -> Result<Session, Refusal> {
    let mut session = Session::new(SIZE);
    for line in lines(text) {
        if let Granted::Verify(_) = session.put_line(line)? {
            return Err(Refusal::Order);
        }
    }
    Ok(session)
}

/// The table that a text leaves, if it leaves it sealed.
pub fn sealed(text: &[u8]) -> Result<Table, Refusal> {
    let session = loaded(text)?;
    match session.stage() {
        Some(Stage::Sealed) => Ok(session.table().cloned().ok_or(Refusal::Order)?),
        _ => Err(Refusal::Order),
    }
}

/// Checks verdicts under every rule, and under a byte that names none.
pub fn check_verdicts(subject: &Subject, random: &mut Random) -> Result<(), String> {
    let text = &subject.loaded;
    let order = Order::Shuffled(random.number());
    let table = sealed(text);
    for rule in Rule::ALL {
        let wanted = match &table {
            Ok(table) => Ok(verdict_bytes(rule, &judge(table, rule, order))),
            Err(refusal) => Err(*refusal),
        };
        check_verdict(text, rule.byte(), random, wanted)?;
    }
    let unknown = random.pick(&[3, 4, 255]);
    check_verdict(text, unknown, random, Err(Refusal::Frame))
}

/// Checks a verdict under the rule of a byte, on a buffer with room and on a short one.
fn check_verdict(text: &[u8], rule: u8, random: &mut Random, wanted: Result<Vec<u8>, Refusal>) -> Result<(), String> {
    let times = random.within(0..=2);
    let mut bytes = buffer(VERDICT_LENGTH + random.index(3));
    let written = ravokimpy::judge_into(text, rule, times, &mut bytes).map_err(ravokimpy::Refusal::number);
    let mut short = buffer(random.index(VERDICT_LENGTH));
    let refused = ravokimpy::judge_into(text, rule, times, &mut short).map_err(ravokimpy::Refusal::number);
    hold(is_untouched(&short), "a refused verdict writes")?;
    match wanted {
        Ok(wanted) => {
            hold(written == Ok(VERDICT_LENGTH), "a verdict is refused")?;
            let (verdict, rest) = bytes.split_at(VERDICT_LENGTH);
            hold(verdict == wanted, "a verdict is another")?;
            hold(is_untouched(rest), "a verdict goes past its end")?;
            hold(refused == Err(Refusal::Short.number()), "a short verdict is not refused with 11")
        }
        Err(refusal) => {
            hold(written == Err(refusal.number()), "a verdict is refused with another number")?;
            hold(is_untouched(&bytes), "a refused verdict writes")?;
            hold(refused == Err(refusal.number()), "a short verdict is refused with another number")
        }
    }
}

/// Checks that the text which is written for a table makes this table again.
pub fn check_rebuilt(subject: &Subject, random: &mut Random) -> Result<(), String> {
    let text = &subject.loaded;
    let session = match loaded(text) {
        Ok(session) => session,
        Err(refusal) => {
            let mut out = buffer(LONGEST_TABLE);
            let refused = ravokimpy::rebuild(text, &mut out).map_err(ravokimpy::Refusal::number);
            hold(is_untouched(&out), "a refused rebuild writes")?;
            return hold(refused == Err(refusal.number()), "a rebuild is refused with another number");
        }
    };
    let rebuilt_text = rebuilt(text).map_err(|refusal| format!("a rebuild is {refusal}"))?;
    let again = loaded(&rebuilt_text).map_err(|refusal| format!("a rebuilt text is refused: {refusal:?}"))?;
    hold(again.table() == session.table(), "a rebuilt text makes another table")?;
    hold(again.stage() == session.stage().map(|_| Stage::Draft), "a rebuilt text makes no draft")?;
    hold(rebuilt(&rebuilt_text).as_ref() == Ok(&rebuilt_text), "a rebuilt text is written as another")?;
    check_rebuilt_verdict(text, &rebuilt_text)?;
    if rebuilt_text.is_empty() {
        return Ok(());
    }
    let mut short = short_buffer(rebuilt_text.len(), random);
    let refused = ravokimpy::rebuild(text, &mut short).map_err(ravokimpy::Refusal::number);
    hold(refused == Err(Refusal::Short.number()), "a rebuild into a short buffer is not refused with 11")?;
    hold(is_untouched(&short), "a refused rebuild writes")
}

/// Checks that a table has the verdict that it had before it was rebuilt.
fn check_rebuilt_verdict(text: &[u8], rebuilt_text: &[u8]) -> Result<(), String> {
    let seal = b"08\n";
    let rule = ravokimpy::Rule::ThreeOccurrences;
    if let Ok(verdict) = ravokimpy::judge(text, rule, 1) {
        let again = ravokimpy::judge(&[rebuilt_text, seal].concat(), rule, 1);
        hold(again == Ok(verdict), "a rebuilt table has another verdict")?;
    }
    Ok(())
}

/// The output of the library for a text.
pub fn library_output(text: &[u8]) -> Result<Vec<u8>, String> {
    output(text).map_err(|refusal| format!("an output is {refusal}"))
}
