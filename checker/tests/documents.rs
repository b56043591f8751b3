//! The examples of `docs/program.md`, `docs/windows.md` and `docs/examples.md`, put to the model.

use checker::clock::{Phase, Schedule};
use checker::design::{Coupling, Delay, Node, Table};
use checker::rules::Rule;
use checker::session::{print, replies, Limits};
use checker::verdicts::{judge, Verdict};
use checker::windows::{Breach, Found, Network, Order, Timing, Window};

fn clock() -> Schedule {
    let phases = vec![Phase { start: 0, width: 40 }, Phase { start: 50, width: 40 }];
    Schedule { period: 100, proximity: 0, phases }
}

fn gate(least: u32, greatest: u32, source: usize) -> Node {
    Node::Gate { phase: 1, delay: Delay { least, greatest }, sources: vec![source] }
}

fn latch(phase: u8, delay: (u32, u32), hold: u32, source: usize) -> Node {
    let delay = Delay { least: delay.0, greatest: delay.1 };
    Node::Latch { phase, delay, setup: 5, hold, source: Some(source) }
}

fn table(nodes: Vec<Node>, couplings: Vec<Coupling>) -> Table {
    Table { size: Limits::CLOCKMARK.size, schedule: clock(), nodes, couplings }
}

/// Design K, with the opposing amount of coupling 1 and the hold of latch 6.
fn design_k(opposing: u32, hold: u32) -> Table {
    let nodes = vec![
        latch(1, (2, 4), 3, 6),
        Node::Input { phase: 1, earliest: 90, latest: 95 },
        gate(10, 20, 0),
        gate(10, 10, 0),
        gate(5, 6, 2),
        gate(10, 10, 1),
        latch(2, (2, 4), hold, 4),
    ];
    let couplings = vec![
        Coupling { victim: 2, aggressor: 3, assisting: 5, opposing: 8 },
        Coupling { victim: 4, aggressor: 5, assisting: 2, opposing },
    ];
    table(nodes, couplings)
}

fn timing(table: &Table, flags: &[bool]) -> Timing {
    match Network::new(table, Order::HighestFirst).timing(flags) {
        Found::Ended(timing) => timing,
        Found::NoEnd { latch } => panic!("the window of latch {latch} has no end"),
    }
}

fn windows(ends: &[(i64, i64)]) -> Vec<Window> {
    ends.iter().map(|&(begin, end)| Window { begin, end }).collect()
}

#[test]
fn windows_without_couplings_and_with_both() {
    let table = design_k(9, 3);
    let without = timing(&table, &[false, false]);
    let with = timing(&table, &[true, true]);
    assert_eq!(without.windows, windows(&[(60, 60), (90, 95), (62, 64), (62, 64), (72, 84), (90, 95), (60, 60)]));
    assert_eq!(with.windows, windows(&[(60, 60), (90, 95), (62, 64), (62, 64), (67, 92), (90, 95), (60, 60)]));
    for timing in [without, with] {
        assert_eq!((timing.late, timing.early), (None, None));
    }
}

#[test]
fn two_rings_of_which_one_gains() {
    let ring = |greatest| table(vec![latch(1, (2, 4), 3, 2), gate(10, 90, 0), latch(2, (2, greatest), 3, 1)], vec![]);
    assert_eq!(timing(&ring(6), &[]).windows[2], Window { begin: 60, end: 104 });
    for order in [Order::HighestFirst, Order::Shuffled(1)] {
        assert_eq!(Network::new(&ring(7), order).timing(&[]), Found::NoEnd { latch: 0 });
    }
}

#[test]
fn judgements_of_design_k() {
    let late = |excess| Verdict::Late(Breach { latch: 6, excess });
    let three = Rule::ThreeOccurrences;
    let both = vec![true, true];
    let examples = [
        (9, 3, three, Verdict::Pass, 3, &both, Some([(67, 92), (60, 60)])),
        (9, 3, Rule::Always, Verdict::Pass, 2, &both, Some([(67, 92), (60, 60)])),
        (9, 3, Rule::Never, Verdict::Pass, 1, &vec![false, false], Some([(72, 84), (60, 60)])),
        (47, 3, three, Verdict::Pass, 3, &both, Some([(67, 92), (60, 95)])),
        (48, 3, three, late(1), 3, &both, Some([(67, 92), (60, 96)])),
        (58, 3, three, late(11), 3, &both, Some([(67, 92), (60, 106)])),
        (59, 3, three, Verdict::Gain { latch: 0 }, 3, &both, None),
        (9, 20, three, Verdict::Pass, 3, &both, Some([(67, 92), (60, 60)])),
        (9, 21, three, Verdict::Early(Breach { latch: 6, excess: 1 }), 3, &both, Some([(67, 92), (60, 60)])),
    ];
    for (opposing, hold, rule, verdict, rounds, flags, shown) in examples {
        let judgement = judge(&design_k(opposing, hold), rule, Order::Shuffled(u64::from(opposing)));
        assert_eq!((judgement.verdict, judgement.rounds, &judgement.flags), (verdict, rounds, flags));
        let found = judgement.windows.map(|windows| vec![windows[4], windows[6]]);
        assert_eq!(found, shown.map(|ends| windows(&ends)));
    }
}

#[test]
fn answers_of_the_program() {
    let text = b"0100000064000000000200000000000000280000003200000028
0202000000460000004B
040100000002000000040000000500000003
0500010000
08
0701
";
    let printed = "00
000000
000001
00
00
00FFFF000000000000000000010000
0000000000000046000000000000004B
000000000000003C000000000000003C
";
    let replies = replies(text, Limits::CLOCKMARK, Order::HighestFirst, |_, _, _| {});
    assert_eq!(String::from_utf8(print(&replies)).as_deref(), Ok(printed));
}

#[test]
fn texts_at_the_limits_of_length() {
    let printed = |text: &[u8]| print(&replies(text, Limits::CLOCKMARK, Order::HighestFirst, |_, _, _| {}));
    assert_eq!(printed(b""), b"");
    assert_eq!(printed(&[b'\n'; 65_536]), b"0C\n".repeat(65_536));
    assert_eq!(printed(&[b'\n'; 65_537]), b"01\n");
    assert_eq!(printed(&[b'0'; 65_536]), b"0D\n");
}
