//! What the scripts have to reach, and how often.

use crate::chosen::{Choices, Course};
use crate::reported::Reports;
use crate::rows_reached::{on_rows, ON_ROWS};
use crate::turn::{Choice, Turn};
use reference::addresses::*;
use reference::commands::*;
use reference::controller::*;
use reference::numbers::Tally;
use reference::recorder::Op;
use reference::table::{BLOCK_READ, BLOCK_WRITE, SEND_BYTE};
use std::collections::BTreeMap;

/// How it came to the address of an Assign, or of a choice.
fn chosen(turn: &Turn) -> Option<&'static str> {
    let (_, address) = turn.after.last.gives()?;
    Some(match (turn.choice?, turn.before.last_pick) {
        (Choice::Fixed, _) => "fixed",
        (Choice::Kept, _) => "kept",
        (Choice::Picked, NEVER) => "picked, no last pick",
        (Choice::Picked, last) if address == last => "the last pick again",
        (Choice::Picked, last) if address < last => "picked, round from 7Fh",
        (Choice::Picked, _) => "picked further on",
    })
}

const CHOICES: [&str; 6] =
    ["fixed", "kept", "picked, no last pick", "the last pick again", "picked, round from 7Fh", "picked further on"];

/// The last pick that a controller is made with.
fn made_with(op: &Op) -> Option<&'static str> {
    match op {
        Op::New(_, 0) => Some("made with 0"),
        Op::New(_, 126) => Some("made with 126"),
        Op::New(_, NEVER) => Some("made with 127"),
        Op::New(_, 128..) => Some("made with more"),
        Op::New(..) => Some("made with another"),
        _ => None,
    }
}

const MADE: [&str; 5] = ["made with 0", "made with 126", "made with 127", "made with more", "made with another"];

/// How many addresses are bound, or claimed by two.
fn count(controller: &Controller, claimed: bool) -> usize {
    let number = if claimed { 16 } else { 0 };
    (0..ADDRESSES).filter(|&address| controller.lookup(address).number() == number).count()
}

/// What became of an Assign.
fn after_assign(turn: &Turn, udid: &Udid, address: u8) -> &'static str {
    let (before, after) = (turn.before, turn.after);
    let grown = |claimed| count(after, claimed) > count(before, claimed);
    match before.lookup(address).number() {
        _ if grown(true) && count(after, false) < count(before, false) => "claimed, one unbound",
        _ if grown(true) => "claimed",
        _ if !grown(false) => "assign in vain",
        _ if after.last == Command::Abandoned => "14 after a binding",
        20 if is_fixed(udid) => "bound where left, fixed",
        20 => "bound where left",
        _ => "bound",
    }
}

/// What an operation did.
fn event(turn: &Turn) -> &'static str {
    let (before, after) = (turn.before, turn.after);
    match (turn.op, before.last, after.last) {
        (Op::New(..), ..) => "new",
        (Op::Start, ..) if before.last.is_sent() => "start in a pass",
        (Op::Start, ..) => "start",
        (Op::Lookups, ..) => "lookups",
        (Op::Gone(_), ..) if before == after => "gone in vain",
        (Op::Gone(_), ..) => "gone",
        (Op::Issue, Command::Chosen(..), _) => "issued",
        (Op::Decline, Command::Chosen(..), _) => "declined",
        (_, last, _) if !last.is_sent() => "21",
        (_, Command::Assign(udid, address), _) => after_assign(turn, &udid, address),
        (_, Command::Prepare, Command::Abandoned) => "14 after prepare",
        (_, _, Command::Abandoned) => "14 after the 128th",
        (_, _, Command::Ended) => "0",
        (_, _, Command::NoneFree(_)) => "13",
        (_, Command::GetUdid, Command::GetUdid) => "get udid again",
        (_, Command::GetUdid, _) if before.bindings != after.bindings => "unbound",
        (_, Command::GetUdid, _) => "assign",
        (_, Command::Prepare, _) => "prepared",
        _ => "other",
    }
}

const EVENTS: [&str; 24] = [
    "new",
    "start",
    "start in a pass",
    "lookups",
    "gone in vain",
    "gone",
    "issued",
    "declined",
    "21",
    "14 after a binding",
    "14 after prepare",
    "14 after the 128th",
    "0",
    "13",
    "get udid again",
    "unbound",
    "assign",
    "claimed, one unbound",
    "claimed",
    "bound where left, fixed",
    "bound where left",
    "bound",
    "assign in vain",
    "prepared",
];

#[derive(Default)]
pub struct Reached {
    events: BTreeMap<&'static str, usize>,
    choices: BTreeMap<&'static str, usize>,
    made: BTreeMap<&'static str, usize>,
    rows: BTreeMap<&'static str, usize>,
    reports: Reports,
    by_halves: Choices,
    answers: Tally,
}

/// Each of these was reached 20 times, and nothing else.
fn check(wanted: &[&str], reached: &BTreeMap<&str, usize>) {
    for name in wanted {
        let times = reached.get(name).copied().unwrap_or(0);
        assert!(times >= 20, "{name}: {times} times");
    }
    assert_eq!(reached.len(), wanted.len(), "{reached:?}");
}

impl Reached {
    pub fn add(&mut self, turn: &Turn, course: &Course) {
        *self.events.entry(event(turn)).or_default() += 1;
        if let Some(how) = chosen(turn) {
            *self.choices.entry(how).or_default() += 1;
        }
        if let Some(kind) = made_with(turn.op) {
            *self.made.entry(kind).or_default() += 1;
        }
        for what in on_rows(turn) {
            *self.rows.entry(what).or_default() += 1;
        }
        if let Some((protocol, answer)) = &turn.decoded {
            self.answers.add(*protocol, true, answer);
        }
        self.reports.add(turn);
        self.by_halves.add(turn, course);
    }

    pub fn check(&self) {
        check(&EVENTS, &self.events);
        check(&CHOICES, &self.choices);
        check(&MADE, &self.made);
        check(&ON_ROWS, &self.rows);
        self.reports.check();
        self.by_halves.check();
        let protocols = [SEND_BYTE, BLOCK_READ, BLOCK_WRITE].map(|protocol| (protocol, true));
        self.answers.check("answers to commands", &protocols, 20);
        println!("{:<28}{:?}", "answers to commands", self.answers.totals());
        println!("{:<28}{:?}", "addresses in commands", self.choices);
        println!("{:<28}{:?}", "controllers", self.made);
        println!("{:<28}{:?}", "on the rows", self.rows);
        println!("{:<28}{:?}", "reports", self.reports.totals());
        println!("{:<28}{:?}", "choices", self.by_halves.totals());
    }

    /// The number of operations.
    pub fn operations(&self) -> usize {
        self.events.values().sum()
    }
}
