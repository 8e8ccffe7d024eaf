//! What a choice, its issue and its decline may change, and the choices that scripts have to reach.

use crate::history::is_assign;
use crate::turn::{Choice, Turn};
use reference::addresses::*;
use reference::commands::*;
use reference::controller::{Controller, Found};
use reference::mistakes::trace_of;
use reference::recorder::{Due, Op};
use std::collections::BTreeMap;

/// An issue makes an Assign of the choice that waits, a decline ends the pass with 14, and nothing else changes. Where
/// none waits both are 21, and nothing changes at all.
pub fn is_settled(turn: &Turn) -> bool {
    let due = match (turn.op, turn.before.last) {
        (Op::Issue, Command::Chosen(udid, address, _)) => Command::Assign(udid, address),
        (Op::Decline, Command::Chosen(..)) => Command::Abandoned,
        _ => Command::NotOutstanding,
    };
    let last = if due == Command::NotOutstanding { turn.before.last } else { due };
    *turn.due == Due::Command(due) && *turn.after == Controller { last, ..turn.before.clone() }
}

/// The reason is that two claim it, exactly if the Assign that is issued and completed at once leaves a claim. Else the
/// target is bound by that, and the reason is how the address was come to. Nothing is outstanding.
pub fn is_reasoned(turn: &Turn) -> bool {
    let (Some(choice), Command::Chosen(udid, address, reason)) = (turn.choice, turn.after.last) else {
        return true;
    };
    let mut now = turn.after.clone();
    now.issue();
    now.step(&trace_of(&assign(&udid, address)));
    let due = match (now.lookup(address), choice) {
        (Found::Refused(16), _) => Reason::Claimed,
        (found, _) if found != Found::Bound(udid) => return false,
        (_, Choice::Fixed) => Reason::Fixed,
        (_, Choice::Kept) => Reason::Kept,
        (_, Choice::Picked) => Reason::Picked,
    };
    reason == due && !turn.after.last.is_sent()
}

/// A choice from its making to the answer to its Assign.
#[derive(Default)]
pub struct Course {
    /// Why it was made.
    reason: Option<Reason>,
    /// Its target was bound until then.
    was_bound: bool,
    /// Whoever was bound at its address was reported gone since, before the issue or after it.
    taken_back: Option<&'static str>,
}

impl Course {
    /// Of an Assign that was chosen by itself and has completed: a claim by two if the choice said so, and nobody who was
    /// bound there was reported gone since; else its target is bound.
    pub fn is_kept_by(&self, turn: &Turn) -> bool {
        let (Some(trace), Some(reason), Command::Assign(udid, address)) =
            (turn.op.trace(), self.reason, turn.before.last)
        else {
            return true;
        };
        if !is_assign(trace, &udid, address) {
            return true;
        }
        let claimed = reason == Reason::Claimed && self.taken_back.is_none();
        turn.after.lookup(address) == if claimed { Found::Refused(16) } else { Found::Bound(udid) }
    }

    /// What an operation makes of it.
    pub fn go_on(&mut self, turn: &Turn) {
        let (before, after) = (turn.before, turn.after);
        match (turn.op, before.last, after.last) {
            (Op::Choose(_), Command::GetUdid, Command::Chosen(_, _, reason)) => {
                let was_bound = before.bindings != after.bindings;
                *self = Course { reason: Some(reason), was_bound, taken_back: None };
            }
            (Op::Gone(number), last, _) if before != after && last.gives().is_some_and(|(_, at)| at == *number) => {
                self.taken_back =
                    Some(if last.is_choice() { "taken back, then issued" } else { "issued, then taken back" });
            }
            (_, before, after) if before.gives() == after.gives() => {}
            _ => *self = Course::default(),
        }
    }
}

/// Why a choice was made, in more words.
fn reason(turn: &Turn, udid: &Udid, address: u8, reason: Reason) -> &'static str {
    match (reason, turn.after.lookup(address)) {
        (Reason::Fixed, _) if is_added(address) => "fixed on a row",
        (Reason::Fixed, _) => "fixed",
        (Reason::Kept, _) => "kept",
        (Reason::Picked, _) if is_fixed(udid) => "picked for a fixed one",
        (Reason::Picked, _) => "picked",
        (Reason::Claimed, _) if RESERVED.contains(&address) => "claimed, one of the 21",
        (Reason::Claimed, _) if turn.after.barred.contains(&address) => "claimed, occupied",
        (Reason::Claimed, Found::Bound(_)) => "claimed, another bound",
        (Reason::Claimed, _) => "claimed, marked before",
    }
}

fn in_a_word(reason: Reason) -> &'static str {
    match reason {
        Reason::Fixed => "fixed",
        Reason::Kept => "kept",
        Reason::Picked => "picked",
        Reason::Claimed => "claimed",
    }
}

/// Where no choice waits: what is outstanding, or how the pass ended.
fn point(last: &Command) -> &'static str {
    match last {
        Command::NotOutstanding => "before the first pass",
        Command::Prepare => "prepare",
        Command::GetUdid => "get udid",
        Command::Assign(..) => "assign",
        Command::Chosen(..) => "a choice",
        Command::Ended => "after 0",
        Command::NoneFree(_) => "after 13",
        Command::Abandoned => "after 14",
    }
}

const IDLE: &[&str] = &["before the first pass", "prepare", "get udid", "assign", "after 0", "after 13", "after 14"];

const REASONS: &[&str] = &["fixed", "kept", "picked", "claimed"];

const WANTED: [(&str, &[&str]); 9] = [
    (
        "chosen",
        &[
            "fixed",
            "fixed on a row",
            "kept",
            "picked",
            "picked for a fixed one",
            "claimed, one of the 21",
            "claimed, occupied",
            "claimed, another bound",
            "claimed, marked before",
        ],
    ),
    ("issued", REASONS),
    ("declined", REASONS),
    ("declined, was bound", REASONS),
    ("dropped by a start", REASONS),
    ("21 to an issue", IDLE),
    ("21 to a decline", IDLE),
    ("21, a choice waits", &["step", "first half"]),
    (
        "completed",
        &["bound", "claimed", "taken back, then issued", "issued, then taken back", "not acknowledged", "128th"],
    ),
];

/// What an operation did to a choice.
fn event(turn: &Turn, course: &Course) -> Option<(&'static str, &'static str)> {
    let (before, after) = (turn.before, turn.after);
    Some(match (turn.op, before.last, after.last) {
        (Op::Start, Command::Chosen(_, _, why), _) => ("dropped by a start", in_a_word(why)),
        (Op::Issue, Command::Chosen(_, _, why), _) => ("issued", in_a_word(why)),
        (Op::Decline, Command::Chosen(_, _, why), _) if course.was_bound => ("declined, was bound", in_a_word(why)),
        (Op::Decline, Command::Chosen(_, _, why), _) => ("declined", in_a_word(why)),
        (Op::Issue, last, _) => ("21 to an issue", point(&last)),
        (Op::Decline, last, _) => ("21 to a decline", point(&last)),
        (Op::Step(_), Command::Chosen(..), _) => ("21, a choice waits", "step"),
        (Op::Choose(_), Command::Chosen(..), _) => ("21, a choice waits", "first half"),
        (Op::Choose(_), _, Command::Chosen(udid, address, why)) => ("chosen", reason(turn, &udid, address, why)),
        (Op::Step(trace) | Op::Choose(trace), Command::Assign(udid, address), _) if course.reason.is_some() => {
            ("completed", completed(turn, course, is_assign(trace, &udid, address), address))
        }
        _ => return None,
    })
}

/// What became of an Assign that was chosen by itself.
fn completed(turn: &Turn, course: &Course, whole: bool, address: u8) -> &'static str {
    match (turn.after.lookup(address), course.taken_back) {
        _ if !whole => "not acknowledged",
        _ if turn.after.last == Command::Abandoned => "128th",
        (Found::Refused(_), _) => "claimed",
        (Found::Bound(_), Some(when)) => when,
        (Found::Bound(_), None) => "bound",
    }
}

/// How often each was reached.
#[derive(Default)]
pub struct Choices(BTreeMap<(&'static str, &'static str), usize>);

impl Choices {
    /// An operation, and the course of the choice before it.
    pub fn add(&mut self, turn: &Turn, course: &Course) {
        if let Some(what) = event(turn, course) {
            *self.0.entry(what).or_default() += 1;
        }
    }

    /// Each was reached 20 times, and no other.
    pub fn check(&self) {
        let wanted: Vec<_> = WANTED.iter().flat_map(|(what, all)| all.iter().map(move |how| (*what, *how))).collect();
        for key in &wanted {
            let times = self.0.get(key).copied().unwrap_or(0);
            assert!(times >= 20, "choices, {key:?}: {times} times");
        }
        assert_eq!(self.0.len(), wanted.len(), "{:?}", self.0);
    }

    /// How often each was reached, by its first words.
    pub fn totals(&self) -> BTreeMap<&'static str, usize> {
        let mut totals = BTreeMap::new();
        for ((what, _), times) in &self.0 {
            *totals.entry(*what).or_default() += times;
        }
        totals
    }
}
