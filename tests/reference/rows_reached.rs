//! What the scripts have to reach on the rows of Table 17.

use crate::history::is_assign;
use crate::turn::{Choice, Turn};
use reference::addresses::*;
use reference::commands::*;
use reference::controller::{Binding, Controller};
use reference::decode::Answer;
use reference::recorder::Op;

pub const ON_ROWS: [&str; 15] = [
    "bound on a row",
    "bound on a row, left before",
    "claimed on a row, another bound",
    "claimed on a row, marked before",
    "claimed on a row, occupied",
    "claimed on one of the 21",
    "claimed, occupied elsewhere",
    "assign in vain on a row",
    "unbound on a row",
    "unbound on a row, given it again",
    "gone on a row",
    "gone on a row, to be assigned",
    "movable from a row, picked",
    "movable from an occupied row",
    "13, a row is empty",
];

/// An Assign that was answered: what it made of an address that a pass starts with.
fn assigned(turn: &Turn, trace: &[u16], udid: &Udid, address: u8) -> Option<&'static str> {
    let (row, occupied) = (is_added(address), turn.before.barred.contains(&address));
    let completed = is_assign(trace, udid, address);
    match (turn.before.lookup(address).number(), turn.after.lookup(address).number()) {
        _ if !completed => row.then_some("assign in vain on a row"),
        (_, 16) if RESERVED.contains(&address) => Some("claimed on one of the 21"),
        (_, 16) if row && occupied => Some("claimed on a row, occupied"),
        (_, 16) if occupied => Some("claimed, occupied elsewhere"),
        (0, 16) if row => Some("claimed on a row, another bound"),
        (16, 16) if row => Some("claimed on a row, marked before"),
        (20, 0) if row => Some("bound on a row, left before"),
        (_, 0) if row => Some("bound on a row"),
        _ => None,
    }
}

/// A reply from one that is bound on a row.
fn unbound(turn: &Turn) -> Option<&'static str> {
    let bound = |controller: &Controller, address| matches!(controller.bindings.get(&address), Some(Binding::Bound(_)));
    let row = added().into_iter().find(|&row| bound(turn.before, row) && !bound(turn.after, row))?;
    match turn.after.last.gives() {
        Some((_, address)) if address == row => Some("unbound on a row, given it again"),
        _ => Some("unbound on a row"),
    }
}

/// A movable target that replies with a row as its own, and gets a pick.
fn moved(turn: &Turn) -> Option<&'static str> {
    let (Some(Choice::Picked), Some((_, Answer::Done(reply)))) = (turn.choice, &turn.decoded) else {
        return None;
    };
    let own = reply.received[16] / 2;
    match (is_added(own), turn.before.barred.contains(&own)) {
        _ if is_fixed(&udid_of(&reply.received[..16])) => None,
        (false, _) => None,
        (true, true) => Some("movable from an occupied row"),
        (true, false) => Some("movable from a row, picked"),
    }
}

/// 13 while nobody is on a row, and it is not occupied.
fn exhausted(turn: &Turn) -> Option<&'static str> {
    let after = turn.after;
    let empty = |row: &u8| !after.barred.contains(row) && !after.bindings.contains_key(row);
    (matches!(after.last, Command::NoneFree(_)) && added().iter().any(empty)).then_some("13, a row is empty")
}

fn gone(turn: &Turn, address: u8) -> Option<&'static str> {
    match turn.before.last.gives() {
        _ if !is_added(address) || turn.before == turn.after => None,
        Some((_, to)) if to == address => Some("gone on a row, to be assigned"),
        _ => Some("gone on a row"),
    }
}

/// What an operation did on rows.
pub fn on_rows(turn: &Turn) -> Vec<&'static str> {
    let all = match (turn.op, turn.before.last) {
        (Op::Step(trace) | Op::Choose(trace), Command::Assign(udid, address)) => {
            vec![assigned(turn, trace, &udid, address)]
        }
        (Op::Step(_) | Op::Choose(_), Command::GetUdid) => vec![unbound(turn), moved(turn), exhausted(turn)],
        (Op::Gone(address), _) => vec![gone(turn, *address)],
        _ => vec![],
    };
    all.into_iter().flatten().collect()
}
