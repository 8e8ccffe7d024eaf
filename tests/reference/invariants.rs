//! What holds after every operation of every script.

use crate::chosen::{self, Course};
use crate::history::{is_assign, History};
use crate::reached::Reached;
use crate::reported;
use crate::rotation::Rotation;
use crate::turn::{Choice, Turn};
use reference::addresses::*;
use reference::commands::*;
use reference::controller::*;
use reference::families::FAMILIES;
use reference::plain_rule::nearest_after;
use reference::recorder::{apply, Due, Op};
use std::collections::BTreeSet;

/// Used are the starting addresses and those bound or claimed. Nobody is bound twice or on a barred address, and only
/// fixed targets are on a starting one.
fn consistent(controller: &Controller) -> bool {
    let named = controller.bindings.iter().filter(|(_, &binding)| binding != Binding::Left);
    let named: Addresses = named.map(|(&address, _)| address).collect();
    let bound: Vec<(u8, Udid)> = controller.bindings.iter().filter_map(|(&a, binding)| bound_at(a, binding)).collect();
    let udids: BTreeSet<Udid> = bound.iter().map(|(_, udid)| *udid).collect();
    controller.pool == &controller.starting | &named
        && udids.len() == bound.len()
        && bound.iter().all(|(address, udid)| may_stand(controller, *address, udid))
        && controller.get_udids <= MOST_GET_UDIDS
}

fn may_stand(controller: &Controller, address: u8, udid: &Udid) -> bool {
    let no_place = if is_fixed(udid) { &controller.barred } else { &controller.starting };
    !no_place.contains(&address)
}

fn bound_at(address: u8, binding: &Binding) -> Option<(u8, Udid)> {
    match binding {
        Binding::Bound(udid) => Some((address, *udid)),
        Binding::Claimed | Binding::Left => None,
    }
}

/// The events tell the same: what every number is, which addresses are in use and how many, and the Get UDIDs.
fn told_by(history: &History, controller: &Controller) -> bool {
    (0..=255).all(|number| history.find(number) == controller.lookup(number))
        && history.used() == controller.pool
        && history.balance() == controller.pool.len()
        && history.get_udids == controller.get_udids
}

/// What may follow what.
fn follows(turn: &Turn) -> bool {
    let (before, after) = (turn.before, turn.after);
    match (turn.op, turn.due) {
        (Op::Start, Due::Command(Command::Prepare)) => after.bindings.is_empty() && after.pool == after.starting,
        (Op::Start, _) => false,
        (Op::Step(_) | Op::Choose(_), Due::Command(Command::NotOutstanding)) => {
            !before.last.is_sent() && before == after
        }
        (Op::Step(_), Due::Command(Command::Prepare | Command::Chosen(..))) => false,
        (Op::Choose(_), Due::Command(Command::Prepare | Command::Assign(..))) => false,
        (Op::Step(_) | Op::Choose(_), _) => before.last.is_sent(),
        (Op::Issue | Op::Decline, _) => chosen::is_settled(turn),
        (Op::Lookups, _) => before == after,
        (Op::Gone(number), Due::Gone(found)) => reported::is_right(before, *number, after, found),
        (Op::Gone(_), _) => false,
        (Op::New(..), _) => true,
    }
}

/// Only a pick moves the last pick, and to the address picked; of the last pick again no other address was free.
fn moves(turn: &Turn) -> bool {
    let (before, after) = (turn.before, turn.after);
    match (turn.op, turn.choice, after.last.gives()) {
        (Op::New(_, last_pick), ..) => after.last_pick == NEVER.min(*last_pick),
        (_, None | Some(Choice::Fixed | Choice::Kept), _) => after.last_pick == before.last_pick,
        (_, Some(Choice::Picked), Some((_, address))) => {
            let alone = after.pool.len() == usize::from(ADDRESSES) - 1;
            after.last_pick == address && !after.pool.contains(&address) && (address != before.last_pick || alone)
        }
        _ => false,
    }
}

/// What is kept is free, and with 13 nothing is. What is picked is the first that is free after the last pick; picks go
/// round over all passes of a controller. What is free goes by the events.
fn free(turn: &Turn, history: &History, rotation: &mut Rotation) -> bool {
    let last_pick = turn.before.last_pick;
    let exhausted = (turn.before.last, turn.after.last);
    match (turn.choice, turn.after.last.gives()) {
        (None, _) if matches!(exhausted, (Command::GetUdid, Command::NoneFree(_))) => {
            history.used().len() == usize::from(ADDRESSES)
        }
        (None | Some(Choice::Fixed), _) => true,
        (Some(Choice::Kept), Some((_, address))) => !history.is_used(address),
        (Some(Choice::Picked), Some((_, address))) => {
            let used = history.used();
            nearest_after(&used, last_pick) == Some(address) && rotation.is_kept_by(&used, address)
        }
        _ => false,
    }
}

/// After an Assign that completed the address is in the pool, and claimed by two exactly if it is barred, or somebody
/// was bound there, or it was claimed before; else it is bound. After any other answer nothing is another.
fn settled(turn: &Turn) -> bool {
    let (before, after) = (turn.before, turn.after);
    let (Some(trace), Command::Assign(udid, address)) = (turn.op.trace(), before.last) else {
        return true;
    };
    if !is_assign(trace, &udid, address) {
        return before.bindings == after.bindings && before.pool == after.pool;
    }
    let taken = matches!(before.lookup(address), Found::Bound(_) | Found::Refused(16));
    let claimed = taken || before.barred.contains(&address);
    let due = if claimed { Found::Refused(16) } else { Found::Bound(udid) };
    after.lookup(address) == due && after.pool.contains(&address)
}

/// After a refusal other than 6 nobody is bound or unbound. 14 comes after Prepare, else Get UDID again if there may be
/// another.
fn refused(turn: &Turn) -> bool {
    let (before, after) = (turn.before, turn.after);
    match &turn.decoded {
        None => return true,
        Some((_, answer)) if matches!(answer.number(), 0 | 6) => return true,
        Some(_) => {}
    }
    let next = match before.last {
        Command::Prepare => Command::Abandoned,
        _ if before.get_udids == MOST_GET_UDIDS => Command::Abandoned,
        _ => Command::GetUdid,
    };
    after.last == next && after.bindings == before.bindings && after.pool == before.pool
}

/// What does not hold of an operation, if anything.
fn broken(turn: &Turn, history: &mut History, rotation: &mut Rotation, course: &Course) -> Option<&'static str> {
    let all = [
        ("what is used", consistent(turn.after)),
        ("what follows what", follows(turn)),
        ("a refusal", refused(turn)),
        ("what an Assign leaves", settled(turn)),
        ("the reason of a choice", chosen::is_reasoned(turn)),
        ("what becomes of a choice", course.is_kept_by(turn)),
        ("the answer by the events", history.note(turn.op, turn.due)),
        ("the state by the events", told_by(history, turn.after)),
        ("the last pick", moves(turn)),
        ("what is free", free(turn, history, rotation)),
    ];
    all.into_iter().find(|(_, holds)| !holds).map(|(what, _)| what)
}

/// A script once more, step by step.
fn walk(name: &str, entries: &[(Op, Due)], reached: &mut Reached) {
    let none = Addresses::new();
    let (mut controller, mut history) = (Controller::new(&none, NEVER), History::new(&none));
    let (mut rotation, mut course) = (Rotation::default(), Course::default());
    for (k, (op, due)) in entries.iter().enumerate() {
        let before = controller.clone();
        assert_eq!(&apply(&mut controller, op), due, "{name}, entry {k}");
        if matches!(op, Op::New(..)) {
            rotation = Rotation::default();
        }
        let turn = Turn::new(&before, op, due, &controller);
        if let Some(what) = broken(&turn, &mut history, &mut rotation, &course) {
            panic!("{name}, entry {k}, {what}: {op:02x?} {due:02x?}\nbefore {before:02x?}\nafter  {controller:02x?}");
        }
        reached.add(&turn, &course);
        course.go_on(&turn);
    }
}

/// All scripts; the number of operations.
pub fn all() -> usize {
    let mut reached = Reached::default();
    for (name, make) in FAMILIES {
        walk(name, &make().entries, &mut reached);
    }
    reached.check();
    reached.operations()
}
