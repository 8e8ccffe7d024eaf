//! Every script once more: whole steps are steps in two halves where every choice is issued, and these are the single
//! step of before. Commands and states are compared after each operation.

use crate::single_step::single_step;
use reference::addresses::*;
use reference::commands::Command;
use reference::controller::Controller;
use reference::families::FAMILIES;
use reference::recorder::{apply, Due, Op};

/// A step by halves. While its choice waits another trace is 21 and changes nothing; the issue changes what is
/// outstanding, and no more.
fn by_halves(controller: &mut Controller, trace: &[u16]) -> Command {
    let chosen = controller.choose(trace);
    let Command::Chosen(udid, address, _) = chosen else {
        return chosen;
    };
    let mut waiting = controller.clone();
    assert_eq!((waiting.step(trace), waiting.choose(trace)), (Command::NotOutstanding, Command::NotOutstanding));
    assert_eq!(&waiting, controller);
    let command = controller.issue();
    assert_eq!(controller, &Controller { last: Command::Assign(udid, address), ..waiting });
    command
}

/// The operation with every step of it in two halves.
fn halved(controller: &mut Controller, op: &Op) -> Due {
    match op {
        Op::Step(trace) => Due::Command(by_halves(controller, trace)),
        _ => apply(controller, op),
    }
}

/// The operation with every step of it as it was before.
fn single(controller: &mut Controller, op: &Op) -> Due {
    match op {
        Op::Step(trace) => Due::Command(single_step(controller, trace)),
        _ => apply(controller, op),
    }
}

/// Both ways through one script; how many steps were compared. The single step has no first half: scripts with such are
/// left to the other way.
fn compare(name: &str, entries: &[(Op, Due)]) -> (usize, usize) {
    let none = Addresses::new();
    let mut whole = Controller::new(&none, NEVER);
    let (mut halves, mut before) = (whole.clone(), whole.clone());
    let has_halves = entries.iter().any(|(op, _)| matches!(op, Op::Choose(_) | Op::Issue | Op::Decline));
    for (k, (op, due)) in entries.iter().enumerate() {
        apply(&mut whole, op);
        assert_eq!((&halved(&mut halves, op), &halves), (due, &whole), "{name}, entry {k}, by halves: {op:02x?}");
        if !has_halves {
            assert_eq!((&single(&mut before, op), &before), (due, &whole), "{name}, entry {k}, single: {op:02x?}");
        }
    }
    let steps = entries.iter().filter(|(op, _)| matches!(op, Op::Step(_))).count();
    (steps, if has_halves { 0 } else { steps })
}

/// All scripts; the number of steps compared with their halves, and with the single step.
pub fn all() -> (usize, usize) {
    let both = FAMILIES.iter().map(|(name, make)| compare(name, &make().entries));
    both.fold((0, 0), |(halves, single), (more, as_many)| (halves + more, single + as_many))
}
