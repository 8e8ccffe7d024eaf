//! The controller's step as it was before it had two halves: a trace in, the next command out, and no choice in between.
//! It shares the controller's lookup and its state, and nothing else.

use crate::history::is_assign;
use reference::addresses::*;
use reference::commands::*;
use reference::controller::{Binding, Controller, Found, MOST_GET_UDIDS};
use reference::decode::{decode, Answer};
use reference::plain_rule::nearest_after;
use reference::table::{BLOCK_READ, SEND_BYTE};

/// The next command, and the controller as it is then.
pub fn single_step(controller: &mut Controller, trace: &[u16]) -> Command {
    let next = match controller.last {
        Command::Prepare => after_prepare(trace),
        Command::GetUdid => after_get_udid(controller, trace),
        Command::Assign(udid, address) => after_assign(controller, &udid, address, trace),
        _ => return Command::NotOutstanding,
    };
    controller.last = match next {
        Command::GetUdid if controller.get_udids == MOST_GET_UDIDS => Command::Abandoned,
        other => other,
    };
    controller.get_udids += usize::from(controller.last == Command::GetUdid);
    controller.last
}

fn after_prepare(trace: &[u16]) -> Command {
    match decode(SEND_BYTE, true, trace, 255, 255) {
        Answer::Done(t) if (t.address, &t.sent[..]) == (DEFAULT, &[PREPARE]) => Command::GetUdid,
        Answer::Refused { number: 6, .. } => Command::Ended,
        _ => Command::Abandoned,
    }
}

fn after_get_udid(controller: &mut Controller, trace: &[u16]) -> Command {
    match decode(BLOCK_READ, true, trace, 255, 255) {
        Answer::Refused { number: 6, value } if value < 3 => Command::Ended,
        Answer::Done(t) if (t.address, t.command) == (DEFAULT, GET_UDID) => match t.received.len() {
            17 => served(controller, &udid_of(&t.received[..16]), t.received[16]),
            _ => Command::Ended,
        },
        _ => Command::GetUdid,
    }
}

fn served(controller: &mut Controller, udid: &Udid, address_byte: u8) -> Command {
    let held = (0..ADDRESSES).find(|&address| controller.lookup(address) == Found::Bound(*udid));
    if let Some(address) = held {
        controller.bindings.remove(&address);
        controller.pool.retain(|&used| used != address || controller.starting.contains(&used));
    }
    let own = address_byte / 2;
    if address_byte != NO_ADDRESS && (is_fixed(udid) || !controller.pool.contains(&own)) {
        return Command::Assign(*udid, own);
    }
    let Some(picked) = nearest_after(&controller.pool, controller.last_pick) else {
        return Command::NoneFree(*udid);
    };
    controller.last_pick = picked;
    Command::Assign(*udid, picked)
}

fn after_assign(controller: &mut Controller, udid: &Udid, address: u8, trace: &[u16]) -> Command {
    if is_assign(trace, udid, address) {
        let open = matches!(controller.lookup(address), Found::Refused(15 | 20));
        let alone = open && !controller.barred.contains(&address);
        controller.bindings.insert(address, if alone { Binding::Bound(*udid) } else { Binding::Claimed });
        controller.pool.insert(address);
    }
    Command::GetUdid
}
