//! Every byte at every place of every packet, on every kind of module, whatever its flags; and lost at every byte of a
//! reply.

use crate::family::Family;
use crate::module_pair::Pair;
use crate::module_reached::Reached;
use reference::commands::{Udid, ASSIGN, GET_UDID, PREPARE};
use reference::module::*;
use reference::module_events::{asked, assigned, sent_with_pec, Event, Reaction};
use reference::shelves::{with_kind, KINDS};

const FRESH: [u8; 4] = [0xde, 0xad, 0xbe, 0xef];
/// All bytes differ, and none is that of a command.
const UDID: Udid = [0x21, 0x32, 0x43, 0x54, 0x65, 0x76, 0x87, 0x98, 0xa9, 0xba, 0xcb, 0xdc, 0xed, 0xfe, 0x0f, 0x10];

/// A module of that kind, with an address or none, resolved or not. Its home is another address.
fn module(kind: u8, address: Option<u8>, resolved: bool) -> Module {
    let mut module = Module::power_on(with_kind(UDID, kind), 0x33, FRESH);
    (module.udid, module.address, module.resolved) = (with_kind(UDID, kind), address, resolved);
    module
}

fn modules(addresses: &[Option<u8>]) -> Vec<Module> {
    let mut modules = vec![];
    for kind in KINDS {
        for &address in addresses {
            modules.extend([module(kind, address, false), module(kind, address, true)]);
        }
    }
    modules
}

/// Every packet that concerns the module; a directed one goes to its address, or to 20h if it has none.
fn packets(module: &Module) -> Vec<Vec<Event>> {
    let own = 2 * module.address.unwrap_or(0x20);
    vec![
        sent_with_pec(&[WRITE, PREPARE]),
        sent_with_pec(&[WRITE, RESET]),
        sent_with_pec(&[WRITE, own]),
        asked(GET_UDID, 0),
        asked(own + 1, 0),
        assigned(&module.udid, 0x42),
    ]
}

/// In the place of an event, and once after the last, every byte; then the rest of the packet, reads, and a new packet.
fn every_byte(reached: &mut Reached) -> usize {
    let mut family = Family::new("module, every byte");
    let after = [&[Event::Supply, Event::Supply][..], &sent_with_pec(&[WRITE, PREPARE])].concat();
    for module in modules(&[None, Some(0x20)]) {
        for packet in packets(&module) {
            let mut pair = Pair::of(module.clone());
            for place in 0..=packet.len() {
                for byte in 0..=255 {
                    let mut other = pair.clone();
                    let taken = other.happen(&mut family, reached, Event::Byte(byte));
                    let rest = packet.get(place + 1..).unwrap_or(&[]);
                    let shown = if taken == Reaction::Acknowledged(true) { rest } else { &rest[..rest.len().min(1)] };
                    other.all(&mut family, reached, shown);
                    other.all(&mut family, reached, &after);
                }
                pair.all(&mut family, reached, &packet[place..packet.len().min(place + 1)]);
            }
        }
    }
    family.done()
}

/// Every command byte to a module at every address, and what it then does with the PEC, a count or a read.
fn every_address(reached: &mut Reached) -> usize {
    let mut family = Family::new("module, every address");
    for address in 0..128 {
        for module in modules(&[Some(address)]) {
            let mut begun = Pair::of(module.clone());
            begun.all(&mut family, reached, &[Event::Start, Event::Byte(WRITE)]);
            for command in 0..=255 {
                let mut pair = begun.clone();
                pair.happen(&mut family, reached, Event::Byte(command));
                if command / 2 == address || command == GET_UDID {
                    let read =
                        [&asked(command, REPLY + 1)[..], &sent_with_pec(&[WRITE, command]), &[Event::Stop]].concat();
                    pair.all(&mut family, reached, &read);
                }
            }
        }
    }
    family.done()
}

/// Every address byte that can be assigned, with its PEC and with another; then a reset, general or directed.
fn every_assignment(reached: &mut Reached) -> usize {
    let mut family = Family::new("module, every assignment");
    for module in modules(&[None, Some(0x20)]) {
        for byte in 0..=255 {
            let mut pair = Pair::of(module.clone());
            let right = assigned(&module.udid, byte);
            let mut wrong = right.clone();
            let last = wrong.pop();
            wrong.extend(last.map(|event| match event {
                Event::Byte(code) => Event::Byte(code ^ 1 << (byte % 8)),
                other => other,
            }));
            pair.all(&mut family, reached, &wrong);
            pair.all(&mut family, reached, &right);
            pair.all(&mut family, reached, &asked(byte | 1, REPLY));
            pair.all(&mut family, reached, &sent_with_pec(&[WRITE, byte & 0xfe]));
            pair.all(&mut family, reached, &right);
            pair.all(&mut family, reached, &sent_with_pec(&[WRITE, RESET]));
            pair.all(&mut family, reached, &asked(GET_UDID, REPLY + 2));
        }
    }
    family.done()
}

/// Told that it lost after every number of bytes of a reply, general and directed: silent until START, whatever comes.
fn every_loss(reached: &mut Reached) -> usize {
    let mut family = Family::new("module, every loss");
    for module in modules(&[None, Some(0x10), Some(0x20), Some(0x7e)]) {
        for command in [GET_UDID, 2 * module.address.unwrap_or(0x20) + 1] {
            for bytes in 0..=REPLY + 1 {
                let mut pair = Pair::of(module.clone());
                pair.all(&mut family, reached, &asked(command, bytes));
                pair.happen(&mut family, reached, Event::Lost);
                for byte in [WRITE, READ, COUNT, PREPARE, ASSIGN, 0x00, 0xff] {
                    pair.all(&mut family, reached, &[Event::Supply, Event::Byte(byte)]);
                }
                for again in [
                    &[Event::Byte(0xc0), Event::Stop, Event::Supply, Event::Start, Event::Byte(READ)][..],
                    &asked(command, 2),
                ] {
                    pair.all(&mut family, reached, again);
                }
            }
        }
    }
    family.done()
}

/// Every family here; what all of them reach is checked with what the random ones do.
pub fn all(reached: &mut Reached) -> usize {
    every_byte(reached) + every_address(reached) + every_assignment(reached) + every_loss(reached)
}
