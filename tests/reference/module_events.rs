//! What happens to a module, at random: whole packets, packets with one mistake, and anything in any order.

use crate::commands::*;
use crate::module::*;
use crate::module_bus::End;
use crate::pec::pec;
use crate::random::Random;
use crate::shelves::near;

/// One event at a module's end.
#[derive(Clone, Copy, Debug, PartialEq, Eq)]
pub enum Event {
    Start,
    Byte(u8),
    /// A byte is asked for.
    Supply,
    Lost,
    Stop,
    /// Other bytes for the next reset.
    Refresh([u8; 4]),
}

/// What a module answers to an event.
#[derive(Clone, Copy, Debug, PartialEq, Eq)]
pub enum Reaction {
    Acknowledged(bool),
    Supplied(Option<u8>),
    Nothing,
}

/// An end of the bus that can be given other bytes for its next reset.
pub trait Renewable: End {
    fn refresh(&mut self, fresh: [u8; 4]);
}

impl Renewable for Module {
    fn refresh(&mut self, fresh: [u8; 4]) {
        self.fresh = fresh;
    }
}

impl Event {
    /// The event happens to a module.
    pub fn happen(self, module: &mut impl Renewable) -> Reaction {
        match self {
            Event::Byte(byte) => return Reaction::Acknowledged(module.hear(byte)),
            Event::Supply => return Reaction::Supplied(module.supply()),
            Event::Start => module.start(),
            Event::Lost => module.lost(),
            Event::Stop => module.stop(),
            Event::Refresh(fresh) => module.refresh(fresh),
        }
        Reaction::Nothing
    }
}

/// START and bytes, each as an event.
pub fn sent(bytes: &[u8]) -> Vec<Event> {
    [vec![Event::Start], bytes.iter().map(|&byte| Event::Byte(byte)).collect()].concat()
}

/// The same with the PEC after them.
pub fn sent_with_pec(bytes: &[u8]) -> Vec<Event> {
    sent(&[bytes, &[pec(bytes)]].concat())
}

/// A Get UDID with as many bytes asked for.
pub fn asked(command: u8, bytes: usize) -> Vec<Event> {
    [sent(&[WRITE, command]), sent(&[READ]), vec![Event::Supply; bytes]].concat()
}

/// An Assign Address of an address byte.
pub fn assigned(udid: &Udid, address_byte: u8) -> Vec<Event> {
    sent_with_pec(&[&[WRITE, ASSIGN, COUNT], &udid[..], &[address_byte]].concat())
}

/// The command byte of a directed Reset Device; that of a directed Get UDID is one more. Mostly the module's own.
fn directed(random: &mut Random, module: &Module) -> u8 {
    match module.address {
        Some(own) if random.below(5) > 0 => 2 * own,
        _ => random.byte() & 0xfe,
    }
}

/// A packet that a module with this UDID and address obeys, or one for another module.
pub fn packet(random: &mut Random, module: &Module) -> Vec<Event> {
    let own = directed(random, module);
    let bytes = random.pick(&[REPLY, REPLY, REPLY + 1, REPLY - 1, 1, 5]);
    match random.below(10) {
        0 | 1 => sent_with_pec(&[WRITE, PREPARE]),
        2 => sent_with_pec(&[WRITE, RESET]),
        3 => asked(GET_UDID, bytes),
        4 => asked(own | 1, bytes),
        5 => sent_with_pec(&[WRITE, own]),
        6 => sent_with_pec(&[WRITE, random.byte()]),
        7 => assigned(&near(random, &module.udid), random.byte()),
        _ => assigned(&module.udid, random.byte()),
    }
}

/// Any event.
pub fn any_event(random: &mut Random) -> Event {
    match random.below(12) {
        0 | 1 => Event::Start,
        2 => Event::Stop,
        3 => Event::Lost,
        4 | 5 => Event::Supply,
        6 => Event::Refresh([random.byte(), random.byte(), random.byte(), random.byte()]),
        7 => Event::Byte(random.byte()),
        _ => Event::Byte(random.pick(&[WRITE, READ, PREPARE, RESET, GET_UDID, ASSIGN, COUNT, 0xc0, 0xc9])),
    }
}

/// The events with one mistake: a byte that differs, an event more, one less, two exchanged, or an end before the last.
pub fn damaged(random: &mut Random, events: &[Event]) -> Vec<Event> {
    let mut events = events.to_vec();
    let at = random.below(events.len());
    match random.below(6) {
        0 | 1 => {
            if let Event::Byte(byte) = &mut events[at] {
                *byte ^= random.pick(&[1, 2, 4, 8, 16, 32, 64, 128, 255]);
            }
        }
        2 => events.insert(at, any_event(random)),
        3 => {
            events.remove(at);
        }
        4 => events.swap(at, 0),
        _ => events.truncate(at),
    }
    events
}

/// A run of events: mostly a packet, whole or with a mistake, then mostly STOP; now and then anything.
pub fn run(random: &mut Random, module: &Module) -> Vec<Event> {
    let mut events = packet(random, module);
    match random.below(10) {
        0..=3 => {}
        4 => {
            let count = random.below(30);
            events = (0..count).map(|_| any_event(random)).collect();
        }
        _ => events = damaged(random, &events),
    }
    if random.below(3) > 0 {
        events.push(Event::Stop);
    }
    events
}
