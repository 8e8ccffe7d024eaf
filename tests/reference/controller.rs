//! The ARP controller: one received trace in, the next command out. An Assign is chosen first, and then issued or declined.

use crate::addresses::*;
use crate::commands::*;
use crate::decode::{decode, Answer};
use crate::table::*;
use std::collections::BTreeMap;

/// The most Get UDIDs of a pass.
pub const MOST_GET_UDIDS: usize = 128;

#[derive(Clone, Copy, Debug, PartialEq, Eq)]
pub enum Binding {
    Bound(Udid),
    /// Two claim the address, and nobody has it.
    Claimed,
    /// Whoever was bound there was reported gone.
    Left,
}

#[derive(Clone, Copy, Debug, PartialEq, Eq)]
pub enum Found {
    Bound(Udid),
    /// 1 no address, 15 nobody bound, 16 two claim it, 20 left.
    Refused(u32),
}

impl Found {
    pub fn number(&self) -> u32 {
        match self {
            Found::Bound(_) => 0,
            Found::Refused(number) => *number,
        }
    }
}

#[derive(Clone, Debug, PartialEq, Eq)]
pub struct Controller {
    /// In the pool from the start of a pass to its end.
    pub starting: Addresses,
    /// Where not even a fixed target may stand.
    pub barred: Addresses,
    pub pool: Addresses,
    pub bindings: BTreeMap<u8, Binding>,
    pub get_udids: usize,
    /// The address picked last, in this pass or an earlier one. Until the first pick it is the number given at the
    /// making; one above 127 counts as 127, never picked.
    pub last_pick: u8,
    /// What was answered last, 21 apart. A trace is due if it was sent on the bus; a choice waits.
    pub last: Command,
}

/// The reply to a Get UDID, as far as it matters.
enum Reply {
    Over,
    Again,
    From(Udid, u8),
}

fn reply_in(trace: &[u16]) -> Reply {
    match decode(BLOCK_READ, true, trace, 255, 255) {
        Answer::Refused { number: 6, value: 0..=2 } => Reply::Over,
        Answer::Refused { .. } => Reply::Again,
        Answer::Done(t) if t.address != DEFAULT || t.command != GET_UDID => Reply::Again,
        Answer::Done(t) if t.received.len() != 17 => Reply::Over,
        Answer::Done(t) => Reply::From(udid_of(&t.received[..16]), t.received[16]),
    }
}

impl Controller {
    pub fn new(occupied: &Addresses, last_pick: u8) -> Controller {
        let (starting, barred) = (starting_pool(occupied), barred(occupied));
        let pool = starting.clone();
        let bindings = BTreeMap::new();
        let last_pick = last_pick.min(NEVER);
        Controller { starting, barred, pool, bindings, get_udids: 0, last_pick, last: Command::NotOutstanding }
    }

    /// Forgets everything of the passes before but the last pick, a choice that waits too.
    pub fn start(&mut self) -> Command {
        self.pool = self.starting.clone();
        self.bindings.clear();
        self.get_udids = 0;
        self.last = Command::Prepare;
        self.last
    }

    /// Both halves: the first, and where it makes a choice the issue of that. A choice of before keeps waiting: 21.
    pub fn step(&mut self, trace: &[u16]) -> Command {
        match self.choose(trace) {
            Command::Chosen(..) => self.issue(),
            other => other,
        }
    }

    /// The first half of a step. Where the step would send an Assign the choice waits, and nothing is outstanding.
    pub fn choose(&mut self, trace: &[u16]) -> Command {
        self.last = match self.last {
            Command::Prepare => self.prepared(trace),
            Command::GetUdid => self.replied(trace),
            Command::Assign(udid, address) => self.assigned(&udid, address, trace),
            _ => return Command::NotOutstanding,
        };
        self.last
    }

    /// Sends the Assign of the choice that waits.
    pub fn issue(&mut self) -> Command {
        let Command::Chosen(udid, address, _) = self.last else {
            return Command::NotOutstanding;
        };
        self.last = Command::Assign(udid, address);
        self.last
    }

    /// Does not send it. The target would reply to every Get UDID again, so the pass ends.
    pub fn decline(&mut self) -> Command {
        let Command::Chosen(..) = self.last else {
            return Command::NotOutstanding;
        };
        self.last = Command::Abandoned;
        self.last
    }

    pub fn lookup(&self, address: u8) -> Found {
        if address >= ADDRESSES {
            return Found::Refused(1);
        }
        match self.bindings.get(&address) {
            None => Found::Refused(15),
            Some(Binding::Claimed) => Found::Refused(16),
            Some(Binding::Left) => Found::Refused(20),
            Some(Binding::Bound(udid)) => Found::Bound(*udid),
        }
    }

    /// The module at the address is reported gone; allowed at any time. The answer is what lookup says before it. Where
    /// somebody is bound the address is left from now on, and free unless a pass starts with it. Else nothing changes.
    pub fn gone(&mut self, address: u8) -> Found {
        let found = self.lookup(address);
        if let Found::Bound(_) = found {
            self.bindings.insert(address, Binding::Left);
            self.free(address);
        }
        found
    }

    /// The address leaves the pool, unless a pass starts with it.
    fn free(&mut self, address: u8) {
        if !self.starting.contains(&address) {
            self.pool.remove(&address);
        }
    }

    fn prepared(&mut self, trace: &[u16]) -> Command {
        if build(&prepare()).as_deref() == Ok(trace) {
            return self.get_udid();
        }
        match decode(SEND_BYTE, true, trace, 255, 255) {
            Answer::Refused { number: 6, .. } => Command::Ended,
            _ => Command::Abandoned,
        }
    }

    fn get_udid(&mut self) -> Command {
        if self.get_udids == MOST_GET_UDIDS {
            return Command::Abandoned;
        }
        self.get_udids += 1;
        Command::GetUdid
    }

    fn replied(&mut self, trace: &[u16]) -> Command {
        match reply_in(trace) {
            Reply::Over => Command::Ended,
            Reply::Again => self.get_udid(),
            Reply::From(udid, address_byte) => {
                self.unbind(&udid);
                match self.address_for(&udid, address_byte) {
                    Some((address, _)) if self.is_claim(address) => Command::Chosen(udid, address, Reason::Claimed),
                    Some((address, reason)) => Command::Chosen(udid, address, reason),
                    None => Command::NoneFree(udid),
                }
            }
        }
    }

    fn unbind(&mut self, udid: &Udid) {
        let held = self.bindings.iter().find(|(_, &binding)| binding == Binding::Bound(*udid));
        if let Some(address) = held.map(|(&address, _)| address) {
            self.bindings.remove(&address);
            self.free(address);
        }
    }

    /// The address for a target that replies, and why, claims apart.
    fn address_for(&mut self, udid: &Udid, address_byte: u8) -> Option<(u8, Reason)> {
        let own = address_byte / 2;
        if address_byte == NO_ADDRESS {
            self.pick().map(|address| (address, Reason::Picked))
        } else if is_fixed(udid) {
            Some((own, Reason::Fixed))
        } else if !self.pool.contains(&own) {
            Some((own, Reason::Kept))
        } else {
            self.pick().map(|address| (address, Reason::Picked))
        }
    }

    /// The next free address, which is the last pick from now on. Where none is free nothing moves.
    fn pick(&mut self) -> Option<u8> {
        let picked = next_free(&self.pool, self.last_pick)?;
        self.last_pick = picked;
        Some(picked)
    }

    fn assigned(&mut self, udid: &Udid, address: u8, trace: &[u16]) -> Command {
        if build(&assign(udid, address)).as_deref() == Ok(trace) {
            let binding = if self.is_claim(address) { Binding::Claimed } else { Binding::Bound(*udid) };
            self.bindings.insert(address, binding);
            self.pool.insert(address);
        }
        self.get_udid()
    }

    /// Do two claim the address if another one takes it now? It is barred, or somebody is bound there, or it is marked
    /// already.
    fn is_claim(&self, address: u8) -> bool {
        let held = matches!(self.bindings.get(&address), Some(Binding::Bound(_) | Binding::Claimed));
        held || self.barred.contains(&address)
    }
}
