//! A pass told by its events alone: the Assigns that completed, the identifiers that replied, and the modules that were
//! reported gone. What an address is goes by which of them came last; how many are in use, by how many of each came. A
//! choice waits if neither an issue nor a decline came after it.

use crate::rows::ADDED;
use reference::addresses::{Addresses, ADDRESSES, DEFAULT, RESERVED};
use reference::commands::*;
use reference::controller::Found;
use reference::decode::{decode, Answer};
use reference::recorder::{Due, Op};
use reference::table::{BLOCK_READ, BLOCK_WRITE};
use std::collections::BTreeMap;

/// How many events since the pass began changed how many addresses are in use.
#[derive(Default)]
struct Account {
    /// An Assign of an address that was free completed.
    binds: usize,
    /// A module was reported gone, at an address outside the starting pool.
    removals: usize,
    /// An identifier replied that was bound, to an address outside the starting pool.
    unbindings: usize,
}

/// When what happened last, in this pass. Times are numbers from 1 on.
pub struct History {
    occupied: Addresses,
    /// One for each address: a pass starts with it.
    starting: Vec<bool>,
    now: usize,
    /// What is outstanding, if anything is.
    sent: Option<Command>,
    /// The choice made last: when, for whom, and which address.
    chosen: Option<(usize, Udid, u8)>,
    /// When a choice was last issued or declined.
    settled: usize,
    /// The Assign of an address that completed, and to whom.
    assigned: BTreeMap<u8, (usize, Udid)>,
    /// The report of an address that was answered with 0.
    reported: BTreeMap<u8, usize>,
    replied: BTreeMap<Udid, usize>,
    /// The address was assigned while nobody may stand there, or while it was bound or claimed.
    claimed: Addresses,
    account: Account,
    /// The Get UDIDs handed out.
    pub get_udids: usize,
}

/// Is it the whole trace of that Assign Address?
pub fn is_assign(trace: &[u16], udid: &Udid, address: u8) -> bool {
    match decode(BLOCK_WRITE, true, trace, 255, 255) {
        Answer::Done(t) => (t.address, t.command, t.sent) == (DEFAULT, ASSIGN, reply_bytes(udid, 2 * address)),
        Answer::Refused { .. } => false,
    }
}

/// Nobody may stand there.
fn is_barred(occupied: &Addresses, address: u8) -> bool {
    RESERVED.contains(&address) || occupied.contains(&address)
}

impl History {
    pub fn new(occupied: &Addresses) -> History {
        History {
            starting: (0..ADDRESSES).map(|address| is_barred(occupied, address) || ADDED.contains(&address)).collect(),
            occupied: occupied.clone(),
            now: 0,
            sent: None,
            chosen: None,
            settled: 0,
            assigned: BTreeMap::new(),
            reported: BTreeMap::new(),
            replied: BTreeMap::new(),
            claimed: Addresses::new(),
            account: Account::default(),
            get_udids: 0,
        }
    }

    /// What a lookup has to find.
    pub fn find(&self, address: u8) -> Found {
        if address > 127 {
            return Found::Refused(1);
        }
        if self.claimed.contains(&address) {
            return Found::Refused(16);
        }
        let Some(&(assigned, udid)) = self.assigned.get(&address) else {
            return Found::Refused(15);
        };
        if self.reported.get(&address).is_some_and(|&reported| reported > assigned) {
            return Found::Refused(20);
        }
        if self.replied.get(&udid).is_some_and(|&replied| replied > assigned) {
            return Found::Refused(15);
        }
        Found::Bound(udid)
    }

    fn is_starting(&self, address: u8) -> bool {
        self.starting[usize::from(address)]
    }

    /// Somebody is bound there, or two claim it.
    fn is_taken(&self, address: u8) -> bool {
        matches!(self.find(address), Found::Bound(_) | Found::Refused(16))
    }

    pub fn is_used(&self, address: u8) -> bool {
        self.is_starting(address) || self.is_taken(address)
    }

    pub fn used(&self) -> Addresses {
        (0..ADDRESSES).filter(|&address| self.is_used(address)).collect()
    }

    /// How many addresses the account has in use.
    pub fn balance(&self) -> usize {
        let Account { binds, removals, unbindings } = &self.account;
        let starting = self.starting.iter().filter(|&&starting| starting).count();
        (starting + binds).checked_sub(removals + unbindings).expect("no more is taken back than was given")
    }

    /// An operation of a script and its answer. That of reports, lookups, issues and declines has to be what the events
    /// before say, and so has the reason of a choice.
    pub fn note(&mut self, op: &Op, due: &Due) -> bool {
        self.now += 1;
        match (op, due) {
            (Op::New(occupied, _), Due::Nothing) => *self = History::new(occupied),
            (Op::Start, Due::Command(command)) => {
                *self = History::new(&self.occupied);
                self.sent = Some(*command);
            }
            (Op::Step(trace), Due::Command(command)) => return self.trace(trace, command, true),
            (Op::Choose(trace), Due::Command(command)) => return self.trace(trace, command, false),
            (Op::Issue, Due::Command(command)) => return self.issue(command),
            (Op::Decline, Due::Command(command)) => return self.decline(command),
            (Op::Lookups, Due::Found(all, _)) => {
                return all.len() == 128 && (0..).zip(all).all(|(address, found)| self.find(address) == *found)
            }
            (Op::Gone(number), Due::Gone(found)) => return self.gone(*number, found),
            _ => return false,
        }
        true
    }

    /// A trace for a whole step, or for its first half. It is answered with 21 exactly if nothing is outstanding, and only
    /// a whole step has an Assign for an answer.
    fn trace(&mut self, trace: &[u16], command: &Command, whole: bool) -> bool {
        let Some(sent) = self.sent else {
            return *command == Command::NotOutstanding;
        };
        match (sent, *command) {
            (Command::Assign(udid, address), _) if is_assign(trace, &udid, address) => self.assign(udid, address),
            (Command::GetUdid, Command::Assign(udid, _) | Command::NoneFree(udid)) => self.reply(udid),
            (Command::GetUdid, Command::Chosen(udid, address, _)) => {
                self.reply(udid);
                self.chosen = Some((self.now, udid, address));
            }
            _ => {}
        }
        self.get_udids += usize::from(*command == Command::GetUdid);
        self.sent = Some(*command).filter(Command::is_sent);
        match (sent, *command) {
            (Command::GetUdid, Command::Assign(..)) => whole,
            (Command::GetUdid, Command::Chosen(udid, address, reason)) => {
                !whole && self.reason(trace, &udid, address) == Some(reason)
            }
            (_, other) => other != Command::NotOutstanding && other.gives().is_none(),
        }
    }

    /// The choice that waits.
    fn waiting(&self) -> Option<(Udid, u8)> {
        self.chosen.filter(|&(when, ..)| when > self.settled).map(|(_, udid, address)| (udid, address))
    }

    /// Why a reply was given an address. A picked one is never that of the reply: see `turn.rs`.
    fn reason(&self, trace: &[u16], udid: &Udid, address: u8) -> Option<Reason> {
        let Answer::Done(reply) = decode(BLOCK_READ, true, trace, 255, 255) else {
            return None;
        };
        Some(match reply.received[16] / 2 == address {
            _ if self.is_claim(address) => Reason::Claimed,
            true if is_fixed(udid) => Reason::Fixed,
            true => Reason::Kept,
            false => Reason::Picked,
        })
    }

    fn issue(&mut self, command: &Command) -> bool {
        let Some((udid, address)) = self.waiting() else {
            return *command == Command::NotOutstanding;
        };
        self.settled = self.now;
        self.sent = Some(Command::Assign(udid, address));
        *command == Command::Assign(udid, address)
    }

    fn decline(&mut self, command: &Command) -> bool {
        if self.waiting().is_none() {
            return *command == Command::NotOutstanding;
        }
        self.settled = self.now;
        *command == Command::Abandoned
    }

    /// Another one that takes the address now claims it.
    fn is_claim(&self, address: u8) -> bool {
        is_barred(&self.occupied, address) || self.is_taken(address)
    }

    fn assign(&mut self, udid: Udid, address: u8) {
        self.account.binds += usize::from(!self.is_used(address));
        if self.is_claim(address) {
            self.claimed.insert(address);
        }
        self.assigned.insert(address, (self.now, udid));
    }

    fn reply(&mut self, udid: Udid) {
        let held = (0..ADDRESSES).find(|&address| self.find(address) == Found::Bound(udid));
        if held.is_some_and(|address| !self.is_starting(address)) {
            self.account.unbindings += 1;
        }
        self.replied.insert(udid, self.now);
    }

    fn gone(&mut self, number: u8, found: &Found) -> bool {
        let due = self.find(number);
        if let Found::Bound(_) = found {
            self.reported.insert(number, self.now);
            self.account.removals += usize::from(!self.is_starting(number));
        }
        due == *found
    }
}
