//! A bus of targets, bit by bit: all that drive the wire drive it at once, and a zero beats a one.

use crate::addresses::DEFAULT;
use crate::commands::*;
use crate::pec::pec;
use crate::table::*;

#[derive(Clone, Copy, Debug, PartialEq, Eq)]
pub struct Target {
    pub udid: Udid,
    pub address_byte: u8,
    pub resolved: bool,
}

const WRITE: u8 = 2 * DEFAULT;
const READ: u8 = 2 * DEFAULT + 1;

impl Target {
    /// Does it acknowledge the last of the bytes written so far? To an Assign Address, as long as the UDID is its own.
    fn acknowledges(&self, written: &[u8]) -> bool {
        let (last, before) = written.split_last().expect("a byte was written");
        match written {
            [WRITE] | [WRITE, PREPARE | GET_UDID | ASSIGN] | [WRITE, ASSIGN, 17] => true,
            [WRITE, PREPARE, _] => *last == pec(before),
            [WRITE, ASSIGN, 17, own @ ..] if own.len() <= 16 => self.udid.starts_with(own),
            [WRITE, ASSIGN, 17, own @ .., _] if own.len() == 16 => self.udid == own,
            [WRITE, ASSIGN, 17, own @ .., _, _] if own.len() == 16 => self.udid == own && *last == pec(before),
            _ => false,
        }
    }

    /// What it sends to a Get UDID: count, UDID, address byte, PEC.
    fn reply(&self) -> Vec<u8> {
        let data = [vec![17], reply_bytes(&self.udid, self.address_byte)].concat();
        let code = pec(&[&[WRITE, GET_UDID, READ], &data[..]].concat());
        [data, vec![code]].concat()
    }
}

fn bit(bytes: &[u8], place: usize) -> bool {
    bytes[place / 8] >> (7 - place % 8) & 1 == 1
}

/// What the wire shows when all send together: who sends a one and sees a zero leaves.
fn sent_together(senders: &[Vec<u8>]) -> Vec<u8> {
    let mut left: Vec<&Vec<u8>> = senders.iter().collect();
    let mut wire = vec![0; left[0].len()];
    for place in 0..8 * wire.len() {
        let shown = left.iter().all(|bytes| bit(bytes, place));
        left.retain(|bytes| bit(bytes, place) == shown);
        wire[place / 8] |= u8::from(shown) << (7 - place % 8);
    }
    wire
}

#[derive(Clone, Debug, PartialEq, Eq)]
pub struct Bus {
    pub targets: Vec<Target>,
}

impl Bus {
    /// The trace of a command as the controller sees it, and what it does to the targets.
    pub fn answer(&mut self, command: &Command) -> Vec<u16> {
        match command {
            Command::Prepare => self.prepare(),
            Command::GetUdid => self.get_udid(),
            Command::Assign(udid, address) => self.assign(udid, *address),
            _ => vec![],
        }
    }

    /// START and bytes written, each acknowledged by anyone or, with NACK and STOP, by nobody.
    fn write(&self, bytes: &[u8]) -> (Vec<u16>, bool) {
        let mut trace = vec![START];
        for end in 1..=bytes.len() {
            trace.push(u16::from(bytes[end - 1]));
            if !self.targets.iter().any(|target| target.acknowledges(&bytes[..end])) {
                trace.extend([NACK, STOP]);
                return (trace, false);
            }
            trace.push(ACK);
        }
        (trace, true)
    }

    /// A whole message with its PEC.
    fn send(&self, message: &[u8]) -> (Vec<u16>, bool) {
        let (mut trace, taken) = self.write(&[message, &[pec(message)]].concat());
        if taken {
            trace.push(STOP);
        }
        (trace, taken)
    }

    fn prepare(&mut self) -> Vec<u16> {
        let (trace, taken) = self.send(&[WRITE, PREPARE]);
        if taken {
            self.targets.iter_mut().for_each(|target| target.resolved = false);
        }
        trace
    }

    fn assign(&mut self, udid: &Udid, address: u8) -> Vec<u16> {
        let (trace, taken) = self.send(&[vec![WRITE, ASSIGN, 17], reply_bytes(udid, 2 * address)].concat());
        if taken {
            for target in self.targets.iter_mut().filter(|target| target.udid == *udid) {
                target.address_byte = 2 * address + 1;
                target.resolved = true;
            }
        }
        trace
    }

    /// The unresolved acknowledge the read address and send; the controller acknowledges all but the last byte.
    fn get_udid(&self) -> Vec<u16> {
        let (mut trace, taken) = self.write(&[WRITE, GET_UDID]);
        if !taken {
            return trace;
        }
        trace.extend([START, u16::from(READ)]);
        let senders: Vec<Vec<u8>> = self.targets.iter().filter(|t| !t.resolved).map(Target::reply).collect();
        if senders.is_empty() {
            trace.extend([NACK, STOP]);
            return trace;
        }
        for byte in sent_together(&senders) {
            trace.extend([ACK, u16::from(byte)]);
        }
        trace.extend([NACK, STOP]);
        trace
    }
}
