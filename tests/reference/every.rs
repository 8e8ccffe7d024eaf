//! Scripts that go through every byte, count, address, command, PEC and place of the answers to a controller, and
//! through every last pick.

use crate::addresses::*;
use crate::commands::*;
use crate::damage::*;
use crate::good::*;
use crate::mistakes::*;
use crate::recorder::Recorder;
use crate::shelves::{with_kind, KINDS};
use crate::table::*;

const MOVABLE: Udid = [0x80, 1, 2, 3, 4, 5, 6, 7, 8, 9, 10, 11, 12, 13, 14, 15];

/// A pass with three bound, one of them at 30h, one address claimed by two, and Get UDID outstanding. One address is
/// picked, another one in each pass; the others are taken by then.
fn scene(recorder: &mut Recorder) {
    begin(recorder);
    join(recorder, &[0x01; 16], 0x41);
    join(recorder, &[0x02; 16], 0x53);
    join(recorder, &[0x03; 16], 0x53);
    join(recorder, &MOVABLE, 0x61);
    join(recorder, &[0x40; 16], NO_ADDRESS);
}

#[derive(Clone, Copy, PartialEq, Eq)]
enum To {
    Prepare,
    GetUdid,
    Assign,
}

const COMMANDS: [To; 3] = [To::Prepare, To::GetUdid, To::Assign];

/// Answers until the command is outstanding; all addresses are looked up between two passes.
fn bring(recorder: &mut Recorder, to: To) {
    loop {
        match (to, recorder.outstanding()) {
            (To::Prepare, Command::Prepare) => return,
            (To::GetUdid, Command::GetUdid) | (To::Assign, Command::Assign(..)) => return,
            (To::Assign, Command::GetUdid) => reply(recorder, &MOVABLE, 0x61),
            (To::GetUdid, Command::Assign(..)) => accept(recorder),
            (To::Prepare, _) => recorder.start(),
            _ => {
                recorder.lookups();
                scene(recorder);
                recorder.outstanding()
            }
        };
    }
}

/// The right transaction for the command: after the scene 30h is held by the one that replies, or free.
fn right(to: To) -> Transaction {
    match to {
        To::Prepare => prepare(),
        To::GetUdid => get_udid(&reply_bytes(&MOVABLE, 0x61)),
        To::Assign => assign(&MOVABLE, 0x30),
    }
}

/// Each trace as an answer to the command; after an Assign Address all addresses are looked up.
fn answered(to: To, traces: Vec<Vec<u16>>, recorder: &mut Recorder) {
    for trace in traces {
        bring(recorder, to);
        recorder.step(trace);
        if to == To::Assign {
            recorder.lookups();
        }
    }
    recorder.lookups();
}

fn for_each_command(traces: fn(To, &Transaction) -> Vec<Vec<u16>>) -> Recorder {
    let mut recorder = Recorder::new(&Addresses::from([0x10, 0x11]), NEVER);
    for to in COMMANDS {
        answered(to, traces(to, &right(to)), &mut recorder);
    }
    recorder
}

/// Every address byte of a reply, from every kind of target, alone and beside others, one of them on an added row. Of
/// the rows none is occupied, or 48h, or those below 22h.
pub fn address_bytes() -> Recorder {
    let mut recorder = Recorder::new(&Addresses::new(), NEVER);
    let none = Addresses::new();
    for (occupied, last_pick) in [(&none, NEVER), (&(0..0x22).collect(), 0x76), (&[0x48].into(), 0x3f), (&none, 0xff)] {
        recorder.renew(occupied, last_pick);
        for kind in KINDS {
            for address_byte in 0..=255 {
                begin(&mut recorder);
                join(&mut recorder, &MOVABLE, 0x41);
                join(&mut recorder, &[0x01; 16], 0x43);
                join(&mut recorder, &[0x02; 16], 0x91);
                join(&mut recorder, &with_kind(MOVABLE.map(|byte| byte ^ 0x11), kind), address_byte);
                finish(&mut recorder);
            }
        }
    }
    recorder
}

/// NACK and STOP after every byte, those included that the controller acknowledges.
pub fn nacks() -> Recorder {
    for_each_command(|_, t| {
        let trace = trace_of(t);
        (0..bytes_of(&trace).len()).map(|byte| nacked_at(&trace, byte)).collect()
    })
}

/// Every count: to the right address and command, to another address, to another command.
pub fn counts() -> Recorder {
    for_each_command(|to, t| {
        let mut all = vec![];
        for count in 0..=255 {
            let bytes: Vec<u8> =
                [t.sent.clone(), t.received.clone()].concat().into_iter().cycle().take(count).collect();
            let mut other = match to {
                To::Prepare => continue,
                To::GetUdid => Transaction { received: bytes, ..t.clone() },
                To::Assign => Transaction { sent: bytes, ..t.clone() },
            };
            all.push(trace_of(&other));
            other.address = 0x08;
            all.push(trace_of(&other));
            (other.address, other.command) = (t.address, 0x83);
            all.push(trace_of(&other));
        }
        all
    })
}

/// Every address and every command, each with the right PEC for it.
pub fn places() -> Recorder {
    for_each_command(|to, t| {
        let elsewhere = (0..128).map(|address| Transaction { address, ..t.clone() });
        let otherwise = (0..=255).map(|byte| match to {
            To::Prepare => Transaction { sent: vec![byte], ..t.clone() },
            _ => Transaction { command: byte, ..t.clone() },
        });
        elsewhere.chain(otherwise).map(|other| trace_of(&other)).collect()
    })
}

/// Every PEC.
pub fn pecs() -> Recorder {
    for_each_command(|_, t| {
        let mut trace = trace_of(t);
        let place = trace.len() - 3;
        let mut all = vec![];
        for code in 0..256 {
            trace[place] = code;
            all.push(trace.clone());
        }
        all
    })
}

/// An Assign Address with any one bit of its data turned, or any other address byte, and its right PEC.
pub fn assigns() -> Recorder {
    for_each_command(|to, t| {
        if to != To::Assign {
            return vec![];
        }
        let turned = (0..8 * t.sent.len()).map(|place| {
            let mut other = t.clone();
            other.sent[place / 8] ^= 128 >> (place % 8);
            trace_of(&other)
        });
        let addressed = (0..=255).map(|byte| {
            let mut other = t.clone();
            other.sent[16] = byte;
            trace_of(&other)
        });
        turned.chain(addressed).collect()
    })
}

/// Every damage at every place.
pub fn damages() -> Recorder {
    for_each_command(|_, t| {
        let trace = trace_of(t);
        let at =
            |place| [replaced(&trace, place), moved(&trace, place), cut(&trace, place), nacked(&trace, place)].concat();
        (0..trace.len()).flat_map(at).chain(appended(&trace)).collect()
    })
}

/// Two passes of a new controller. In the first, two targets without an address; in the second, a third one, which
/// takes what it is given only at the second time.
fn picked_from(recorder: &mut Recorder, free: &[u8], last_pick: u8) {
    let occupied = (0..ADDRESSES).filter(|address| !free.contains(address)).collect();
    recorder.renew(&occupied, last_pick);
    recorder.lookups();
    begin(recorder);
    join(recorder, &MOVABLE, NO_ADDRESS);
    recorder.lookups();
    join(recorder, &[0x01; 16], NO_ADDRESS);
    finish(recorder);
    begin(recorder);
    reply(recorder, &[0xc0; 16], NO_ADDRESS);
    refuse(recorder);
    recorder.lookups();
    join(recorder, &[0xc0; 16], NO_ADDRESS);
    finish(recorder);
}

/// Every number as the last pick of a new controller, with all assignable addresses free, with three, with one, with
/// three rows that are not occupied and so are not free, and with none.
pub fn last_picks() -> Recorder {
    let assignable = assignable();
    let mut recorder = Recorder::new(&Addresses::new(), NEVER);
    for last_pick in 0..=255 {
        for free in [&assignable[..], &[0x0d, 0x45, 0x77], &[0x45], &[0x09, 0x40, 0x4b], &[]] {
            picked_from(&mut recorder, free, last_pick);
        }
    }
    recorder
}
