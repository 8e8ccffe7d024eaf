//! A script as bytes, and its answers: what the program `passes` reads and writes.
//!   0, occupied addresses 0 to 63, then 64 to 127,
//!      the last pick, one byte                         a new controller; no answer
//!   1                                                  starts a pass; a command
//!   2, count of 16 bits, so many symbols of 16 bits    a step; a command
//!   3                                                  all lookups; 128 finds, and the last pick, one byte
//!   4, an address, one byte                            the module there is reported gone; a find
//!   5, count and symbols as of 2                       the first half of a step; a command
//!   6                                                  the choice that waits is issued; a command
//!   7                                                  it is declined; a command
//! A command is a tag, a UDID, an address; a find is a tag and a UDID. Numbers are low byte first, UDIDs highest first. The
//! tag of a choice that waits says why: 8 fixed, 9 kept, 10 picked, 11 claimed by two.

use reference::addresses::Addresses;
use reference::commands::{Command, Reason, Udid};
use reference::controller::Found;
use reference::recorder::{Due, Op};

const NO_UDID: Udid = [0; 16];

/// One bit for each address.
fn occupied_bits(occupied: &Addresses) -> [u8; 16] {
    occupied.iter().fold(0u128, |bits, &address| bits | 1 << address).to_le_bytes()
}

/// The number of symbols, and the symbols.
fn counted(trace: &[u16]) -> Vec<u8> {
    let count = u16::try_from(trace.len()).expect("a trace of a script is short");
    [count].into_iter().chain(trace.iter().copied()).flat_map(u16::to_le_bytes).collect()
}

pub fn input(op: &Op) -> Vec<u8> {
    match op {
        Op::New(occupied, last_pick) => [&[0], &occupied_bits(occupied)[..], &[*last_pick]].concat(),
        Op::Start => vec![1],
        Op::Step(trace) => [vec![2], counted(trace)].concat(),
        Op::Choose(trace) => [vec![5], counted(trace)].concat(),
        Op::Issue => vec![6],
        Op::Decline => vec![7],
        Op::Lookups => vec![3],
        Op::Gone(number) => vec![4, *number],
    }
}

fn command_bytes(command: &Command) -> Vec<u8> {
    let (tag, udid, address) = match command {
        Command::Prepare => (0, &NO_UDID, 0),
        Command::GetUdid => (1, &NO_UDID, 0),
        Command::Assign(udid, address) => (2, udid, *address),
        Command::Ended => (3, &NO_UDID, 0),
        Command::NoneFree(udid) => (4, udid, 0),
        Command::Abandoned => (5, &NO_UDID, 0),
        Command::NotOutstanding => (6, &NO_UDID, 0),
        Command::Chosen(udid, address, Reason::Fixed) => (8, udid, *address),
        Command::Chosen(udid, address, Reason::Kept) => (9, udid, *address),
        Command::Chosen(udid, address, Reason::Picked) => (10, udid, *address),
        Command::Chosen(udid, address, Reason::Claimed) => (11, udid, *address),
    };
    [&[tag], &udid[..], &[address]].concat()
}

fn found_bytes(found: &Found) -> Vec<u8> {
    match found {
        Found::Bound(udid) => [&[0], &udid[..]].concat(),
        Found::Refused(number) => [&[*number as u8], &NO_UDID[..]].concat(),
    }
}

pub fn output(due: &Due) -> Vec<u8> {
    match due {
        Due::Nothing => vec![],
        Due::Command(command) => command_bytes(command),
        Due::Found(all, last_pick) => [all.iter().flat_map(found_bytes).collect(), vec![*last_pick]].concat(),
        Due::Gone(found) => found_bytes(found),
    }
}
