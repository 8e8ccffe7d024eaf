//! Commands and passes.

use crate::exported_abi::{pass, pass_lookup, put_command, Command, Found, Pool, Udid, Written};
use crate::family::Family;
use crate::{halves, pool_of};
use reference::addresses::{Addresses, ADDRESSES, NEVER};
use reference::commands::{self, Reason};
use reference::controller::{self, Controller};
use reference::families::FAMILIES;
use reference::random::Random;
use reference::recorder::{apply, Due, Op};
use reference::shelves;
use reference::table::{build, Refused, LONGEST_TRACE};
use std::collections::BTreeMap;

/// In a list of traces these stand where a number of symbols is due. An address follows the first, a trace with its number
/// of symbols the second, and nothing the others.
pub const GONE: u16 = 65_535;
pub const CHOOSE: u16 = 65_534;
pub const ISSUE: u16 = 65_533;
pub const DECLINE: u16 = 65_532;

/// The most symbols of a trace in a list.
pub const MOST_SYMBOLS: u16 = 65_531;

pub fn pairs(trace: &[u16]) -> Vec<u8> {
    trace.iter().flat_map(|symbol| symbol.to_le_bytes()).collect()
}

/// What is due for a command into a room of so many bytes: the answer and the bytes.
fn due(trace: &Result<Vec<u16>, Refused>, room: usize) -> (Written, Vec<u8>) {
    let mut out = vec![0xee; room];
    let answer = match trace {
        Err(Refused) => Written { answer: 1, symbols: 0 },
        Ok(trace) if room / 2 < trace.len() => Written { answer: 2, symbols: 0 },
        Ok(trace) => {
            out[..2 * trace.len()].copy_from_slice(&pairs(trace));
            Written { answer: 0, symbols: trace.len() as u32 }
        }
    };
    (answer, out)
}

fn given(kind: u8, udid: &commands::Udid, address: u8, reply: &[u8], room: usize) -> (Written, Vec<u8>) {
    let mut out = vec![0xee; room];
    (put_command(kind, halves(udid), address, reply, &mut out), out)
}

fn command_traces() -> usize {
    let mut family = Family::new("exported commands");
    let mut random = Random::new(74);
    for round in 0..3000 {
        let (kind, address) = (if round % 8 == 0 { random.byte() } else { round as u8 % 3 }, random.byte());
        let udid = shelves::any_udid(&mut random);
        let length = [0, 1, 17, 254, 255, 256, 300][random.below(7)];
        let reply = random.bytes(length);
        let trace = commands::of_kind(kind, &udid, address, &reply).and_then(|t| build(&t));
        let exact = trace.as_ref().map_or(8, |trace| 2 * trace.len());
        let room = [0, exact - 1, exact, exact + 1, 2 * LONGEST_TRACE][random.below(5)];
        let input = || format!("kind {kind} address {address} {length} into {room}");
        family.same(input, &due(&trace, room), &given(kind, &udid, address, &reply, room));
    }
    family.done()
}

/// An Assign of every number: 44 symbols up to 127, whatever is above is refused and writes nothing.
fn assigned_numbers() -> usize {
    let mut family = Family::new("assigned numbers");
    let mut random = Random::new(76);
    for address in 0..=255 {
        let udid = shelves::any_udid(&mut random);
        let trace = commands::of_kind(2, &udid, address, &[]).and_then(|t| build(&t));
        for room in [0, 87, 88, 89, 2 * LONGEST_TRACE] {
            let input = || format!("address {address} into {room}");
            let got = given(2, &udid, address, &[], room);
            family.same(input, &due(&trace, room), &got);
            if address > 127 {
                family.same(input, &(Written { answer: 1, symbols: 0 }, vec![0xee; room]), &got);
            }
        }
    }
    family.done()
}

/// The number of a reason; 0 is none.
fn reason(reason: Reason) -> u32 {
    match reason {
        Reason::Fixed => 1,
        Reason::Kept => 2,
        Reason::Picked => 3,
        Reason::Claimed => 4,
    }
}

pub fn told(command: &commands::Command, gets: u32, picked: u32) -> Command {
    let plain = |kind, answer| Command { kind, answer, gets, picked, ..Command::default() };
    match command {
        commands::Command::Prepare => plain(0, 0),
        commands::Command::GetUdid => plain(1, 0),
        commands::Command::Assign(u, a) => Command { address: u32::from(*a), udid: halves(u), ..plain(2, 0) },
        commands::Command::Chosen(u, a, why) => {
            Command { address: u32::from(*a), udid: halves(u), reason: reason(*why), ..plain(8, 0) }
        }
        commands::Command::Ended => plain(3, 0),
        commands::Command::NoneFree(u) => Command { udid: halves(u), ..plain(4, 13) },
        commands::Command::Abandoned => plain(5, 14),
        commands::Command::NotOutstanding => Command { kind: 6, answer: 21, ..Command::default() },
    }
}

pub fn found(found: &controller::Found) -> Found {
    match found {
        controller::Found::Bound(udid) => Found { answer: 0, udid: halves(udid) },
        controller::Found::Refused(number) => Found { answer: *number, udid: Udid::default() },
    }
}

/// A pass of a script so far: the last pick before it, the list of its traces and reports, the Get UDIDs, and what was
/// handed out last.
struct Pass {
    occupied: Pool,
    last_pick: u8,
    started: bool,
    list: Vec<u8>,
    gets: u32,
    latest: Command,
}

/// What every pass with a last pick above 127 is refused with.
pub const NO_PASS: Command =
    Command { kind: 6, answer: 1, address: 0, gets: 0, picked: 0, reason: 0, udid: Udid { high: 0, low: 0 } };
pub const NO_LOOKUP: Found = Found { answer: 1, udid: Udid { high: 0, low: 0 } };

impl Pass {
    fn new(occupied: &Addresses, last_pick: u8) -> Pass {
        let occupied = pool_of(occupied);
        Pass { occupied, last_pick, started: false, list: vec![], gets: 0, latest: NO_PASS }
    }

    /// The pass starts anew after the last pick of those before.
    fn start(&mut self, last_pick: u8) {
        *self = Pass { occupied: self.occupied, last_pick, started: true, list: vec![], gets: 0, latest: NO_PASS };
    }

    fn trace(&mut self, trace: &[u16]) {
        self.list.extend(pairs(&[trace.len() as u16]));
        self.list.extend(pairs(trace));
    }

    /// What an operation adds to the list, reports apart.
    fn entry(&mut self, op: &Op) {
        match op {
            Op::Step(trace) => self.trace(trace),
            Op::Choose(trace) => {
                self.list.extend(pairs(&[CHOOSE]));
                self.trace(trace);
            }
            Op::Issue => self.list.extend(pairs(&[ISSUE])),
            Op::Decline => self.list.extend(pairs(&[DECLINE])),
            _ => {}
        }
    }

    fn text(&self) -> String {
        format!("occupied {:x?} last pick {} traces {:02x?}", self.occupied, self.last_pick, self.list)
    }

    /// The command that is due, and the last pick then.
    fn command(&mut self, family: &mut Family, due: &commands::Command, picked: u8, look: bool) {
        self.gets += u32::from(*due == commands::Command::GetUdid);
        let all = told(due, self.gets, u32::from(picked));
        self.latest = if self.last_pick > NEVER { NO_PASS } else { all };
        if look {
            family.same(|| self.text(), &self.latest, &pass(self.occupied, self.last_pick, &self.list));
        }
    }

    /// A report: lookup says before it what it finds, and after it that the address is left. The command stays.
    fn report(&mut self, family: &mut Family, number: u8, due: &controller::Found, look: bool) {
        let refused = self.last_pick > NEVER;
        if look {
            let due = if refused { NO_LOOKUP } else { found(due) };
            family.same(|| format!("address {number:02x} {}", self.text()), &due, &self.lookup(number));
        }
        self.list.extend(pairs(&[GONE, u16::from(number)]));
        if look {
            let left = controller::Found::Refused(if due.number() == 0 { 20 } else { due.number() });
            let due = if refused { NO_LOOKUP } else { found(&left) };
            family.same(|| format!("address {number:02x} {}", self.text()), &due, &self.lookup(number));
            family.same(|| self.text(), &self.latest, &pass(self.occupied, self.last_pick, &self.list));
        }
    }

    fn lookup(&self, address: u8) -> Found {
        pass_lookup(self.occupied, self.last_pick, &self.list, address)
    }

    fn lookups(&self, family: &mut Family, due: &[controller::Found], random: &mut Random) {
        let address = random.below(due.len());
        let input = || format!("address {address:02x} {}", self.text());
        let due = if self.last_pick > NEVER { NO_LOOKUP } else { found(&due[address]) };
        family.same(input, &due, &self.lookup(address as u8));
        let above = ADDRESSES + random.byte() % ADDRESSES;
        family.same(input, &NO_LOOKUP, &self.lookup(above));
    }
}

/// What traces, issues and declines are answered with, by kind and reason.
pub const KINDS: [(u32, u32); 10] = [(1, 0), (2, 0), (3, 0), (4, 0), (5, 0), (6, 0), (8, 1), (8, 2), (8, 3), (8, 4)];

/// The scripts for a controller, one step in so many looked at; each begins its pass anew.
fn scripts() -> usize {
    let mut family = Family::new("exported passes");
    let mut random = Random::new(75);
    let mut seen = BTreeMap::new();
    for (_, make) in FAMILIES {
        let mut now = Pass::new(&Addresses::new(), NEVER);
        let mut controller = Controller::new(&Addresses::new(), NEVER);
        for (op, due) in make().entries {
            let before = controller.last_pick;
            apply(&mut controller, &op);
            let picked = controller.last_pick;
            match (&op, due) {
                (Op::New(occupied, last_pick), _) => now = Pass::new(occupied, *last_pick),
                (Op::Start, Due::Command(command)) => {
                    now.start(before);
                    now.command(&mut family, &command, picked, random.below(8) == 0);
                }
                (_, Due::Command(command)) if now.started => {
                    now.entry(&op);
                    let look = random.below(16) == 0;
                    now.command(&mut family, &command, picked, look);
                    *seen.entry((now.latest.kind, now.latest.reason)).or_insert(0) += usize::from(look);
                }
                (Op::Lookups, Due::Found(all, _)) if now.started && random.below(8) == 0 => {
                    now.lookups(&mut family, &all, &mut random);
                }
                (Op::Gone(number), Due::Gone(found)) if now.started => {
                    now.report(&mut family, *number, &found, random.below(12) == 0);
                }
                _ => {}
            }
        }
    }
    let rare = KINDS.iter().find(|kind| seen.get(kind).is_none_or(|&times| times < 20));
    assert_eq!(rare, None, "commands by kind and reason: {seen:?}");
    family.done()
}

/// Every number as the last pick of a pass in which a target without an address replies: before the reply, with the
/// Assign outstanding, and with that refused. Above 127 all is refused, whatever the list is.
fn last_picks() -> usize {
    let mut family = Family::new("passes with last picks");
    let mut random = Random::new(79);
    for last_pick in 0..=255 {
        let occupied = shelves::occupied(&mut random);
        let mut controller = Controller::new(&occupied, last_pick);
        let mut now = Pass::new(&occupied, last_pick);
        let first = controller.start();
        now.command(&mut family, &first, controller.last_pick, true);
        let rubbish: Vec<u16> = random.bytes(9).into_iter().map(u16::from).collect();
        let reply = commands::get_udid(&commands::reply_bytes(&shelves::any_udid(&mut random), 0xff));
        for trace in [build(&commands::prepare()), build(&reply), Ok(rubbish)] {
            let trace = trace.expect("the trace of a command");
            now.trace(&trace);
            let command = controller.step(&trace);
            now.command(&mut family, &command, controller.last_pick, true);
            let all: Vec<controller::Found> = (0..ADDRESSES).map(|address| controller.lookup(address)).collect();
            now.lookups(&mut family, &all, &mut random);
        }
    }
    family.done()
}

/// The good traces of a pass that binds one target: to Prepare To ARP, Get UDID and Assign Address, as these are handed out.
fn good_traces(udid: &commands::Udid) -> Vec<Vec<u16>> {
    let mut controller = Controller::new(&Addresses::new(), NEVER);
    let mut command = controller.start();
    let mut traces = vec![];
    for _ in 0..3 {
        let sent = match &command {
            commands::Command::Prepare => commands::prepare(),
            commands::Command::GetUdid => commands::get_udid(&commands::reply_bytes(udid, 0xff)),
            commands::Command::Assign(u, a) => commands::assign(u, *a),
            other => panic!("{other:?} is not sent"),
        };
        let trace = build(&sent).expect("the trace of a command");
        command = controller.step(&trace);
        traces.push(trace);
    }
    traces
}

/// A last trace of more symbols than any that fits: how it begins decides, whatever follows. A list can have 65531. It is
/// handed to a step, or to the first half of one.
fn long_traces() -> usize {
    let mut family = Family::new("passes with long traces");
    let good = good_traces(&shelves::any_udid(&mut Random::new(77)));
    for (place, last) in good.iter().enumerate() {
        for (kept, symbol) in [(last.len(), 0), (last.len(), 65_535), (last.len() - 1, 257), (0, 256), (0, 258)] {
            for length in [524, 525, 526, 527, 528, 1_000, usize::from(MOST_SYMBOLS)] {
                let long = [&last[..kept], &vec![symbol; length - kept]].concat();
                for last in [Op::Step(long.clone()), Op::Choose(long)] {
                    let steps = good[..place].iter().map(|trace| Op::Step(trace.clone()));
                    let input = || format!("place {place} kept {kept} symbol {symbol} length {length}");
                    one_pass(&mut family, steps.chain([last]), input);
                }
            }
        }
    }
    family.done()
}

/// A pass of these operations, each looked at; in the end 0Dh is looked up.
fn one_pass(family: &mut Family, ops: impl Iterator<Item = Op>, input: impl Fn() -> String) {
    let mut controller = Controller::new(&Addresses::new(), NEVER);
    let mut now = Pass::new(&Addresses::new(), NEVER);
    now.command(family, &controller.start(), NEVER, false);
    for op in ops {
        now.entry(&op);
        if let Due::Command(command) = apply(&mut controller, &op) {
            now.command(family, &command, controller.last_pick, true);
        }
    }
    family.same(input, &found(&controller.lookup(0x0d)), &now.lookup(0x0d));
}

pub fn all() -> usize {
    command_traces() + assigned_numbers() + scripts() + last_picks() + long_traces()
}
