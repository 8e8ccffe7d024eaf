//! Scripts with random answers to a controller: good ones, wrong ones, and starts and reports at any time. Some are given to
//! the first half of a step, and what is chosen is issued or declined.

use crate::addresses::*;
use crate::commands::*;
use crate::good::*;
use crate::mistakes::*;
use crate::random::Random;
use crate::recorder::{Op, Recorder};
use crate::shelves::*;

/// How many answers in a hundred are wrong, how many Get UDIDs end the pass, how often a pass starts in the middle, and
/// how often a module is reported gone. Where none is to end the pass, no wrong answer does. How many answers go to a first
/// half, how many choices are declined, and how often there is what is answered with 21.
#[derive(Clone, Copy)]
struct Temper {
    prepare: usize,
    get_udid: usize,
    assign: usize,
    over: usize,
    restart: usize,
    gone: usize,
    choose: usize,
    decline: usize,
    stray: usize,
}

const CALM: Temper =
    Temper { prepare: 0, get_udid: 0, assign: 0, over: 12, restart: 0, gone: 0, choose: 0, decline: 0, stray: 0 };

/// Who may reply, and with which address bytes.
struct Faces {
    udids: Vec<Udid>,
    address_bytes: Vec<u8>,
}

/// So many UDIDs, and address bytes of so many addresses, with bit 0 either way, FFh, FEh, reserved, on added rows and
/// any.
fn faces(random: &mut Random, udid_count: usize, address_count: usize) -> Faces {
    let row = random.pick(&added());
    let mut address_bytes = vec![NO_ADDRESS, 0xfe, 2 * random.pick(&RESERVED) + 1, 2 * row, 2 * row + 1, random.byte()];
    for _ in 0..address_count {
        let even = random.byte() & 0xfe;
        address_bytes.extend([even, even + 1, even + 1]);
    }
    Faces { udids: udids(random, udid_count), address_bytes }
}

fn chance(random: &mut Random, percent: usize) -> bool {
    random.below(100) < percent
}

/// A number to report: an address that is bound, claimed, left or to be assigned, where there is one, or any.
fn reported(recorder: &Recorder, random: &mut Random) -> u8 {
    let some = match (random.below(8), recorder.outstanding().gives()) {
        (0..=2, _) => recorder.answered_with(0),
        (3, _) => recorder.answered_with(16),
        (4, _) => recorder.answered_with(20),
        (5, Some((_, address))) => vec![address],
        (6, _) => listed().iter().copied().collect(),
        _ => vec![],
    };
    if some.is_empty() {
        return random.byte();
    }
    random.pick(&some)
}

/// Now and then reports, where a script has any; now and then the same one twice.
fn reports(recorder: &mut Recorder, random: &mut Random, percent: usize) {
    while percent > 0 && chance(random, percent) {
        let number = reported(recorder, random);
        recorder.gone(number);
        if chance(random, 10) {
            recorder.gone(number);
        }
    }
}

/// An end of the pass: NACK to one of the first three bytes, or a reply with another count.
fn ending(random: &mut Random, udid: &Udid) -> Vec<u16> {
    let reply = get_udid(&reply_bytes(udid, 0x21));
    match random.below(4) {
        0 => other_count(random, &reply),
        1 => nacked_at(&trace_of(&reply), random.below(2)),
        _ => all_resolved(),
    }
}

/// The answer of one of the faces, good or wrong.
fn answer(random: &mut Random, temper: Temper, faces: &Faces, command: &Command) -> Vec<u16> {
    let udid = random.pick(&faces.udids);
    let (right, wrong) = match command {
        Command::Prepare => (prepare(), temper.prepare),
        Command::Assign(udid, address) => (assign(udid, *address), temper.assign),
        _ => (get_udid(&reply_bytes(&udid, random.pick(&faces.address_bytes))), temper.get_udid),
    };
    if *command == Command::GetUdid && chance(random, temper.over) {
        ending(random, &udid)
    } else if chance(random, wrong) {
        mistaken(random, &right)
    } else {
        trace_of(&right)
    }
}

/// Steps that nothing is outstanding for.
fn idle(recorder: &mut Recorder, random: &mut Random) {
    for _ in 0..random.below(3) {
        let udid = any_udid(random);
        let trace = match random.below(5) {
            0 => trace_of(&prepare()),
            1 => reply_trace(&udid, NO_ADDRESS),
            2 => trace_of(&assign(&udid, 0x30)),
            3 => all_resolved(),
            _ => rubbish(random),
        };
        recorder.step(trace);
    }
}

/// What is answered with 21: traces while a choice waits, else issues and declines.
fn strays(recorder: &mut Recorder, random: &mut Random, temper: Temper, faces: &Faces) {
    while temper.stray > 0 && chance(random, temper.stray) {
        let command = random_command(recorder, random);
        let trace = answer(random, temper, faces, &command);
        recorder.record(match (recorder.outstanding().is_choice(), random.below(2)) {
            (true, 0) => Op::Step(trace),
            (true, _) => Op::Choose(trace),
            (false, 0) => Op::Issue,
            (false, _) => Op::Decline,
        });
    }
}

/// One of those that are sent, the Assign of the choice that waits among them.
fn random_command(recorder: &Recorder, random: &mut Random) -> Command {
    match (random.below(3), recorder.outstanding().gives()) {
        (0, _) => Command::Prepare,
        (1, Some((udid, address))) => Command::Assign(udid, address),
        _ => Command::GetUdid,
    }
}

/// What comes next in a pass. The command that is outstanding is answered, to a step or to a first half; or the choice that
/// waits is issued or declined. None if the pass would end and must not.
fn next(recorder: &Recorder, random: &mut Random, temper: Temper, faces: &Faces) -> Option<Op> {
    if recorder.outstanding().is_choice() {
        return Some(if chance(random, temper.decline) { Op::Decline } else { Op::Issue });
    }
    let trace = answer(random, temper, faces, &recorder.outstanding());
    if temper.over == 0 && recorder.trial(&trace) == Command::Ended {
        return None;
    }
    Some(if temper.choose > 0 && chance(random, temper.choose) { Op::Choose(trace) } else { Op::Step(trace) })
}

/// A pass to its end, or to the next start.
fn pass(recorder: &mut Recorder, random: &mut Random, temper: Temper, faces: &Faces) {
    recorder.start();
    reports(recorder, random, temper.gone);
    while recorder.outstanding().is_running() {
        let Some(op) = next(recorder, random, temper, faces) else {
            continue;
        };
        recorder.record(op);
        reports(recorder, random, temper.gone);
        strays(recorder, random, temper, faces);
        if chance(random, 2) {
            recorder.lookups();
        }
        if chance(random, temper.restart) {
            return;
        }
    }
    recorder.lookups();
    if chance(random, 20) {
        idle(recorder, random);
        strays(recorder, random, temper, faces);
        reports(recorder, random, temper.gone);
        recorder.lookups();
    }
}

/// So many controllers, each with a few passes among faces of its own.
fn controllers(seed: u64, count: usize, temper: Temper, setting: fn(&mut Random) -> (Addresses, Faces)) -> Recorder {
    let mut random = Random::new(seed);
    let mut recorder = Recorder::new(&Addresses::new(), NEVER);
    for _ in 0..count {
        let (occupied, faces) = setting(&mut random);
        recorder.renew(&occupied, any_last_pick(&mut random));
        idle(&mut recorder, &mut random);
        reports(&mut recorder, &mut random, temper.gone);
        strays(&mut recorder, &mut random, temper, &faces);
        for _ in 0..1 + random.below(4) {
            pass(&mut recorder, &mut random, temper, &faces);
        }
    }
    recorder
}

/// A few UDIDs again and again, and a few addresses.
fn few(random: &mut Random) -> (Addresses, Faces) {
    let (udid_count, address_count) = (1 + random.below(6), 1 + random.below(3));
    (occupied(random), faces(random, udid_count, address_count))
}

/// Fixed targets alone, on two addresses, each of them reserved, occupied, on an added row, both of these, or neither.
fn claims(random: &mut Random) -> (Addresses, Faces) {
    let fixed = udids(random, 5).into_iter().map(|udid| with_kind(udid, 0)).collect();
    let occupied = Addresses::from([0x20, 0x21, 0x2c]);
    let row = random.pick(&added());
    let addresses = [random.pick(&[0x20, 0x0c, 0x61, 0x7f, 0x30, 0x2c, row]), 0x50 + random.below(4) as u8];
    (occupied, Faces { udids: fixed, address_bytes: vec![2 * addresses[0], 2 * addresses[1] + 1] })
}

/// Targets of every kind on three added rows, on one of the first 21 and on one that is neither, or with no address. Few
/// addresses are free or many, and the first of the rows is occupied or not.
fn rows(random: &mut Random) -> (Addresses, Faces) {
    let all = added();
    let rows = [random.pick(&all), random.pick(&all), random.pick(&all)];
    let mut occupied = match random.below(2) {
        0 => Addresses::new(),
        _ => assignable().into_iter().filter(|&address| address > 0x50).collect(),
    };
    if random.below(3) == 0 {
        occupied.insert(rows[0]);
    }
    let mut udids = udids(random, 4);
    udids.extend([[0x11; 16], [0x12; 16], [0x81; 16]]);
    let mut address_bytes: Vec<u8> = rows.iter().flat_map(|row| [2 * row, 2 * row + 1]).collect();
    address_bytes.extend([2 * random.pick(&RESERVED), 0x41, NO_ADDRESS]);
    (occupied, Faces { udids, address_bytes })
}

/// At most five free addresses.
fn exhausted(random: &mut Random) -> (Addresses, Faces) {
    let count = random.below(6);
    (leaving(random, count), faces(random, 8, 2))
}

/// So many UDIDs that addresses run out before they repeat.
fn many(random: &mut Random) -> (Addresses, Faces) {
    (occupied(random), faces(random, 200, 20))
}

pub fn repeats() -> Recorder {
    controllers(70, 900, Temper { assign: 10, over: 6, ..CALM }, few)
}

pub fn claimed() -> Recorder {
    controllers(71, 500, Temper { assign: 5, over: 6, ..CALM }, claims)
}

pub fn on_rows() -> Recorder {
    controllers(91, 400, Temper { assign: 10, get_udid: 5, over: 4, ..CALM }, rows)
}

pub fn gone_on_rows() -> Recorder {
    controllers(92, 300, Temper { assign: 10, over: 4, gone: 25, ..CALM }, rows)
}

pub fn none_free() -> Recorder {
    controllers(72, 700, Temper { assign: 10, get_udid: 5, over: 1, ..CALM }, exhausted)
}

pub fn mistakes() -> Recorder {
    controllers(73, 900, Temper { prepare: 30, get_udid: 40, assign: 40, over: 3, ..CALM }, few)
}

/// Passes that go on to the 128th Get UDID.
pub fn endless() -> Recorder {
    controllers(74, 60, Temper { assign: 20, over: 0, ..CALM }, many)
}

/// Passes of wrong replies alone, or nearly.
pub fn again() -> Recorder {
    controllers(75, 60, Temper { get_udid: 95, assign: 80, over: 0, ..CALM }, few)
}

pub fn restarts() -> Recorder {
    controllers(76, 500, Temper { prepare: 5, get_udid: 10, assign: 10, over: 3, restart: 15, ..CALM }, few)
}

pub fn gone() -> Recorder {
    controllers(85, 300, Temper { assign: 10, over: 4, gone: 25, ..CALM }, few)
}

pub fn gone_and_claimed() -> Recorder {
    controllers(86, 250, Temper { assign: 5, over: 4, gone: 25, ..CALM }, claims)
}

/// What is taken back is all that can be picked.
pub fn gone_and_none_free() -> Recorder {
    controllers(87, 250, Temper { assign: 10, over: 1, gone: 40, ..CALM }, exhausted)
}

pub fn gone_and_mistaken() -> Recorder {
    controllers(88, 500, Temper { prepare: 5, get_udid: 20, assign: 20, over: 3, restart: 5, gone: 30, ..CALM }, few)
}

pub fn gone_for_ever() -> Recorder {
    controllers(89, 25, Temper { assign: 10, over: 0, gone: 40, ..CALM }, many)
}

/// Most answers go to first halves.
const HALVED: Temper = Temper { assign: 10, over: 3, gone: 15, choose: 80, decline: 6, stray: 12, ..CALM };

/// A few targets again and again, by halves.
pub fn choices() -> Recorder {
    controllers(93, 500, HALVED, few)
}

/// Fixed targets alone, by halves.
pub fn choices_and_claims() -> Recorder {
    controllers(94, 400, HALVED, claims)
}

/// Targets on added rows, by halves.
pub fn choices_on_rows() -> Recorder {
    controllers(95, 300, HALVED, rows)
}

/// At most five free addresses, by halves: some replies find none.
pub fn choices_and_none_free() -> Recorder {
    controllers(96, 400, Temper { over: 1, decline: 3, ..HALVED }, exhausted)
}

/// Wrong answers and starts at any time, by halves.
pub fn choices_and_mistakes() -> Recorder {
    controllers(97, 500, Temper { prepare: 5, get_udid: 20, assign: 20, restart: 5, ..HALVED }, few)
}

/// Passes that go on to the 128th Get UDID, or nearly: few choices are declined.
pub fn choices_for_ever() -> Recorder {
    controllers(98, 30, Temper { over: 0, decline: 1, stray: 3, ..HALVED }, many)
}
