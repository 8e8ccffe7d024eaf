//! Scripts in which modules are reported gone: every number at every point of a pass, and short events in every order.

use crate::addresses::*;
use crate::commands::*;
use crate::good::*;
use crate::mistakes::trace_of;
use crate::orders::*;
use crate::recorder::Recorder;

/// Those with a first byte below 40h are fixed.
fn udid(first: u8) -> Udid {
    [first; 16]
}

fn all_join(recorder: &mut Recorder, targets: &[(u8, u8)]) {
    for (first, address_byte) in targets {
        join(recorder, &udid(*first), *address_byte);
    }
}

/// Two addresses, and one of an added row.
fn occupied() -> Addresses {
    Addresses::from([0x10, 0x11, 0x2c])
}

/// A pass of a new controller in which an address is whatever it can be, with Get UDID outstanding. 20h, 21h, 33h and a
/// picked one are bound. 30h is claimed by two, and so is 10h, which is occupied. 31h is left, 32h given up for 33h. So
/// it is on added rows: 48h is bound, 4Ah claimed by two, and so is 2Ch, which is occupied; 49h is left, 4Bh given up
/// for 44h.
fn scene(recorder: &mut Recorder) {
    recorder.renew(&occupied(), 0x3f);
    begin(recorder);
    all_join(recorder, &[(0x01, 0x41), (0x81, 0x43), (0x82, NO_ADDRESS), (0x02, 0x61), (0x03, 0x61), (0x04, 0x21)]);
    all_join(recorder, &[(0x83, 0x63), (0x84, 0x65), (0x84, 0x67)]);
    all_join(recorder, &[(0x11, 0x91), (0x12, 0x95), (0x13, 0x95), (0x14, 0x59)]);
    all_join(recorder, &[(0x15, 0x93), (0x16, 0x97), (0x16, 0x89)]);
    recorder.gone(0x31);
    recorder.gone(0x49);
}

fn unstarted(recorder: &mut Recorder) {
    recorder.renew(&occupied(), 0x3f);
}

fn preparing(recorder: &mut Recorder) {
    scene(recorder);
    recorder.start();
}

/// An Assign is outstanding for an address that its target keeps.
fn keeping(recorder: &mut Recorder) {
    scene(recorder);
    reply(recorder, &udid(0x85), 0x45);
}

fn picking(recorder: &mut Recorder) {
    scene(recorder);
    reply(recorder, &udid(0x85), NO_ADDRESS);
}

/// A fixed target is assigned the address of another, which is fixed too.
fn beside_fixed(recorder: &mut Recorder) {
    scene(recorder);
    reply(recorder, &udid(0x05), 0x41);
}

fn beside_movable(recorder: &mut Recorder) {
    scene(recorder);
    reply(recorder, &udid(0x05), 0x43);
}

/// A fixed target is assigned the added row of another, of two, of nobody, or one that is left.
fn beside_row(recorder: &mut Recorder) {
    scene(recorder);
    reply(recorder, &udid(0x05), 0x91);
}

fn beside_two_on_row(recorder: &mut Recorder) {
    scene(recorder);
    reply(recorder, &udid(0x05), 0x95);
}

fn on_row(recorder: &mut Recorder) {
    scene(recorder);
    reply(recorder, &udid(0x05), 0x97);
}

fn replacing_on_row(recorder: &mut Recorder) {
    scene(recorder);
    reply(recorder, &udid(0x05), 0x93);
}

/// One that is bound on an added row replies again.
fn repeating_on_row(recorder: &mut Recorder) {
    scene(recorder);
    reply(recorder, &udid(0x11), 0x91);
}

fn beside_two(recorder: &mut Recorder) {
    scene(recorder);
    reply(recorder, &udid(0x05), 0x61);
}

/// The module that was reported gone is back at its address, or another is there.
fn returning(recorder: &mut Recorder) {
    scene(recorder);
    reply(recorder, &udid(0x83), 0x63);
}

fn replacing(recorder: &mut Recorder) {
    scene(recorder);
    reply(recorder, &udid(0x05), 0x63);
}

/// A target that is bound replies again, and keeps its address.
fn repeating(recorder: &mut Recorder) {
    scene(recorder);
    reply(recorder, &udid(0x81), 0x43);
}

fn ended(recorder: &mut Recorder) {
    scene(recorder);
    recorder.step(all_resolved());
}

/// After 21.
fn idle(recorder: &mut Recorder) {
    ended(recorder);
    recorder.step(all_resolved());
}

/// After 13: all four addresses that were free are in use, one of them claimed by two.
fn exhausted(recorder: &mut Recorder) {
    recorder.renew(&(0..ADDRESSES).filter(|address| ![0x20, 0x21, 0x22, 0x30].contains(address)).collect(), NEVER);
    begin(recorder);
    all_join(recorder, &[(0x01, 0x41), (0x81, 0x43), (0x02, 0x61), (0x03, 0x61), (0x82, NO_ADDRESS)]);
    reply(recorder, &udid(0x83), NO_ADDRESS);
}

const POINTS: [fn(&mut Recorder); 19] = [
    unstarted,
    preparing,
    scene,
    keeping,
    picking,
    beside_fixed,
    beside_movable,
    beside_two,
    beside_row,
    beside_two_on_row,
    on_row,
    replacing_on_row,
    repeating_on_row,
    returning,
    replacing,
    repeating,
    ended,
    idle,
    exhausted,
];

/// What comes after a report: the same report, the answer to the command that is outstanding, newcomers to that address
/// and to a picked one, a fixed newcomer, and another report.
fn sequel(recorder: &mut Recorder, number: u8) {
    recorder.lookups();
    recorder.gone(number);
    match recorder.outstanding() {
        Command::Prepare => recorder.step(trace_of(&prepare())),
        _ => accept(recorder),
    };
    recorder.lookups();
    let address_byte = 2 * (number % ADDRESSES);
    all_join(recorder, &[(0x86, address_byte), (0x87, NO_ADDRESS), (0x06, address_byte)]);
    recorder.gone(number);
    join(recorder, &udid(0x88), NO_ADDRESS);
}

/// Every number is reported gone, at every point.
pub fn every_number() -> Recorder {
    let mut recorder = Recorder::new(&Addresses::new(), NEVER);
    for point in POINTS {
        for number in 0..=255 {
            point(&mut recorder);
            recorder.gone(number);
            sequel(&mut recorder, number);
        }
    }
    abandoned(&mut recorder);
    recorder
}

/// After 14 every number is reported gone, in both orders, and then once more.
fn abandoned(recorder: &mut Recorder) {
    let down: Vec<u8> = (0..=255).rev().collect();
    for order in [(0..=255).collect(), down] {
        scene(recorder);
        while recorder.outstanding().is_sent() {
            recorder.step(vec![]);
        }
        for number in order.iter().chain(&order) {
            recorder.gone(*number);
            if number % 16 == 0 {
                recorder.lookups();
            }
        }
        recorder.lookups();
    }
}

/// Short events at an address, and at 21h.
const EVENTS: [fn(&mut Recorder, u8); 9] = [
    |r, at| all_join(r, &[(0x01, 2 * at + 1)]),
    |r, at| all_join(r, &[(0x02, 2 * at + 1)]),
    |r, at| all_join(r, &[(0x81, 2 * at + 1)]),
    |r, _| all_join(r, &[(0x82, NO_ADDRESS)]),
    |r, at| r.gone(at),
    |r, _| r.gone(0x21),
    |r, at| gone_between(r, 0x01, at, accept),
    |r, at| gone_between(r, 0x02, at, refuse),
    |r, _| {
        begin(r);
    },
];

/// A fixed target at an address replies, the module there is reported gone, and then the Assign completes or not.
fn gone_between(recorder: &mut Recorder, first: u8, at: u8, then: fn(&mut Recorder) -> Command) {
    reply(recorder, &udid(first), 2 * at + 1);
    recorder.gone(at);
    then(recorder);
}

/// The events at an address in every order, each time in a new pass.
fn orders(place: &Place) -> Recorder {
    let first = |recorder: &mut Recorder| {
        begin(recorder);
    };
    in_every_order(place, EVENTS.len(), first, |recorder, number| EVENTS[number](recorder, place.at))
}

pub fn every_order() -> Recorder {
    orders(&FREE)
}

pub fn every_order_on_a_row() -> Recorder {
    orders(&ROW)
}

pub fn every_order_on_an_occupied_row() -> Recorder {
    orders(&OCCUPIED_ROW)
}
