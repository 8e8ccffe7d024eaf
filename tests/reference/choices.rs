//! Scripts in which an address is chosen apart from its sending: every operation at every point of a pass, and short events
//! in every order.

use crate::addresses::*;
use crate::commands::*;
use crate::good::*;
use crate::mistakes::trace_of;
use crate::orders::*;
use crate::recorder::{Op, Recorder};

/// Those with a first byte below 40h are fixed.
fn udid(first: u8) -> Udid {
    [first; 16]
}

/// A target replies, to the first half of a step.
fn choose(recorder: &mut Recorder, first: u8, address_byte: u8) -> Command {
    recorder.choose(reply_trace(&udid(first), address_byte))
}

/// A pass of a new controller with Get UDID outstanding. 20h and 21h are bound, and 48h on an added row. 30h is claimed by
/// two, and 31h is left. 10h is occupied, and 2Ch, which is an added row.
fn scene(recorder: &mut Recorder) {
    recorder.renew(&Addresses::from([0x10, 0x2c]), 0x3f);
    begin(recorder);
    for (first, address_byte) in [(0x01, 0x41), (0x81, 0x43), (0x02, 0x61), (0x03, 0x61), (0x83, 0x63), (0x11, 0x91)] {
        join(recorder, &udid(first), address_byte);
    }
    recorder.gone(0x31);
}

/// All is occupied but 20h, to which a target is bound; then another replies.
fn exhausted(recorder: &mut Recorder) {
    recorder.renew(&(0..ADDRESSES).filter(|&address| address != 0x20).collect(), NEVER);
    begin(recorder);
    join(recorder, &udid(0x81), NO_ADDRESS);
    choose(recorder, 0x82, NO_ADDRESS);
}

/// At the 128th Get UDID of a pass.
fn last_get_udid(recorder: &mut Recorder) {
    recorder.renew(&Addresses::new(), 0x3f);
    begin(recorder);
    for _ in 1..128 {
        recorder.choose(vec![]);
    }
}

/// No choice waits.
const IDLE: [fn(&mut Recorder); 9] = [
    |r| r.renew(&Addresses::new(), NEVER),
    |r| {
        scene(r);
        r.start();
    },
    scene,
    |r| {
        scene(r);
        reply(r, &udid(0x85), 0x45);
    },
    |r| {
        scene(r);
        choose(r, 0x05, 0x41);
        r.issue();
    },
    |r| {
        scene(r);
        r.choose(all_resolved());
    },
    |r| {
        scene(r);
        choose(r, 0x85, 0x45);
        r.decline();
    },
    exhausted,
    last_get_udid,
];

/// Replies after the scene: movable ones that keep an address, a free one or one that is left, or get a picked one; fixed
/// ones that get one; fixed ones that claim one, of each kind; and those that were bound until then.
const REPLIES: [(u8, u8); 22] = [
    (0x85, 0x45),
    (0x83, 0x63),
    (0x85, NO_ADDRESS),
    (0x85, 0x41),
    (0x85, 0x95),
    (0x05, NO_ADDRESS),
    (0x05, 0x45),
    (0x05, 0x63),
    (0x05, 0x95),
    (0x05, 0x41),
    (0x05, 0x43),
    (0x05, 0x61),
    (0x05, 0x21),
    (0x05, 0x59),
    (0x05, 0x19),
    (0x05, 0x91),
    (0x81, 0x43),
    (0x81, 0x47),
    (0x81, NO_ADDRESS),
    (0x01, 0x41),
    (0x01, 0x91),
    (0x11, 0x91),
];

/// The Assign that is outstanding or waits, as a trace; else some Assign.
fn own_assign(recorder: &Recorder) -> Vec<u16> {
    let (udid, address) = recorder.outstanding().gives().unwrap_or((udid(0x85), 0x45));
    trace_of(&assign(&udid, address))
}

/// The address that is to be assigned; else one that is bound.
fn own_address(recorder: &Recorder) -> u8 {
    recorder.outstanding().gives().map_or(0x20, |(_, address)| address)
}

/// Whatever may be done to a controller.
const OPERATIONS: [fn(&Recorder) -> Op; 16] = [
    |_| Op::Start,
    |_| Op::Issue,
    |_| Op::Decline,
    |_| Op::Step(trace_of(&prepare())),
    |_| Op::Choose(trace_of(&prepare())),
    |_| Op::Step(reply_trace(&udid(0x8a), NO_ADDRESS)),
    |_| Op::Choose(reply_trace(&udid(0x8a), NO_ADDRESS)),
    |_| Op::Choose(reply_trace(&udid(0x0a), 0x43)),
    |r| Op::Step(own_assign(r)),
    |r| Op::Choose(own_assign(r)),
    |_| Op::Step(all_resolved()),
    |_| Op::Choose(all_resolved()),
    |_| Op::Choose(vec![]),
    |r| Op::Gone(own_address(r)),
    |_| Op::Gone(0x21),
    |_| Op::Lookups,
];

/// Two operations one after the other; then the choice is issued if one waits, and the Assign completes if one is
/// outstanding.
fn two_operations(recorder: &mut Recorder, point: impl Fn(&mut Recorder)) {
    for first in OPERATIONS {
        for second in OPERATIONS {
            point(recorder);
            recorder.record(first(recorder));
            recorder.record(second(recorder));
            recorder.issue();
            accept(recorder);
            recorder.lookups();
        }
    }
}

/// Every two operations at every point, with a choice of each kind and without one.
pub fn every_operation() -> Recorder {
    let mut recorder = Recorder::new(&Addresses::new(), NEVER);
    for point in IDLE {
        two_operations(&mut recorder, point);
    }
    for (first, address_byte) in REPLIES {
        two_operations(&mut recorder, |r| {
            scene(r);
            choose(r, first, address_byte);
        });
    }
    two_operations(&mut recorder, |r| {
        last_get_udid(r);
        choose(r, 0x85, 0x45);
    });
    recorder
}

/// Short events at an address. The last one starts a pass, and somebody acknowledges Prepare.
const EVENTS: [fn(&Recorder, u8) -> Vec<Op>; 9] = [
    |_, at| vec![Op::Choose(reply_trace(&udid(0x01), 2 * at + 1))],
    |_, at| vec![Op::Choose(reply_trace(&udid(0x02), 2 * at + 1))],
    |_, at| vec![Op::Choose(reply_trace(&udid(0x81), 2 * at + 1))],
    |_, _| vec![Op::Choose(reply_trace(&udid(0x82), NO_ADDRESS))],
    |_, _| vec![Op::Issue],
    |_, _| vec![Op::Decline],
    |r, _| vec![Op::Choose(own_assign(r))],
    |_, at| vec![Op::Gone(at)],
    |_, _| vec![Op::Start, Op::Choose(trace_of(&prepare()))],
];

/// The events at an address in every order, each time in a new pass, and after a fixed target has taken the address.
fn orders(place: &Place) -> Recorder {
    let first = |recorder: &mut Recorder| {
        begin(recorder);
        choose(recorder, 0x01, 2 * place.at + 1);
        recorder.issue();
        accept(recorder);
    };
    let event = |recorder: &mut Recorder, number: usize| {
        let ops = EVENTS[number](recorder, place.at);
        ops.into_iter().for_each(|op| recorder.record(op));
    };
    in_every_order(place, EVENTS.len(), first, event)
}

pub fn every_order() -> Recorder {
    orders(&FREE)
}

pub fn every_order_on_a_row() -> Recorder {
    orders(&ROW)
}

pub fn every_order_on_an_occupied_row() -> Recorder {
    orders(&OCCUPIED_ROW)
}
