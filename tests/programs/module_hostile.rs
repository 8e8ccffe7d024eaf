//! Modules to which anything happens, and modules of any numbers.

use crate::exported_modules_abi::{HbModule, Udid};
use crate::family::Family;
use crate::module_pair::Pair;
use crate::module_reached::Reached;
use reference::module::{Module, WRITE};
use reference::module_bus::End;
use reference::module_events::run;
use reference::random::Random;
use reference::shelves::{any_udid, with_kind, KINDS};

/// The phases that a module stands in; a number above counts as silent.
const LAST_PHASE: u8 = 13;

/// Any module that a record describes, or one that was powered on.
fn any_module(random: &mut Random) -> Module {
    let udid = with_kind(any_udid(random), random.pick(&KINDS));
    let fresh = [random.byte(), random.byte(), random.byte(), random.byte()];
    let some = [0xff, 0x41, 0x21, 0xfd, random.byte() | 1];
    let (byte, flag) = (random.pick(&some), random.byte() % 2);
    let powered = Module::power_on(udid, random.byte(), fresh);
    if random.below(4) == 0 {
        return powered;
    }
    Module::of_record(udid, byte, flag, fresh).unwrap_or(powered)
}

/// Packets, whole and with a mistake, and anything else, one after the other.
fn random_events(reached: &mut Reached) -> usize {
    let mut family = Family::new("module, random events");
    let mut random = Random::new(140);
    for _ in 0..2500 {
        let mut pair = Pair::of(any_module(&mut random));
        for _ in 0..20 {
            let events = run(&mut random, &pair.due);
            pair.all(&mut family, reached, &events);
        }
    }
    family.done()
}

/// Every number but 0 is a flag that is set.
fn other_flags(reached: &mut Reached) -> usize {
    let mut family = Family::new("module, other flags");
    let mut random = Random::new(141);
    for number in 1..=255 {
        for _ in 0..4 {
            let mut pair = Pair::of(any_module(&mut random));
            let (valid, resolved) = (pair.given.valid, pair.given.resolved);
            let other = random.byte() | 1;
            pair.given.valid = valid * number;
            pair.given.resolved = resolved * random.pick(&[number, other]);
            for _ in 0..4 {
                let events = run(&mut random, &pair.due);
                pair.all(&mut family, reached, &events);
            }
        }
    }
    family.done()
}

/// Any numbers at all: what they stand for is not said, but for these things.
fn any_numbers() -> usize {
    let mut family = Family::new("module, any numbers");
    let mut random = Random::new(142);
    for round in 0..60_000usize {
        let phase = if round % 2 == 0 { random.byte() % (LAST_PHASE + 1) } else { random.byte() };
        let near = [0, 1, 15, 16, 17, 18, 19, 20, random.byte()];
        let module = HbModule {
            udid: Udid { high: random.draw(), low: random.draw() },
            fresh: random.draw() as u32,
            home: random.byte(),
            valid: random.pick(&[0, 1, 2, 255]),
            address: random.byte(),
            resolved: random.pick(&[0, 1, 2, 255]),
            phase,
            place: random.pick(&near),
            pec: random.byte(),
            given: random.byte(),
        };
        let some = [WRITE, 0xc3, 1, 2, 3, 4, 17, random.byte()];
        one(&mut family, module, random.pick(&some), [random.byte(), random.byte(), random.byte(), random.byte()]);
    }
    family.done()
}

/// Whatever the numbers are: every call returns, and the same again; above the last phase it is silent; STOP, lost and
/// NACK leave it silent, and nothing else changes; where Address Valid is clear no directed command reaches it,
/// whatever the address is; any START is followed by a packet that is obeyed.
fn one(family: &mut Family, module: HbModule, byte: u8, fresh: [u8; 4]) {
    let input = || format!("{module:02x?} {byte:02x}");
    let (heard, supplied) = (module.received(byte), module.supplied());
    family.same(input, &(heard, supplied), &(module.received(byte), module.supplied()));
    if module.phase > LAST_PHASE {
        family.same(input, &(0, 0), &(heard.ack, supplied.drives));
    }
    family.same(input, &(true, true), &(heard.ack < 2, supplied.drives < 2 && supplied.byte < 256));
    if supplied.drives == 0 {
        family.same(input, &0xff, &supplied.byte);
    }
    let silent = HbModule { phase: 0, place: 0, pec: 0, given: 0, ..module };
    if heard.ack == 0 {
        family.same(input, &silent.lasting(), &heard.after.lasting());
        family.same(input, &true, &heard.after.is_silent());
    }
    for after in [module.stopped(), module.told_lost()] {
        family.same(input, &(silent.lasting(), true), &(after.lasting(), after.is_silent()));
    }
    family.same(input, &silent.lasting(), &supplied.after.lasting());
    let renewed = HbModule { fresh: u32::from_be_bytes(fresh), ..module };
    family.same(input, &renewed.lasting(), &module.refreshed(fresh).lasting());
    family.same(input, &(module.supplied().byte, heard.ack), &{
        let other = module.refreshed(fresh);
        (other.supplied().byte, other.received(byte).ack)
    });
    if module.valid == 0 {
        family.same(input, &0xff, &module.address_byte());
    } else if module.address < 128 {
        family.same(input, &(2 * module.address + 1), &module.address_byte());
    }
    for command in [module.address.wrapping_mul(2), module.address.wrapping_mul(2) + 1] {
        if module.valid == 0 && (0x20..0xfe).contains(&command) {
            let mut directed = module;
            directed.start();
            family.same(input, &(true, false), &(directed.hear(WRITE), directed.hear(command)));
        }
    }
    let mut obeys = module;
    obeys.start();
    let taken = [WRITE, 0x01, 0xc0].map(|byte| obeys.hear(byte));
    family.same(input, &[true; 3], &taken);
    let prepared = HbModule { resolved: 0, ..module };
    family.same(input, &prepared.lasting(), &obeys.lasting());
}

/// A module that is told STOP, lost or START twice is as after one of them.
fn twice() -> usize {
    let mut family = Family::new("module, twice");
    let mut random = Random::new(143);
    for _ in 0..2000 {
        let mut reference = any_module(&mut random);
        let mut module = HbModule::like(&reference);
        let events = run(&mut random, &reference);
        for event in events {
            event.happen(&mut reference);
            event.happen(&mut module);
        }
        let input = || format!("{reference:02x?}");
        family.same(input, &module.stopped(), &module.stopped().stopped());
        family.same(input, &module.told_lost(), &module.stopped());
        let twice = module.started().started();
        let once = module.stopped().started();
        for byte in 0..=255 {
            family.same(input, &once.received(byte).ack, &twice.received(byte).ack);
        }
        family.same(input, &(0, 0xff), &(twice.supplied().drives, twice.supplied().byte));
    }
    family.done()
}

/// Every family here.
pub fn all(reached: &mut Reached) -> usize {
    random_events(reached) + other_flags(reached) + any_numbers() + twice()
}
