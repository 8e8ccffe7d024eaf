//! The library's modules on a bus, bit by bit: passes against its model run, and any commands against the reference's
//! bus.

use crate::exported_modules_abi::{run_model, HbModule, Resumed};
use crate::family::Family;
use reference::addresses::Addresses;
use reference::bus::Target;
use reference::commands::*;
use reference::controller::Controller;
use reference::model::{record_of, BINDINGS};
use reference::module::Module;
use reference::module_bus::ModuleBus;
use reference::module_events::run;
use reference::random::Random;
use reference::shelves;

fn list_of(targets: &[Target]) -> Vec<u8> {
    targets.iter().flat_map(record_of).collect()
}

/// A pass of the reference's controller: how it ends, and how many Get UDIDs and answers there were.
fn pass(controller: &mut Controller, bus: &mut ModuleBus<HbModule>) -> (Command, u32) {
    let (mut command, mut gets) = (controller.start(), 0);
    while command.is_sent() {
        gets += u32::from(command == Command::GetUdid);
        command = controller.step(&bus.answer(&command));
    }
    (command, gets)
}

/// Shelves that a model run takes. Some modules stand inside a packet before the pass.
fn passes() -> usize {
    let mut family = Family::new("modules, whole passes");
    let mut random = Random::new(150);
    let mut none_free = 0;
    for round in 0..600 {
        let count = if round % 20 == 0 { random.below(100) } else { random.below(9) };
        let occupied = shelves::occupied_by_turns(&mut random, round, count);
        let last_pick = shelves::last_pick(&mut random);
        let targets = shelves::targets(&mut random, count, &occupied);
        let mut modules = vec![];
        for target in &targets {
            let flag = u8::from(target.resolved);
            let fresh = random.four();
            let mut module = Resumed::of_record(&target.udid, target.address_byte, flag, fresh).module;
            let begun = [0xc2, random.pick(&[1, 2, 3, 4]), 17];
            module =
                begun[..random.below(4)].iter().fold(module.started(), |module, &byte| module.received(byte).after);
            modules.push(module);
        }
        let input = || format!("{targets:02x?}\noccupied {occupied:02x?}\nlast pick {last_pick:02x}");
        let mut bus = ModuleBus::new(modules);
        family.same(input, &targets, &bus.records());
        let mut controller = Controller::new(&occupied, last_pick);
        let (end, gets) = pass(&mut controller, &mut bus);
        let mut list = list_of(&targets);
        let ran = run_model(&occupied, last_pick, &mut list, &mut [0; BINDINGS]);
        let answer = match end {
            Command::Ended => 0,
            Command::NoneFree(_) => 13,
            _ => 14,
        };
        none_free += usize::from(answer == 13);
        let bound = controller.bindings.len() as u32;
        let due = (answer, gets, u32::from(controller.last_pick), bound);
        family.same(input, &due, &(ran.answer, ran.gets, ran.picked, ran.count));
        family.same(input, &list, &list_of(&bus.records()));
    }
    assert!(none_free > 20, "too few passes end with 13");
    family.done()
}

/// Two buses with the same modules, one of the library and one of the reference. The same commands give the same
/// traces, records and winners: Prepare, Get UDID and Reset, general and directed, and Assign to one of them or to
/// nobody.
fn two_buses() -> usize {
    let mut family = Family::new("modules, two buses");
    let mut random = Random::new(151);
    let mut won = [0; 3];
    for _ in 0..1500 {
        let occupied = Addresses::new();
        let count = random.below(6);
        let targets = shelves::targets(&mut random, count, &occupied);
        let made = |random: &mut Random, target: &Target| {
            Module::of_record(target.udid, target.address_byte, u8::from(target.resolved), random.four())
                .expect("a record")
        };
        let mut due: Vec<Module> = targets.iter().map(|target| made(&mut random, target)).collect();
        let mut given: Vec<HbModule> = due.iter().map(HbModule::like).collect();
        for (one, other) in due.iter_mut().zip(&mut given) {
            for event in run(&mut random, one) {
                event.happen(one);
                event.happen(other);
            }
        }
        let (mut due, mut given) = (ModuleBus::new(due), ModuleBus::new(given));
        for _ in 0..12 {
            let records = due.records();
            let (name, traces) = command(&mut random, &records, &mut due, &mut given);
            let input = || format!("{name} on {records:02x?}");
            family.same(input, &traces.0, &traces.1);
            family.same(input, &due.records(), &given.records());
            family.same(input, &due.winners, &given.winners);
            won[due.winners.len().min(2)] += 1;
        }
    }
    assert!(won[1] > 500, "too few Get UDIDs are answered: {won:?}");
    family.done()
}

/// One command on both buses, its name and the two traces.
fn command(
    random: &mut Random,
    records: &[Target],
    due: &mut ModuleBus<Module>,
    given: &mut ModuleBus<HbModule>,
) -> (String, (Vec<u16>, Vec<u16>)) {
    let nobody = Target { udid: shelves::any_udid(random), address_byte: random.byte(), resolved: false };
    let target = if records.is_empty() { nobody } else { records[random.below(records.len())] };
    let byte = random.pick(&[target.address_byte, nobody.address_byte, 0x03]);
    let address = random.byte() % 128;
    let command = match random.below(8) {
        0 => Command::Prepare,
        1 | 2 => Command::GetUdid,
        3 => Command::Assign(target.udid, address),
        4 => Command::Assign(shelves::near(random, &target.udid), address),
        5 => return (format!("Get UDID {:02x}", byte | 1), (due.ask(byte | 1), given.ask(byte | 1))),
        6 => return (format!("Reset {:02x}", byte & 0xfe), (due.reset(byte & 0xfe), given.reset(byte & 0xfe))),
        _ => return ("Reset".to_string(), (due.reset(0x02), given.reset(0x02))),
    };
    (format!("{command:02x?}"), (due.answer(&command), given.answer(&command)))
}

/// Two modules whose identifiers differ in one bit, for every bit: one has won, the other knows that it has not.
fn every_bit() -> usize {
    let mut family = Family::new("modules, every bit");
    let mut random = Random::new(152);
    for place in 0..128 {
        for round in 0..6 {
            let mut zero = shelves::any_udid(&mut random);
            zero[place / 8] &= !(128 >> (place % 8));
            let mut one = zero;
            one[place / 8] |= 128 >> (place % 8);
            let both = if round % 2 == 0 { [zero, one] } else { [one, zero] };
            let made = |udid: &Udid| Resumed::of_record(udid, 2 * random.pick(&[9, 10, 33]) + 1, 0, [0; 4]).module;
            let mut bus = ModuleBus::new(both.iter().map(made).collect());
            let due = round % 2;
            bus.answer(&Command::GetUdid);
            family.same(|| format!("{both:02x?}"), &vec![due], &bus.winners);
        }
    }
    family.done()
}

/// Every family here.
pub fn all() -> usize {
    passes() + two_buses() + every_bit()
}
