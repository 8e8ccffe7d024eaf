//! Passes over modules, held to the model's bus and to the plain rule.

use reference::addresses::*;
use reference::bus::{Bus, Target};
use reference::commands::*;
use reference::controller::Controller;
use reference::model::{record_of, refusal, BINDINGS};
use reference::module::{kind_of, Kind, Module};
use reference::module_bus::ModuleBus;
use reference::module_events;
use reference::plain_rule::plain_rule;
use reference::random::Random;
use reference::shelves;
use std::collections::BTreeMap;

fn modules_of(random: &mut Random, targets: &[Target]) -> Vec<Module> {
    let module = |target: &Target, fresh| {
        let made = Module::of_record(target.udid, target.address_byte, u8::from(target.resolved), fresh);
        made.expect("a record that a model run takes")
    };
    targets.iter().map(|target| module(target, random.four())).collect()
}

/// All that think that they have won a Get UDID have one UDID and one address byte.
fn one_winner(bus: &ModuleBus<Module>, input: &dyn Fn() -> String) {
    let mut won: Vec<Target> = bus.winners.iter().map(|&k| bus.modules[k].record()).collect();
    won.dedup();
    assert!(won.len() == 1, "{} have won\n{}", won.len(), input());
}

/// A pass over modules and over the model's targets: equal commands, traces and records all the way. The controller and
/// the modules after it, and how many commands were sent.
fn pass(modules: Vec<Module>, occupied: &Addresses, last_pick: u8) -> (Controller, Vec<Module>, usize) {
    let mut real = ModuleBus::new(modules);
    let mut model = Bus { targets: real.records() };
    let before = model.targets.clone();
    let input = || format!("targets {before:02x?}\noccupied {occupied:02x?}\nlast pick {last_pick:02x}");
    let mut controller = Controller::new(occupied, last_pick);
    let (mut command, mut sent) = (controller.start(), 0);
    while command.is_sent() {
        let trace = real.answer(&command);
        assert_eq!(trace, model.answer(&command), "{command:02x?}\n{}", input());
        assert_eq!(real.records(), model.targets, "{command:02x?}\n{}", input());
        let replied = command == Command::GetUdid && !real.winners.is_empty();
        if replied {
            one_winner(&real, &input);
        }
        command = controller.step(&trace);
        assert!(matches!(command, Command::Assign(..) | Command::NoneFree(_)) == replied, "{}", input());
        sent += 1;
    }
    (controller, real.modules, sent)
}

/// The records after a pass are those of the plain rule, and so is its end.
fn by_the_plain_rule(
    before: &[Target],
    occupied: &Addresses,
    last_pick: u8,
    controller: &Controller,
    after: &[Module],
) {
    let plan = plain_rule(before, occupied, last_pick);
    let end = plan.unserved.map_or(Command::Ended, Command::NoneFree);
    assert_eq!((controller.last, controller.last_pick), (end, plan.last_pick), "{before:02x?}");
    for (target, module) in before.iter().zip(after) {
        let due = match plan.bound.get(&target.udid) {
            Some(address) => Target { address_byte: 2 * address + 1, resolved: true, ..*target },
            None => Target { resolved: false, ..*target },
        };
        assert_eq!(module.record(), due, "{before:02x?}");
    }
}

/// Each of the four kinds was bound, and each but the fixed ones, which come first, was left unserved.
#[derive(Default)]
struct Kinds(BTreeMap<(Kind, bool), usize>);

impl Kinds {
    fn add(&mut self, modules: &[Module]) {
        for module in modules {
            *self.0.entry((kind_of(&module.udid), module.resolved)).or_default() += 1;
        }
    }

    fn check(&self) {
        for kind in [Kind::Fixed, Kind::Persistent, Kind::Volatile, Kind::Random] {
            for bound in [false, true].into_iter().filter(|&bound| bound || kind != Kind::Fixed) {
                let times = self.0.get(&(kind, bound)).copied().unwrap_or(0);
                assert!(times > 20, "too few of {kind:?} end with the flag {bound}: {times}");
            }
        }
    }
}

/// Shelves that a model run takes: as the model's bus, and as the plain rule.
pub fn random_shelves() -> usize {
    let mut random = Random::new(120);
    let (mut cases, mut kinds) = (0, Kinds::default());
    for round in 0..400 {
        let count = if round % 8 == 0 { random.below(60) } else { random.below(9) };
        let occupied = shelves::occupied_by_turns(&mut random, round, count);
        let last_pick = shelves::last_pick(&mut random);
        let targets = shelves::targets(&mut random, count, &occupied);
        let modules = modules_of(&mut random, &targets);
        let (controller, after, sent) = pass(modules, &occupied, last_pick);
        by_the_plain_rule(&targets, &occupied, last_pick, &controller, &after);
        kinds.add(&after);
        cases += sent;
    }
    kinds.check();
    cases
}

/// Any module: identifiers that come twice, fixed ones anywhere and without an address, and 7Fh.
fn any_module(random: &mut Random, others: &[Module]) -> Module {
    let another = if others.is_empty() { shelves::any_udid(random) } else { others[random.below(others.len())].udid };
    let mut udid = match random.below(4) {
        0 => another,
        1 => shelves::near(random, &another),
        _ => shelves::any_udid(random),
    };
    if random.below(2) == 0 {
        udid = shelves::with_kind(udid, random.pick(&shelves::KINDS));
    }
    let any = random.byte() | 1;
    let byte = random.pick(&[0xff, 0x41, 0x43, any]);
    let (flag, fresh) = (random.byte() % 2, random.four());
    if random.below(4) == 0 {
        return Module::power_on(udid, random.byte(), fresh);
    }
    let powered = Module::power_on(udid, byte / 2, fresh);
    Module::of_record(udid, byte, flag, fresh).unwrap_or(powered)
}

/// Whatever the modules are, and wherever in a packet they stand, they end as the model's targets; where the list is
/// one that a model run takes, as the plain rule.
pub fn any_modules() -> usize {
    let mut random = Random::new(121);
    let (mut cases, mut ruled, mut inside) = (0, 0, 0);
    for _ in 0..1500 {
        let mut modules: Vec<Module> = vec![];
        for _ in 0..random.below(7) {
            let module = any_module(&mut random, &modules);
            modules.push(module);
        }
        for module in &mut modules {
            for _ in 0..random.below(3) {
                let mut events = module_events::run(&mut random, module);
                events.truncate(random.below(24));
                for event in events {
                    event.happen(module);
                }
            }
            inside += usize::from(module.bytes_heard().is_some_and(|bytes| !bytes.is_empty()));
        }
        let occupied = shelves::occupied(&mut random);
        let last_pick = shelves::last_pick(&mut random);
        let targets: Vec<Target> = modules.iter().map(Module::record).collect();
        let (controller, after, sent) = pass(modules, &occupied, last_pick);
        let list: Vec<u8> = targets.iter().flat_map(record_of).collect();
        if refusal(&list, BINDINGS, &occupied, last_pick).is_none() {
            by_the_plain_rule(&targets, &occupied, last_pick, &controller, &after);
            ruled += 1;
        }
        cases += sent;
    }
    assert!(ruled > 200 && inside > 500, "too few passes: {ruled} by the rule, {inside} modules inside a packet");
    cases
}

/// Two modules whose UDIDs differ in one bit, for every bit: the one with the zero there has won, and the other knows
/// it.
pub fn every_bit() -> usize {
    let mut random = Random::new(122);
    for place in 0..128 {
        for round in 0..4 {
            let mut zero = shelves::any_udid(&mut random);
            zero[place / 8] &= !(128 >> (place % 8));
            let mut one = zero;
            one[place / 8] |= 128 >> (place % 8);
            let mut modules = vec![];
            for udid in if round % 2 == 0 { [zero, one] } else { [one, zero] } {
                let address = random.byte() % ADDRESSES;
                modules.push(Module::of_record(udid, 2 * (address % 127) + 1, 0, random.four()).expect("a record"));
            }
            let due = modules.iter().position(|module| module.udid == zero).expect("one of two");
            let mut bus = ModuleBus::new(modules);
            let trace = bus.answer(&Command::GetUdid);
            assert_eq!(bus.winners, [due], "bit {place} of {zero:02x?}");
            assert_eq!(trace.len(), 13 + 2 * 17, "bit {place} of {zero:02x?}");
        }
    }
    128 * 4
}
