//! How a module begins: power on and records, with every byte; and what a reset makes of it afterwards.

use crate::exported_modules_abi::{HbModule, Resumed};
use crate::family::Family;
use crate::module_pair::Pair;
use crate::module_reached::Reached;
use reference::commands::Udid;
use reference::module::*;
use reference::module_cases;
use reference::module_events::{asked, assigned, sent_with_pec, Event};
use reference::random::Random;
use reference::shelves::{any_udid, with_kind, KINDS};

fn udid(random: &mut Random, kind: u8) -> Udid {
    with_kind(any_udid(random), kind)
}

/// Every address byte with every flag.
fn records() -> usize {
    let mut family = Family::new("module, records");
    let mut random = Random::new(130);
    for kind in KINDS {
        let (udid, fresh) = (udid(&mut random, kind), random.four());
        for byte in 0..=255 {
            for flag in 0..=255 {
                let due = match Module::of_record(udid, byte, flag, fresh) {
                    Ok(module) => Resumed { module: HbModule::like(&module), answer: 0 },
                    Err(answer) => Resumed { module: HbModule::default(), answer },
                };
                let given = Resumed::of_record(&udid, byte, flag, fresh);
                family.same(|| format!("{udid:02x?} {byte:02x} {flag} {fresh:02x?}"), &due, &given);
            }
        }
    }
    family.done()
}

/// Every stored address; then it is asked, moved, reset twice with other bytes between, and asked again.
fn powered_on(reached: &mut Reached) -> usize {
    let mut family = Family::new("module, power on");
    let mut random = Random::new(131);
    for kind in KINDS {
        for stored in 0..=255 {
            let (udid, fresh) = (udid(&mut random, kind), random.four());
            let mut pair = Pair::of(Module::power_on(udid, stored, fresh));
            let input = || format!("{udid:02x?} {stored:02x} {fresh:02x?}");
            let given = HbModule::power_on(&udid, stored, fresh);
            family.same(input, &pair.given, &given);
            pair.given = given;
            pair.all(&mut family, reached, &[Event::Byte(WRITE), Event::Supply]);
            pair.all(&mut family, reached, &asked(0x03, REPLY));
            let now = pair.due.udid;
            pair.all(&mut family, reached, &assigned(&now, random.byte()));
            let reset = if random.below(2) == 0 { RESET } else { 2 * pair.due.address.unwrap_or(1) };
            pair.all(&mut family, reached, &sent_with_pec(&[WRITE, reset]));
            pair.all(&mut family, reached, &asked(0x03, REPLY));
            pair.all(&mut family, reached, &[Event::Refresh(random.four()), Event::Stop]);
            pair.all(&mut family, reached, &sent_with_pec(&[WRITE, RESET]));
            pair.all(&mut family, reached, &asked(0x03, REPLY));
        }
    }
    family.done()
}

/// The cases worked out by hand.
fn by_hand() -> usize {
    let mut family = Family::new("module, by hand");
    for case in module_cases::all() {
        let (udid, byte, flag) = module_cases::parts_of(case.before);
        let resumed = Resumed::of_record(&udid, byte, flag, module_cases::FRESH);
        family.same(|| case.name.to_string(), &0, &resumed.answer);
        let mut module = resumed.module;
        case.run(&mut module);
    }
    family.done()
}

/// Every family here.
pub fn all(reached: &mut Reached) -> usize {
    by_hand() + records() + powered_on(reached)
}
