//! Scripts with the answers of a shelf: as they are, disturbed on the way, and with modules pulled while a pass runs, also
//! while a choice waits.

use crate::addresses::*;
use crate::bus::{Bus, Target};
use crate::commands::*;
use crate::controller::Found;
use crate::mistakes::damaged;
use crate::random::Random;
use crate::recorder::{Op, Recorder};
use crate::shelves::*;

/// What a damaged wire makes of an answer.
fn disturbed(random: &mut Random, trace: Vec<u16>, percent: usize) -> Vec<u16> {
    if random.below(100) < percent {
        return damaged(random, &trace);
    }
    trace
}

/// Passes over a shelf on which targets come and go, and keep what they were given.
fn shelf(recorder: &mut Recorder, random: &mut Random, percent: usize) {
    let occupied = occupied(random);
    recorder.renew(&occupied, any_last_pick(random));
    let count = random.below(24);
    let mut bus = Bus { targets: targets(random, count, &occupied) };
    for _ in 0..1 + random.below(4) {
        recorder.start();
        while recorder.outstanding().is_sent() {
            let shown = bus.answer(&recorder.outstanding());
            let trace = disturbed(random, shown, percent);
            recorder.step(trace);
        }
        recorder.lookups();
        bus.targets.retain(|_| random.below(5) > 0);
        let more = random.below(4);
        let newcomers = targets(random, more, &occupied);
        let known: Vec<Udid> = bus.targets.iter().map(|target| target.udid).collect();
        bus.targets.extend(newcomers.into_iter().filter(|target| !known.contains(&target.udid)));
    }
}

fn shelves(seed: u64, count: usize, percent: usize) -> Recorder {
    let mut random = Random::new(seed);
    let mut recorder = Recorder::new(&Addresses::new(), NEVER);
    for _ in 0..count {
        shelf(&mut recorder, &mut random, percent);
    }
    recorder
}

pub fn real_shelves() -> Recorder {
    shelves(77, 300, 0)
}

pub fn disturbed_shelves() -> Recorder {
    shelves(78, 300, 10)
}

/// A shelf whose modules are pulled and put back.
struct Slots {
    bus: Bus,
    pulled: Vec<Target>,
    /// Where they were bound, as long as that is not reported.
    vacant: Vec<u8>,
}

impl Slots {
    fn pull(&mut self, recorder: &Recorder, random: &mut Random) {
        if self.bus.targets.is_empty() {
            return;
        }
        let place = random.below(self.bus.targets.len());
        let target = self.bus.targets.remove(place);
        let own = target.address_byte / 2;
        if recorder.found(own) == Found::Bound(target.udid) {
            self.vacant.push(own);
        }
        self.pulled.push(target);
    }

    /// One of the pulled is put back. It has its address still, or none if it is movable and lost it.
    fn put_back(&mut self, random: &mut Random) {
        let Some(mut target) = self.pulled.pop() else {
            return;
        };
        target.resolved = false;
        if !is_fixed(&target.udid) && random.below(2) == 0 {
            target.address_byte = NO_ADDRESS;
        }
        self.bus.targets.push(target);
    }

    fn report(&mut self, recorder: &mut Recorder) {
        if let Some(address) = self.vacant.pop() {
            recorder.gone(address);
        }
    }

    /// Something happens to the shelf, or nothing.
    fn change(&mut self, recorder: &mut Recorder, random: &mut Random) {
        match random.below(12) {
            0..=2 => self.pull(recorder, random),
            3 | 4 => self.put_back(random),
            5..=8 => self.report(recorder),
            _ => {}
        }
    }
}

/// The shelf answers what is outstanding, to a step or to the first half of one; or the choice that waits is issued or, now
/// and then, declined.
fn next(recorder: &Recorder, slots: &mut Slots, random: &mut Random, by_halves: bool) -> Op {
    if recorder.outstanding().is_choice() {
        return if random.below(25) == 0 { Op::Decline } else { Op::Issue };
    }
    let shown = slots.bus.answer(&recorder.outstanding());
    if by_halves {
        Op::Choose(shown)
    } else {
        Op::Step(shown)
    }
}

/// Passes over a shelf that changes while they run. What is not reported in time is reported at the end.
fn changing_shelf(recorder: &mut Recorder, random: &mut Random, by_halves: bool) {
    let occupied = occupied(random);
    recorder.renew(&occupied, any_last_pick(random));
    let count = 1 + random.below(24);
    let bus = Bus { targets: targets(random, count, &occupied) };
    let mut slots = Slots { bus, pulled: vec![], vacant: vec![] };
    for _ in 0..1 + random.below(4) {
        recorder.start();
        while recorder.outstanding().is_running() {
            let op = next(recorder, &mut slots, random, by_halves);
            recorder.record(op);
            slots.change(recorder, random);
        }
        recorder.lookups();
        for _ in 0..slots.vacant.len() {
            slots.report(recorder);
        }
        recorder.lookups();
    }
}

fn changing_shelves(seed: u64, by_halves: bool) -> Recorder {
    let mut random = Random::new(seed);
    let mut recorder = Recorder::new(&Addresses::new(), NEVER);
    for _ in 0..300 {
        changing_shelf(&mut recorder, &mut random, by_halves);
    }
    recorder
}

/// Modules are pulled and put back while passes run.
pub fn pulled_modules() -> Recorder {
    changing_shelves(90, false)
}

/// The same by halves: now and then while a choice waits, and now and then one is declined.
pub fn pulled_modules_by_halves() -> Recorder {
    changing_shelves(99, true)
}
