//! Model runs held to the plain rule.

use reference::addresses::*;
use reference::bus::Target;
use reference::commands::is_fixed;
use reference::model::*;
use reference::plain_rule::{plain_rule, Plan};
use reference::random::Random;
use reference::shelves;
use reference::spoiled::Input;
use reference::standing::{Standing, RUN};
use std::collections::BTreeSet;

pub fn list_of(targets: &[Target]) -> Vec<u8> {
    targets.iter().flat_map(record_of).collect()
}

/// The list and the buffer that the plan leaves.
fn due(targets: &[Target], plan: &Plan, buffer: &[u8]) -> (Vec<u8>, Vec<u8>) {
    let after = |target: &Target| match plan.bound.get(&target.udid) {
        Some(address) => Target { address_byte: 2 * address + 1, resolved: true, ..*target },
        None => Target { resolved: false, ..*target },
    };
    let mut bindings = buffer.to_vec();
    bindings[..BINDINGS].fill(0);
    for (udid, &address) in &plan.bound {
        bindings[16 * usize::from(address)..][..16].copy_from_slice(udid);
    }
    (targets.iter().flat_map(|target| record_of(&after(target))).collect(), bindings)
}

/// Who is bound where is right by the two lists: nobody on a barred address, only fixed targets in the starting pool.
fn on_the_lists(plan: &Plan, occupied: &Addresses) -> bool {
    let (starting, barred) = (starting_pool(occupied), barred(occupied));
    plan.bound.iter().all(|(udid, address)| match is_fixed(udid) {
        true => !barred.contains(address),
        false => !starting.contains(address),
    })
}

/// The run, which goes over the bus, and the plain rule agree; the last pick after them.
fn compare(targets: &[Target], occupied: &Addresses, last_pick: u8, buffer: Vec<u8>, standing: &mut Standing) -> u8 {
    let plan = plain_rule(targets, occupied, last_pick);
    let (mut list, mut bindings) = (list_of(targets), buffer.clone());
    let outcome = run_model(&mut list, &mut bindings, occupied, last_pick);
    let bound: Addresses = plan.bound.values().copied().collect();
    let due_outcome = Outcome {
        answer: if plan.unserved.is_some() { 13 } else { 0 },
        record: 0,
        udid: plan.unserved.unwrap_or([0; 16]),
        how_many: plan.bound.len(),
        get_udids: if targets.is_empty() { 0 } else { plan.bound.len() + 1 },
        bound,
        last_pick: plan.last_pick,
    };
    let input = || format!("targets {targets:02x?}\noccupied {occupied:02x?}\nlast pick {last_pick:02x}");
    assert_eq!(outcome, due_outcome, "{}", input());
    assert_eq!((list, bindings), due(targets, &plan, &buffer), "{}", input());
    assert!(on_the_lists(&plan, occupied), "{}", input());
    assert_eq!(outcome.bound.len(), outcome.how_many, "{}", input());
    standing.add(&Input { list: list_of(targets), buffer, occupied: occupied.clone(), last_pick }, outcome.answer);
    outcome.last_pick
}

/// An occupied set that leaves so many assignable addresses, or one less or more.
fn leaving_about(random: &mut Random, count: usize) -> Addresses {
    let left = (count + random.below(3)).saturating_sub(1);
    shelves::leaving(random, left.min(assignable().len()))
}

/// Shelves of every size, with many occupied sets.
pub fn random_shelves() -> usize {
    let mut random = Random::new(80);
    let (mut cases, mut standing) = (0, Standing::default());
    for count in 0..=MOST_TARGETS {
        let rounds = if count < 10 { 200 } else { 16 };
        for round in 0..rounds {
            let occupied = match round % 4 {
                0 => Addresses::new(),
                1 => leaving_about(&mut random, count),
                _ => shelves::occupied(&mut random),
            };
            let targets = shelves::targets(&mut random, count, &occupied);
            let room = BINDINGS + random.below(3) * 50;
            let buffer = random.bytes(room);
            compare(&targets, &occupied, shelves::last_pick(&mut random), buffer, &mut standing);
            cases += 1;
        }
    }
    standing.check(&RUN);
    cases
}

/// The same shelves with every last pick from 00h to 7Fh.
pub fn every_last_pick() -> usize {
    let mut random = Random::new(85);
    let (mut cases, mut standing) = (0, Standing::default());
    for count in [1, 1, 2, 2, 3, 5, 9, 20, 40] {
        let occupied = if count % 2 == 1 { leaving_about(&mut random, count) } else { shelves::occupied(&mut random) };
        let targets = shelves::targets(&mut random, count, &occupied);
        for last_pick in 0..ADDRESSES {
            compare(&targets, &occupied, last_pick, random.bytes(BINDINGS), &mut standing);
            cases += 1;
        }
    }
    cases
}

/// Runs one after the other on shelves where all are new each time: each run begins after the last pick of the one
/// before, and hands out all assignable addresses in turn before the first comes again.
pub fn runs_in_turn() -> usize {
    let mut random = Random::new(86);
    let assignable = assignable().len();
    let (mut last_pick, mut cases, mut standing) = (NEVER, 0, Standing::default());
    let mut given: Vec<u8> = vec![];
    for _ in 0..400 {
        let count = 1 + random.below(9);
        let newcomer = |udid| Target { udid, address_byte: 0xff, resolved: false };
        let mut targets: Vec<Target> = shelves::udids(&mut random, count).into_iter().map(newcomer).collect();
        targets.iter_mut().for_each(|target| target.udid[0] |= 0x80);
        targets.sort_by_key(|target| target.udid);
        targets.dedup_by_key(|target| target.udid);
        let plan = plain_rule(&targets, &Addresses::new(), last_pick);
        last_pick = compare(&targets, &Addresses::new(), last_pick, random.bytes(BINDINGS), &mut standing);
        given.extend(plan.bound.values());
        cases += 1;
    }
    let turns = given.windows(assignable).all(|turn| turn.iter().collect::<BTreeSet<_>>().len() == assignable);
    assert!(turns && given.len() > 3 * assignable, "an address came again before another");
    cases
}
