//! Shelves that run: every kind of target, every number of them, many occupied sets, every last pick, and addresses
//! that run out.

use crate::family::Family;
use crate::model_abi::{by_library, by_reference, text, Ran};
use reference::addresses::*;
use reference::bus::Target;
use reference::commands::{is_fixed, Udid, NO_ADDRESS};
use reference::model::{record_of, BINDINGS, MOST_TARGETS};
use reference::plain_rule::plain_rule;
use reference::random::Random;
use reference::shelves::{self, KINDS};
use reference::spoiled::Input;
use reference::standing::{Standing, RUN};
use std::collections::BTreeMap;

/// How many addresses there are to pick from, with nothing occupied.
const ASSIGNABLE: usize = 93;

/// An input with any last pick.
fn input(random: &mut Random, targets: &[Target], occupied: &Addresses, room: usize) -> Input {
    let last_pick = shelves::last_pick(random);
    let list = targets.iter().flat_map(record_of).collect();
    Input { list, buffer: random.bytes(room), occupied: occupied.clone(), last_pick }
}

/// One run, compared; what it answered.
pub fn case(family: &mut Family, input: &Input) -> Ran {
    let due = by_reference(input);
    family.same(|| text(input), &due, &by_library(input));
    due.ran
}

/// The same, and where its targets stand.
pub fn counted(family: &mut Family, standing: &mut Standing, input: &Input) -> Ran {
    let ran = case(family, input);
    standing.add(input, ran.answer());
    ran
}

fn target(first: u8, address_byte: u8) -> Target {
    Target { udid: [first; 16], address_byte, resolved: false }
}

/// M8, M9, M10, no target, and the UDID zero, fixed and bound: never picked before.
fn marked() -> usize {
    let mut family = Family::new("model marked");
    let mut random = Random::new(90);
    let none = Addresses::new();
    let all: Addresses = (0..ADDRESSES).collect();
    let cases: [(&[Target], &Addresses, u32, u32, u32); 5] = [
        (&[target(0x80, 0xff), target(0x00, 0x13), target(0x40, 0x41)], &none, 0, 3, 0x0d),
        (&[target(0x40, 0xff), target(0x80, 0x13)], &none, 0, 2, 0x0e),
        (&[target(0x80, 0xff)], &all, 13, 0, 127),
        (&[], &none, 0, 0, 127),
        (&[target(0x00, 0x13)], &none, 0, 1, 127),
    ];
    for (targets, occupied, answer, bound, picked) in cases {
        let input = Input { last_pick: NEVER, ..input(&mut random, targets, occupied, BINDINGS) };
        let ran = case(&mut family, &input);
        assert_eq!((ran.answer(), ran.bound(), ran.picked()), (answer, bound, picked), "{}", text(&input));
    }
    family.done()
}

/// Every number as the last pick, with targets that pick and with those that do not, and few addresses free or many.
/// Above 127 all are refused.
fn last_picks() -> usize {
    let mut family = Family::new("model last picks");
    let mut random = Random::new(99);
    let mut endings = BTreeMap::new();
    for last_pick in 0..=255 {
        for count in [0, 1, 2, 3, 20] {
            for left in [0, 1, 3, ASSIGNABLE] {
                let occupied = shelves::leaving(&mut random, left);
                let targets = of_kind(&mut random, KINDS[1], count, &occupied);
                let input = Input { last_pick, ..input(&mut random, &targets, &occupied, BINDINGS) };
                let ran = case(&mut family, &input);
                let moved = ran.picked() != u32::from(last_pick);
                *endings.entry((ran.answer(), moved)).or_insert(0) += 1;
            }
        }
    }
    let reached: Vec<(u32, bool)> = endings.into_iter().filter(|&(_, times)| times >= 20).map(|(end, _)| end).collect();
    assert_eq!(reached, [(0, false), (0, true), (1, true), (13, false), (13, true)], "last picks, endings reached");
    family.done()
}

/// Runs one after the other, each with the last pick of the one before. Targets come without an address, keep what they
/// were given, and are pulled.
fn in_turn() -> usize {
    let mut family = Family::new("model runs in turn");
    let mut random = Random::new(100);
    let (mut last_pick, mut rounds, mut staying) = (NEVER, 0, vec![]);
    for _ in 0..600 {
        let udid = fresh(&mut random, KINDS[2], &staying);
        staying.push(Target { udid, address_byte: NO_ADDRESS, resolved: false });
        let input = Input { last_pick, ..input(&mut random, &staying, &Addresses::new(), BINDINGS) };
        let picked = case(&mut family, &input).picked() as u8;
        let given = plain_rule(&staying, &Addresses::new(), last_pick).bound;
        staying.iter_mut().for_each(|target| target.address_byte = 2 * given[&target.udid] + 1);
        staying.retain(|_| random.below(12) > 0);
        rounds += usize::from(picked < last_pick);
        last_pick = picked;
    }
    assert!(rounds > 3, "the picks went round {rounds} times");
    family.done()
}

/// No address, some, all, or all but so many.
fn occupied_sets(random: &mut Random) -> Vec<Addresses> {
    let all: Addresses = (0..ADDRESSES).collect();
    let left = random.below(ASSIGNABLE);
    vec![Addresses::new(), shelves::occupied(random), shelves::leaving(random, left), all]
}

/// A UDID of that kind that none of these has; of one kind only, 120 of them are found at once.
fn fresh(random: &mut Random, kind: u8, all: &[Target]) -> Udid {
    loop {
        let udid = shelves::with_kind(shelves::any_udid(random), kind);
        if all.iter().all(|target| target.udid != udid) {
            return udid;
        }
    }
}

/// Targets of one kind: a fixed one where it may stand while there is a place; the others hold none, FEh's address or
/// any.
fn of_kind(random: &mut Random, kind: u8, count: usize, occupied: &Addresses) -> Vec<Target> {
    let barred = barred(occupied);
    let mut places: Vec<u8> = (0..ADDRESSES).filter(|address| !barred.contains(address)).collect();
    let mut all: Vec<Target> = vec![];
    while all.len() < count {
        let udid = fresh(random, kind, &all);
        let address_byte = match random.below(4) {
            _ if is_fixed(&udid) && !places.is_empty() => 2 * places.swap_remove(random.below(places.len())) + 1,
            0 => NO_ADDRESS,
            _ => random.byte() | 1,
        };
        all.push(Target { udid, address_byte, resolved: random.below(2) == 0 });
    }
    all
}

fn kinds() -> usize {
    let mut family = Family::new("model kinds");
    let mut random = Random::new(91);
    for round in 0..8 {
        for kind in KINDS {
            for count in [0, 1, 2, 3, 50, 93, 94, 107, 108, 120] {
                for occupied in occupied_sets(&mut random) {
                    let targets = of_kind(&mut random, kind, count, &occupied);
                    case(&mut family, &input(&mut random, &targets, &occupied, BINDINGS + round));
                }
            }
        }
    }
    family.done()
}

/// Every number of targets, of all kinds together.
fn sizes() -> usize {
    let mut family = Family::new("model sizes");
    let (mut random, mut standing) = (Random::new(92), Standing::default());
    for count in 0..=MOST_TARGETS {
        let rounds = if [0, 1, 2, 119, 120].contains(&count) { 60 } else { 6 };
        for round in 0..rounds {
            let occupied = if round % 3 == 0 { Addresses::new() } else { shelves::occupied(&mut random) };
            let targets = shelves::targets(&mut random, count, &occupied);
            let room = BINDINGS + random.below(3) * 50;
            counted(&mut family, &mut standing, &input(&mut random, &targets, &occupied, room));
        }
    }
    standing.check(&RUN);
    family.done()
}

/// Ending 13 at every place: so many targets are served, and one more asks.
fn exhausted() -> usize {
    let mut family = Family::new("model exhausted");
    let (mut random, mut standing) = (Random::new(93), Standing::default());
    for served in 0..=ASSIGNABLE {
        for more in [1, 2, 13] {
            let occupied = shelves::leaving(&mut random, served);
            let targets = of_kind(&mut random, KINDS[1 + more % 3], served + more, &occupied);
            let ran = counted(&mut family, &mut standing, &input(&mut random, &targets, &occupied, BINDINGS));
            assert_eq!((ran.answer(), ran.bound() as usize), (13, served), "exhausted after {served}");
            let mixed = shelves::targets(&mut random, served + more, &occupied);
            counted(&mut family, &mut standing, &input(&mut random, &mixed, &occupied, BINDINGS));
        }
    }
    standing.check(&RUN);
    family.done()
}

/// One target with every address byte, flag and kind.
fn address_bytes() -> usize {
    let mut family = Family::new("model address bytes");
    let mut random = Random::new(94);
    for byte in 0..=255 {
        for flag in [0, 1, 2, 255] {
            for kind in KINDS {
                let udid = if random.below(8) == 0 { [0; 16] } else { shelves::any_udid(&mut random) };
                let mut record = shelves::with_kind(udid, kind).to_vec();
                record.extend([byte, flag]);
                let occupied = shelves::occupied(&mut random);
                let last_pick = shelves::last_pick(&mut random);
                case(&mut family, &Input { list: record, buffer: random.bytes(BINDINGS), occupied, last_pick });
            }
        }
    }
    family.done()
}

pub fn all() -> usize {
    marked() + last_picks() + in_turn() + kinds() + sizes() + exhausted() + address_bytes()
}
