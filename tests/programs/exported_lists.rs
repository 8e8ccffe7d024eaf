//! Lists of traces, reports and choices for a pass, whatever bytes they are made of. Here they are read entry by entry, and
//! each entry is given to the reference's controller.

use crate::exported_abi::{pass, pass_lookup, Command, Found};
use crate::exported_passes::{found, pairs, told};
use crate::exported_passes::{CHOOSE, DECLINE, GONE, ISSUE, KINDS, MOST_SYMBOLS, NO_LOOKUP, NO_PASS};
use crate::family::Family;
use crate::{halves, pool_of};
use reference::addresses::{Addresses, ADDRESSES, NEVER};
use reference::commands::{self, assign, prepare, reply_bytes, Udid};
use reference::controller::{self, Controller};
use reference::good::{all_resolved, reply_trace};
use reference::mistakes::{damaged, rubbish, trace_of};
use reference::random::Random;
use reference::shelves;

/// Fixed, fixed, movable, movable.
const F: Udid = [0x01; 16];
const G: Udid = [0x02; 16];
const M: Udid = [0x81; 16];
const N: Udid = [0x82; 16];

#[derive(Debug, PartialEq, Eq)]
enum Entry {
    Step(Vec<u16>),
    Choose(Vec<u16>),
    Issue,
    Decline,
    Report(u16),
}

/// A trace, if it is there whole: the number of its symbols, and these. What follows it.
fn first_trace(words: &[u16]) -> Option<(Vec<u16>, &[u16])> {
    let (&count, after) = words.split_first()?;
    let (own, later) = after.split_at_checked(usize::from(count)).filter(|_| count <= MOST_SYMBOLS)?;
    Some((own.to_vec(), later))
}

/// The entry that words begin with, if it is there whole, and what follows it.
fn first_entry(words: &[u16]) -> Option<(Entry, &[u16])> {
    let (&first, after) = words.split_first()?;
    match first {
        GONE => after.split_first().map(|(&number, later)| (Entry::Report(number), later)),
        CHOOSE => first_trace(after).map(|(trace, later)| (Entry::Choose(trace), later)),
        ISSUE => Some((Entry::Issue, after)),
        DECLINE => Some((Entry::Decline, after)),
        _ => first_trace(words).map(|(trace, later)| (Entry::Step(trace), later)),
    }
}

/// The whole entries that a list begins with.
fn entries(list: &[u8]) -> Vec<Entry> {
    let words: Vec<u16> = list.chunks_exact(2).map(|pair| u16::from_le_bytes([pair[0], pair[1]])).collect();
    let mut rest = &words[..];
    let mut all = vec![];
    while let Some((entry, later)) = first_entry(rest) {
        all.push(entry);
        rest = later;
    }
    all
}

/// What an entry makes of a controller. The command, where it is answered with one; a report is not.
fn apply(controller: &mut Controller, entry: &Entry) -> Option<commands::Command> {
    match entry {
        Entry::Step(trace) => Some(controller.step(trace)),
        Entry::Choose(trace) => Some(controller.choose(trace)),
        Entry::Issue => Some(controller.issue()),
        Entry::Decline => Some(controller.decline()),
        Entry::Report(number) => {
            controller.gone((*number).try_into().unwrap_or(255));
            None
        }
    }
}

/// A pass over these entries: what was handed out last, and the controller.
fn run(occupied: &Addresses, last_pick: u8, entries: &[Entry]) -> (Command, Controller) {
    let mut controller = Controller::new(occupied, last_pick);
    let mut command = controller.start();
    for entry in entries {
        command = apply(&mut controller, entry).unwrap_or(command);
    }
    (told(&command, controller.get_udids as u32, u32::from(controller.last_pick)), controller)
}

/// The command and some lookups of a list are those of its entries. The kind and reason of the command, and the numbers that
/// the lookups are answered with.
fn compare(
    family: &mut Family,
    occupied: &Addresses,
    last_pick: u8,
    list: &[u8],
    addresses: &[u8],
) -> ((u32, u32), Vec<u32>) {
    let (command, controller) = run(occupied, last_pick, &entries(list));
    let refused = last_pick > NEVER;
    let input = || format!("occupied {occupied:02x?} last pick {last_pick} list {list:02x?}");
    let command = if refused { NO_PASS } else { command };
    family.same(input, &command, &pass(pool_of(occupied), last_pick, list));
    let mut numbers = vec![];
    for &address in addresses {
        let due = if refused { NO_LOOKUP } else { found(&controller.lookup(address)) };
        let given = pass_lookup(pool_of(occupied), last_pick, list, address);
        family.same(|| format!("address {address:02x} {}", input()), &due, &given);
        numbers.push(due.answer);
    }
    ((command.kind, command.reason), numbers)
}

fn trace_entry(trace: &[u16]) -> Vec<u8> {
    [pairs(&[trace.len() as u16]), pairs(trace)].concat()
}

/// The same for the first half of a step.
fn half(trace: Vec<u8>) -> Vec<u8> {
    [pairs(&[CHOOSE]), trace].concat()
}

fn issue() -> Vec<u8> {
    pairs(&[ISSUE])
}

fn decline() -> Vec<u8> {
    pairs(&[DECLINE])
}

fn report(number: u16) -> Vec<u8> {
    pairs(&[GONE, number])
}

fn begun() -> Vec<u8> {
    trace_entry(&trace_of(&prepare()))
}

/// A target replies with its own address.
fn replied(udid: &Udid, address: u8) -> Vec<u8> {
    trace_entry(&reply_trace(udid, 2 * address + 1))
}

fn taken(udid: &Udid, address: u8) -> Vec<u8> {
    trace_entry(&trace_of(&assign(udid, address)))
}

fn joined(udid: &Udid, address: u8) -> Vec<u8> {
    [replied(udid, address), taken(udid, address)].concat()
}

/// Lists worked out by hand: what is in them, and what a lookup of 48h, an added row, answers at the end.
fn worked_on_a_row() -> Vec<(Vec<Vec<u8>>, u32)> {
    let two = || [joined(&F, 0x48), joined(&G, 0x48)].concat();
    let moved = || [replied(&M, 0x48), taken(&M, 0x0d)].concat();
    vec![
        (vec![begun(), replied(&F, 0x48)], 15),
        (vec![begun(), joined(&F, 0x48)], 0),
        (vec![begun(), two()], 16),
        (vec![begun(), two(), joined(&F, 0x48)], 16),
        (vec![begun(), two(), report(0x48)], 16),
        (vec![begun(), moved()], 15),
        (vec![begun(), moved(), joined(&F, 0x48)], 0),
        (vec![begun(), joined(&F, 0x48), moved()], 0),
        (vec![begun(), joined(&F, 0x48), replied(&F, 0x48)], 15),
        (vec![begun(), joined(&F, 0x48), joined(&F, 0x48)], 0),
        (vec![begun(), joined(&F, 0x48), joined(&F, 0x20)], 15),
        (vec![begun(), joined(&F, 0x48), joined(&F, 0x20), joined(&G, 0x48)], 0),
        (vec![begun(), joined(&F, 0x48), report(0x48)], 20),
        (vec![begun(), joined(&F, 0x48), report(0x48), moved()], 20),
        (vec![begun(), joined(&F, 0x48), report(0x48), joined(&G, 0x48)], 0),
        (vec![begun(), joined(&F, 0x48), replied(&G, 0x48), report(0x48), taken(&G, 0x48)], 0),
        (vec![begun(), joined(&F, 0x48), report(0x48), two()], 16),
    ]
}

/// The same of 20h.
fn worked() -> Vec<(Vec<Vec<u8>>, u32)> {
    let two = || [joined(&F, 0x20), joined(&G, 0x20)].concat();
    vec![
        (vec![], 15),
        (vec![report(0x20)], 15),
        (vec![report(0x20), begun(), joined(&M, 0x20)], 0),
        (vec![begun(), report(0x20), joined(&M, 0x20)], 0),
        (vec![begun(), replied(&M, 0x20), report(0x20), taken(&M, 0x20)], 0),
        (vec![begun(), joined(&M, 0x20), report(0x20)], 20),
        (vec![begun(), joined(&M, 0x20), report(0x20), report(0x20)], 20),
        (vec![begun(), joined(&M, 0x20), report(0x21), report(0x61), report(128), report(255)], 0),
        (vec![begun(), joined(&M, 0x20), report(0x120), report(0x2000), report(GONE)], 0),
        (vec![begun(), joined(&M, 0x20), report(0x20), joined(&N, 0x21)], 20),
        (vec![begun(), joined(&M, 0x20), report(0x20), replied(&M, 0x20)], 20),
        (vec![begun(), joined(&M, 0x20), report(0x20), joined(&M, 0x20)], 0),
        (vec![begun(), joined(&M, 0x20), report(0x20), joined(&G, 0x20)], 0),
        (vec![begun(), joined(&M, 0x20), joined(&M, 0x21), report(0x20)], 15),
        (vec![begun(), joined(&M, 0x20), joined(&M, 0x21), report(0x21)], 15),
        (vec![begun(), two()], 16),
        (vec![begun(), two(), report(0x20)], 16),
        (vec![begun(), joined(&F, 0x20), replied(&G, 0x20), report(0x20)], 20),
        (vec![begun(), joined(&F, 0x20), replied(&G, 0x20), report(0x20), taken(&G, 0x20)], 0),
        (vec![begun(), joined(&F, 0x20), report(0x20), two()], 16),
        (vec![begun(), joined(&M, 0x20), trace_entry(&all_resolved()), report(0x20)], 20),
        (vec![begun(), joined(&M, 0x20), trace_entry(&all_resolved()), trace_entry(&[]), report(0x20)], 20),
    ]
}

/// A list worked out by hand: what is in it; kind, answer, address and reason of the command due; and what a lookup of 20h
/// answers.
type Chosen = (Vec<Vec<u8>>, (u32, u32, u32, u32), u32);

/// Lists with choices that are made for a target that is alone, issued, declined, or in vain.
fn worked_choices() -> Vec<Chosen> {
    let none = (6, 21, 0, 0);
    let chosen = || [begun(), half(replied(&M, 0x20))].concat();
    let moved = || [begun(), joined(&M, 0x20), half(replied(&M, 0x21))].concat();
    vec![
        (vec![issue()], none, 15),
        (vec![decline()], none, 15),
        (vec![issue(), begun()], (1, 0, 0, 0), 15),
        (vec![half(begun())], (1, 0, 0, 0), 15),
        (vec![begun(), issue()], none, 15),
        (vec![chosen()], (8, 0, 0x20, 2), 15),
        (vec![half(chosen())], (8, 0, 0x20, 2), 15),
        (vec![chosen(), report(0x20)], (8, 0, 0x20, 2), 15),
        (vec![chosen(), taken(&M, 0x20)], none, 15),
        (vec![chosen(), half(taken(&M, 0x20)), issue()], (2, 0, 0x20, 0), 15),
        (vec![chosen(), issue()], (2, 0, 0x20, 0), 15),
        (vec![chosen(), issue(), taken(&M, 0x20)], (1, 0, 0, 0), 0),
        (vec![chosen(), issue(), half(taken(&M, 0x20))], (1, 0, 0, 0), 0),
        (vec![chosen(), issue(), issue()], none, 15),
        (vec![chosen(), issue(), decline(), taken(&M, 0x20)], (1, 0, 0, 0), 0),
        (vec![chosen(), decline()], (5, 14, 0, 0), 15),
        (vec![chosen(), decline(), decline()], none, 15),
        (vec![chosen(), decline(), issue(), taken(&M, 0x20)], none, 15),
        (vec![moved()], (8, 0, 0x21, 2), 15),
        (vec![moved(), decline()], (5, 14, 0, 0), 15),
        (vec![moved(), decline(), report(0x20)], (5, 14, 0, 0), 15),
        (vec![begun(), half(trace_entry(&reply_trace(&M, 0xff)))], (8, 0, 0x0d, 3), 15),
        (vec![begun(), half(trace_entry(&reply_trace(&F, 0xff)))], (8, 0, 0x0d, 3), 15),
        (vec![begun(), half(replied(&M, 0x48))], (8, 0, 0x0d, 3), 15),
        (vec![begun(), half(replied(&F, 0x20))], (8, 0, 0x20, 1), 15),
        (vec![begun(), half(replied(&F, 0x48))], (8, 0, 0x48, 1), 15),
        (vec![begun(), half(replied(&F, 0x0c))], (8, 0, 0x0c, 4), 15),
        (vec![begun(), half(trace_entry(&reply_trace(&F, 0xfe)))], (8, 0, 0x7f, 4), 15),
        (vec![begun(), half(trace_entry(&all_resolved())), issue()], none, 15),
    ]
}

/// Lists with choices beside another that is bound at 20h.
fn worked_claims() -> Vec<Chosen> {
    let two = || [begun(), joined(&F, 0x20), half(replied(&G, 0x20))].concat();
    let both = || [begun(), joined(&F, 0x20), joined(&G, 0x20)].concat();
    vec![
        (vec![two()], (8, 0, 0x20, 4), 0),
        (vec![two(), decline()], (5, 14, 0, 0), 0),
        (vec![two(), issue()], (2, 0, 0x20, 0), 0),
        (vec![two(), issue(), taken(&G, 0x20)], (1, 0, 0, 0), 16),
        (vec![two(), report(0x20)], (8, 0, 0x20, 4), 20),
        (vec![two(), report(0x20), issue(), taken(&G, 0x20)], (1, 0, 0, 0), 0),
        (vec![two(), issue(), report(0x20), taken(&G, 0x20)], (1, 0, 0, 0), 0),
        (vec![two(), report(0x20), decline()], (5, 14, 0, 0), 20),
        (vec![both(), half(replied(&F, 0x20))], (8, 0, 0x20, 4), 16),
        (vec![both(), half(replied(&M, 0x20))], (8, 0, 0x0d, 3), 16),
        (vec![begun(), joined(&M, 0x20), half(replied(&F, 0x20))], (8, 0, 0x20, 4), 0),
        (vec![begun(), joined(&M, 0x20), half(replied(&M, 0x20))], (8, 0, 0x20, 2), 15),
        (vec![begun(), joined(&F, 0x20), half(replied(&F, 0x20))], (8, 0, 0x20, 1), 15),
        (vec![begun(), joined(&F, 0x20), report(0x20), half(replied(&G, 0x20))], (8, 0, 0x20, 1), 20),
    ]
}

/// The lists with choices worked out by hand, and each of them cut at every place.
fn choices_by_hand() -> usize {
    let mut family = Family::new("lists with choices");
    let none = pool_of(&Addresses::new());
    for (parts, due, number) in worked_choices().into_iter().chain(worked_claims()) {
        let list = parts.concat();
        let command = pass(none, NEVER, &list);
        let given = (command.kind, command.answer, command.address, command.reason);
        family.same(|| format!("{list:02x?}"), &due, &given);
        family.same(|| format!("{list:02x?}"), &number, &pass_lookup(none, NEVER, &list, 0x20).answer);
        for end in 0..=list.len() {
            compare(&mut family, &Addresses::new(), NEVER, &list[..end], &[0x20, 0x21]);
        }
        compare(&mut family, &(0..ADDRESSES).collect(), 0x33, &list, &[0x20]);
        compare(&mut family, &Addresses::new(), 128, &list, &[0x20]);
    }
    family.done()
}

/// A first half with every number of symbols from 65525 on: up to 65531 it is whole where the symbols are there. One above is
/// no number of symbols, and the list ends there, whatever follows.
fn counts_of_halves() -> usize {
    let mut family = Family::new("first halves, every count");
    let before = [begun(), half(replied(&M, 0x20))].concat();
    for count in 65_525..=65_535 {
        for symbols in [0, 1, usize::from(count) - 1, usize::from(count), 65_540] {
            for symbol in [ISSUE, DECLINE, CHOOSE, GONE, 0] {
                let list = [before.clone(), pairs(&[CHOOSE, count]), pairs(&vec![symbol; symbols])].concat();
                compare(&mut family, &Addresses::new(), NEVER, &list, &[0x20]);
            }
        }
    }
    family.done()
}

/// The lists worked out by hand, and each of them cut at every place.
fn by_hand() -> usize {
    let mut family = Family::new("lists with reports");
    for (all, address) in [(worked(), 0x20), (worked_on_a_row(), 0x48)] {
        for (parts, due) in all {
            let list = parts.concat();
            let given = pass_lookup(pool_of(&Addresses::new()), NEVER, &list, address);
            family.same(|| format!("{list:02x?}"), &due, &given.answer);
            for end in 0..=list.len() {
                compare(&mut family, &Addresses::new(), NEVER, &list[..end], &[address, address + 1]);
            }
            compare(&mut family, &[0x48].into(), NEVER, &list, &[0x48]);
        }
    }
    family.done()
}

/// Every number in a report where 20h is bound: 32 alone takes it back. The command and the last pick stay.
fn every_number() -> usize {
    let mut family = Family::new("every number in a report");
    let none = pool_of(&Addresses::new());
    let bound = Found { answer: 0, udid: halves(&M) };
    let left = found(&controller::Found::Refused(20));
    for number in 0..=65_535 {
        let list = [begun(), joined(&M, 0x20), report(number)].concat();
        let input = || format!("number {number}");
        let due = if number == 0x20 { left } else { bound };
        family.same(input, &due, &pass_lookup(none, 0x33, &list, 0x20));
        family.same(input, &Command { kind: 1, gets: 2, picked: 0x33, ..Command::default() }, &pass(none, 0x33, &list));
    }
    family.done()
}

/// What would be a trace of 65535 symbols is a report of the first, and entries made of the others.
fn no_longest_trace() -> usize {
    let mut family = Family::new("no trace of 65535");
    let before = [begun(), joined(&M, 0x20)].concat();
    for (first, symbol) in [(0x20, 0), (0x20, 1), (0x20, 3), (0x20, GONE), (0x21, 0x20), (256, 9), (GONE, GONE)] {
        let symbols = [vec![first], vec![symbol; 65_534]].concat();
        for count in [1, 2, 3, 4, 9, 100, 65_535] {
            let list = [before.clone(), pairs(&[GONE]), pairs(&symbols[..count])].concat();
            compare(&mut family, &Addresses::new(), NEVER, &list, &[0x20, 0x21]);
        }
    }
    family.done()
}

/// An entry of a random list: mostly what fits the command that is outstanding, and reports.
fn any_entry(random: &mut Random, command: &commands::Command, udids: &[Udid]) -> Vec<u8> {
    let right = match command {
        commands::Command::Prepare => trace_of(&prepare()),
        commands::Command::Assign(udid, address) => trace_of(&assign(udid, *address)),
        _ => {
            let address_byte = random.pick(&[0xff, 0x41, 0x43, 0x45, 0x91, 0x91]);
            trace_of(&commands::get_udid(&reply_bytes(&random.pick(udids), address_byte)))
        }
    };
    match random.below(26) {
        0 => trace_entry(&damaged(random, &right)),
        1 => trace_entry(&rubbish(random)),
        2..=5 => report(random.pick(&[0x20, 0x21, 0x22, 0x48, 0x48, 13, 14, 15, 16])),
        6 => report(random.draw() as u16),
        7 => half(trace_entry(&damaged(random, &right))),
        8 => issue(),
        9 => decline(),
        _ if command.is_choice() => issue(),
        10 if random.below(3) == 0 => trace_entry(&all_resolved()),
        10..=17 => half(trace_entry(&right)),
        _ => trace_entry(&right),
    }
}

/// A list that goes on as the controller does, and is then cut, or has a byte that is another, or neither.
fn any_list(random: &mut Random, occupied: &Addresses, last_pick: u8) -> Vec<u8> {
    let udids: Vec<Udid> = shelves::udids(random, 4);
    let mut controller = Controller::new(occupied, last_pick);
    controller.start();
    let mut list = vec![];
    for _ in 0..random.below(24) {
        let entry = any_entry(random, &controller.last, &udids);
        for part in entries(&entry) {
            apply(&mut controller, &part);
        }
        list.extend(entry);
    }
    match random.below(4) {
        0 => list.truncate(random.below(list.len() + 1)),
        1 if !list.is_empty() => {
            let place = random.below(list.len());
            list[place] = random.pick(&[0, 1, 0x20, 0xff, 0xfe, 0xfd, 0xfc]);
        }
        _ => {}
    }
    list
}

/// Lists at random. Some are of nothing but random words.
fn at_random() -> usize {
    let mut family = Family::new("random lists");
    let mut random = Random::new(91);
    let (mut numbers, mut on_a_row, mut kinds) = (vec![], vec![], vec![]);
    for round in 0..9000 {
        let occupied = match round % 10 {
            9 => shelves::leaving(&mut random, 2),
            _ => shelves::occupied(&mut random),
        };
        let last_pick = shelves::any_last_pick(&mut random);
        let list = if round % 8 == 0 {
            let count = random.below(40);
            let some = [0, 1, 2, 3, 0x20, 256, 258, GONE, CHOOSE, CHOOSE, ISSUE, DECLINE];
            let words: Vec<u16> = (0..count).map(|_| random.pick(&some)).collect();
            [pairs(&words), random.bytes(round / 8 % 2)].concat()
        } else {
            any_list(&mut random, &occupied, last_pick)
        };
        let addresses = [0x48, 0x20, 0x21, 0x22, 13, 14, random.byte() % ADDRESSES, random.byte()];
        let (kind, all) = compare(&mut family, &occupied, last_pick, &list, &addresses);
        kinds.push(kind);
        on_a_row.push(all[0]);
        numbers.extend(all);
    }
    for wanted in [0, 1, 15, 16, 20] {
        let times = |all: &[u32]| all.iter().filter(|&&number| number == wanted).count();
        let both = (times(&numbers), times(&on_a_row));
        assert!(both.0 > 100 && both.1 > 20, "{both:?} lookups of random lists are answered with {wanted}");
    }
    for wanted in KINDS {
        let times = kinds.iter().filter(|&&kind| kind == wanted).count();
        assert!(times > 20, "{times} random lists end with the kind and reason {wanted:?}");
    }
    family.done()
}

pub fn all() -> usize {
    by_hand() + choices_by_hand() + every_number() + no_longest_trace() + counts_of_halves() + at_random()
}
