//! Random UDIDs, address bytes, occupied sets and lists of targets.

use crate::addresses::*;
use crate::bus::Target;
use crate::commands::*;
use crate::random::Random;

/// The top two bits of a UDID.
pub const KINDS: [u8; 4] = [0x00, 0x40, 0x80, 0xc0];

pub fn with_kind(udid: Udid, kind: u8) -> Udid {
    let mut other = udid;
    other[0] = kind | udid[0] & 0x3f;
    other
}

/// Any UDID, or one of the lowest, or one of the highest.
pub fn any_udid(random: &mut Random) -> Udid {
    let mut udid = match random.below(8) {
        0 => [0; 16],
        1 => [0xff; 16],
        _ => return udid_of(&random.bytes(16)),
    };
    udid[15] ^= random.byte() & 3;
    udid
}

/// The same but for one bit.
pub fn near(random: &mut Random, udid: &Udid) -> Udid {
    let place = random.below(128);
    let mut other = *udid;
    other[place / 8] ^= 128 >> (place % 8);
    other
}

/// Any UDID, or one a bit apart from one of these, or the same but for its kind.
fn another_udid(random: &mut Random, all: &[Udid]) -> Udid {
    if all.is_empty() {
        return any_udid(random);
    }
    let other = random.pick(all);
    match random.below(3) {
        0 => near(random, &other),
        1 => with_kind(other, random.pick(&KINDS)),
        _ => any_udid(random),
    }
}

/// So many different UDIDs.
pub fn udids(random: &mut Random, count: usize) -> Vec<Udid> {
    let mut all: Vec<Udid> = vec![];
    while all.len() < count {
        let udid = another_udid(random, &all);
        if !all.contains(&udid) {
            all.push(udid);
        }
    }
    all
}

/// None, few, many, all but few, or all addresses.
pub fn occupied(random: &mut Random) -> Addresses {
    let all = 0..ADDRESSES;
    let few = |random: &mut Random| (0..1 + random.below(5)).map(|_| random.byte() % ADDRESSES).collect();
    match random.below(6) {
        0 | 1 => Addresses::new(),
        2 => few(random),
        3 => all.filter(|_| random.below(2) == 0).collect(),
        4 => {
            let left: Addresses = few(random);
            all.filter(|address| !left.contains(address)).collect()
        }
        _ => {
            let below = random.byte() % ADDRESSES;
            all.filter(|&address| address < below).collect()
        }
    }
}

/// A last pick that a model run takes: never picked, one at either end or beside a row of the table, or any.
pub fn last_pick(random: &mut Random) -> u8 {
    match random.below(8) {
        0 | 1 => NEVER,
        2 => 0,
        3 => 126,
        4 => random.pick(&[0x08, 0x09, 0x0b, 0x0c, 0x0d, 0x2b, 0x2d, 0x3f, 0x44, 0x47, 0x4b, 0x60, 0x61, 0x76, 0x77]),
        _ => random.byte() % ADDRESSES,
    }
}

/// A number above 127, which is no last pick.
pub fn no_last_pick(random: &mut Random) -> u8 {
    match random.below(4) {
        0 => 128,
        1 => 255,
        _ => ADDRESSES + random.byte() % ADDRESSES,
    }
}

/// Any number that a controller may be made with.
pub fn any_last_pick(random: &mut Random) -> u8 {
    if random.below(5) == 0 {
        return no_last_pick(random);
    }
    last_pick(random)
}

/// What is occupied on a shelf of so many targets, by turns: nothing, so much that one address is lacking, or any.
pub fn occupied_by_turns(random: &mut Random, round: usize, count: usize) -> Addresses {
    match round % 3 {
        0 => Addresses::new(),
        1 => leaving(random, count.saturating_sub(1).min(90)),
        _ => occupied(random),
    }
}

/// All assignable addresses but so many. Of the added rows all are occupied too, or some, or none.
pub fn leaving(random: &mut Random, count: usize) -> Addresses {
    let mut assignable = assignable();
    for _ in 0..count {
        assignable.swap_remove(random.below(assignable.len()));
    }
    let percent = random.pick(&[0, 0, 50, 100]);
    let rows = added().into_iter().filter(|_| random.below(100) < percent);
    assignable.into_iter().chain(rows).collect()
}

/// An address that a movable target held: any, and often one of an added row.
fn held(random: &mut Random) -> u8 {
    if random.below(8) == 0 {
        return random.pick(&added());
    }
    random.byte() % ADDRESSES
}

/// A fixed target stands on one of those left to it; a movable one holds none or any.
fn address_byte(random: &mut Random, udid: &Udid, left: &mut Vec<u8>) -> u8 {
    if is_fixed(udid) {
        return 2 * left.swap_remove(random.below(left.len())) + 1;
    }
    if random.below(3) == 0 {
        return NO_ADDRESS;
    }
    2 * held(random) + 1
}

/// Where fixed targets may stand. Now and then only the added rows.
fn for_fixed(random: &mut Random, occupied: &Addresses) -> Vec<u8> {
    let barred = barred(occupied);
    let rows_alone = random.below(4) == 0;
    (0..ADDRESSES).filter(|&address| !barred.contains(&address) && (is_added(address) || !rows_alone)).collect()
}

/// Targets that a model run takes: different UDIDs, and the fixed ones on different addresses that are not barred.
pub fn targets(random: &mut Random, count: usize, occupied: &Addresses) -> Vec<Target> {
    let mut left = for_fixed(random, occupied);
    let movable_only = random.below(3) == 0;
    let mut all: Vec<Target> = vec![];
    while all.len() < count {
        let others: Vec<Udid> = all.iter().map(|target| target.udid).collect();
        let udid = another_udid(random, &others);
        if others.contains(&udid) || is_fixed(&udid) && (movable_only || left.is_empty()) {
            continue;
        }
        let address_byte = address_byte(random, &udid, &mut left);
        all.push(Target { udid, address_byte, resolved: random.below(2) == 0 });
    }
    all
}
