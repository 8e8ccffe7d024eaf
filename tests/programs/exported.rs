//! What the library exports beside the codec and the model run, against the reference: pools, identifiers, the last data phase,
//! commands, passes and the check of a target list.

mod exported_abi;
mod exported_lists;
mod exported_passes;
mod family;

use exported_abi::{check_targets, last_data, Part, Pool, Udid};
use family::Family;
use reference::addresses::*;
use reference::commands;
use reference::model::{refusal, BINDINGS};
use reference::random::Random;
use reference::shelves;
use reference::spoiled::{spoil, Input, NUMBERS};
use reference::standing::{Standing, REFUSED};
use reference::table::{lengths_allowed, BLOCK_LIMIT};

pub fn pool_of(addresses: &Addresses) -> Pool {
    let whole = addresses.iter().fold(0u128, |set, &address| set | 1 << address);
    Pool { low: whole as u64, high: (whole >> 64) as u64 }
}

pub fn halves(udid: &commands::Udid) -> Udid {
    let whole = u128::from_be_bytes(*udid);
    Udid { high: (whole >> 64) as u64, low: whole as u64 }
}

/// Every address and every number above, against sets. Any of them is a last pick too.
fn pools() -> usize {
    let mut family = Family::new("exported pools");
    let mut random = Random::new(70);
    for _ in 0..60 {
        let (a, b) = (shelves::occupied(&mut random), shelves::occupied(&mut random));
        let input = || format!("{a:02x?} {b:02x?}");
        let pool = pool_of(&a);
        family.same(input, &a.len(), &pool.used());
        family.same(input, &lowest_free(&a).unwrap_or(ADDRESSES), &pool.lowest_free());
        family.same(input, &pool_of(&starting_pool(&a)), &pool.starting());
        family.same(input, &pool_of(&barred(&a)), &pool.barred());
        family.same(input, &pool_of(&a.union(&b).copied().collect()), &pool.union(pool_of(&b)));
        for number in 0..=255 {
            let address = number < ADDRESSES;
            let (mut more, mut fewer) = (a.clone(), a.clone());
            fewer.remove(&number);
            if address {
                more.insert(number);
            }
            family.same(input, &a.contains(&number), &pool.has(number));
            family.same(input, &pool_of(&more), &pool.with(number));
            family.same(input, &pool_of(&fewer), &pool.without(number));
            family.same(input, &next_free(&a, number).unwrap_or(ADDRESSES), &pool.next_free(number));
        }
    }
    family.done()
}

/// The two sets that a pass begins with, where nothing is occupied, one address, and all but one.
fn starting_sets() -> usize {
    let mut family = Family::new("exported starting sets");
    for one in 0..=ADDRESSES {
        let alone: Addresses = [one].into_iter().filter(|&address| address < ADDRESSES).collect();
        let others: Addresses = (0..ADDRESSES).filter(|&address| address != one).collect();
        for occupied in [alone, others] {
            let input = || format!("occupied {occupied:02x?}");
            let pool = pool_of(&occupied);
            family.same(input, &pool_of(&starting_pool(&occupied)), &pool.starting());
            family.same(input, &pool_of(&barred(&occupied)), &pool.barred());
        }
    }
    family.same(|| "counts".to_string(), &(35, 21), &both_counts(&Addresses::new()));
    family.same(|| "counts, 48h occupied".to_string(), &(35, 22), &both_counts(&[0x48].into()));
    family.same(|| "counts, 20h occupied".to_string(), &(36, 22), &both_counts(&[0x20].into()));
    family.done()
}

fn both_counts(occupied: &Addresses) -> (usize, usize) {
    let pool = pool_of(occupied);
    (pool.starting().used(), pool.barred().used())
}

/// The next free address after every last pick, where few are free: none, each one alone, and two.
fn next_free_ones() -> usize {
    let mut family = Family::new("exported next free");
    let mut random = Random::new(78);
    for one in 0..=ADDRESSES {
        for other in [one, random.byte() % ADDRESSES] {
            let used: Addresses = (0..ADDRESSES).filter(|&address| address != one && address != other).collect();
            for last in 0..=255 {
                let input = || format!("all but {one:02x} and {other:02x}, after {last:02x}");
                family.same(input, &next_free(&used, last).unwrap_or(ADDRESSES), &pool_of(&used).next_free(last));
            }
        }
    }
    family.done()
}

/// Identifiers that differ in one bit or in many, and their bytes at every place.
fn identifiers() -> usize {
    let mut family = Family::new("exported identifiers");
    let mut random = Random::new(71);
    for _ in 0..400 {
        let udid = shelves::any_udid(&mut random);
        let other =
            if random.below(2) == 0 { shelves::near(&mut random, &udid) } else { shelves::any_udid(&mut random) };
        let input = || format!("{udid:02x?} {other:02x?}");
        let (u, v) = (halves(&udid), halves(&other));
        family.same(input, &(udid == other, udid < other), &(u.is_same(v), u.is_below(v)));
        family.same(input, &(true, false), &(u.is_same(u), u.is_below(u)));
        family.same(input, &commands::is_fixed(&udid), &u.is_fixed());
        for (length, at) in [(16, 0), (15, 0), (40, 3), (40, 24), (40, 25), (40, 100), (0, 0), (30, usize::MAX)] {
            let before = random.bytes(length);
            let mut due = before.clone();
            let room = at <= length && length - at >= 16;
            if room {
                due[at..at + 16].copy_from_slice(&udid);
            }
            let mut given = before.clone();
            u.put_bytes(&mut given, at);
            family.same(input, &due, &given);
            let mut read = before.get(at.min(length)..).unwrap_or(&[]).to_vec();
            read.resize(16, 0);
            family.same(input, &halves(&commands::udid_of(&read)), &Udid::from_bytes(&before, at));
        }
    }
    family.done()
}

/// Lengths that belong and that do not, buffers that have them and that do not.
fn last_phases() -> usize {
    const RECEIVES: [u8; 6] = [2, 5, 6, 7, 9, 10];
    let mut family = Family::new("exported last data");
    let mut random = Random::new(72);
    let lengths = [0, 1, 2, 3, 55, 200, BLOCK_LIMIT, BLOCK_LIMIT + 1];
    for protocol in 0..13 {
        for m in lengths {
            for n in lengths {
                for room in [0, 1, 2, 254, 255, 256] {
                    let (sent, received) = (random.bytes(random_room(m)), random.bytes(random_room(n)));
                    let belongs = protocol <= 10 && lengths_allowed(protocol, m, n);
                    let whole = belongs && m <= sent.len() && n <= received.len();
                    let data = match RECEIVES.contains(&protocol) {
                        _ if !whole => &[][..],
                        true => &received[..n],
                        false => &sent[..m],
                    };
                    let mut due = vec![0xee; room];
                    let mut part = Part { answer: 2, length: 0 };
                    if data.len() <= room {
                        due[..data.len()].copy_from_slice(data);
                        part = Part { answer: 0, length: data.len() };
                    }
                    let mut out = vec![0xee; room];
                    let given = last_data(protocol, (m, n), &sent, &received, &mut out);
                    family.same(|| format!("protocol {protocol} {m} {n} room {room}"), &(part, due), &(given, out));
                }
            }
        }
    }
    family.done()
}

/// A buffer for so many bytes: as many for an even number, one less for an odd one above 2.
fn random_room(bytes: usize) -> usize {
    if bytes % 2 == 1 && bytes > 2 {
        bytes - 1
    } else {
        bytes
    }
}

fn checks() -> usize {
    let mut family = Family::new("exported list checks");
    let mut random = Random::new(73);
    let mut standing = Standing::default();
    for round in 0..2400 {
        let count = 2 + random.below(119);
        let mut input = Input::good(&mut random, count);
        if round % 4 > 0 {
            let number = random.pick(&NUMBERS[2..]);
            spoil(&mut input, &mut random, number);
        }
        let (answer, length) = refusal(&input.list, BINDINGS, &input.occupied, NEVER).unwrap_or((0, 0));
        let given = check_targets(pool_of(&input.occupied), &input.list);
        family.same(|| format!("{:02x?}", input.list), &Part { answer, length }, &given);
        standing.add(&input, answer);
    }
    standing.check(&[&REFUSED[..], &["fixed on an added row"]].concat());
    family.done()
}

fn main() {
    let parts = pools() + starting_sets() + next_free_ones() + identifiers() + last_phases() + checks();
    let passes = exported_passes::all() + exported_lists::all();
    println!("{:<28}{:>9} cases", "exported, all", parts + passes);
}
