//! Picking by itself: two ways of it, and what any run of picks keeps to.

use crate::rotation::Rotation;
use reference::addresses::*;
use reference::plain_rule::{nearest_after, steps_after};
use reference::random::Random;
use reference::shelves;

/// Picks worked out by hand: the free addresses, the last pick, and what is due.
const WORKED: [(&[u8], u8, Option<u8>); 14] = [
    (&[0x09, 0x20, 0x77], 127, Some(0x09)),
    (&[0x09, 0x20, 0x77], 0x08, Some(0x09)),
    (&[0x09, 0x20, 0x77], 0x09, Some(0x20)),
    (&[0x09, 0x20, 0x77], 0x1f, Some(0x20)),
    (&[0x09, 0x20, 0x77], 0x20, Some(0x77)),
    (&[0x09, 0x20, 0x77], 0x77, Some(0x09)),
    (&[0x09, 0x20, 0x77], 126, Some(0x09)),
    (&[0x00, 0x7f], 126, Some(0x7f)),
    (&[0x00, 0x7f], 127, Some(0x00)),
    (&[0x00, 0x7f], 0x00, Some(0x7f)),
    (&[0x40], 0x40, Some(0x40)),
    (&[0x40], 0x41, Some(0x40)),
    (&[0x20], 200, Some(0x20)),
    (&[], 0x40, None),
];

fn all_but(free: &[u8]) -> Addresses {
    (0..ADDRESSES).filter(|address| !free.contains(address)).collect()
}

pub fn worked() -> usize {
    for (free, last, due) in WORKED {
        assert_eq!(next_free(&all_but(free), last), due, "{free:02x?} after {last:02x}");
    }
    WORKED.len()
}

/// A set, from none to all addresses: any, or all but one or two.
fn any_set(random: &mut Random) -> Addresses {
    match random.below(4) {
        0 => all_but(&[random.byte() % ADDRESSES]),
        1 => all_but(&[random.byte() % ADDRESSES, random.byte() % ADDRESSES]),
        _ => shelves::occupied(random),
    }
}

/// Whatever comes before the pick on the way is used, and the pick is not. Without a pick all are used.
fn is_first(used: &Addresses, last: u8, picked: Option<u8>) -> bool {
    let steps = picked.map_or(u32::from(ADDRESSES), |address| steps_after(last, address));
    (0..ADDRESSES).all(|address| match steps_after(last, address) {
        before if before < steps => used.contains(&address),
        there if there == steps => !used.contains(&address),
        _ => true,
    })
}

/// The two ways pick the same from many sets, after every last pick: the first that is free. After 7Fh, and after a
/// number that is no address, it is the lowest free.
pub fn two_ways() -> usize {
    let mut random = Random::new(83);
    let mut cases = 0;
    for _ in 0..400 {
        let used = any_set(&mut random);
        for last in 0..ADDRESSES {
            let picked = next_free(&used, last);
            assert_eq!(picked, nearest_after(&used, last), "{used:02x?} after {last:02x}");
            assert!(is_first(&used, last, picked), "{used:02x?} after {last:02x}: {picked:02x?}");
            cases += 1;
        }
        for last in NEVER..=255 {
            assert_eq!(next_free(&used, last), lowest_free(&used), "{used:02x?} after {last:02x}");
            cases += 1;
        }
    }
    cases
}

/// Some addresses come to be used and others free, few or many, or what was picked is used from now on.
fn change(random: &mut Random, used: &mut Addresses, picked: Option<u8>) {
    if random.below(3) > 0 {
        used.extend(picked);
    }
    for _ in 0..random.pick(&[0, 0, 1, 1, 2, 5, 30]) {
        let address = random.byte() % ADDRESSES;
        if !used.remove(&address) {
            used.insert(address);
        }
    }
}

/// A run of picks from sets that change between them, each after the one before; the number of picks.
fn run_of_picks(random: &mut Random, way: fn(&Addresses, u8) -> Option<u8>) -> usize {
    let (mut used, mut last) = (any_set(random), shelves::last_pick(random));
    let mut rotation = Rotation::default();
    let mut picks = 0;
    for _ in 0..600 {
        let picked = way(&used, last);
        if let Some(address) = picked {
            assert!(rotation.is_kept_by(&used, address), "{address:02x} after {last:02x}, used {used:02x?}");
            last = address;
            picks += 1;
        }
        change(random, &mut used, picked);
    }
    assert!(rotation.picked() > 1, "no address but one was picked");
    picks
}

/// Runs of picks that go round.
pub fn rotation() -> usize {
    let mut random = Random::new(84);
    (0..120).map(|_| run_of_picks(&mut random, next_free) + run_of_picks(&mut random, nearest_after)).sum()
}

/// The lowest free address every time, as it was before, does not go round: the check of the rotation notices.
pub fn lowest_is_noticed() -> usize {
    let mut rotation = Rotation::default();
    let used = all_but(&[0x09, 0x0a]);
    assert!(rotation.is_kept_by(&used, 0x09) && !rotation.is_kept_by(&used, 0x09));
    let mut rotation = Rotation::default();
    let turns = [0x09, 0x0a, 0x09].map(|address| rotation.is_kept_by(&used, address));
    assert_eq!(turns, [true; 3]);
    let mut alone = Rotation::default();
    let turns = [0x40, 0x40].map(|address| alone.is_kept_by(&all_but(&[0x40]), address));
    assert_eq!(turns, [true; 2]);
    3
}
