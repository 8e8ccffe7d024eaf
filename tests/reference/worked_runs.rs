//! Model runs and target lists worked out by hand: the marked cases, last picks, and the rows of Table 17.

use crate::shelf_runs::list_of;
use reference::addresses::*;
use reference::bus::Target;
use reference::model::*;

fn target(first: u8, address_byte: u8) -> Target {
    Target { udid: [first; 16], address_byte, resolved: false }
}

/// A run worked out by hand: who is bound where, the ending, the Get UDIDs, and the last pick after it.
struct Worked<'a> {
    bound: &'a [(u8, u8)],
    answer: u32,
    get_udids: usize,
    last_pick: u8,
}

/// The run of these targets with that last pick is as it was worked out.
fn check(name: &str, targets: &[Target], occupied: &Addresses, last_pick: u8, due: Worked) {
    let mut buffer = [0; BINDINGS];
    let outcome = run_model(&mut list_of(targets), &mut buffer, occupied, last_pick);
    let ended = (outcome.answer, outcome.get_udids, outcome.how_many, outcome.last_pick);
    assert_eq!(ended, (due.answer, due.get_udids, due.bound.len(), due.last_pick), "{name}");
    for &(first, address) in due.bound {
        assert!(outcome.bound.contains(&address), "{name}");
        assert_eq!(buffer[16 * usize::from(address)..][..16], [first; 16], "{name}");
    }
}

/// A run that serves all.
fn served(bound: &[(u8, u8)], last_pick: u8) -> Worked<'_> {
    Worked { bound, answer: 0, get_udids: if bound.is_empty() { 0 } else { bound.len() + 1 }, last_pick }
}

fn three() -> [Target; 3] {
    [target(0x80, 0xff), target(0x00, 0x13), target(0x40, 0x41)]
}

/// M8, M9 and M10, never picked before.
pub fn marked_cases() -> usize {
    let (none, all) = (Addresses::new(), (0..ADDRESSES).collect());
    check("M8", &three(), &none, NEVER, served(&[(0x00, 0x09), (0x40, 0x20), (0x80, 0x0d)], 0x0d));
    let two = [target(0x40, 0xff), target(0x80, 0x13)];
    check("M9", &two, &none, NEVER, served(&[(0x40, 0x0d), (0x80, 0x0e)], 0x0e));
    let nobody = Worked { bound: &[], answer: 13, get_udids: 1, last_pick: NEVER };
    check("M10", &[target(0x80, 0xff)], &all, NEVER, nobody);
    check("no target", &[], &none, NEVER, served(&[], NEVER));
    check("the UDID zero", &[target(0x00, 0x13)], &none, NEVER, served(&[(0x00, 0x09)], NEVER));
    5
}

/// Runs worked out by hand with other last picks.
pub fn last_picks_by_hand() -> usize {
    let (none, all) = (Addresses::new(), (0..ADDRESSES).collect());
    let m8 = |address| [(0x00, 0x09), (0x40, 0x20), (0x80, address)];
    check("after 0Dh", &three(), &none, 0x0d, served(&m8(0x0e), 0x0e));
    check("0Ah to 0Ch are rows", &three(), &none, 0x09, served(&m8(0x0d), 0x0d));
    check("28h is a row", &three(), &none, 0x27, served(&m8(0x29), 0x29));
    check("2Ch and 2Dh are rows", &three(), &none, 0x2b, served(&m8(0x2e), 0x2e));
    check("40h to 44h are rows", &three(), &none, 0x3f, served(&m8(0x45), 0x45));
    check("48h to 4Bh are rows", &three(), &none, 0x47, served(&m8(0x4c), 0x4c));
    check("after one of the rows", &three(), &none, 0x49, served(&m8(0x4c), 0x4c));
    check("20h is kept by another", &three(), &none, 0x1f, served(&m8(0x21), 0x21));
    check("the last assignable", &three(), &none, 0x76, served(&m8(0x77), 0x77));
    check("round, 09h to 0Ch are rows", &three(), &none, 0x77, served(&m8(0x0d), 0x0d));
    check("round from 7Eh", &three(), &none, 126, served(&m8(0x0d), 0x0d));
    check("round from 00h on", &three(), &none, 0, served(&m8(0x0d), 0x0d));
    let two = [target(0x40, 0xff), target(0x80, 0x1b)];
    check("two picks, 0Dh is kept", &two, &none, 0x76, served(&[(0x40, 0x77), (0x80, 0x0d)], 0x77));
    check("two picks, 0Dh is gone", &two, &none, 0x77, served(&[(0x40, 0x0d), (0x80, 0x0e)], 0x0e));
    let one = [target(0x80, 0xff)];
    check("one after 77h", &one, &none, 0x77, served(&[(0x80, 0x0d)], 0x0d));
    check("kept", &[target(0x80, 0x1b)], &none, NEVER, served(&[(0x80, 0x0d)], NEVER));
    check("no target", &[], &none, 0x33, served(&[], 0x33));
    let only = |free: u8| (0..ADDRESSES).filter(|&address| address != free).collect();
    check("the last pick alone is free", &one, &only(0x50), 0x50, served(&[(0x80, 0x50)], 0x50));
    check("one below the last pick", &one, &only(0x3f), 0x40, served(&[(0x80, 0x3f)], 0x3f));
    let nobody = Worked { bound: &[], answer: 13, get_udids: 1, last_pick: 0x33 };
    check("none free", &one, &all, 0x33, nobody);
    let first = Worked { bound: &[(0x40, 0x50)], answer: 13, get_udids: 2, last_pick: 0x50 };
    check("one free for two", &two, &only(0x50), 0x51, first);
    let kept = Worked { bound: &[(0x40, 0x50)], answer: 13, get_udids: 2, last_pick: 0x51 };
    check("one kept, none free", &[target(0x40, 0xa1), target(0x80, 0xff)], &only(0x50), 0x51, kept);
    22
}

/// Runs worked out by hand on the added rows: fixed targets stand there, movable ones do not stay and are given none.
pub fn rows_by_hand() -> usize {
    let none = Addresses::new();
    let all_but = |free: &[u8]| -> Addresses { (0..ADDRESSES).filter(|address| !free.contains(address)).collect() };
    let fixed_at_48 = target(0x01, 0x91);
    check("fixed alone at 48h", &[fixed_at_48], &none, NEVER, served(&[(0x01, 0x48)], NEVER));
    check("movable from 48h", &[target(0x80, 0x91)], &none, NEVER, served(&[(0x80, 0x0d)], 0x0d));
    let both = [target(0x80, 0x91), fixed_at_48];
    check("one from 48h, one fixed there", &both, &none, NEVER, served(&[(0x01, 0x48), (0x80, 0x0d)], 0x0d));
    check("after 47h", &both, &none, 0x47, served(&[(0x01, 0x48), (0x80, 0x4c)], 0x4c));
    let all_kinds = [target(0x40, 0x59), target(0x80, 0x59), target(0xc0, 0x59)];
    let moved = [(0x40, 0x0d), (0x80, 0x0e), (0xc0, 0x0f)];
    check("three from 2Ch", &all_kinds, &none, NEVER, served(&moved, 0x0f));
    let rows: Vec<Target> =
        (0..).zip([0x09, 0x0b, 0x2d, 0x40, 0x44, 0x4b]).map(|(k, a)| target(k, 2 * a + 1)).collect();
    let bound: Vec<(u8, u8)> = rows.iter().map(|row| (row.udid[0], row.address_byte / 2)).collect();
    check("fixed ones on six rows", &rows, &none, 0x33, served(&bound, 0x33));
    let nobody = Worked { bound: &[], answer: 13, get_udids: 1, last_pick: NEVER };
    check("48h alone is not occupied", &[target(0x80, 0x91)], &all_but(&[0x48]), NEVER, nobody);
    check("the same, a fixed one", &[fixed_at_48], &all_but(&[0x48]), NEVER, served(&[(0x01, 0x48)], NEVER));
    let first = Worked { bound: &[(0x01, 0x48)], answer: 13, get_udids: 2, last_pick: NEVER };
    check("the same, both", &both, &all_but(&[0x48]), NEVER, first);
    check("48h and 50h", &both, &all_but(&[0x48, 0x50]), NEVER, served(&[(0x01, 0x48), (0x80, 0x50)], 0x50));
    10
}

/// Lists with one fixed target or two, worked out by hand: the number and the record, 0 where they are let in.
pub fn lists_by_hand() -> usize {
    let fixed = |address: u8| target(0x01, 2 * address + 1);
    let second = |address: u8| target(0x02, 2 * address + 1);
    let movable = |address: u8| target(0x80, 2 * address + 1);
    let cases: [(&str, &[Target], &[u8], (u32, usize)); 14] = [
        ("a prototype address", &[fixed(0x48)], &[], (0, 0)),
        ("the last of them", &[fixed(0x4b)], &[0x4a], (0, 0)),
        ("one of the 21", &[fixed(0x0c)], &[], (12, 0)),
        ("the host's", &[fixed(0x08)], &[], (12, 0)),
        ("28h", &[fixed(0x28)], &[], (12, 0)),
        ("no address at all", &[target(0x01, 0xff)], &[], (12, 0)),
        ("48h, occupied", &[fixed(0x48)], &[0x48], (12, 0)),
        ("48h, another occupied", &[fixed(0x48)], &[0x49], (0, 0)),
        ("20h, occupied", &[fixed(0x20)], &[0x20], (12, 0)),
        ("two at 48h", &[fixed(0x48), second(0x48)], &[], (12, 1)),
        ("two at 48h, occupied", &[fixed(0x48), second(0x48)], &[0x48], (12, 0)),
        ("two on rows", &[fixed(0x48), second(0x49)], &[], (0, 0)),
        ("a movable one before", &[movable(0x48), fixed(0x48)], &[], (0, 0)),
        ("a movable one, occupied", &[movable(0x48)], &[0x48], (0, 0)),
    ];
    for (name, targets, occupied, due) in cases {
        let refused = refusal(&list_of(targets), BINDINGS, &occupied.iter().copied().collect(), NEVER);
        assert_eq!(refused.unwrap_or((0, 0)), due, "{name}");
    }
    cases.len()
}
