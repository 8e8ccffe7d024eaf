//! What the error code catches: which changes to a message with its right PEC leave a right PEC, and so escape.
//! Every change is tried on zeros, ones and random bytes. Whether it escapes is said for each.

use crate::report;
use reference::changes::{changed, messages, of_bits, within, Change};
use reference::pec::pec;
use reference::random::Random;
use std::collections::{BTreeMap, BTreeSet};

/// The verdict: the last byte is the PEC of those before it.
fn is_right(message: &[u8]) -> bool {
    let (last, before) = message.split_last().expect("a message has its PEC");
    pec(before) == *last
}

/// How many changes to messages were tried, and how many changes escape, by the bytes in all.
struct Tried {
    random: Random,
    cases: usize,
    escaped: BTreeMap<usize, usize>,
}

impl Tried {
    /// Nothing yet.
    fn new(seed: u64) -> Tried {
        Tried { random: Random::new(seed), cases: 0, escaped: BTreeMap::new() }
    }

    /// Each change to each message of so many bytes in all: those that are due escape, and no other does.
    fn all(&mut self, bytes: usize, changes: &[Change], due: &BTreeSet<Change>) {
        for message in messages(&mut self.random, bytes) {
            assert!(is_right(&message), "{message:02x?}");
            let mut escaped = 0;
            for change in changes {
                let given = is_right(&changed(&message, change));
                assert_eq!(due.contains(change), given, "does it escape: {message:02x?} changed at {change:?}");
                escaped += usize::from(given);
                self.cases += 1;
            }
            assert_eq!(due.len(), escaped, "how many escape: {message:02x?}");
        }
        if !due.is_empty() {
            self.escaped.insert(bytes, due.len());
        }
    }

    /// The line of a family, and what escapes.
    fn report(self, name: &str) {
        report(name, self.cases);
        if !self.escaped.is_empty() {
            println!("{:<28}{:?}", "  escape, by bytes in all", self.escaped);
        }
    }
}

/// No change.
fn none() -> BTreeSet<Change> {
    BTreeSet::new()
}

/// The list of changes within eight bits is whole, and has each once: they are what lies in some eight bits that follow
/// each other in the message.
fn each_once() {
    let mut cases = 0;
    for bits in (8..=168).step_by(8) {
        let listed = within(8, bits);
        let mut windows = BTreeSet::new();
        for first in 0..=bits - 8 {
            for choice in 1..256 {
                let places = (0..8).filter(|k| choice >> k & 1 == 1).map(|k| first + k);
                windows.insert(places.collect::<Change>());
            }
        }
        assert_eq!(listed.len(), 128 * (bits - 7) + 127, "{bits} bits");
        assert_eq!(listed.len(), windows.len(), "{bits} bits");
        assert_eq!(listed.into_iter().collect::<BTreeSet<_>>(), windows, "{bits} bits");
        cases += windows.len();
    }
    report("changes listed once", cases);
}

/// A change within eight consecutive bits is always caught.
fn eight_bits() {
    let mut tried = Tried::new(3);
    for bytes in 1..=21 {
        tried.all(bytes, &within(8, 8 * bytes), &none());
    }
    tried.report("changes within eight bits");
}

/// The divisor at every place of so many bits.
fn divisors(bits: usize) -> impl Iterator<Item = Change> {
    (8..bits).map(|last| vec![last - 8, last - 2, last - 1, last])
}

/// Within nine consecutive bits the divisor itself escapes, at every place, and nothing else.
fn nine_bits() {
    let mut tried = Tried::new(4);
    for bytes in 1..=12 {
        tried.all(bytes, &within(9, 8 * bytes), &divisors(8 * bytes).collect());
    }
    tried.report("changes within nine bits");
}

/// The pairs that escape. Up to 15 bytes in all there is none. At 16 it is the very first bit with the very last, 127 bits
/// after it. At 17 there are nine at that distance.
fn escaping_pairs(bytes: usize) -> BTreeSet<Change> {
    const AT_16: [[usize; 2]; 1] = [[0, 127]];
    const AT_17: [[usize; 2]; 9] =
        [[0, 127], [1, 128], [2, 129], [3, 130], [4, 131], [5, 132], [6, 133], [7, 134], [8, 135]];
    let pairs: &[[usize; 2]] = match bytes {
        0..=15 => &[],
        16 => &AT_16,
        _ => &AT_17,
    };
    pairs.iter().map(|pair| pair.to_vec()).collect()
}

/// Of two bits those above escape, and no other.
fn two_bits() {
    let mut tried = Tried::new(5);
    for bytes in 1..=17 {
        tried.all(bytes, &of_bits(2, 8 * bytes), &escaping_pairs(bytes));
    }
    tried.report("changes of two bits");
}

/// The divisor has four terms, so that it is divided by x + 1, and so is all that escapes. Three bits are always caught.
fn three_bits() {
    let mut tried = Tried::new(6);
    for bytes in 1..=12 {
        tried.all(bytes, &of_bits(3, 8 * bytes), &none());
    }
    tried.report("changes of three bits");
}

/// Four bits are caught at one byte in all, for there they lie within eight. At two bytes 16 changes escape: the divisor at
/// eight places, the divisor times x + 1 at seven, and one from the first bit to the last.
fn four_bits() {
    let mut tried = Tried::new(7);
    tried.all(1, &of_bits(4, 8), &none());
    let twice = (0..7).map(|first| vec![first, first + 1, first + 6, first + 9]);
    let due: BTreeSet<Change> = divisors(16).chain(twice).chain([vec![0, 8, 12, 15]]).collect();
    assert!(due.contains(&vec![0, 6, 7, 8]), "the smallest");
    tried.all(2, &of_bits(4, 16), &due);
    tried.report("changes of four bits");
}

/// Eight consecutive bits are those that follow each other on the wire. If the lowest bit of each byte were the first, two
/// changes would escape at every end of a byte that another follows.
fn lowest_first() {
    let over = |change: &[usize]| {
        let mut places: Change = change.iter().map(|place| place / 8 * 8 + 7 - place % 8).collect();
        places.sort();
        places
    };
    let mut tried = Tried::new(8);
    for bytes in 1..=8 {
        let changes: Vec<Change> = within(8, 8 * bytes).iter().map(|change| over(change)).collect();
        let two = |end: usize| [[2, 3, 5, 6, 8, 9], [3, 4, 6, 7, 9, 10]].map(|change| change.map(|k| 8 * end + k));
        let due = (0..bytes - 1).flat_map(two).map(|change| over(&change));
        tried.all(bytes, &changes, &due.collect());
    }
    tried.report("the lowest bit first");
}

/// Every family of changes.
pub fn all() {
    each_once();
    eight_bits();
    nine_bits();
    two_bits();
    three_bits();
    four_bits();
    lowest_first();
}
