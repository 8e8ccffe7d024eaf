//! Transactions to try: the sizes that matter, and random fields.

use crate::random::Random;
use crate::table::*;

/// Block sizes at and around the limits that different revisions of the bus have had.
pub const BLOCK_SIZES: [usize; 8] = [0, 1, 2, 31, 32, 33, 254, 255];

/// Sizes of the two blocks of a Block Process Call.
pub const BLOCK_PAIRS: [(usize, usize); 24] = [
    (0, 0),
    (0, 1),
    (1, 0),
    (1, 1),
    (2, 0),
    (0, 2),
    (2, 2),
    (31, 1),
    (1, 31),
    (31, 33),
    (32, 32),
    (33, 31),
    (32, 0),
    (0, 32),
    (33, 222),
    (222, 33),
    (127, 128),
    (200, 55),
    (254, 0),
    (254, 1),
    (1, 254),
    (0, 254),
    (255, 0),
    (0, 255),
];

/// Every protocol with each PEC use that it has: 21 of them.
pub fn combinations() -> Vec<(u8, bool)> {
    let all = (0..PROTOCOLS).flat_map(|protocol| [(protocol, false), (protocol, true)]);
    all.filter(|&(protocol, with_pec)| known(protocol, with_pec)).collect()
}

/// The data sizes, sent and received, that no test should leave out.
pub fn notable_sizes(protocol: u8) -> Vec<(usize, usize)> {
    match protocol {
        0 => vec![(0, 0)],
        1 | 3 => vec![(1, 0)],
        2 | 5 => vec![(0, 1)],
        4 => vec![(2, 0)],
        6 => vec![(0, 2)],
        7 => vec![(2, 2)],
        8 => BLOCK_SIZES.iter().map(|&m| (m, 0)).collect(),
        9 => BLOCK_SIZES.iter().map(|&n| (0, n)).collect(),
        _ => BLOCK_PAIRS.to_vec(),
    }
}

/// Random data sizes that the protocol allows, at most the limit together where it counts them.
pub fn random_sizes(random: &mut Random, protocol: u8, limit: usize) -> (usize, usize) {
    match protocol {
        8 => (random.below(limit + 1), 0),
        9 => (0, random.below(limit + 1)),
        10 => {
            let both = random.below(limit + 1);
            let m = random.below(both + 1);
            (m, both - m)
        }
        _ => notable_sizes(protocol)[0],
    }
}

/// Mostly any byte, now and then the lowest or the highest.
fn random_field(random: &mut Random) -> u8 {
    match random.below(16) {
        0 => 0,
        1 => 255,
        _ => random.byte(),
    }
}

/// A valid transaction with random fields and data of the sizes given.
pub fn transaction(random: &mut Random, protocol: u8, with_pec: bool, sizes: (usize, usize)) -> Transaction {
    Transaction {
        protocol,
        pec: with_pec,
        address: random_field(random) % 128,
        direction: if protocol == QUICK { random.byte() % 2 } else { 0 },
        command: if has_command(protocol) { random_field(random) } else { 0 },
        sent: (0..sizes.0).map(|_| random_field(random)).collect(),
        received: (0..sizes.1).map(|_| random_field(random)).collect(),
    }
}
