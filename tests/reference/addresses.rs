//! Addresses, those that are reserved or on a row of Table 17, and sets of them.

use crate::table_17;
use std::collections::BTreeSet;
use std::sync::OnceLock;

pub type Addresses = BTreeSet<u8>;

pub const ADDRESSES: u8 = 128;

/// Where ARP commands go.
pub const DEFAULT: u8 = 0x61;

/// The first 21: nobody may stand there, not even a fixed target.
pub const RESERVED: [u8; 21] = [
    0x00, 0x01, 0x02, 0x03, 0x04, 0x05, 0x06, 0x07, 0x08, 0x0c, 0x28, 0x37, 0x61, 0x78, 0x79, 0x7a, 0x7b, 0x7c, 0x7d,
    0x7e, 0x7f,
];

/// All on a row of the table: no movable target picks or keeps one.
pub fn listed() -> &'static Addresses {
    static LISTED: OnceLock<Addresses> = OnceLock::new();
    LISTED.get_or_init(|| (0..ADDRESSES).filter(|&address| table_17::has(address)).collect())
}

/// On a row of the table and none of the first 21: the added rows.
pub fn is_added(address: u8) -> bool {
    listed().contains(&address) && !RESERVED.contains(&address)
}

pub fn added() -> Vec<u8> {
    (0..ADDRESSES).filter(|&address| is_added(address)).collect()
}

/// On no row: what there is to pick from where nothing is occupied.
pub fn assignable() -> Vec<u8> {
    (0..ADDRESSES).filter(|address| !listed().contains(address)).collect()
}

/// What is used before anyone is bound: the rows of the table, and the occupied.
pub fn starting_pool(occupied: &Addresses) -> Addresses {
    listed() | occupied
}

/// Where not even a fixed target may stand: the first 21, and the occupied.
pub fn barred(occupied: &Addresses) -> Addresses {
    RESERVED.into_iter().chain(occupied.iter().copied()).collect()
}

/// The lowest address outside a set.
pub fn lowest_free(used: &Addresses) -> Option<u8> {
    (0..ADDRESSES).find(|address| !used.contains(address))
}

/// The last pick of a controller that has never picked.
pub const NEVER: u8 = 127;

/// The first address outside a set on the way round: after the last pick up to 7Fh, then from 00h on, the last pick at
/// the end. A number above 127 counts as never picked.
pub fn next_free(used: &Addresses, last: u8) -> Option<u8> {
    let last = last.min(NEVER);
    (last + 1..ADDRESSES).chain(0..=last).find(|address| !used.contains(address))
}
