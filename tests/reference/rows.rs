//! The rows of Table 17, held to the addresses that they cover by hand.

use reference::addresses::*;
use reference::table_17::{covers, ROWS};

/// What the table has beside the first 21, written out.
pub const ADDED: [u8; 14] = [0x09, 0x0a, 0x0b, 0x2c, 0x2d, 0x40, 0x41, 0x42, 0x43, 0x44, 0x48, 0x49, 0x4a, 0x4b];

/// The addresses of each row, written out.
const COVERED: [&[u8]; 22] = [
    &[0x00],
    &[0x00],
    &[0x01],
    &[0x02],
    &[0x03],
    &[0x04, 0x05, 0x06, 0x07],
    &[0x08],
    &[0x09],
    &[0x0a],
    &[0x0b],
    &[0x0c],
    &[0x0c],
    &[0x28],
    &[0x2c],
    &[0x2d],
    &[0x37],
    &[0x40, 0x41, 0x42, 0x43],
    &[0x44],
    &[0x48, 0x49, 0x4a, 0x4b],
    &[0x61],
    &[0x78, 0x79, 0x7a, 0x7b],
    &[0x7c, 0x7d, 0x7e, 0x7f],
];

/// Every address against every row. A row for one direction only has 0 or 1 for the R/W# bit.
fn each_row() -> usize {
    for ((pattern, read, name), due) in ROWS.iter().zip(COVERED) {
        assert!(["0", "1", "X"].contains(read), "{name}");
        let covered: Vec<u8> = (0..ADDRESSES).filter(|&address| covers(pattern, address)).collect();
        assert_eq!(covered, due, "{name}");
    }
    ROWS.len() * usize::from(ADDRESSES)
}

/// The two lists and the counts: 21 and 14 are 35, and 93 are left to pick from. Each address is one of the three.
fn lists() -> usize {
    let both: Addresses = RESERVED.into_iter().chain(ADDED).collect();
    assert_eq!((both.len(), listed().len(), added().len(), assignable().len()), (35, 35, 14, 93));
    assert_eq!(listed(), &both);
    assert_eq!(added(), ADDED);
    let mut all: Vec<u8> = [&RESERVED[..], &ADDED, &assignable()].concat();
    all.sort();
    assert!(all.into_iter().eq(0..ADDRESSES));
    usize::from(ADDRESSES)
}

/// The sets that a controller begins with: with nothing occupied, with some, and with all.
fn sets() -> usize {
    let some = Addresses::from([0x0c, 0x20, 0x48]);
    let all: Addresses = (0..ADDRESSES).collect();
    let counts = |occupied: &Addresses| (starting_pool(occupied).len(), barred(occupied).len());
    assert_eq!(counts(&Addresses::new()), (35, 21));
    assert_eq!(counts(&some), (36, 23));
    assert_eq!(counts(&all), (128, 128));
    assert!(starting_pool(&some).is_superset(&barred(&some)));
    assert!(starting_pool(&some).contains(&0x49) && !barred(&some).contains(&0x49) && barred(&some).contains(&0x48));
    3
}

pub fn table() -> usize {
    each_row() + lists() + sets()
}
