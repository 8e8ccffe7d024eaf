//! Which numbers the decoder has for the traces of a protocol, and how often cases reach them.

use crate::decode::Answer;
use crate::table::{BLOCK_PROCESS_CALL, QUICK};
use std::collections::{BTreeMap, BTreeSet};

/// The numbers for a symbol that cannot stand where it does.
pub const WRONG_SYMBOL: [u32; 4] = [5, 17, 18, 19];

/// Every answer to a trace of a protocol of the table. 17 needs a byte that the controller receives.
/// 18 needs an address byte that is not free; that of Quick is. 19 needs two counts with one limit.
pub fn numbers(protocol: u8, with_pec: bool) -> BTreeSet<u32> {
    let receives = matches!(protocol, 2 | 5 | 6 | 7 | 9 | 10);
    let some = [(7, with_pec), (17, receives), (18, protocol != QUICK), (19, protocol == BLOCK_PROCESS_CALL)];
    let more = some.into_iter().filter(|&(_, has)| has).map(|(number, _)| number);
    [0, 3, 4, 5, 6, 8].into_iter().chain(more).collect()
}

/// How many traces of each protocol and PEC use were answered with each number.
#[derive(Default)]
pub struct Tally(BTreeMap<(u8, bool), BTreeMap<u32, usize>>);

impl Tally {
    pub fn add(&mut self, protocol: u8, with_pec: bool, answer: &Answer) {
        let told = self.0.entry((protocol, with_pec)).or_default();
        *told.entry(answer.number()).or_default() += 1;
    }

    /// Whatever was told as these was answered with each of its numbers, so many times at least, and with no other.
    pub fn check(&self, name: &str, told: &[(u8, bool)], least: usize) {
        for &(protocol, with_pec) in told {
            let times = self.0.get(&(protocol, with_pec)).cloned().unwrap_or_default();
            let reached: BTreeSet<u32> = times.keys().copied().collect();
            let due = numbers(protocol, with_pec);
            assert_eq!(reached, due, "{name}: the numbers of protocol {protocol}, PEC {with_pec}");
            let rare = times.iter().find(|(_, &times)| times < least);
            assert!(rare.is_none(), "{name}: protocol {protocol}, PEC {with_pec}: {times:?}");
        }
    }

    /// How many traces were answered with each number, whatever they were told as.
    pub fn totals(&self) -> BTreeMap<u32, usize> {
        let mut totals = BTreeMap::new();
        for (number, times) in self.0.values().flatten() {
            *totals.entry(*number).or_default() += times;
        }
        totals
    }

    pub fn cases(&self) -> usize {
        self.totals().values().sum()
    }
}
