//! Picks that go round: an address picked comes again only after every other that was free at each pick since.

use reference::addresses::*;
use std::collections::BTreeMap;

/// For each address that was picked, the others that were free at every pick since and were not picked: a bit each.
#[derive(Default)]
pub struct Rotation {
    waiting: BTreeMap<u8, u128>,
}

impl Rotation {
    /// Another pick, from the addresses that are not used. Whether it is in its turn.
    pub fn is_kept_by(&mut self, used: &Addresses, picked: u8) -> bool {
        let taken = used.iter().fold(0, |bits, address| bits | 1u128 << address);
        for others in self.waiting.values_mut() {
            *others &= !taken;
        }
        let passed_over = self.waiting.get(&picked).is_some_and(|&others| others != 0);
        for others in self.waiting.values_mut() {
            *others &= !(1 << picked);
        }
        self.waiting.insert(picked, !(1 << picked));
        !passed_over
    }

    /// How many addresses were picked so far.
    pub fn picked(&self) -> usize {
        self.waiting.len()
    }
}
