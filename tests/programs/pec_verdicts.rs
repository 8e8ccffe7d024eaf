//! The library's PEC as a verdict on messages whose bits were changed: is the last byte the PEC of those before it?

use crate::family::Family;
use crate::ground_abi as library;
use reference::changes::{changed, messages, of_bits, within, Change};
use reference::pec;
use reference::random::Random;
use reference::text::hex;

/// Every change to a message: the PEC is the reference's, and right just where that is due.
fn verdicts(family: &mut Family, message: &[u8], changes: &[Change], escapes: impl Fn(&[usize]) -> bool) {
    for change in changes {
        let other = changed(message, change);
        let (last, before) = other.split_last().expect("a message has its PEC");
        let given = library::pec(before);
        let input = || format!("{} changed at {change:?}", hex(message));
        family.same(input, &(pec::pec(before), escapes(change)), &(given, given == *last));
    }
}

/// Changes within eight consecutive bits are always caught.
fn eight_bits() {
    let mut family = Family::new("pec within eight bits");
    let mut random = Random::new(31);
    for bytes in 1..=21 {
        let changes = within(8, 8 * bytes);
        for message in messages(&mut random, bytes) {
            verdicts(&mut family, &message, &changes, |_| false);
        }
    }
    family.done();
}

/// Two bits are caught unless they are 127 apart. Up to 15 bytes in all none are. At 16 it is the first with the last alone.
fn two_bits() {
    let mut family = Family::new("pec of two bits");
    let mut random = Random::new(32);
    for bytes in 1..=17 {
        let changes = of_bits(2, 8 * bytes);
        for message in messages(&mut random, bytes) {
            verdicts(&mut family, &message, &changes, |pair| pair[1] - pair[0] == 127);
        }
    }
    family.done();
}

/// Both families.
pub fn all() {
    eight_bits();
    two_bits();
}
