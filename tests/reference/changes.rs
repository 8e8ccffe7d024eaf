//! Messages with their right PEC, and changes to their bits. A change is the places of the bits that are turned over,
//! in order. Place 0 is the highest bit of the first byte, and place 8 that of the second: so they go over the wire.

use crate::pec::pec;
use crate::random::Random;
use std::collections::BTreeSet;

/// The places that are turned over.
pub type Change = Vec<usize>;

/// Messages of so many bytes in all, each once: zeros, ones and random bytes, and the PEC last.
/// Of one byte in all there is one, the PEC of no bytes.
pub fn messages(random: &mut Random, bytes: usize) -> BTreeSet<Vec<u8>> {
    let before = bytes - 1;
    let mut some = vec![vec![0; before], vec![255; before]];
    some.extend((0..3).map(|_| random.bytes(before)));
    some.iter().map(|message| [&message[..], &[pec(message)]].concat()).collect()
}

/// Every change within so many consecutive bits of a message, each once: by the first bit that is turned over, and by
/// which of those after it are. What would reach over the end of the message is none.
pub fn within(width: usize, bits: usize) -> Vec<Change> {
    let mut all = vec![];
    for first in 0..bits {
        let after: Vec<usize> = (first + 1..bits.min(first + width)).collect();
        for choice in 0..1usize << after.len() {
            let more = (0..after.len()).filter(|&k| choice >> k & 1 == 1).map(|k| after[k]);
            all.push([first].into_iter().chain(more).collect());
        }
    }
    all
}

/// Every change of just so many bits, at least one, of a message.
pub fn of_bits(count: usize, bits: usize) -> Vec<Change> {
    if count == 1 {
        return (0..bits).map(|place| vec![place]).collect();
    }
    let fewer = of_bits(count - 1, bits).into_iter();
    fewer.flat_map(|change| (change[count - 2] + 1..bits).map(move |last| [&change[..], &[last]].concat())).collect()
}

/// The message changed.
pub fn changed(message: &[u8], change: &[usize]) -> Vec<u8> {
    let mut other = message.to_vec();
    for place in change {
        other[place / 8] ^= 128 >> (place % 8);
    }
    other
}
