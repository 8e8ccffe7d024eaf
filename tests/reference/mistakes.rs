//! Wrong answers to an ARP command, made of the right one.

use crate::damage::*;
use crate::random::Random;
use crate::samples::{combinations, random_sizes, transaction};
use crate::table::*;

/// The trace of a transaction that the protocol allows.
pub fn trace_of(t: &Transaction) -> Vec<u16> {
    build(t).expect("the transaction is allowed")
}

/// A trace cut after the byte given: NACK and STOP.
pub fn nacked_at(trace: &[u16], byte: usize) -> Vec<u16> {
    let place = (0..trace.len()).filter(|&place| trace[place] < 256).nth(byte).expect("the trace has that byte");
    [&trace[..=place], &[NACK, STOP]].concat()
}

/// The same trace with another PEC.
pub fn wrong_pec(random: &mut Random, trace: &[u16]) -> Vec<u16> {
    let mut other = trace.to_vec();
    other[trace.len() - 3] ^= 1 + random.below(255) as u16;
    other
}

/// One of the ways to damage a trace, at any place.
pub fn damaged(random: &mut Random, trace: &[u16]) -> Vec<u16> {
    let place = random.below(trace.len());
    let ways = match random.below(5) {
        0 => replaced(trace, place),
        1 => moved(trace, place),
        2 => cut(trace, place),
        3 if trace[place] == ACK => nacked(trace, place),
        _ => appended(trace),
    };
    ways[random.below(ways.len())].clone()
}

/// A trace with a symbol of the right sort that is wrong: an address byte, a byte where a count may stand, ACK or NACK.
pub fn misled(random: &mut Random, trace: &[u16]) -> Vec<u16> {
    let ways = match random.below(3) {
        0 => readdressed(trace),
        1 => recounted(trace),
        _ => reanswered(trace),
    };
    if ways.is_empty() {
        return damaged(random, trace);
    }
    ways[random.below(ways.len())].clone()
}

/// The data phase that an ARP command or its reply has.
fn data(t: &mut Transaction) -> &mut Vec<u8> {
    if t.received.is_empty() {
        &mut t.sent
    } else {
        &mut t.received
    }
}

/// Another address, with the right PEC for it.
pub fn elsewhere(random: &mut Random, t: &Transaction) -> Vec<u16> {
    let address = (t.address + 1 + random.below(127) as u8) % 128;
    trace_of(&Transaction { address, ..t.clone() })
}

/// Another command, with the right PEC for it; without a command, another data byte.
pub fn other_command(random: &mut Random, t: &Transaction) -> Vec<u16> {
    let mut other = t.clone();
    let by = 1 + random.below(255) as u8;
    if has_command(t.protocol) {
        other.command ^= by;
    } else {
        other.sent[0] ^= by;
    }
    trace_of(&other)
}

/// One bit of the data turned, with the right PEC for it.
pub fn other_data(random: &mut Random, t: &Transaction) -> Vec<u16> {
    let mut other = t.clone();
    let bytes = data(&mut other);
    let place = random.below(bytes.len());
    bytes[place] ^= 1 << random.below(8);
    trace_of(&other)
}

/// Another count, with the right PEC for it; where nothing is counted, another data byte.
pub fn other_count(random: &mut Random, t: &Transaction) -> Vec<u16> {
    if t.protocol < BLOCK_WRITE {
        return other_data(random, t);
    }
    let mut other = t.clone();
    let count = random.pick(&[0, 1, 2, 15, 16, 18, 19, 32, 34, 254, 255]);
    data(&mut other).resize(count, 0x55);
    trace_of(&other)
}

/// A good trace of any protocol, to the same address.
pub fn any_trace(random: &mut Random, address: u8) -> Vec<u16> {
    let (protocol, with_pec) = random.pick(&combinations());
    let sizes = random_sizes(random, protocol, 20);
    let t = transaction(random, protocol, with_pec, sizes);
    trace_of(&Transaction { address, ..t })
}

/// Symbols and other numbers at random.
pub fn rubbish(random: &mut Random) -> Vec<u16> {
    let count = random.below(60);
    let limit = random.pick(&[260, 262, 65_536]);
    (0..count).map(|_| random.below(limit) as u16).collect()
}

/// A wrong answer of any sort. That of a Get UDID may be a good one of another target or end the pass.
pub fn mistaken(random: &mut Random, t: &Transaction) -> Vec<u16> {
    let right = trace_of(t);
    match random.below(11) {
        0 | 1 => damaged(random, &right),
        2 => elsewhere(random, t),
        3 => other_command(random, t),
        4 => wrong_pec(random, &right),
        5 => any_trace(random, t.address),
        6 => rubbish(random),
        7 => other_count(random, t),
        8 => nacked_at(&right, random.below(bytes_of(&right).len())),
        9 => misled(random, &right),
        _ => other_data(random, t),
    }
}
