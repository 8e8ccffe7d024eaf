//! Ways to damage a trace.

use crate::random::Random;
use crate::table::{ACK, NACK, START, STOP};

/// Values to put in a symbol's place.
fn replacements(symbol: u16) -> Vec<u16> {
    let near = [symbol.wrapping_add(1), symbol.wrapping_sub(1), symbol ^ 1, symbol ^ 2, symbol ^ 128, symbol ^ 256];
    let same_low_byte = [symbol.wrapping_add(512), symbol | 0x8000];
    let fixed = [0, 1, 127, 128, 254, 255, START, STOP, ACK, NACK, 260, 300, 65_535];
    let mut all: Vec<u16> = fixed.into_iter().chain(near).chain(same_low_byte).collect();
    all.sort();
    all.dedup();
    all.retain(|&other| other != symbol);
    all
}

/// The trace with other symbols from a place on, up to another.
fn spliced(trace: &[u16], from: usize, to: usize, middle: &[u16]) -> Vec<u16> {
    [&trace[..from], middle, &trace[to..]].concat()
}

/// One symbol replaced.
pub fn replaced(trace: &[u16], place: usize) -> Vec<Vec<u16>> {
    let others = replacements(trace[place]).into_iter();
    others.map(|other| spliced(trace, place, place + 1, &[other])).collect()
}

/// One symbol dropped, doubled, changed over with the next, or one put in before it.
pub fn moved(trace: &[u16], place: usize) -> Vec<Vec<u16>> {
    let here = trace[place];
    let mut all = vec![spliced(trace, place, place + 1, &[]), spliced(trace, place, place, &[here])];
    if place + 1 < trace.len() {
        all.push(spliced(trace, place, place + 2, &[trace[place + 1], here]));
    }
    for other in [0, 255, START, STOP, ACK, NACK, 260] {
        all.push(spliced(trace, place, place, &[other]));
    }
    all
}

/// The trace cut before a place, by itself and with something after the cut.
pub fn cut(trace: &[u16], place: usize) -> Vec<Vec<u16>> {
    let tails: [&[u16]; 6] = [&[], &[STOP], &[START], &[NACK, STOP], &[ACK, STOP], &[65_535]];
    tails.iter().map(|tail| [&trace[..place], tail].concat()).collect()
}

/// NACK for an ACK: with the rest, at the end, before STOP, and with something after either.
pub fn nacked(trace: &[u16], place: usize) -> Vec<Vec<u16>> {
    if trace[place] != ACK {
        return vec![];
    }
    let tails: [&[u16]; 12] = [
        &[],
        &[STOP],
        &[START],
        &[ACK],
        &[NACK],
        &[7],
        &[260],
        &[STOP, STOP],
        &[STOP, START],
        &[STOP, 0],
        &[STOP, 260],
        &[STOP, 8, 65_535],
    ];
    let mut all = vec![spliced(trace, place, place + 1, &[NACK])];
    all.extend(tails.iter().map(|tail| [&trace[..place], &[NACK], tail].concat()));
    all
}

/// The trace with one symbol replaced, for each symbol given.
fn each_at(trace: &[u16], place: usize, others: &[u16]) -> Vec<Vec<u16>> {
    let others = others.iter().filter(|&&other| other != trace[place]);
    others.map(|&other| spliced(trace, place, place + 1, &[other])).collect()
}

/// The places of bytes that stand so far after a START.
pub fn bytes_after_start(trace: &[u16], distance: usize) -> Vec<usize> {
    let starts = (0..trace.len()).filter(|&place| trace[place] == START).map(|place| place + distance);
    starts.filter(|&place| trace.get(place).is_some_and(|&symbol| symbol < 256)).collect()
}

/// One address byte with the other direction, with another address, or with both.
pub fn readdressed(trace: &[u16]) -> Vec<Vec<u16>> {
    let places = bytes_after_start(trace, 1).into_iter();
    places.flat_map(|place| each_at(trace, place, &[1, 2, 3, 128, 255].map(|bits| trace[place] ^ bits))).collect()
}

/// A higher byte after the last address byte, where a block that is received has its count.
pub fn recounted(trace: &[u16]) -> Vec<Vec<u16>> {
    let Some(&place) = bytes_after_start(trace, 3).last() else {
        return vec![];
    };
    each_at(trace, place, &[255.min(trace[place] + 1), 254, 255])
}

/// NACK for one ACK, or ACK for one NACK.
pub fn reanswered(trace: &[u16]) -> Vec<Vec<u16>> {
    let places = (0..trace.len()).filter(|&place| matches!(trace[place], ACK | NACK));
    places.flat_map(|place| each_at(trace, place, &[ACK, NACK])).collect()
}

/// Symbols after the last.
pub fn appended(trace: &[u16]) -> Vec<Vec<u16>> {
    let tails: [&[u16]; 12] = [
        &[0],
        &[255],
        &[START],
        &[STOP],
        &[ACK],
        &[NACK],
        &[260],
        &[65_535],
        &[STOP, 260],
        &[260, STOP],
        &[START, 24, ACK, STOP],
        &[0; 600],
    ];
    tails.iter().map(|tail| [trace, tail].concat()).collect()
}

/// Every place of a short trace; of a long one both ends and some between.
pub fn places(random: &mut Random, length: usize) -> Vec<usize> {
    const EACH_END: usize = 16;
    if length <= 4 * EACH_END {
        return (0..length).collect();
    }
    let mut all: Vec<usize> = (0..EACH_END).chain(length - EACH_END..length).collect();
    all.extend((0..EACH_END).map(|_| random.below(length)));
    all
}
