//! Families of the library's own traces, told to its decoder after a change within eight consecutive bits, or of two.

use crate::changed_traces::Kind::*;
use crate::changed_traces::{kinds, Sample};
use crate::decoding::print_numbers;
use crate::family::Family;
use reference::changes::{of_bits, within, Change};
use reference::decode::Answer;
use reference::numbers::Tally;
use reference::random::Random;
use reference::samples::{combinations, notable_sizes};
use reference::table::*;
use reference::text::trace_text;
use std::collections::BTreeSet;

/// These numbers were reached, and no other.
fn reached_just(reached: &Tally, numbers: &[u32]) {
    print_numbers(reached);
    assert_eq!(numbers, reached.totals().into_keys().collect::<Vec<u32>>(), "the numbers that answer");
}

/// Changes by what they hit, and the numbers that answer.
struct Hits {
    data: Family,
    commands: Family,
    addresses: Family,
    counts: Family,
    reached: Tally,
}

impl Hits {
    /// No case yet.
    fn new(names: [&'static str; 4]) -> Hits {
        let [data, commands, addresses, counts] = names.map(Family::new);
        Hits { data, commands, addresses, counts, reached: Tally::default() }
    }

    /// A change that is caught. If it hits data and PEC only, or the command too, the number is 7.
    fn caught(&mut self, sample: &Sample, change: &[usize]) {
        let hit = sample.hit(change);
        let family = match hit {
            Data => &mut self.data,
            Command => &mut self.commands,
            Address => &mut self.addresses,
            Count => &mut self.counts,
        };
        let answer = sample.tried(family, change, true);
        assert!(hit > Command || answer.number() == 7, "{} changed at {change:?}", trace_text(&sample.trace));
        self.reached.add(sample.t.protocol, true, &answer);
    }

    /// The count. These numbers were reached, and no other.
    fn done(self, numbers: &[u32]) -> usize {
        let cases = self.data.done() + self.commands.done() + self.addresses.done() + self.counts.done();
        reached_just(&self.reached, numbers);
        cases
    }
}

/// The protocols with PEC.
fn with_pec() -> impl Iterator<Item = u8> {
    combinations().into_iter().filter(|&(_, with_pec)| with_pec).map(|(protocol, _)| protocol)
}

/// The data sizes of a protocol's messages of so many bytes in all.
fn sizes_of(protocol: u8, bytes: usize) -> Vec<(usize, usize)> {
    let all = (0..bytes).flat_map(|m| (0..bytes).map(move |n| (m, n)));
    all.filter(|&(m, n)| lengths_allowed(protocol, m, n) && kinds(protocol, (m, n)).len() == bytes).collect()
}

/// Every change within eight bits of a message of up to 21 bytes in all. Of a longer one those of its first 16 bits, of
/// its last 16, and of 16 in between.
fn bursts_of(random: &mut Random, bits: usize) -> Vec<Change> {
    if bits <= 8 * 21 {
        return within(8, bits);
    }
    let moved = |by: usize| within(8, 16).into_iter().map(move |change| change.into_iter().map(|k| by + k).collect());
    [0, random.below(bits - 16), bits - 16].into_iter().flat_map(moved).collect()
}

/// How often each size is tried: more often where there is just one.
fn rounds(protocol: u8) -> usize {
    if protocol < BLOCK_WRITE {
        5
    } else {
        1
    }
}

/// Changes within eight bits: messages of notable sizes, and of 15, 16 and 21 bytes in all.
fn bursts() -> usize {
    const NAMES: [&str; 4] =
        ["decode bursts on data", "decode bursts on commands", "decode bursts on addresses", "decode bursts on counts"];
    let mut hits = Hits::new(NAMES);
    let mut random = Random::new(60);
    for protocol in with_pec() {
        let mut all_sizes = notable_sizes(protocol);
        for bytes in [15, 16, 21] {
            let sizes = sizes_of(protocol, bytes);
            all_sizes.extend((!sizes.is_empty()).then(|| random.pick(&sizes)));
        }
        for sizes in all_sizes.repeat(rounds(protocol)) {
            let sample = Sample::new(&mut random, protocol, sizes);
            for change in bursts_of(&mut random, sample.bits()) {
                hits.caught(&sample, &change);
            }
        }
    }
    hits.done(&[5, 7, 17, 18, 19])
}

/// Two bits: every size of up to 16 bytes in all, and every pair but the first bit with the last of 16 bytes. No count of so
/// short a message comes to be too high.
fn pairs() -> usize {
    const NAMES: [&str; 4] =
        ["decode pairs on data", "decode pairs on commands", "decode pairs on addresses", "decode pairs on counts"];
    let mut hits = Hits::new(NAMES);
    let mut random = Random::new(61);
    for protocol in with_pec() {
        let all_sizes: Vec<(usize, usize)> = (0..=16).flat_map(|bytes| sizes_of(protocol, bytes)).collect();
        for sizes in all_sizes.repeat(rounds(protocol)) {
            let sample = Sample::new(&mut random, protocol, sizes);
            for change in of_bits(2, sample.bits()).iter().filter(|&change| change[..] != [0, 127]) {
                hits.caught(&sample, change);
            }
        }
    }
    hits.done(&[5, 7, 17, 18])
}

/// The first bit with the last of 16 bytes in all. A Block Write then is one to another address, for it has no second
/// address byte. The others have one, and it is wrong.
fn first_with_last() -> usize {
    let mut family = Family::new("decode first with last bit");
    let mut random = Random::new(62);
    let mut reached = Tally::default();
    for protocol in with_pec() {
        for sizes in sizes_of(protocol, 16).repeat(20) {
            let sample = Sample::new(&mut random, protocol, sizes);
            let answer = sample.tried(&mut family, &[0, 127], false);
            let due = match protocol {
                BLOCK_WRITE => Answer::Done(Transaction { address: sample.t.address ^ 64, ..sample.t.clone() }),
                BLOCK_READ => Answer::Refused { number: 18, value: 6 },
                _ => Answer::Refused { number: 18, value: 8 + 2 * sizes.0 },
            };
            assert_eq!(due, answer, "{} changed at 0 and 127", trace_text(&sample.trace));
            reached.add(protocol, true, &answer);
        }
    }
    let cases = family.done();
    reached_just(&reached, &[0, 18]);
    cases
}

/// Two bits that are 127 apart, of messages of 17 to 40 bytes in all. None is caught. From 19 bytes on only data and PEC can
/// be hit: the decoder then hands out other data.
fn far_apart() -> usize {
    let mut family = Family::new("decode bits 127 apart");
    let mut random = Random::new(63);
    let mut reached = Tally::default();
    let mut other_data = BTreeSet::new();
    for protocol in with_pec() {
        for sizes in (17..=40).flat_map(|bytes| sizes_of(protocol, bytes)) {
            let sample = Sample::new(&mut random, protocol, sizes);
            for first in 0..sample.bits() - 127 {
                let change = [first, first + 127];
                let answer = sample.tried(&mut family, &change, false);
                reached.add(protocol, true, &answer);
                if sample.hit(&change) == Data {
                    other_data.insert(sample.kinds.len());
                }
            }
        }
    }
    assert_eq!(other_data, (19..=40).collect(), "bytes in all at which only data and PEC are hit");
    let cases = family.done();
    reached_just(&reached, &[0, 5, 17, 18]);
    cases
}

/// All cases.
pub fn all() -> usize {
    bursts() + pairs() + first_with_last() + far_apart()
}
