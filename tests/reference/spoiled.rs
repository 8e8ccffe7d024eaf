//! A model run's input: a good one, and how to spoil it so that it is refused with a number.

use crate::addresses::*;
use crate::commands::is_fixed;
use crate::model::*;
use crate::random::Random;
use crate::shelves;

/// A run's input.
#[derive(Clone)]
pub struct Input {
    pub list: Vec<u8>,
    pub buffer: Vec<u8>,
    pub occupied: Addresses,
    pub last_pick: u8,
}

impl Input {
    pub fn good(random: &mut Random, count: usize) -> Input {
        let occupied = shelves::occupied(random);
        let targets = shelves::targets(random, count, &occupied);
        let last_pick = shelves::last_pick(random);
        let list = targets.iter().flat_map(record_of).collect();
        Input { list, buffer: random.bytes(BINDINGS), occupied, last_pick }
    }

    pub fn records(&self) -> usize {
        self.list.len() / RECORD
    }

    pub fn record(&mut self, k: usize) -> &mut [u8] {
        &mut self.list[k * RECORD..][..RECORD]
    }

    /// Bytes 16 of the fixed records before one.
    fn fixed_before(&self, k: usize) -> Vec<u8> {
        let earlier = self.list.chunks(RECORD).take(k);
        earlier.filter(|record| is_fixed(&record[..16].try_into().unwrap())).map(|record| record[16]).collect()
    }

    pub fn has_twins(&self) -> bool {
        let all: Vec<&[u8]> = self.list.chunks(RECORD).map(|record| &record[..16]).collect();
        (0..all.len()).any(|k| all[..k].contains(&all[k]))
    }
}

/// Not a multiple of 18, or over 2,160.
fn wrong_length(input: &mut Input, random: &mut Random) {
    let length = match random.below(3) {
        0 => input.list.len() - 1 - random.below(RECORD - 1),
        1 => input.list.len() + 1 + random.below(RECORD - 1),
        _ => (MOST_TARGETS + 1 + random.below(9)) * RECORD,
    };
    input.list.resize(length, 1);
}

/// Addresses on which a fixed target is misplaced: those of earlier ones, on an added row or on any; the occupied of the
/// added rows, or any occupied; the first 21. Where there are none of a kind, all that are barred.
fn misplacing(input: &Input, random: &mut Random, k: usize) -> Vec<u8> {
    let earlier: Vec<u8> = input.fixed_before(k).iter().map(|byte| byte / 2).collect();
    let occupied: Vec<u8> = input.occupied.iter().copied().collect();
    let on_rows = |all: Vec<u8>| all.into_iter().filter(|&address| is_added(address)).collect();
    let some = match random.below(5) {
        0 => earlier,
        1 => on_rows(earlier),
        2 => occupied,
        3 => on_rows(occupied),
        _ => RESERVED.to_vec(),
    };
    if some.is_empty() {
        return barred(&input.occupied).into_iter().collect();
    }
    some
}

/// A fixed target where none may stand, or where an earlier one does.
fn misplace(input: &mut Input, random: &mut Random, k: usize) {
    let addresses = misplacing(input, random, k);
    let record = input.record(k);
    record[0] &= 0x3f;
    record[16] = 2 * random.pick(&addresses) + 1;
}

/// The numbers of refusals, in the order in which they are looked for.
pub const NUMBERS: [u32; 6] = [1, 2, 9, 10, 11, 12];

/// Spoils an input so that it is refused with the number, and says for which record.
pub fn spoil(input: &mut Input, random: &mut Random, number: u32) -> usize {
    let k = random.below(input.records());
    match number {
        1 => input.last_pick = shelves::no_last_pick(random),
        2 => input.buffer.truncate(random.below(BINDINGS)),
        9 => wrong_length(input, random),
        10 if random.below(2) == 0 => input.record(k)[16] &= 0xfe,
        10 => input.record(k)[17] = 2 + random.below(254) as u8,
        11 => {
            let k = k.max(1);
            let twin: Vec<u8> = input.record(random.below(k))[..16].to_vec();
            input.record(k)[..16].copy_from_slice(&twin);
            return k;
        }
        _ => misplace(input, random, k),
    }
    if number < 10 {
        0
    } else {
        k
    }
}
