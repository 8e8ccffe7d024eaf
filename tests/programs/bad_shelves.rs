//! Target lists, binding buffers and last picks that are refused, and those just beside them.

use crate::family::Family;
use crate::good_shelves::{case, counted};
use reference::addresses::{Addresses, NEVER};
use reference::model::{record_of, BINDINGS, MOST_TARGETS, RECORD};
use reference::random::Random;
use reference::shelves;
use reference::spoiled::{spoil, Input, NUMBERS};
use reference::standing::{Standing, REFUSED};

/// Every length of the list up to 2,200 bytes.
fn lengths() -> usize {
    let mut family = Family::new("model list lengths");
    let mut random = Random::new(95);
    let targets = shelves::targets(&mut random, MOST_TARGETS, &Addresses::new());
    let whole: Vec<u8> = targets.iter().chain(&targets).flat_map(record_of).collect();
    for length in 0..=2200 {
        let (list, buffer) = (whole[..length].to_vec(), random.bytes(BINDINGS));
        case(&mut family, &Input { list, buffer, occupied: Addresses::new(), last_pick: NEVER });
    }
    family.done()
}

/// Binding buffers that are too short, just long enough, and longer; with last picks that are refused before them.
fn rooms() -> usize {
    let mut family = Family::new("model binding buffers");
    let mut random = Random::new(96);
    for count in [0, 1, 2, 30, MOST_TARGETS] {
        for room in [0, 1, 16, 2047, 2048, 2049, 2064, 4096, 5000] {
            for faults in [vec![], vec![1], vec![9], vec![10], vec![1, 9], vec![1, 10]] {
                let mut input = Input::good(&mut random, count);
                for &number in faults.iter().filter(|_| count > 0) {
                    spoil(&mut input, &mut random, number);
                }
                input.buffer = random.bytes(room);
                case(&mut family, &input);
            }
        }
    }
    family.done()
}

/// Every order of some numbers.
fn orders(numbers: &[u32]) -> Vec<Vec<u32>> {
    if numbers.is_empty() {
        return vec![vec![]];
    }
    let mut all = vec![];
    for k in 0..numbers.len() {
        let rest = [&numbers[..k], &numbers[k + 1..]].concat();
        all.extend(orders(&rest).into_iter().map(|order| [vec![numbers[k]], order].concat()));
    }
    all
}

/// Good lists with one fixed target misplaced in every way.
fn misplaced() -> usize {
    let mut family = Family::new("model misplaced");
    let (mut random, mut standing) = (Random::new(102), Standing::default());
    for count in (2..40).cycle().take(600) {
        let mut input = Input::good(&mut random, count);
        spoil(&mut input, &mut random, 12);
        counted(&mut family, &mut standing, &input);
    }
    standing.check(&REFUSED);
    family.done()
}

/// Good lists spoiled with some of the refusals, in every order; each fault strikes one record or more.
fn faults() -> usize {
    let mut family = Family::new("model faults");
    let mut random = Random::new(97);
    for chosen in 1..1u32 << NUMBERS.len() {
        let numbers: Vec<u32> = (0..NUMBERS.len()).filter(|k| chosen >> k & 1 == 1).map(|k| NUMBERS[k]).collect();
        for order in orders(&numbers) {
            for count in [2, 3, 8, 20 + random.below(100)] {
                let mut input = Input::good(&mut random, count);
                for &number in &order {
                    for _ in 0..1 + random.below(2) {
                        spoil_whole(&mut input, &mut random, number);
                    }
                }
                case(&mut family, &input);
            }
        }
    }
    family.done()
}

/// Spoils an input whose list still has a whole record; a wrong length is given once.
fn spoil_whole(input: &mut Input, random: &mut Random, number: u32) {
    let whole = input.list.len() >= 2 * RECORD;
    if whole && (number != 9 || input.list.len() % RECORD == 0) {
        spoil(input, random, number);
    }
}

/// One fault at every record of a list, first and last included.
fn places() -> usize {
    let mut family = Family::new("model places of faults");
    let mut random = Random::new(98);
    let good = Input::good(&mut random, MOST_TARGETS);
    for k in 0..MOST_TARGETS {
        for (byte, value) in [(16, 0xfe), (16, 0xff), (16, 0x01), (17, 2), (17, 1), (17, 0)] {
            let mut input = good.clone();
            input.record(k)[byte] = value;
            case(&mut family, &input);
        }
        let mut input = good.clone();
        let twin = input.record(random.below(MOST_TARGETS))[..16].to_vec();
        input.record(k)[..16].copy_from_slice(&twin);
        case(&mut family, &input);
        let mut input = good.clone();
        input.record(k)[0] &= 0x3f;
        case(&mut family, &input);
    }
    family.done()
}

/// Every last pick above 127, and the highest that is taken, with each other refusal and with none. Above 127 the
/// answer is 1 whatever else is wrong.
fn last_picks() -> usize {
    let mut family = Family::new("model last picks refused");
    let mut random = Random::new(101);
    for last_pick in 126..=255 {
        for others in [&[][..], &[2], &[9], &[10], &[11], &[12], &[2, 9], &[2, 10, 12]] {
            let mut input = Input { last_pick, ..Input::good(&mut random, 5) };
            for &number in others {
                spoil_whole(&mut input, &mut random, number);
            }
            let answer = case(&mut family, &input).answer();
            assert_eq!(answer == 1, last_pick > NEVER, "last pick {last_pick}, {others:?}");
        }
    }
    family.done()
}

pub fn all() -> usize {
    lengths() + rooms() + misplaced() + faults() + places() + last_picks()
}
