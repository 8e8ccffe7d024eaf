//! Target lists that a model run refuses: good ones, spoiled in one way or in two.

use reference::model::*;
use reference::random::Random;
use reference::spoiled::*;
use reference::standing::{Standing, REFUSED};

/// The run refuses so, and changes nothing.
fn check(input: &Input, answer: u32, record: usize) {
    let mut after = input.clone();
    let outcome = run_model(&mut after.list, &mut after.buffer, &input.occupied, input.last_pick);
    assert_eq!(outcome, Outcome { answer, record, ..Outcome::default() }, "{:02x?}", input.list);
    assert!(after.list == input.list && after.buffer == input.buffer, "{:02x?}", input.list);
}

pub fn single_faults() -> usize {
    let mut random = Random::new(81);
    let (mut cases, mut standing) = (0, Standing::default());
    for count in (2..=MOST_TARGETS).cycle().take(3000) {
        let mut input = Input::good(&mut random, count);
        let number = random.pick(&NUMBERS);
        let record = spoil(&mut input, &mut random, number);
        if number == 12 && input.has_twins() {
            continue;
        }
        check(&input, number, record);
        standing.add(&input, number);
        cases += 1;
    }
    standing.check(&REFUSED);
    cases
}

/// The lower number is the answer; of one number, the first record.
pub fn double_faults() -> usize {
    let mut random = Random::new(82);
    let mut cases = 0;
    for count in (2..30).cycle().take(2400) {
        let mut input = Input::good(&mut random, count);
        let mut numbers = [random.pick(&NUMBERS), random.pick(&NUMBERS)];
        numbers.sort();
        let later = spoil(&mut input, &mut random, numbers[1]);
        if numbers == [9, 9] || numbers[1] == 12 && input.has_twins() {
            continue;
        }
        let first = spoil(&mut input, &mut random, numbers[0]);
        if numbers[0] == 12 && input.has_twins() {
            continue;
        }
        let record = if numbers[0] == numbers[1] { first.min(later) } else { first };
        check(&input, numbers[0], record);
        cases += 1;
    }
    cases
}
