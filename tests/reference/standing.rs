//! Where the targets of a list stand, as to the rows of Table 17: what lists have to reach, and how often.

use crate::addresses::*;
use crate::commands::*;
use crate::model::{refusal, RECORD};
use crate::spoiled::Input;
use std::collections::BTreeMap;

/// Of lists that run: where a target stands before the run, and a run that ends while nobody is on some added row.
pub const RUN: [&str; 6] = [
    "fixed on an added row",
    "fixed elsewhere",
    "movable, held an added row",
    "movable, held an occupied added row",
    "movable, held one of the 21",
    "13, an added row is empty",
];

/// Of lists that are refused with 12: where the target stands that is to blame.
pub const REFUSED: [&str; 5] = [
    "12, one of the 21",
    "12, an occupied added row",
    "12, occupied elsewhere",
    "12, the second on an added row",
    "12, the second elsewhere",
];

fn is_fixed_record(record: &[u8]) -> bool {
    is_fixed(&udid_of(&record[..16]))
}

/// Where a target of a list that runs stands.
fn place(record: &[u8], occupied: &Addresses) -> Option<&'static str> {
    let own = record[16] / 2;
    match (is_fixed_record(record), is_added(own), occupied.contains(&own)) {
        _ if record[16] == NO_ADDRESS => None,
        (true, true, _) => Some("fixed on an added row"),
        (true, false, _) => Some("fixed elsewhere"),
        (false, true, true) => Some("movable, held an occupied added row"),
        (false, true, false) => Some("movable, held an added row"),
        (false, false, _) => RESERVED.contains(&own).then_some("movable, held one of the 21"),
    }
}

/// Why a fixed target is refused.
fn blame(own: u8, occupied: &Addresses) -> &'static str {
    match (is_added(own), occupied.contains(&own)) {
        _ if RESERVED.contains(&own) => "12, one of the 21",
        (true, true) => "12, an occupied added row",
        (false, true) => "12, occupied elsewhere",
        (true, false) => "12, the second on an added row",
        (false, false) => "12, the second elsewhere",
    }
}

/// Is there an added row that is not occupied, and that no fixed target stands on?
fn has_empty_row(input: &Input) -> bool {
    let fixed = input.list.chunks(RECORD).filter(|record| is_fixed_record(record));
    let taken: Addresses = fixed.map(|record| record[16] / 2).collect();
    added().into_iter().any(|row| !input.occupied.contains(&row) && !taken.contains(&row))
}

/// How often each was reached.
#[derive(Default)]
pub struct Standing(BTreeMap<&'static str, usize>);

impl Standing {
    fn count(&mut self, what: &'static str) {
        *self.0.entry(what).or_default() += 1;
    }

    /// An input, and the number that its run is answered with.
    pub fn add(&mut self, input: &Input, answer: u32) {
        match refusal(&input.list, input.buffer.len(), &input.occupied, input.last_pick) {
            Some((12, k)) => self.count(blame(input.list[k * RECORD + 16] / 2, &input.occupied)),
            Some(_) => {}
            None => {
                input.list.chunks(RECORD).filter_map(|r| place(r, &input.occupied)).for_each(|what| self.count(what));
                if answer == 13 && has_empty_row(input) {
                    self.count("13, an added row is empty");
                }
            }
        }
    }

    /// Each of these was reached 20 times.
    pub fn check(&self, wanted: &[&str]) {
        for what in wanted {
            let times = self.0.get(what).copied().unwrap_or(0);
            assert!(times >= 20, "{what}: {times} times");
        }
        println!("{:<28}{:?}", "where targets stand", self.0);
    }
}
