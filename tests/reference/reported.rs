//! What a report may change, and the reports that scripts have to reach.

use crate::turn::Turn;
use reference::addresses::ADDRESSES;
use reference::commands::Command;
use reference::controller::{Controller, Found};
use reference::recorder::{Due, Op};
use std::collections::BTreeMap;

/// The answer is that of a lookup before it. After 0 the address is left, and free unless a pass starts with it; all
/// else is as it was. After any other answer everything is.
pub fn is_right(before: &Controller, number: u8, after: &Controller, found: &Found) -> bool {
    let same = |a: &u8| before.lookup(*a) == after.lookup(*a) && before.pool.contains(a) == after.pool.contains(a);
    let others = (0..ADDRESSES).filter(|&address| address != number).all(|address| same(&address));
    let rest = |c: &Controller| (c.starting.clone(), c.barred.clone(), c.get_udids, c.last_pick, c.last);
    let changed = match found {
        Found::Refused(_) => before == after,
        Found::Bound(_) => {
            after.lookup(number) == Found::Refused(20)
                && after.pool.contains(&number) == after.starting.contains(&number)
        }
    };
    *found == before.lookup(number) && others && rest(before) == rest(after) && changed
}

/// When a report comes.
fn point(last: &Command, number: u8) -> &'static str {
    match last {
        Command::NotOutstanding => "before the first pass",
        Command::Prepare => "prepare",
        Command::GetUdid => "get udid",
        Command::Assign(_, address) if *address == number => "its assign",
        Command::Assign(..) => "assign",
        Command::Chosen(_, address, _) if *address == number => "its choice",
        Command::Chosen(..) => "choice",
        Command::Ended => "after 0",
        Command::NoneFree(_) => "after 13",
        Command::Abandoned => "after 14",
    }
}

/// The answers that there are at each point. A number above 127 is never assigned.
const ANSWERS: [(&str, &[u32]); 10] = [
    ("before the first pass", &[1, 15]),
    ("prepare", &[1, 15]),
    ("get udid", &[0, 1, 15, 16, 20]),
    ("its assign", &[0, 15, 16, 20]),
    ("assign", &[0, 1, 15, 16, 20]),
    ("its choice", &[0, 15, 16, 20]),
    ("choice", &[0, 1, 15, 16, 20]),
    ("after 0", &[0, 1, 15, 16, 20]),
    ("after 13", &[0, 1, 15, 16, 20]),
    ("after 14", &[0, 1, 15, 16, 20]),
];

/// How many reports were answered with each number, at each point.
#[derive(Default)]
pub struct Reports(BTreeMap<(&'static str, u32), usize>);

impl Reports {
    pub fn add(&mut self, turn: &Turn) {
        if let (Op::Gone(number), Due::Gone(found)) = (turn.op, turn.due) {
            *self.0.entry((point(&turn.before.last, *number), found.number())).or_default() += 1;
        }
    }

    /// Each was reached 20 times, and no other.
    pub fn check(&self) {
        let wanted: Vec<_> =
            ANSWERS.iter().flat_map(|(at, all)| all.iter().map(move |number| (*at, *number))).collect();
        for key in &wanted {
            let times = self.0.get(key).copied().unwrap_or(0);
            assert!(times >= 20, "reports, {key:?}: {times} times");
        }
        assert_eq!(self.0.len(), wanted.len(), "{:?}", self.0);
    }

    /// How many reports were answered with each number.
    pub fn totals(&self) -> BTreeMap<u32, usize> {
        let mut totals = BTreeMap::new();
        for ((_, number), times) in &self.0 {
            *totals.entry(*number).or_default() += times;
        }
        totals
    }
}
