//! Passes on the rows of Table 17, worked out by hand: each reply, the command due after it, and what becomes of the row.

use crate::worked_passes::{Pass, F, G, M, N};
use reference::addresses::*;
use reference::commands::Command::*;
use reference::commands::*;
use reference::controller::Found;
use reference::good::{all_resolved, reply_trace};
use reference::mistakes::{nacked_at, trace_of};

/// Another fixed one.
const H: Udid = [0x03; 16];

impl Pass {
    /// A lookup of the row is answered with this number; a row is in the pool all the time.
    fn row(&self, address: u8, number: u32) {
        assert_eq!(self.0.lookup(address).number(), number);
        assert!(self.0.pool.contains(&address));
    }
}

/// A fixed target alone on an added row is bound there, on each of them.
fn alone() {
    for row in added() {
        let mut pass = Pass::begin(&[]);
        pass.row(row, 15);
        pass.taken(F, 2 * row + 1, row);
        pass.bound(&[(row, F)]);
        pass.claimed(&[]);
        pass.row(row, 0);
        pass.in_use(0);
        pass.last_pick(NEVER);
        assert_eq!(pass.0.step(&all_resolved()), Ended);
        pass.again();
        pass.row(row, 15);
    }
}

/// Two fixed targets on one added row: the second makes it claimed, and nobody is bound there for the rest of the pass.
fn two_on_one() {
    let mut pass = Pass::begin(&[]);
    pass.taken(F, 0x91, 0x48);
    pass.taken(G, 0x90, 0x48);
    pass.bound(&[]);
    pass.claimed(&[0x48]);
    pass.taken(H, 0x91, 0x48);
    pass.taken(F, 0x91, 0x48);
    pass.claimed(&[0x48]);
    pass.in_vain(0x48, 16);
    pass.taken(G, 0x93, 0x49);
    pass.bound(&[(0x49, G)]);
    pass.in_use(0);
    pass.again();
    pass.claimed(&[]);
    pass.taken(G, 0x91, 0x48);
    pass.bound(&[(0x48, G)]);
}

/// On an added row that is occupied a fixed target is a claim, and so it is on each of the first 21.
fn barred_rows() {
    for row in RESERVED {
        let mut pass = Pass::begin(&[0x48]);
        pass.taken(F, 2 * row, row);
        pass.claimed(&[row]);
        pass.in_vain(row, 16);
        pass.in_use(0);
    }
    for row in added() {
        let mut pass = Pass::begin(&[row]);
        pass.taken(F, 2 * row + 1, row);
        pass.claimed(&[row]);
        pass.bound(&[]);
        pass.in_vain(row, 16);
        pass.taken(F, 2 * row + 1, row);
        pass.claimed(&[row]);
        pass.in_use(0);
    }
}

/// A movable target that holds an added row is given a pick, occupied or not, and nobody is marked by it.
fn movable_from_a_row() {
    for occupied in [&[][..], &[0x48]] {
        let mut pass = Pass::begin(occupied);
        pass.taken(M, 0x91, 0x0d);
        pass.taken(N, 0x13, 0x0e);
        pass.bound(&[(0x0d, M), (0x0e, N)]);
        pass.row(0x48, 15);
        pass.row(0x09, 15);
        pass.claimed(&[]);
        pass.in_use(2);
    }
    let mut pass = Pass::begin_after(&[], 0x47);
    pass.taken(F, 0x91, 0x48);
    pass.taken(M, 0x91, 0x4c);
    pass.bound(&[(0x48, F), (0x4c, M)]);
    pass.last_pick(0x4c);
}

/// Bound at 48h it replies again: unbound, the row stays in the pool, and it is bound there again if the Assign
/// completes. Bound there it replies with another address: the row stays in the pool too.
fn replies_again() {
    let mut pass = Pass::begin_after(&[], 0x47);
    pass.taken(F, 0x91, 0x48);
    pass.offered(F, 0x91, 0x48);
    pass.row(0x48, 15);
    pass.in_use(0);
    pass.completed(F, 0x48);
    pass.bound(&[(0x48, F)]);
    pass.claimed(&[]);
    pass.refused(F, 0x91, 0x48);
    pass.row(0x48, 15);
    pass.taken(F, 0x91, 0x48);
    pass.bound(&[(0x48, F)]);
    pass.taken(F, 0x61, 0x30);
    pass.row(0x48, 15);
    pass.bound(&[(0x30, F)]);
    pass.taken(M, 0xff, 0x4c);
    pass.taken(G, 0x91, 0x48);
    pass.bound(&[(0x30, F), (0x48, G), (0x4c, M)]);
    pass.in_use(2);
}

/// Unbound by another reply, after which the Assign fails or another address is assigned: a movable target that holds
/// the row is given a pick, on each row. This goes by what is answered, and not by the pool.
fn movable_after_unbinding() {
    for row in added() {
        let own = 2 * row + 1;
        let completed = trace_of(&assign(&F, row));
        let mut pass = Pass::begin(&[]);
        for (failed, picked) in [(&[][..], 0x0d), (&completed[..43], 0x0e), (&nacked_at(&completed, 20), 0x0f)] {
            pass.taken(F, own, row);
            pass.offered(F, own, row);
            assert_eq!(pass.0.step(failed), GetUdid);
            pass.bound(&[]);
            pass.refused(M, own, picked);
        }
        pass.taken(F, own, row);
        pass.taken(F, 0x61, 0x30);
        pass.taken(M, own, 0x10);
        pass.bound(&[(0x10, M), (0x30, F)]);
    }
}

/// Reported gone at 48h: left, in the pool, and never picked, also where nothing else is free. Then a fixed one binds
/// there again.
fn gone_from_a_row() {
    let all_but_two: Vec<u8> = (0..ADDRESSES).filter(|&address| ![0x48, 0x50].contains(&address)).collect();
    let mut pass = Pass::begin_after(&all_but_two, 0x47);
    pass.taken(F, 0x91, 0x48);
    pass.gone(0x48, F);
    pass.row(0x48, 20);
    pass.in_vain(0x48, 20);
    pass.in_use(0);
    pass.taken(M, 0x91, 0x50);
    pass.row(0x48, 20);
    pass.taken(G, 0x91, 0x48);
    pass.bound(&[(0x48, G), (0x50, M)]);
    pass.left(&[]);
    pass.gone(0x48, G);
    assert_eq!(pass.0.step(&reply_trace(&N, 0x91)), NoneFree(N));
    pass.row(0x48, 20);
    pass.left(&[0x48]);
    pass.again();
    pass.row(0x48, 15);
}

/// The first of two is reported gone before the Assign to the second completes: bound, and no claim.
fn gone_in_between() {
    let mut pass = Pass::begin(&[]);
    pass.taken(F, 0x91, 0x48);
    pass.offered(G, 0x91, 0x48);
    pass.gone(0x48, F);
    pass.row(0x48, 20);
    pass.completed(G, 0x48);
    pass.bound(&[(0x48, G)]);
    pass.claimed(&[]);
    pass.taken(F, 0x91, 0x48);
    pass.claimed(&[0x48]);
    pass.in_use(0);
    assert_eq!(pass.0.gone(0x48), Found::Refused(16));
}

/// The same, but a movable target that holds the row replies where the Assign is due: nobody is bound. When it replies to
/// the next Get UDID it is given a pick, and the second fixed one is bound after it.
fn movable_in_between() {
    let mut pass = Pass::begin(&[]);
    pass.taken(F, 0x91, 0x48);
    pass.offered(G, 0x91, 0x48);
    pass.gone(0x48, F);
    assert_eq!(pass.0.step(&reply_trace(&M, 0x91)), GetUdid);
    pass.bound(&[]);
    pass.taken(M, 0x91, 0x0d);
    pass.row(0x48, 20);
    pass.taken(G, 0x91, 0x48);
    pass.bound(&[(0x0d, M), (0x48, G)]);
    pass.claimed(&[]);
    pass.in_use(1);
}

/// A fixed target without an address is given a pick, never a row.
fn fixed_without_address() {
    let mut pass = Pass::begin_after(&[], 0x3f);
    pass.taken(F, 0xff, 0x45);
    pass.taken(G, 0xff, 0x46);
    pass.taken(H, 0xff, 0x47);
    pass.taken(F, 0xff, 0x4c);
    pass.bound(&[(0x46, G), (0x47, H), (0x4c, F)]);
    pass.in_use(3);
}

/// Only rows are not occupied: whoever has to be given a pick gets none.
fn none_free() {
    let no_row: Vec<u8> = assignable();
    let mut pass = Pass::begin(&no_row);
    pass.taken(F, 0x91, 0x48);
    pass.taken(G, 0x13, 0x09);
    assert_eq!(pass.0.step(&reply_trace(&M, 0x93)), NoneFree(M));
    pass.bound(&[(0x09, G), (0x48, F)]);
    let mut pass = Pass::begin(&no_row);
    assert_eq!(pass.0.step(&reply_trace(&F, 0xff)), NoneFree(F));
    pass.last_pick(NEVER);
}

pub fn all() -> usize {
    let passes: [fn(); 11] = [
        alone,
        two_on_one,
        barred_rows,
        movable_from_a_row,
        replies_again,
        movable_after_unbinding,
        gone_from_a_row,
        gone_in_between,
        movable_in_between,
        fixed_without_address,
        none_free,
    ];
    passes.iter().for_each(|pass| pass());
    passes.len()
}
