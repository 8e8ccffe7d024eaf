//! Reports worked out by hand: the answer due to each, and what is bound, left and claimed after it.

use crate::worked_passes::{Pass, F, G, M, N};
use reference::addresses::*;
use reference::commands::Command::*;
use reference::commands::*;
use reference::controller::{Controller, Found};
use reference::good::{all_resolved, reply_trace};
use reference::mistakes::{nacked_at, trace_of};

impl Pass {
    /// A report that finds this identifier; the address is left then.
    pub fn gone(&mut self, address: u8, udid: Udid) {
        assert_eq!(self.0.gone(address), Found::Bound(udid));
        assert_eq!(self.0.lookup(address), Found::Refused(20));
    }

    /// A report that is answered with this number and changes nothing.
    pub fn in_vain(&mut self, address: u8, number: u32) {
        let before = self.0.clone();
        assert_eq!(self.0.gone(address), Found::Refused(number));
        assert_eq!(self.0, before);
    }

    /// The Assign that is outstanding completes.
    pub fn completed(&mut self, udid: Udid, address: u8) {
        assert_eq!(self.0.last, Assign(udid, address));
        assert_eq!(self.0.step(&trace_of(&assign(&udid, address))), GetUdid);
    }

    /// So many addresses are in use beside those that a pass starts with.
    pub fn in_use(&self, more: usize) {
        assert_eq!(self.0.pool.len(), self.0.starting.len() + more);
    }
}

/// A report of each kind: bound, left, open, claimed by two, and no address.
fn each_answer() {
    let mut pass = Pass::begin(&[]);
    pass.taken(M, 0x41, 0x20);
    pass.taken(F, 0x61, 0x30);
    pass.taken(G, 0x61, 0x30);
    pass.in_use(2);
    pass.in_vain(128, 1);
    pass.in_vain(255, 1);
    pass.in_vain(128 + 0x20, 1);
    pass.in_vain(0x30, 16);
    pass.in_vain(0x21, 15);
    pass.in_vain(0x61, 15);
    pass.gone(0x20, M);
    pass.in_use(1);
    pass.in_vain(0x20, 20);
    pass.bound(&[]);
    pass.left(&[0x20]);
    pass.claimed(&[0x30]);
}

/// Before the first pass, and with Prepare outstanding, nobody is bound.
fn before_anything() {
    let mut pass = Pass(Controller::new(&Addresses::from([0x20]), NEVER));
    for address in 0..=255 {
        pass.in_vain(address, if address > 127 { 1 } else { 15 });
    }
    assert_eq!(pass.0.start(), Prepare);
    for address in 0..=255 {
        pass.in_vain(address, if address > 127 { 1 } else { 15 });
    }
    assert_eq!(pass.0.step(&trace_of(&prepare())), GetUdid);
}

/// The pass goes on as it was: the command outstanding, the Get UDIDs and the last pick stay.
fn goes_on() {
    let mut pass = Pass::begin(&[]);
    pass.taken(M, 0xff, 0x0d);
    pass.gone(0x0d, M);
    pass.last_pick(0x0d);
    assert_eq!((pass.0.last, pass.0.get_udids), (GetUdid, 2));
    pass.offered(N, 0x41, 0x20);
    pass.in_vain(0x0d, 20);
    pass.in_vain(0x20, 15);
    pass.completed(N, 0x20);
    pass.offered(G, 0x61, 0x30);
    pass.gone(0x20, N);
    assert_eq!((pass.0.last, pass.0.get_udids), (Assign(G, 0x30), 3));
    pass.completed(G, 0x30);
    pass.bound(&[(0x30, G)]);
    pass.left(&[0x0d, 0x20]);
    pass.in_use(1);
}

/// The module is back at its address, or another one is there: bound, and left no longer.
fn bound_again() {
    for udid in [M, N, F, G] {
        let mut pass = Pass::begin(&[]);
        pass.taken(M, 0x41, 0x20);
        pass.gone(0x20, M);
        pass.offered(udid, 0x41, 0x20);
        pass.left(&[0x20]);
        pass.completed(udid, 0x20);
        pass.bound(&[(0x20, udid)]);
        pass.left(&[]);
        pass.claimed(&[]);
        pass.in_use(1);
        pass.gone(0x20, udid);
        pass.in_use(0);
    }
}

/// An Assign that fails leaves the address left.
fn assigned_in_vain() {
    let mut pass = Pass::begin(&[]);
    pass.taken(M, 0x41, 0x20);
    pass.gone(0x20, M);
    pass.refused(M, 0x41, 0x20);
    pass.left(&[0x20]);
    pass.refused(F, 0x41, 0x20);
    pass.left(&[0x20]);
    pass.in_use(0);
    pass.taken(M, 0x43, 0x21);
    pass.left(&[0x20]);
    pass.bound(&[(0x21, M)]);
}

/// A fixed target is to be assigned the address of another, which is reported gone in between: no claim.
fn taken_back_in_between() {
    for first in [M, F] {
        let mut pass = Pass::begin(&[]);
        pass.taken(first, 0x41, 0x20);
        pass.offered(G, 0x41, 0x20);
        pass.gone(0x20, first);
        pass.completed(G, 0x20);
        pass.bound(&[(0x20, G)]);
        pass.claimed(&[]);
        pass.left(&[]);
        pass.in_use(1);
    }
    let mut pass = Pass::begin(&[]);
    pass.taken(F, 0x41, 0x20);
    pass.offered(G, 0x41, 0x20);
    pass.gone(0x20, F);
    assert_eq!(pass.0.step(&nacked_at(&trace_of(&assign(&G, 0x20)), 20)), GetUdid);
    pass.left(&[0x20]);
    pass.in_use(0);
}

/// Two claim an address: that stays for the pass, whatever is reported.
fn claims_stay() {
    let mut pass = Pass::begin(&[0x31]);
    pass.taken(F, 0x61, 0x30);
    pass.taken(G, 0x61, 0x30);
    pass.in_vain(0x30, 16);
    pass.offered(F, 0x61, 0x30);
    pass.in_vain(0x30, 16);
    pass.completed(F, 0x30);
    pass.in_vain(0x30, 16);
    pass.taken(F, 0x63, 0x31);
    pass.in_vain(0x31, 16);
    pass.taken(M, 0x61, 0x0d);
    pass.gone(0x0d, M);
    pass.claimed(&[0x30, 0x31]);
    pass.in_use(1);
    assert_eq!(pass.0.step(&all_resolved()), Ended);
    pass.in_vain(0x30, 16);
}

/// After a report of a fixed target, two others at its address are two: the second one claims it.
fn claimed_after_all() {
    let mut pass = Pass::begin(&[]);
    pass.taken(F, 0x41, 0x20);
    pass.gone(0x20, F);
    pass.taken(G, 0x41, 0x20);
    pass.taken(F, 0x41, 0x20);
    pass.claimed(&[0x20]);
    pass.left(&[]);
    pass.in_vain(0x20, 16);
    pass.in_use(1);
}

/// The old address of a target that replies again is open, not left. One that was reported gone before stays left.
fn replies_again() {
    let mut pass = Pass::begin(&[]);
    pass.taken(M, 0x41, 0x20);
    pass.offered(M, 0x43, 0x21);
    pass.in_vain(0x20, 15);
    pass.in_vain(0x21, 15);
    pass.completed(M, 0x21);
    pass.in_vain(0x20, 15);
    pass.gone(0x21, M);
    pass.taken(M, 0x45, 0x22);
    pass.left(&[0x21]);
    pass.bound(&[(0x22, M)]);
    pass.taken(N, 0x43, 0x21);
    pass.taken(N, 0x47, 0x23);
    pass.in_vain(0x21, 15);
    pass.in_use(2);
}

/// Whatever is left is open after a start.
fn started() {
    let mut pass = Pass::begin(&[]);
    pass.taken(M, 0x41, 0x20);
    pass.taken(N, 0xff, 0x0d);
    pass.gone(0x20, M);
    pass.gone(0x0d, N);
    assert_eq!(pass.0.step(&all_resolved()), Ended);
    pass.left(&[0x0d, 0x20]);
    assert_eq!(pass.0.start(), Prepare);
    pass.left(&[]);
    pass.in_vain(0x20, 15);
    pass.in_vain(0x0d, 15);
    pass.last_pick(0x0d);
}

/// A freed address is picked again, but only after the others: the last pick stays where it was. A report after 13 does
/// not make the pass go on.
fn picked_again() {
    let all_but_two: Vec<u8> = (0..ADDRESSES).filter(|&address| ![0x20, 0x50].contains(&address)).collect();
    let mut pass = Pass::begin(&all_but_two);
    pass.taken(M, 0xff, 0x20);
    pass.gone(0x20, M);
    pass.taken(N, 0xff, 0x50);
    pass.left(&[0x20]);
    pass.taken(M, 0xff, 0x20);
    pass.left(&[]);
    assert_eq!(pass.0.step(&reply_trace(&F, 0xff)), NoneFree(F));
    pass.gone(0x50, N);
    assert_eq!(pass.0.step(&reply_trace(&F, 0xff)), NotOutstanding);
    pass.bound(&[(0x20, M)]);
    pass.left(&[0x50]);
    pass.last_pick(0x20);
}

/// The address alone is free, and it is the last pick: it is picked again at once.
fn the_last_pick_again() {
    let all_but_one: Vec<u8> = (0..ADDRESSES).filter(|&address| address != 0x50).collect();
    let mut pass = Pass::begin(&all_but_one);
    pass.taken(M, 0xff, 0x50);
    pass.gone(0x50, M);
    pass.taken(N, 0xff, 0x50);
    pass.bound(&[(0x50, N)]);
    pass.left(&[]);
    pass.in_use(1);
}

/// After the end of a pass, with 0 and with 14.
fn after_the_end() {
    let mut pass = Pass::begin(&[]);
    pass.taken(M, 0x41, 0x20);
    assert_eq!(pass.0.step(&all_resolved()), Ended);
    pass.gone(0x20, M);
    assert_eq!(pass.0.step(&all_resolved()), NotOutstanding);
    pass.in_vain(0x20, 20);
    pass.in_use(0);
    let mut pass = Pass::begin(&[]);
    pass.taken(M, 0x41, 0x20);
    while pass.0.last == GetUdid {
        pass.0.step(&[]);
    }
    assert_eq!((pass.0.last, pass.0.get_udids), (Abandoned, 128));
    pass.gone(0x20, M);
    pass.in_vain(0x20, 20);
    assert_eq!((pass.0.last, pass.0.get_udids), (Abandoned, 128));
}

pub fn all() -> usize {
    let reports: [fn(); 13] = [
        each_answer,
        before_anything,
        goes_on,
        bound_again,
        assigned_in_vain,
        taken_back_in_between,
        claims_stay,
        claimed_after_all,
        replies_again,
        started,
        picked_again,
        the_last_pick_again,
        after_the_end,
    ];
    reports.iter().for_each(|report| report());
    reports.len()
}
