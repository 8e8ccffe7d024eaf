//! Choices worked out by hand: each reply, what is chosen for it and why, and what an issue or a decline leaves.

use crate::worked_passes::{Pass, F, G, M, N};
use reference::addresses::*;
use reference::commands::Command::*;
use reference::commands::Reason::*;
use reference::commands::*;
use reference::controller::Controller;
use reference::good::{all_resolved, reply_trace};
use reference::mistakes::{nacked_at, trace_of};

impl Pass {
    /// A reply, and the choice due for it.
    fn chosen(&mut self, udid: Udid, address_byte: u8, address: u8, reason: Reason) {
        assert_eq!(self.0.choose(&reply_trace(&udid, address_byte)), Chosen(udid, address, reason));
    }

    /// The same, and it is issued.
    fn issued(&mut self, udid: Udid, address_byte: u8, address: u8, reason: Reason) {
        self.chosen(udid, address_byte, address, reason);
        assert_eq!(self.0.issue(), Assign(udid, address));
    }

    /// The same, and the target takes it.
    fn joined(&mut self, udid: Udid, address_byte: u8, address: u8, reason: Reason) {
        self.issued(udid, address_byte, address, reason);
        self.completed(udid, address);
    }

    /// The choice that waits is declined: the pass ends, and nothing else changes.
    fn declined(&mut self) {
        let before = self.0.clone();
        assert!(before.last.is_choice());
        assert_eq!(self.0.decline(), Abandoned);
        assert_eq!(self.0, Controller { last: Abandoned, ..before });
    }

    /// Every number is reported gone.
    fn all_gone(&mut self) {
        for number in 0..=255 {
            self.0.gone(number);
        }
    }

    /// No choice waits: an issue and a decline are 21, and nothing changes.
    fn no_choice(&mut self) {
        let before = self.0.clone();
        assert_eq!(
            (self.0.issue(), self.0.decline(), self.0.issue()),
            (NotOutstanding, NotOutstanding, NotOutstanding)
        );
        assert_eq!(self.0, before);
    }

    /// Any trace is 21, for a step and for its first half, and nothing changes.
    fn no_trace(&mut self) {
        let before = self.0.clone();
        let some =
            [vec![], vec![256], trace_of(&prepare()), all_resolved(), reply_trace(&M, 0xff), reply_trace(&F, 0x41)];
        let assigns = [trace_of(&assign(&M, 0x20)), trace_of(&assign(&F, 0x20)), trace_of(&assign(&G, 0x20))];
        for trace in some.iter().chain(&assigns) {
            assert_eq!((self.0.step(trace), self.0.choose(trace)), (NotOutstanding, NotOutstanding));
        }
        assert_eq!(self.0, before);
    }
}

/// The example of the order.
fn example() {
    let udid = [0x80, 0, 0, 0, 0, 0, 0, 0, 0, 0, 0, 0, 0, 0, 0, 0];
    let mut pass = Pass(Controller::new(&Addresses::new(), NEVER));
    pass.no_choice();
    assert_eq!(pass.0.start(), Prepare);
    assert_eq!(pass.0.choose(&trace_of(&prepare())), GetUdid);
    pass.chosen(udid, 0x41, 0x20, Kept);
    assert_eq!(pass.0.step(&[256]), NotOutstanding);
    assert_eq!(pass.0.issue(), Assign(udid, 0x20));
}

/// Movable: its own address, with bit 0 either way, also where it is left; else a picked one. Its own is in the pool where
/// it is occupied, on a row, bound, or claimed by two.
fn movable() {
    let mut pass = Pass::begin(&[0x30]);
    pass.joined(M, 0x41, 0x20, Kept);
    pass.joined(M, 0x40, 0x20, Kept);
    pass.joined(M, 0xff, 0x0d, Picked);
    pass.joined(M, 0x61, 0x0e, Picked);
    pass.joined(M, 0x91, 0x0f, Picked);
    pass.joined(M, 0xfe, 0x10, Picked);
    pass.joined(N, 0x21, 0x11, Picked);
    pass.bound(&[(0x10, M), (0x11, N)]);
    pass.gone(0x10, M);
    pass.joined(N, 0x21, 0x10, Kept);
    pass.joined(F, 0x43, 0x21, Fixed);
    pass.joined(G, 0x43, 0x21, Claimed);
    pass.joined(M, 0x43, 0x12, Picked);
    pass.last_pick(0x12);
}

/// Fixed: its own address, where it is free, left, on a row that is not occupied, or its own until now; a picked one with
/// FFh. A claim where the address is one of the 21, occupied, bound to another, or marked.
fn fixed() {
    let mut pass = Pass::begin(&[0x30, 0x2c]);
    pass.joined(F, 0x63, 0x31, Fixed);
    pass.joined(F, 0x63, 0x31, Fixed);
    pass.joined(F, 0xff, 0x0d, Picked);
    pass.joined(F, 0x91, 0x48, Fixed);
    pass.joined(F, 0x90, 0x48, Fixed);
    pass.joined(G, 0x91, 0x48, Claimed);
    pass.joined(F, 0x91, 0x48, Claimed);
    pass.joined(F, 0x61, 0x30, Claimed);
    pass.joined(F, 0x59, 0x2c, Claimed);
    pass.joined(F, 0x5b, 0x2d, Fixed);
    pass.joined(F, 0x19, 0x0c, Claimed);
    pass.joined(F, 0xfe, 0x7f, Claimed);
    pass.joined(F, 0xc3, 0x61, Claimed);
    pass.bound(&[]);
    pass.claimed(&[0x0c, 0x2c, 0x30, 0x48, 0x61, 0x7f]);
    pass.joined(M, 0x41, 0x20, Kept);
    pass.chosen(F, 0x41, 0x20, Claimed);
    pass.gone(0x20, M);
    pass.again();
    pass.joined(M, 0x41, 0x20, Kept);
    pass.gone(0x20, M);
    pass.joined(F, 0x41, 0x20, Fixed);
    pass.chosen(G, 0x41, 0x20, Claimed);
    pass.bound(&[(0x20, F)]);
}

/// The one that claims an address is reported gone before the issue, or after it: the other is bound. Without a report two
/// claim it. The Assign that fails leaves it left.
fn undone() {
    for (address_byte, address) in [(0x41, 0x20), (0x91, 0x48)] {
        for early in [true, false] {
            let mut pass = Pass::begin(&[]);
            pass.joined(F, address_byte, address, Fixed);
            pass.chosen(G, address_byte, address, Claimed);
            if early {
                pass.gone(address, F);
                assert_eq!(pass.0.last, Chosen(G, address, Claimed));
            }
            assert_eq!(pass.0.issue(), Assign(G, address));
            if !early {
                pass.gone(address, F);
            }
            pass.completed(G, address);
            pass.bound(&[(address, G)]);
            pass.claimed(&[]);
            pass.left(&[]);
        }
        let mut pass = Pass::begin(&[]);
        pass.joined(F, address_byte, address, Fixed);
        pass.joined(G, address_byte, address, Claimed);
        pass.claimed(&[address]);
        let mut pass = Pass::begin(&[]);
        pass.joined(F, address_byte, address, Fixed);
        pass.chosen(G, address_byte, address, Claimed);
        pass.gone(address, F);
        pass.in_vain(address, 20);
        assert_eq!(pass.0.issue(), Assign(G, address));
        assert_eq!(pass.0.choose(&nacked_at(&trace_of(&assign(&G, address)), 20)), GetUdid);
        pass.left(&[address]);
    }
}

/// No report undoes a claim on one of the 21, on an occupied address, or where two claim it already.
fn not_undone() {
    for (address_byte, address) in [(0x19, 0x0c), (0x61, 0x30), (0x41, 0x20)] {
        let mut pass = Pass::begin(&[0x30]);
        pass.joined(G, 0x41, 0x20, Fixed);
        pass.joined(F, 0x41, 0x20, Claimed);
        pass.chosen(F, address_byte, address, Claimed);
        pass.in_vain(address, if address == 0x20 { 16 } else { 15 });
        assert_eq!(pass.0.issue(), Assign(F, address));
        pass.in_vain(address, if address == 0x20 { 16 } else { 15 });
        pass.completed(F, address);
        assert_eq!(pass.0.lookup(address).number(), 16);
    }
}

/// A choice that is no claim does not become one: only reports come between it and its Assign, and these free addresses.
/// So its target is bound, whatever is reported.
fn no_later_claim() {
    for (udid, address_byte, address, reason) in [
        (F, 0x41, 0x20, Fixed),
        (F, 0x91, 0x48, Fixed),
        (M, 0x41, 0x20, Kept),
        (M, 0xff, 0x0d, Picked),
        (F, 0xff, 0x0d, Picked),
    ] {
        let mut pass = Pass::begin(&[0x30]);
        pass.joined(N, 0x43, 0x21, Kept);
        pass.joined(G, 0x61, 0x30, Claimed);
        pass.joined(G, 0x93, 0x49, Fixed);
        pass.chosen(udid, address_byte, address, reason);
        pass.all_gone();
        pass.left(&[0x21, 0x49]);
        assert_eq!(pass.0.last, Chosen(udid, address, reason));
        assert_eq!(pass.0.issue(), Assign(udid, address));
        pass.all_gone();
        pass.completed(udid, address);
        pass.bound(&[(address, udid)]);
        pass.claimed(&[0x30]);
    }
}

/// After a decline: 21 to another one, to an issue and to any trace; what is bound, claimed and left stays. The next pass
/// begins as any other.
fn declines() {
    let mut pass = Pass::begin(&[0x30]);
    pass.joined(N, 0x43, 0x21, Kept);
    pass.joined(F, 0x61, 0x30, Claimed);
    pass.joined(F, 0x45, 0x22, Fixed);
    pass.gone(0x22, F);
    pass.chosen(M, 0x41, 0x20, Kept);
    pass.declined();
    pass.no_choice();
    pass.no_trace();
    pass.bound(&[(0x21, N)]);
    pass.claimed(&[0x30]);
    pass.left(&[0x22]);
    pass.in_use(1);
    pass.in_vain(0x20, 15);
    pass.gone(0x21, N);
    pass.again();
    pass.no_choice();
    pass.bound(&[]);
    pass.joined(M, 0x41, 0x20, Kept);
}

/// The old binding of the one that replies is gone with the choice, and a decline does not put it back: the address is
/// open, and free unless a pass starts with it.
fn old_bindings() {
    for (udid, address_byte, address) in [(M, 0x41, 0x20), (F, 0x41, 0x20), (F, 0x91, 0x48)] {
        for again in [address_byte, 0x63, 0xff] {
            let mut pass = Pass::begin(&[]);
            pass.taken(udid, address_byte, address);
            pass.0.choose(&reply_trace(&udid, again));
            pass.bound(&[]);
            pass.in_use(0);
            pass.declined();
            pass.bound(&[]);
            pass.left(&[]);
            pass.in_use(0);
            pass.in_vain(address, 15);
        }
    }
}

/// A claim that is declined is no claim: whoever is bound there stays bound. So it is on an occupied address.
fn declined_claims() {
    let mut pass = Pass::begin(&[0x30]);
    pass.joined(F, 0x41, 0x20, Fixed);
    pass.chosen(G, 0x41, 0x20, Claimed);
    pass.declined();
    pass.bound(&[(0x20, F)]);
    pass.claimed(&[]);
    pass.again();
    pass.chosen(G, 0x61, 0x30, Claimed);
    pass.declined();
    pass.claimed(&[]);
    pass.bound(&[]);
}

/// A pick moves the last pick when it is chosen, and it stays so when it is declined or dropped. What is kept, fixed or
/// claimed moves nothing.
fn last_picks() {
    let mut pass = Pass::begin(&[]);
    pass.chosen(M, 0xff, 0x0d, Picked);
    pass.last_pick(0x0d);
    pass.declined();
    pass.last_pick(0x0d);
    pass.again();
    pass.chosen(M, 0xff, 0x0e, Picked);
    pass.again();
    pass.last_pick(0x0e);
    pass.chosen(F, 0xff, 0x0f, Picked);
    pass.declined();
    pass.last_pick(0x0f);
    for (udid, address_byte, address, reason) in
        [(M, 0x41, 0x20, Kept), (F, 0x41, 0x20, Fixed), (F, 0x19, 0x0c, Claimed)]
    {
        pass.again();
        pass.chosen(udid, address_byte, address, reason);
        pass.last_pick(0x0f);
        pass.declined();
        pass.last_pick(0x0f);
    }
    pass.again();
    pass.taken(N, 0xff, 0x10);
}

/// No choice waits before the first pass, with a command outstanding, and after each end. A command stays outstanding.
fn none_waits() {
    let mut pass = Pass(Controller::new(&Addresses::new(), NEVER));
    pass.no_choice();
    pass.no_trace();
    assert_eq!(pass.0.start(), Prepare);
    pass.no_choice();
    assert_eq!(pass.0.choose(&trace_of(&prepare())), GetUdid);
    pass.no_choice();
    pass.issued(M, 0x41, 0x20, Kept);
    pass.no_choice();
    pass.completed(M, 0x20);
    pass.offered(N, 0x43, 0x21);
    pass.no_choice();
    assert_eq!(pass.0.choose(&trace_of(&assign(&N, 0x21))), GetUdid);
    pass.no_choice();
    assert_eq!(pass.0.choose(&all_resolved()), Ended);
    pass.no_choice();
    pass.no_trace();
    pass.bound(&[(0x20, M), (0x21, N)]);
    assert_eq!(pass.0.start(), Prepare);
    assert_eq!(pass.0.choose(&[256]), Abandoned);
    pass.no_choice();
    pass.no_trace();
}

/// 13: no choice is made. What is bound stays, and the last pick does not move.
fn none_free() {
    let all_but_one: Vec<u8> = (0..ADDRESSES).filter(|&address| address != 0x50).collect();
    let mut pass = Pass::begin(&all_but_one);
    pass.joined(M, 0xff, 0x50, Picked);
    assert_eq!(pass.0.choose(&reply_trace(&N, 0xff)), NoneFree(N));
    pass.no_choice();
    pass.no_trace();
    pass.bound(&[(0x50, M)]);
    pass.last_pick(0x50);
    pass.again();
    pass.joined(M, 0xa1, 0x50, Kept);
    assert_eq!(pass.0.choose(&reply_trace(&F, 0xff)), NoneFree(F));
    pass.no_choice();
    let mut pass = Pass::begin_after(&(0..ADDRESSES).collect::<Vec<u8>>(), 0x33);
    assert_eq!(pass.0.choose(&reply_trace(&M, 0x41)), NoneFree(M));
    pass.no_choice();
    pass.last_pick(0x33);
}

/// While a choice waits every trace is 21, also the Assign's own; the choice is issued after them all the same.
fn traces_while_one_waits() {
    for (udid, address_byte, address, reason) in
        [(M, 0x41, 0x20, Kept), (F, 0x41, 0x20, Fixed), (G, 0xff, 0x0d, Picked)]
    {
        let mut pass = Pass::begin(&[]);
        pass.chosen(udid, address_byte, address, reason);
        pass.no_trace();
        assert_eq!(pass.0.issue(), Assign(udid, address));
        pass.completed(udid, address);
        pass.bound(&[(address, udid)]);
    }
    let mut pass = Pass::begin(&[]);
    pass.chosen(M, 0x41, 0x20, Kept);
    pass.no_trace();
    pass.declined();
}

/// A start drops the choice.
fn dropped() {
    let mut pass = Pass::begin(&[]);
    pass.taken(N, 0x43, 0x21);
    pass.chosen(M, 0x41, 0x20, Kept);
    assert_eq!(pass.0.start(), Prepare);
    pass.no_choice();
    assert_eq!(pass.0.step(&trace_of(&prepare())), GetUdid);
    pass.no_choice();
    pass.bound(&[]);
    pass.in_use(0);
    pass.taken(M, 0x41, 0x20);
}

/// Reports while a choice waits are served and leave it waiting, also of the address that was chosen.
fn reports_while_one_waits() {
    let mut pass = Pass::begin(&[]);
    pass.joined(N, 0xff, 0x0d, Picked);
    pass.chosen(M, 0xff, 0x0e, Picked);
    pass.gone(0x0d, N);
    pass.in_vain(0x0d, 20);
    pass.in_vain(0x0e, 15);
    pass.in_vain(128, 1);
    assert_eq!((pass.0.last, pass.0.get_udids), (Chosen(M, 0x0e, Picked), 2));
    pass.no_trace();
    pass.last_pick(0x0e);
    assert_eq!(pass.0.issue(), Assign(M, 0x0e));
    pass.completed(M, 0x0e);
    pass.bound(&[(0x0e, M)]);
    pass.left(&[0x0d]);
}

/// First halves where no address is given are steps: after Prepare, after Get UDID again, and after an Assign.
fn no_address_given() {
    let right = trace_of(&prepare());
    for (trace, due) in [(nacked_at(&right, 0), Ended), (nacked_at(&right, 2), Ended), (vec![], Abandoned)] {
        let mut pass = Pass(Controller::new(&Addresses::new(), NEVER));
        pass.0.start();
        assert_eq!(pass.0.choose(&trace), due);
        pass.no_choice();
    }
    let mut pass = Pass::begin(&[]);
    assert_eq!(pass.0.choose(&[]), GetUdid);
    assert_eq!(pass.0.choose(&trace_of(&assign(&M, 0x20))), GetUdid);
    pass.issued(M, 0x41, 0x20, Kept);
    assert_eq!(pass.0.choose(&trace_of(&assign(&M, 0x21))), GetUdid);
    pass.bound(&[]);
    pass.issued(M, 0x41, 0x20, Kept);
    assert_eq!(pass.0.choose(&trace_of(&assign(&M, 0x20))), GetUdid);
    pass.bound(&[(0x20, M)]);
    assert_eq!(pass.0.choose(&trace_of(&get_udid(&[7; 16]))), Ended);
}

/// The 128th Get UDID may make a choice, which may be issued and bind. Declining is 14 as well.
fn too_many() {
    for issue in [true, false] {
        let mut pass = Pass::begin(&[]);
        for _ in 0..127 {
            assert_eq!(pass.0.choose(&[]), GetUdid);
        }
        pass.chosen(M, 0x41, 0x20, Kept);
        if issue {
            assert_eq!(pass.0.issue(), Assign(M, 0x20));
            assert_eq!(pass.0.choose(&trace_of(&assign(&M, 0x20))), Abandoned);
            pass.bound(&[(0x20, M)]);
        } else {
            pass.declined();
            pass.bound(&[]);
        }
        assert_eq!(pass.0.get_udids, 128);
        pass.no_choice();
    }
}

/// All of them; how many.
pub fn all() -> usize {
    let choices: [fn(); 17] = [
        example,
        movable,
        fixed,
        undone,
        not_undone,
        no_later_claim,
        declines,
        old_bindings,
        declined_claims,
        last_picks,
        none_waits,
        none_free,
        traces_while_one_waits,
        dropped,
        reports_while_one_waits,
        no_address_given,
        too_many,
    ];
    choices.iter().for_each(|choice| choice());
    choices.len()
}
