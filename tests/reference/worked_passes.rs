//! Passes worked out by hand: each reply, and the command due after it.

use reference::addresses::*;
use reference::commands::Command::*;
use reference::commands::*;
use reference::controller::{Controller, Found};
use reference::decode::decode;
use reference::good::{all_resolved, reply_trace};
use reference::mistakes::{nacked_at, trace_of};
use reference::table::{BLOCK_READ, BLOCK_WRITE, SEND_BYTE};

/// Fixed, fixed, and two that are movable.
pub const F: Udid = [0x01; 16];
pub const G: Udid = [0x02; 16];
pub const M: Udid = [0x41; 16];
pub const N: Udid = [0x82; 16];

pub struct Pass(pub Controller);

impl Pass {
    /// Of a controller that has never picked.
    pub fn begin(occupied: &[u8]) -> Pass {
        Pass::begin_after(occupied, NEVER)
    }

    pub fn begin_after(occupied: &[u8], last_pick: u8) -> Pass {
        let mut pass = Pass(Controller::new(&occupied.iter().copied().collect(), last_pick));
        pass.again();
        pass
    }

    pub fn again(&mut self) {
        assert_eq!(self.0.start(), Prepare);
        assert_eq!(self.0.step(&trace_of(&prepare())), GetUdid);
    }

    /// A reply, and the address due for it.
    pub fn offered(&mut self, udid: Udid, address_byte: u8, address: u8) {
        assert_eq!(self.0.step(&reply_trace(&udid, address_byte)), Assign(udid, address));
    }

    /// The same, and the target takes it.
    pub fn taken(&mut self, udid: Udid, address_byte: u8, address: u8) {
        self.offered(udid, address_byte, address);
        assert_eq!(self.0.step(&trace_of(&assign(&udid, address))), GetUdid);
    }

    /// The same, and the target does not acknowledge the last byte of the Assign.
    pub fn refused(&mut self, udid: Udid, address_byte: u8, address: u8) {
        self.offered(udid, address_byte, address);
        assert_eq!(self.0.step(&nacked_at(&trace_of(&assign(&udid, address)), 20)), GetUdid);
    }

    pub fn last_pick(&self, due: u8) {
        assert_eq!(self.0.last_pick, due);
    }

    pub fn bound(&self, due: &[(u8, Udid)]) {
        let all = (0..ADDRESSES).filter_map(|address| match self.0.lookup(address) {
            Found::Bound(udid) => Some((address, udid)),
            Found::Refused(_) => None,
        });
        assert_eq!(all.collect::<Vec<_>>(), due);
    }

    pub fn claimed(&self, due: &[u8]) {
        assert_eq!(self.answered_with(16), due);
    }

    pub fn left(&self, due: &[u8]) {
        assert_eq!(self.answered_with(20), due);
    }

    fn answered_with(&self, number: u32) -> Vec<u8> {
        (0..ADDRESSES).filter(|&address| self.0.lookup(address).number() == number).collect()
    }
}

/// Two fixed targets at one address: nobody is bound there any more, and a movable one has to go elsewhere.
fn two_fixed() {
    let mut pass = Pass::begin(&[]);
    pass.taken(F, 0x41, 0x20);
    pass.bound(&[(0x20, F)]);
    pass.taken(G, 0x41, 0x20);
    pass.bound(&[]);
    pass.claimed(&[0x20]);
    pass.taken(F, 0x40, 0x20);
    pass.taken(M, 0x41, 0x0d);
    pass.bound(&[(0x0d, M)]);
    pass.claimed(&[0x20]);
    assert_eq!(pass.0.step(&all_resolved()), Ended);
    pass.claimed(&[0x20]);
    pass.again();
    pass.bound(&[]);
    pass.claimed(&[]);
}

/// A fixed target on a movable one's address, which replies again and gets another.
fn fixed_after_movable() {
    let mut pass = Pass::begin(&[]);
    pass.taken(M, 0x41, 0x20);
    pass.taken(F, 0x41, 0x20);
    pass.bound(&[]);
    pass.taken(M, 0x41, 0x0d);
    pass.bound(&[(0x0d, M)]);
    pass.claimed(&[0x20]);
}

/// A fixed target alone on an occupied or a reserved address is a claim.
fn fixed_on_used() {
    let mut pass = Pass::begin(&[0x30]);
    pass.taken(F, 0x61, 0x30);
    pass.taken(G, 0xfe, 0x7f);
    pass.taken(G, 0x19, 0x0c);
    pass.claimed(&[0x0c, 0x30, 0x7f]);
    pass.bound(&[]);
}

/// A target that replies again has lost its address, whatever becomes of the next.
fn replies_again() {
    let mut pass = Pass::begin(&[]);
    pass.taken(M, 0x41, 0x20);
    pass.taken(M, 0x41, 0x20);
    pass.taken(M, 0x43, 0x21);
    pass.taken(N, 0x41, 0x20);
    pass.bound(&[(0x20, N), (0x21, M)]);
    pass.offered(N, 0xff, 0x0d);
    pass.bound(&[(0x21, M)]);
    assert_eq!(pass.0.step(&nacked_at(&trace_of(&assign(&N, 0x0d)), 20)), GetUdid);
    pass.bound(&[(0x21, M)]);
    pass.taken(F, 0x41, 0x20);
    pass.taken(F, 0x41, 0x20);
    pass.bound(&[(0x20, F), (0x21, M)]);
    pass.claimed(&[]);
}

/// FFh is none, for a fixed target too; FEh is 7Fh, which a movable one cannot keep.
fn no_address() {
    let mut pass = Pass::begin(&[0x0d]);
    pass.taken(F, 0xff, 0x0e);
    pass.taken(M, 0xfe, 0x0f);
    pass.taken(N, 0xff, 0x10);
    pass.bound(&[(0x0e, F), (0x0f, M), (0x10, N)]);
}

/// With one address left: a second target gets none, and what was bound stands.
fn none_free() {
    let all_but_one: Vec<u8> = (0..ADDRESSES).filter(|&address| address != 0x77).collect();
    let mut pass = Pass::begin(&all_but_one);
    pass.taken(M, 0x41, 0x77);
    pass.taken(M, 0xff, 0x77);
    assert_eq!(pass.0.step(&reply_trace(&N, 0xef)), NoneFree(N));
    pass.bound(&[(0x77, M)]);
    assert_eq!(pass.0.step(&reply_trace(&N, 0xef)), NotOutstanding);
    pass.bound(&[(0x77, M)]);
}

/// The 128th Get UDID may bind; there is no 129th.
fn too_many() {
    let mut pass = Pass::begin(&[]);
    for _ in 0..127 {
        assert_eq!(pass.0.step(&[]), GetUdid);
    }
    pass.offered(M, 0x41, 0x20);
    assert_eq!(pass.0.step(&trace_of(&assign(&M, 0x20))), Abandoned);
    pass.bound(&[(0x20, M)]);
    assert_eq!(pass.0.step(&[]), NotOutstanding);
}

/// Answers to Prepare.
fn preparing() {
    let right = trace_of(&prepare());
    for (trace, due) in [(nacked_at(&right, 0), Ended), (nacked_at(&right, 2), Ended), (vec![], Abandoned)] {
        let mut pass = Pass(Controller::new(&Addresses::new(), NEVER));
        assert_eq!(pass.0.step(&trace), NotOutstanding);
        pass.0.start();
        assert_eq!(pass.0.step(&trace), due);
        assert_eq!(pass.0.step(&right), NotOutstanding);
        assert_eq!(pass.0.lookup(128), Found::Refused(1));
    }
}

/// A wrong symbol, whichever its number: 14 after Prepare, else Get UDID again, and nobody is bound.
fn wrong_symbols() {
    let number = |protocol, trace: &[u16]| decode(protocol, true, trace, 255, 255).number();
    for (trace, due) in [(&[256, 257][..], 5), (&[256, 195], 18)] {
        assert_eq!(number(SEND_BYTE, trace), due);
        let mut pass = Pass(Controller::new(&Addresses::new(), NEVER));
        pass.0.start();
        assert_eq!(pass.0.step(trace), Abandoned);
    }
    let mut pass = Pass::begin(&[]);
    let reads: [(&[u16], u32); 5] = [
        (&[256, 194, 258, 3, 258, 256, 195, 258, 17, 257], 5),
        (&[256, 194, 258, 3, 258, 256, 195, 258, 17, 259, 257], 17),
        (&[256, 194, 258, 3, 258, 256, 195, 258, 0, 258, 0, 258, 257], 17),
        (&[256, 194, 258, 3, 258, 256, 194], 18),
        (&[256, 195, 259, 257], 18),
    ];
    for (trace, due) in reads {
        assert_eq!(number(BLOCK_READ, trace), due);
        assert_eq!(pass.0.step(trace), GetUdid);
    }
    for (trace, due) in [(&[256, 194, 258, 4, 258, 258][..], 5), (&[256, 195, 258, 4, 258], 18)] {
        assert_eq!(number(BLOCK_WRITE, trace), due);
        pass.offered(M, 0x41, 0x20);
        assert_eq!(pass.0.step(trace), GetUdid);
        pass.bound(&[]);
    }
    pass.taken(M, 0x41, 0x20);
}

/// A module at 2Ah is pulled: in the next pass another one gets 2Bh, and only the rows that lie between are passed over.
fn vacated() {
    Pass::begin(&[]).last_pick(127);
    let mut pass = Pass::begin_after(&[], 0x29);
    pass.taken(M, 0xff, 0x2a);
    pass.last_pick(0x2a);
    assert_eq!(pass.0.step(&all_resolved()), Ended);
    pass.again();
    pass.last_pick(0x2a);
    pass.taken(N, 0xff, 0x2b);
    pass.again();
    pass.taken(M, 0xff, 0x2e);
    pass.taken(N, 0xff, 0x2f);
    pass.bound(&[(0x2e, M), (0x2f, N)]);
    pass.last_pick(0x2f);
}

/// From 7Fh round to 00h: 77h is the last that is on no row, 0Dh the first. All rows on the way are passed over.
fn round() {
    let round = [(0x76, 0x77), (0x77, 0x0d), (126, 0x0d), (127, 0x0d), (0, 0x0d), (0x08, 0x0d), (0x0b, 0x0d)];
    let over = [(0x27, 0x29), (0x2b, 0x2e), (0x36, 0x38), (0x3f, 0x45), (0x42, 0x45), (0x47, 0x4c), (0x60, 0x62)];
    for (last_pick, address) in round.into_iter().chain(over) {
        let mut pass = Pass::begin_after(&[], last_pick);
        pass.taken(M, 0xff, address);
        pass.last_pick(address);
    }
    let mut pass = Pass::begin_after(&[0x77, 0x0d], 0x76);
    pass.taken(M, 0xff, 0x0e);
}

/// The last pick moves when the Assign goes out, whatever becomes of it.
fn refused_assigns() {
    let mut pass = Pass::begin(&[]);
    pass.offered(M, 0xff, 0x0d);
    pass.last_pick(0x0d);
    assert_eq!(pass.0.step(&[]), GetUdid);
    pass.last_pick(0x0d);
    pass.refused(M, 0xff, 0x0e);
    pass.refused(M, 0x19, 0x0f);
    pass.bound(&[]);
    pass.offered(M, 0xff, 0x10);
    pass.again();
    pass.last_pick(0x10);
    pass.taken(M, 0xff, 0x11);
}

/// An address that is kept, or fixed, or claimed by two, moves nothing; nor does a reply that is refused.
fn moved_by_picks_alone() {
    let mut pass = Pass::begin_after(&[], 0x30);
    pass.taken(M, 0x41, 0x20);
    pass.taken(F, 0xa1, 0x50);
    pass.taken(G, 0xa1, 0x50);
    pass.refused(N, 0xa3, 0x51);
    assert_eq!(pass.0.step(&[256]), GetUdid);
    pass.last_pick(0x30);
    pass.taken(N, 0xa1, 0x31);
    pass.last_pick(0x31);
    pass.taken(G, 0xff, 0x32);
    pass.last_pick(0x32);
    assert_eq!(pass.0.step(&all_resolved()), Ended);
    assert_eq!(pass.0.step(&reply_trace(&M, 0xff)), NotOutstanding);
    pass.last_pick(0x32);
}

/// One address is free, and it is the last pick: it is picked again. With none free 13 moves nothing.
fn the_last_pick_again() {
    let all_but_one: Vec<u8> = (0..ADDRESSES).filter(|&address| address != 0x50).collect();
    let mut pass = Pass::begin_after(&all_but_one, 0x51);
    pass.taken(M, 0xff, 0x50);
    pass.taken(M, 0xff, 0x50);
    pass.again();
    pass.taken(N, 0xff, 0x50);
    assert_eq!(pass.0.step(&reply_trace(&M, 0xff)), NoneFree(M));
    pass.last_pick(0x50);
    let mut pass = Pass::begin_after(&(0..ADDRESSES).collect::<Vec<u8>>(), 0x33);
    assert_eq!(pass.0.step(&reply_trace(&M, 0x41)), NoneFree(M));
    pass.last_pick(0x33);
}

/// A number above 127 counts as never picked.
fn no_last_pick() {
    let mut pass = Pass::begin_after(&[], 200);
    pass.taken(M, 0x41, 0x20);
    pass.last_pick(127);
    pass.again();
    pass.last_pick(127);
    pass.taken(M, 0xff, 0x0d);
    pass.last_pick(0x0d);
    assert_eq!(Controller::new(&Addresses::new(), 255).last_pick, 127);
}

pub fn all() -> usize {
    let passes: [fn(); 15] = [
        two_fixed,
        fixed_after_movable,
        fixed_on_used,
        replies_again,
        no_address,
        none_free,
        too_many,
        preparing,
        wrong_symbols,
        vacated,
        round,
        refused_assigns,
        moved_by_picks_alone,
        the_last_pick_again,
        no_last_pick,
    ];
    passes.iter().for_each(|pass| pass());
    passes.len()
}
