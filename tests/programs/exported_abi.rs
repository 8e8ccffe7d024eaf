//! Pools, identifiers, the last data phase, commands, passes and the check of a target list, of the library.

#[repr(C)]
#[derive(Clone, Copy, Debug, Default, PartialEq, Eq)]
pub struct Udid {
    pub high: u64,
    pub low: u64,
}

#[repr(C)]
#[derive(Clone, Copy, Debug, Default, PartialEq, Eq)]
pub struct Pool {
    pub low: u64,
    pub high: u64,
}

#[repr(C)]
#[derive(Clone, Copy, Debug, PartialEq, Eq)]
pub struct Part {
    pub answer: u32,
    pub length: usize,
}

#[repr(C)]
#[derive(Clone, Copy, Debug, PartialEq, Eq)]
pub struct Written {
    pub answer: u32,
    pub symbols: u32,
}

#[repr(C)]
#[derive(Clone, Copy, Debug, Default, PartialEq, Eq)]
pub struct Command {
    pub kind: u32,
    pub answer: u32,
    pub address: u32,
    pub gets: u32,
    pub picked: u32,
    pub reason: u32,
    pub udid: Udid,
}

#[repr(C)]
#[derive(Clone, Copy, Debug, PartialEq, Eq)]
pub struct Found {
    pub answer: u32,
    pub udid: Udid,
}

mod raw {
    use super::*;

    extern "C" {
        pub fn hb_pool_has(pool: Pool, address: u8) -> u8;
        pub fn hb_pool_with(pool: Pool, address: u8) -> Pool;
        pub fn hb_pool_without(pool: Pool, address: u8) -> Pool;
        pub fn hb_pool_union(one: Pool, other: Pool) -> Pool;
        pub fn hb_pool_starting(occupied: Pool) -> Pool;
        pub fn hb_pool_barred(occupied: Pool) -> Pool;
        pub fn hb_pool_used(pool: Pool) -> u32;
        pub fn hb_pool_lowest_free(pool: Pool) -> u8;
        pub fn hb_pool_next_free(pool: Pool, last: u8) -> u8;
        pub fn hb_udid_from_bytes(s: *const u8, n: usize, at: usize) -> Udid;
        pub fn hb_udid_put_bytes(udid: Udid, out: *mut u8, out_len: usize, at: usize);
        pub fn hb_udid_is_same(one: Udid, other: Udid) -> u8;
        pub fn hb_udid_is_below(one: Udid, other: Udid) -> u8;
        pub fn hb_udid_is_fixed(udid: Udid) -> u8;
        pub fn hb_last_data(
            protocol: u8,
            m: usize,
            n: usize,
            sent: *const u8,
            sent_len: usize,
            received: *const u8,
            received_len: usize,
            out: *mut u8,
            out_len: usize,
        ) -> Part;
        pub fn hb_put_command(
            kind: u8,
            udid: Udid,
            address: u8,
            reply: *const u8,
            reply_len: usize,
            out: *mut u8,
            out_len: usize,
        ) -> Written;
        pub fn hb_pass(occupied: Pool, last: u8, traces: *const u8, traces_len: usize) -> Command;
        pub fn hb_pass_lookup(occupied: Pool, last: u8, traces: *const u8, traces_len: usize, address: u8) -> Found;
        pub fn hb_check_targets(occupied: Pool, records: *const u8, records_len: usize) -> Part;
    }
}

impl Pool {
    pub fn has(self, address: u8) -> bool {
        unsafe { raw::hb_pool_has(self, address) == 1 }
    }

    pub fn with(self, address: u8) -> Pool {
        unsafe { raw::hb_pool_with(self, address) }
    }

    pub fn without(self, address: u8) -> Pool {
        unsafe { raw::hb_pool_without(self, address) }
    }

    pub fn union(self, other: Pool) -> Pool {
        unsafe { raw::hb_pool_union(self, other) }
    }

    pub fn starting(self) -> Pool {
        unsafe { raw::hb_pool_starting(self) }
    }

    pub fn barred(self) -> Pool {
        unsafe { raw::hb_pool_barred(self) }
    }

    pub fn used(self) -> usize {
        unsafe { raw::hb_pool_used(self) as usize }
    }

    pub fn lowest_free(self) -> u8 {
        unsafe { raw::hb_pool_lowest_free(self) }
    }

    pub fn next_free(self, last: u8) -> u8 {
        unsafe { raw::hb_pool_next_free(self, last) }
    }
}

impl Udid {
    pub fn from_bytes(s: &[u8], at: usize) -> Udid {
        unsafe { raw::hb_udid_from_bytes(s.as_ptr(), s.len(), at) }
    }

    pub fn put_bytes(self, out: &mut [u8], at: usize) {
        unsafe { raw::hb_udid_put_bytes(self, out.as_mut_ptr(), out.len(), at) }
    }

    pub fn is_same(self, other: Udid) -> bool {
        unsafe { raw::hb_udid_is_same(self, other) == 1 }
    }

    pub fn is_below(self, other: Udid) -> bool {
        unsafe { raw::hb_udid_is_below(self, other) == 1 }
    }

    pub fn is_fixed(self) -> bool {
        unsafe { raw::hb_udid_is_fixed(self) == 1 }
    }
}

pub fn last_data(protocol: u8, lengths: (usize, usize), sent: &[u8], received: &[u8], out: &mut [u8]) -> Part {
    let (m, n) = lengths;
    let (s, r, o) = (sent.as_ptr(), received.as_ptr(), out.as_mut_ptr());
    unsafe { raw::hb_last_data(protocol, m, n, s, sent.len(), r, received.len(), o, out.len()) }
}

pub fn put_command(kind: u8, udid: Udid, address: u8, reply: &[u8], out: &mut [u8]) -> Written {
    let (r, o) = (reply.as_ptr(), out.as_mut_ptr());
    unsafe { raw::hb_put_command(kind, udid, address, r, reply.len(), o, out.len()) }
}

pub fn pass(occupied: Pool, last: u8, traces: &[u8]) -> Command {
    unsafe { raw::hb_pass(occupied, last, traces.as_ptr(), traces.len()) }
}

pub fn pass_lookup(occupied: Pool, last: u8, traces: &[u8], address: u8) -> Found {
    unsafe { raw::hb_pass_lookup(occupied, last, traces.as_ptr(), traces.len(), address) }
}

/// The number and the record.
pub fn check_targets(occupied: Pool, records: &[u8]) -> Part {
    unsafe { raw::hb_check_targets(occupied, records.as_ptr(), records.len()) }
}
