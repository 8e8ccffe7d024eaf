//! The library's model run, and the reference's beside it, on the same input.

use reference::addresses::Addresses;
use reference::model::{run_model, Outcome};
use reference::spoiled::Input;

mod raw {
    use super::{Pool, Ran};

    extern "C" {
        pub fn hb_run_model(
            occupied: Pool,
            last: u8,
            records: *mut u8,
            records_len: usize,
            bindings: *mut u8,
            bindings_len: usize,
        ) -> Ran;
    }
}

/// A set of addresses: bit k of low is address k, bit k of high is address 64 + k.
#[repr(C)]
#[derive(Clone, Copy, Debug, PartialEq, Eq)]
pub struct Pool {
    low: u64,
    high: u64,
}

#[repr(C)]
#[derive(Clone, Copy, Debug, PartialEq, Eq)]
pub struct Ran {
    answer: u32,
    count: u32,
    gets: u32,
    picked: u32,
    place: usize,
    udid_high: u64,
    udid_low: u64,
    bound: Pool,
}

fn pool(addresses: &Addresses) -> Pool {
    let whole = addresses.iter().fold(0u128, |set, &address| set | 1 << address);
    Pool { low: whole as u64, high: (whole >> 64) as u64 }
}

fn ran(outcome: &Outcome) -> Ran {
    let udid = u128::from_be_bytes(outcome.udid);
    Ran {
        answer: outcome.answer,
        count: outcome.how_many as u32,
        gets: outcome.get_udids as u32,
        picked: u32::from(outcome.last_pick),
        place: outcome.record,
        udid_high: (udid >> 64) as u64,
        udid_low: udid as u64,
        bound: pool(&outcome.bound),
    }
}

/// Bytes on either side of a lent buffer that nobody may touch.
const MARGIN: usize = 24;

fn framed(bytes: &[u8]) -> Vec<u8> {
    let margin = |from: usize| (from..from + MARGIN).map(|k| (k * 151 + 77) as u8).collect::<Vec<u8>>();
    [margin(0), bytes.to_vec(), margin(MARGIN)].concat()
}

/// An answer, the records and the binding buffer after it; these two with their margins.
#[derive(PartialEq)]
pub struct Left {
    pub ran: Ran,
    records: Vec<u8>,
    bindings: Vec<u8>,
}

fn hex(bytes: &[u8]) -> String {
    bytes.iter().map(|byte| format!("{byte:02x}")).collect()
}

impl std::fmt::Debug for Left {
    fn fmt(&self, f: &mut std::fmt::Formatter) -> std::fmt::Result {
        write!(f, "{:x?}\nrecords {}\nbindings {}", self.ran, hex(&self.records), hex(&self.bindings))
    }
}

pub fn by_reference(input: &Input) -> Left {
    let (mut records, mut bindings) = (input.list.clone(), input.buffer.clone());
    let outcome = run_model(&mut records, &mut bindings, &input.occupied, input.last_pick);
    Left { ran: ran(&outcome), records: framed(&records), bindings: framed(&bindings) }
}

/// The lent part of a framed buffer; an empty one goes as a null pointer.
fn lent(bytes: &mut [u8]) -> (*mut u8, usize) {
    let length = bytes.len() - 2 * MARGIN;
    if length == 0 {
        return (std::ptr::null_mut(), 0);
    }
    (bytes[MARGIN..].as_mut_ptr(), length)
}

pub fn by_library(input: &Input) -> Left {
    let (mut records, mut bindings) = (framed(&input.list), framed(&input.buffer));
    let (list, buffer) = (lent(&mut records), lent(&mut bindings));
    let occupied = pool(&input.occupied);
    let ran = unsafe { raw::hb_run_model(occupied, input.last_pick, list.0, list.1, buffer.0, buffer.1) };
    Left { ran, records, bindings }
}

pub fn text(input: &Input) -> String {
    let (list, room) = (hex(&input.list), input.buffer.len());
    format!("records {list}\nroom {room}\noccupied {:02x?}\nlast pick {}", input.occupied, input.last_pick)
}

impl Ran {
    pub fn answer(&self) -> u32 {
        self.answer
    }

    pub fn bound(&self) -> u32 {
        self.count
    }

    pub fn picked(&self) -> u32 {
        self.picked
    }
}
