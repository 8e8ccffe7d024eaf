//! PEC, addresses and trace lengths of the compiled library against the reference.
//!   ground FOLDER      the folder of the stored vectors

mod family;
mod ground_abi;
mod pec_verdicts;

use family::Family;
use ground_abi as library;
use reference::addresses::{listed, RESERVED};
use reference::random::Random;
use reference::text::{hex, transaction_text};
use reference::{pec, stored, table};

/// Every register value with every byte. The register is the PEC of some message of one byte. The byte goes by itself, and as a
/// slice of one byte, which goes by the table: so every entry is looked up.
fn pec_bytes() {
    let mut family = Family::new("pec bytes");
    for first in 0..=255 {
        let crc = pec::pec(&[first]);
        for byte in 0..=255 {
            let due = pec::pec(&[first, byte]);
            let input = |how| move || format!("crc {crc:02x} byte {byte:02x} {how}");
            family.same(input("by itself"), &due, &library::pec_byte(crc, byte));
            family.same(input("as a slice"), &due, &library::pec_bytes(crc, &[byte]));
        }
    }
    family.done();
}

fn pec_slices() {
    let mut family = Family::new("pec slices");
    let mut random = Random::new(30);
    for length in (0..=600).chain([65_536]) {
        for _ in 0..2 {
            let message = random.bytes(length);
            family.same(|| hex(&message), &pec::pec(&message), &library::pec(&message));
            let (first, rest) = message.split_at(length / 3);
            family.same(|| hex(&message), &pec::pec(&message), &library::pec_bytes(pec::pec(first), rest));
        }
    }
    family.same(|| "no bytes, null pointer".to_string(), &0, &library::pec_of_null());
    family.done();
}

fn stored_pecs(folder: &str) {
    let mut family = Family::new("stored pecs");
    for (message, due) in stored::pec_vectors(folder) {
        family.same(|| hex(&message), &due, &library::pec(&message));
    }
    family.done();
}

/// Twice the address, one more for a read; above 127 the address is taken modulo 128.
fn wire_bytes() {
    let mut family = Family::new("wire bytes");
    for number in 0..=255u8 {
        let input = || format!("{number:02x}");
        let twice = 2 * (u16::from(number) % 128);
        family.same(input, &twice, &u16::from(library::wire_for_write(number)));
        family.same(input, &(twice + 1), &u16::from(library::wire_for_read(number)));
        family.same(input, &(number / 2), &library::address_from_wire(number));
        family.same(input, &(number % 2), &library::wire_is_read(number));
        let kinds = [number < 128, number == 0x61, number == 0x08, number == 0x0c].map(u8::from);
        family.same(input, &kinds, &library::kinds(number));
    }
    family.done();
}

fn reserved_addresses() {
    let mut family = Family::new("reserved addresses");
    for address in 0..=255 {
        let due = u8::from(RESERVED.contains(&address));
        family.same(|| format!("{address:02x}"), &due, &library::is_reserved(address));
    }
    family.done();
}

fn listed_addresses() {
    let mut family = Family::new("listed addresses");
    let mut count = 0;
    for address in 0..=255 {
        let due = u8::from(listed().contains(&address));
        family.same(|| format!("{address:02x}"), &due, &library::is_listed(address));
        count += u32::from(library::is_listed(address));
    }
    family.same(|| "how many".to_string(), &35, &count);
    family.done();
}

fn length_case(family: &mut Family, protocol: u8, with_pec: bool, sent: usize, received: usize) {
    let due = table::trace_length(protocol, with_pec, sent, received).unwrap_or(0);
    let given = library::trace_length(protocol, with_pec, sent, received);
    let input = || format!("protocol {protocol} pec {with_pec} sent {sent} received {received}");
    family.same(input, &due, &given);
}

fn trace_lengths() {
    const SMALL: [usize; 15] = [0, 1, 2, 3, 4, 31, 32, 33, 127, 128, 254, 255, 256, 257, 258];
    const LARGE: [usize; 6] = [65_536, 65_537, 65_538, 1 << 32, (1 << 32) + 2, usize::MAX];
    let mut family = Family::new("trace lengths");
    for protocol in 0..=255 {
        for with_pec in [false, true] {
            for sent in SMALL.into_iter().chain(LARGE) {
                for received in SMALL.into_iter().chain(LARGE) {
                    length_case(&mut family, protocol, with_pec, sent, received);
                }
            }
        }
    }
    family.done();
}

/// Every pair of sizes up to 300 for the protocols that count.
fn block_lengths() {
    let mut family = Family::new("block lengths");
    for protocol in [table::BLOCK_WRITE, table::BLOCK_READ, table::BLOCK_PROCESS_CALL] {
        for with_pec in [false, true] {
            for sent in 0..300 {
                for received in 0..300 {
                    length_case(&mut family, protocol, with_pec, sent, received);
                }
            }
        }
    }
    family.done();
}

/// The length of each stored trace, and its PEC worked out from the bytes before it.
fn stored_traces(folder: &str) {
    let mut lengths = Family::new("stored trace lengths");
    let mut pecs = Family::new("stored trace pecs");
    for (t, trace) in stored::trace_vectors(folder) {
        let input = || transaction_text(&t);
        let length = library::trace_length(t.protocol, t.pec, t.sent.len(), t.received.len());
        lengths.same(input, &trace.len(), &length);
        if t.pec {
            let bytes = table::bytes_of(&trace);
            let (last, before) = bytes.split_last().expect("a trace has bytes");
            pecs.same(input, last, &library::pec(before));
        }
    }
    lengths.done();
    pecs.done();
}

fn main() {
    let folder = std::env::args().nth(1).expect("ground FOLDER");
    pec_bytes();
    pec_slices();
    stored_pecs(&folder);
    pec_verdicts::all();
    wire_bytes();
    reserved_addresses();
    listed_addresses();
    trace_lengths();
    block_lengths();
    stored_traces(&folder);
}
