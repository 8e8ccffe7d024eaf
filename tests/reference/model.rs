//! The model run: the controller on the bus, over target records of 18 bytes and a binding buffer.

use crate::addresses::*;
use crate::bus::{Bus, Target};
use crate::commands::*;
use crate::controller::{Controller, Found};

pub const RECORD: usize = 18;
pub const MOST_TARGETS: usize = 120;
pub const BINDINGS: usize = 2048;

/// Fields that an answer has no use for are zero.
#[derive(Clone, Debug, Default, PartialEq, Eq)]
pub struct Outcome {
    pub answer: u32,
    /// With 10, 11 and 12.
    pub record: usize,
    /// With 13.
    pub udid: Udid,
    pub bound: Addresses,
    pub how_many: usize,
    pub get_udids: usize,
    /// The last pick then, with 0 and 13.
    pub last_pick: u8,
}

fn udid_in(record: &[u8]) -> Udid {
    udid_of(&record[..16])
}

fn target_in(record: &[u8]) -> Target {
    Target { udid: udid_in(record), address_byte: record[16], resolved: record[17] == 1 }
}

pub fn record_of(target: &Target) -> Vec<u8> {
    [&target.udid[..], &[target.address_byte, u8::from(target.resolved)]].concat()
}

/// 12: the address of a fixed target is barred, or is that of an earlier one. FFh counts as 7Fh.
fn misplaced(records: &[&[u8]], k: usize, barred: &Addresses) -> bool {
    let fixed = |record: &[u8]| is_fixed(&udid_in(record));
    let address = |record: &[u8]| record[16] / 2;
    let own = address(records[k]);
    let taken = records[..k].iter().any(|earlier| fixed(earlier) && address(earlier) == own);
    fixed(records[k]) && (barred.contains(&own) || taken)
}

/// The first refusal, with its record; a binding buffer of so many bytes.
pub fn refusal(list: &[u8], room: usize, occupied: &Addresses, last_pick: u8) -> Option<(u32, usize)> {
    if last_pick > NEVER {
        return Some((1, 0));
    }
    if room < BINDINGS {
        return Some((2, 0));
    }
    if list.len() % RECORD != 0 || list.len() > MOST_TARGETS * RECORD {
        return Some((9, 0));
    }
    let records: Vec<&[u8]> = list.chunks(RECORD).collect();
    let barred = barred(occupied);
    let malformed = |&k: &usize| records[k][16] % 2 == 0 || records[k][17] > 1;
    let repeated = |&k: &usize| records[..k].iter().any(|earlier| earlier[..16] == records[k][..16]);
    let first = |number, bad: &dyn Fn(&usize) -> bool| (0..records.len()).find(bad).map(|k| (number, k));
    first(10, &malformed).or(first(11, &repeated)).or(first(12, &|&k| misplaced(&records, k, &barred)))
}

/// A pass to its end: what ends it, and how many Get UDIDs were sent.
fn pass(controller: &mut Controller, bus: &mut Bus) -> (Command, usize) {
    let mut get_udids = 0;
    let mut command = controller.start();
    while command.is_sent() {
        get_udids += usize::from(command == Command::GetUdid);
        command = controller.step(&bus.answer(&command));
    }
    (command, get_udids)
}

/// Every address with its UDID, zeros where nobody is bound; the set of those where somebody is.
fn write_bindings(controller: &Controller, buffer: &mut [u8]) -> Addresses {
    let mut bound = Addresses::new();
    for address in 0..ADDRESSES {
        let place = 16 * usize::from(address);
        let udid = match controller.lookup(address) {
            Found::Bound(udid) => {
                bound.insert(address);
                udid
            }
            Found::Refused(_) => [0; 16],
        };
        buffer[place..place + 16].copy_from_slice(&udid);
    }
    bound
}

pub fn run_model(list: &mut [u8], buffer: &mut [u8], occupied: &Addresses, last_pick: u8) -> Outcome {
    if let Some((answer, record)) = refusal(list, buffer.len(), occupied, last_pick) {
        return Outcome { answer, record, ..Outcome::default() };
    }
    let mut bus = Bus { targets: list.chunks(RECORD).map(target_in).collect() };
    let mut controller = Controller::new(occupied, last_pick);
    let (end, get_udids) = pass(&mut controller, &mut bus);
    for (record, target) in list.chunks_mut(RECORD).zip(&bus.targets) {
        record.copy_from_slice(&record_of(target));
    }
    let bound = write_bindings(&controller, buffer);
    let (answer, udid) = match end {
        Command::Ended => (0, [0; 16]),
        Command::NoneFree(udid) => (13, udid),
        other => panic!("a model run ended with {other:?}"),
    };
    let last_pick = controller.last_pick;
    Outcome { answer, record: 0, udid, how_many: bound.len(), bound, get_udids, last_pick }
}
