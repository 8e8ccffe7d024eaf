//! Short events at an address in every order, with repetitions.

use crate::addresses::*;
use crate::recorder::Recorder;

/// Where the events are, how many there are in a row, and which addresses are not occupied.
pub struct Place {
    pub at: u8,
    events: u32,
    free: &'static [u8],
}

/// At 20h, where that and 21h are free.
pub const FREE: Place = Place { at: 0x20, events: 4, free: &[0x20, 0x21] };
/// At 48h, an added row, where 21h and 47h are free.
pub const ROW: Place = Place { at: 0x48, events: 4, free: &[0x21, 0x47, 0x48] };
/// At 48h, an added row that is occupied.
pub const OCCUPIED_ROW: Place = Place { at: 0x48, events: 3, free: &[0x21, 0x47] };

/// Every order of so many kinds of events, told by number. Each begins in the same way, and ends with all lookups.
pub fn in_every_order(
    place: &Place,
    kinds: usize,
    first: impl Fn(&mut Recorder),
    event: impl Fn(&mut Recorder, usize),
) -> Recorder {
    let occupied = (0..ADDRESSES).filter(|address| !place.free.contains(address)).collect();
    let mut recorder = Recorder::new(&occupied, NEVER);
    for order in 0..kinds.pow(place.events) {
        first(&mut recorder);
        for turn in 0..place.events {
            event(&mut recorder, order / kinds.pow(turn) % kinds);
        }
        recorder.lookups();
    }
    recorder
}
