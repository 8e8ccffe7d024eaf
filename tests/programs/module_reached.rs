//! What the cases of modules have to reach: each packet heard whole by each kind of module, NACK at each of its places,
//! and lost at each byte of a reply.

use reference::module::{kind_of, Kind, Module, READ, REPLY};
use reference::module_events::{Event, Reaction};
use std::collections::BTreeMap;

const KINDS: [Kind; 4] = [Kind::Fixed, Kind::Persistent, Kind::Volatile, Kind::Random];

/// The packets, by name and with how many bytes the controller sends in them.
const PACKETS: [(&str, usize); 6] =
    [("Prepare", 3), ("Reset", 3), ("Get", 3), ("Assign", 21), ("directed Get", 3), ("directed Reset", 3)];

/// The one place where no byte gets NACK.
const ADDRESS_BYTE: (&str, usize) = ("Assign", 19);

/// How often each was reached.
#[derive(Default)]
pub struct Reached {
    whole: BTreeMap<(&'static str, Kind), usize>,
    nacks: BTreeMap<(&'static str, usize), usize>,
    lost: BTreeMap<usize, usize>,
    released: usize,
}

/// The packet that a command byte names.
fn named(command: u8) -> &'static str {
    match command {
        1 => "Prepare",
        2 => "Reset",
        3 => "Get",
        4 => "Assign",
        _ if command % 2 == 1 => "directed Get",
        _ => "directed Reset",
    }
}

impl Reached {
    /// An event, the module before it, and its answer.
    pub fn add(&mut self, before: &Module, event: Event, reaction: Reaction) {
        let heard = before.bytes_heard();
        match (event, reaction, heard) {
            (Event::Byte(byte), Reaction::Acknowledged(taken), Some(heard)) => self.byte(before, &heard, byte, taken),
            (Event::Lost, _, Some(_)) if before.bytes_sent() > 0 => {
                *self.lost.entry(before.bytes_sent() - 1).or_default() += 1;
            }
            (Event::Supply, Reaction::Supplied(None), Some(_)) => self.released += 1,
            _ => {}
        }
    }

    fn byte(&mut self, before: &Module, heard: &[u8], byte: u8, taken: bool) {
        let packet = heard.get(1).map_or("no command", |&command| named(command));
        if !taken {
            *self.nacks.entry((packet, heard.len())).or_default() += 1;
            return;
        }
        let length = PACKETS.iter().find(|(name, _)| *name == packet).map(|(_, length)| *length);
        let reads = !packet.ends_with("Get") || byte == READ;
        if length == Some(heard.len() + 1) && reads {
            *self.whole.entry((packet, kind_of(&before.udid))).or_default() += 1;
        }
    }

    /// Everything was reached.
    pub fn check(&self) {
        for (packet, length) in PACKETS {
            for kind in KINDS {
                let times = self.whole.get(&(packet, kind)).copied().unwrap_or(0);
                assert!(times > 20, "{packet} is heard whole by {kind:?} too seldom: {times}");
            }
            for place in (2..=length).filter(|&place| (packet, place) != ADDRESS_BYTE) {
                self.nacked(packet, place);
            }
        }
        assert_eq!(self.nacks.get(&ADDRESS_BYTE), None, "an address byte is always acknowledged");
        (0..2).for_each(|place| self.nacked("no command", place));
        for byte in 0..REPLY {
            let times = self.lost.get(&byte).copied().unwrap_or(0);
            assert!(times > 20, "lost at byte {byte} of a reply too seldom: {times}");
        }
        assert!(self.released > 20, "released inside a packet too seldom");
    }

    fn nacked(&self, packet: &'static str, place: usize) {
        let times = self.nacks.get(&(packet, place)).copied().unwrap_or(0);
        assert!(times > 20, "NACK at byte {place} of {packet} too seldom: {times}");
    }
}
