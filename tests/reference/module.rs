//! A module at its own end of the bus. It keeps what it heard since its packet began, and compares all of it with every
//! packet that it could be the beginning of.

use crate::addresses::{ADDRESSES, DEFAULT};
use crate::bus::Target;
use crate::commands::*;
use crate::pec::pec;
use crate::table::START;

/// Reset Device, general.
pub const RESET: u8 = 0x02;

/// The default address with the bit for a write, and for a read.
pub const WRITE: u8 = 2 * DEFAULT;
pub const READ: u8 = 2 * DEFAULT + 1;

/// The bytes that Get UDID and Assign Address count: a UDID and an address byte.
pub const COUNT: u8 = 17;

/// The bytes of a reply: the count, what is counted, and the PEC.
pub const REPLY: usize = 19;

/// The addresses that a directed command can name: its byte is above 1Fh and below FEh.
pub const DIRECTED: std::ops::RangeInclusive<u8> = 0x10..=0x7e;

/// The rows of Table 9, by the top two bits of the UDID.
#[derive(Clone, Copy, Debug, PartialEq, Eq, PartialOrd, Ord)]
pub enum Kind {
    /// DTA: the address is in ROM.
    Fixed,
    /// PTA: the address is in non-volatile memory.
    Persistent,
    /// Neither PTA nor a random number.
    Volatile,
    /// No PTA, and a random number in the UDID.
    Random,
}

/// The kind that a UDID says.
pub fn kind_of(udid: &Udid) -> Kind {
    match udid[0] >> 6 {
        0 => Kind::Fixed,
        1 => Kind::Persistent,
        2 => Kind::Volatile,
        _ => Kind::Random,
    }
}

/// What a whole packet asks of the module.
#[derive(Clone, Copy, Debug, PartialEq, Eq)]
pub enum Deed {
    /// Take part in ARP again.
    Prepare,
    /// Be as after power on, but for what is persistent.
    Reset,
    /// Take this address byte.
    Assign(u8),
    /// Send the reply.
    Reply,
    /// Nothing.
    Pass,
}

/// A module between two events on the bus.
#[derive(Clone, Debug, PartialEq, Eq)]
pub struct Module {
    pub udid: Udid,
    /// The vendor-specific part, the last four bytes, that a random one takes at a reset.
    pub fresh: [u8; 4],
    /// The address that a fixed one has after a reset; above 127 it has none.
    pub home: u8,
    /// Its address; none where Address Valid is clear.
    pub address: Option<u8>,
    /// Address Resolved.
    pub resolved: bool,
    /// START and the bytes acknowledged since the packet began. None where it is silent.
    heard: Option<Vec<u16>>,
    /// The bytes of the reply that it has sent.
    sent: usize,
}

/// A packet that a module obeys, as far as it acknowledges it.
struct Packet {
    /// START and bytes, up to the PEC that a controller sends.
    symbols: Vec<u16>,
    /// Does a PEC end it?
    has_pec: bool,
    deed: Deed,
}

/// START and bytes.
fn symbols(bytes: &[u8]) -> Vec<u16> {
    [vec![START], bytes.iter().map(|&byte| u16::from(byte)).collect()].concat()
}

/// The bytes among symbols.
fn bytes_in(symbols: &[u16]) -> Vec<u8> {
    symbols.iter().filter_map(|&symbol| u8::try_from(symbol).ok()).collect()
}

impl Packet {
    fn with_pec(bytes: &[u8], deed: Deed) -> Packet {
        Packet { symbols: symbols(bytes), has_pec: true, deed }
    }

    /// A Get UDID, up to where the module sends.
    fn read(command: u8) -> Packet {
        let symbols = [symbols(&[WRITE, command]), symbols(&[READ])].concat();
        Packet { symbols, has_pec: false, deed: Deed::Reply }
    }

    /// Every symbol of it.
    fn whole(&self) -> Vec<u16> {
        let code = pec(&bytes_in(&self.symbols));
        let last = self.has_pec.then_some(u16::from(code));
        self.symbols.iter().copied().chain(last).collect()
    }

    /// Is the list a beginning of it, or all of it?
    fn begins_with(&self, list: &[u16]) -> bool {
        self.symbols.starts_with(list) || list.starts_with(&self.symbols) && self.whole() == list
    }

    fn is(&self, list: &[u16]) -> bool {
        list.starts_with(&self.symbols) && self.whole() == list
    }
}

/// A number that is an address.
fn address_in(number: u8) -> Option<u8> {
    Some(number).filter(|&number| number < ADDRESSES)
}

impl Module {
    /// Power on, by Table 9: the address is that of ROM or of non-volatile memory, and above 127 there is none.
    pub fn power_on(udid: Udid, stored: u8, fresh: [u8; 4]) -> Module {
        let address = match kind_of(&udid) {
            Kind::Fixed | Kind::Persistent => address_in(stored),
            Kind::Volatile | Kind::Random => None,
        };
        let mut module = Module { udid, fresh, home: stored, address, resolved: false, heard: None, sent: 0 };
        module.renew();
        module
    }

    /// A module in the middle of its life, as a record of the model has it. Refused is what is no record, with 10, and
    /// a fixed module without an address, with 12.
    pub fn of_record(udid: Udid, address_byte: u8, flag: u8, fresh: [u8; 4]) -> Result<Module, u32> {
        if address_byte % 2 == 0 || flag > 1 {
            return Err(10);
        }
        let address = Some(address_byte / 2).filter(|_| address_byte != NO_ADDRESS);
        if address.is_none() && kind_of(&udid) == Kind::Fixed {
            return Err(12);
        }
        let home = address.unwrap_or(255);
        Ok(Module { udid, fresh, home, address, resolved: flag == 1, heard: None, sent: 0 })
    }

    /// Its record in the model: Address Valid clear is FFh.
    pub fn record(&self) -> Target {
        let address_byte = self.address.map_or(NO_ADDRESS, |address| 2 * address + 1);
        Target { udid: self.udid, address_byte, resolved: self.resolved }
    }

    /// Is it sending the bytes of a read, some of them still due?
    pub fn is_sending(&self) -> bool {
        self.reply().is_some_and(|reply| self.sent < reply.len())
    }

    /// How many bytes of the reply it has sent in this packet.
    pub fn bytes_sent(&self) -> usize {
        self.sent
    }

    /// The bytes acknowledged since its packet began. None where it is silent.
    pub fn bytes_heard(&self) -> Option<Vec<u8>> {
        let heard = self.heard.as_ref()?;
        Some(bytes_in(heard))
    }

    /// Every packet that it obeys. The address byte of an Assign may be any: here it is the one that the list has.
    fn packets(&self, list: &[u16]) -> Vec<Packet> {
        let given = list.get(20).map_or(0, |&symbol| symbol as u8);
        let assign = [&[WRITE, ASSIGN, COUNT], &self.udid[..], &[given]].concat();
        let mut packets = vec![
            Packet::with_pec(&[WRITE, PREPARE], Deed::Prepare),
            Packet::with_pec(&[WRITE, RESET], Deed::Reset),
            Packet::with_pec(&assign, Deed::Assign(given)),
        ];
        match self.resolved {
            true => packets.push(Packet { symbols: symbols(&[WRITE, GET_UDID]), has_pec: false, deed: Deed::Pass }),
            false => packets.push(Packet::read(GET_UDID)),
        }
        if let Some(own) = self.address.filter(|address| DIRECTED.contains(address)) {
            packets.push(Packet::with_pec(&[WRITE, 2 * own], Deed::Reset));
            packets.push(Packet::read(2 * own + 1));
        }
        packets
    }

    /// The packet that begins with all of the list.
    fn begun(&self, list: &[u16]) -> Option<Packet> {
        self.packets(list).into_iter().find(|packet| packet.begins_with(list))
    }

    /// START: a packet that has one in this place goes on, any other begins.
    pub fn start(&mut self) {
        self.sent = 0;
        let longer = [self.heard.take().unwrap_or_default(), vec![START]].concat();
        self.heard = Some(if self.begun(&longer).is_some() { longer } else { vec![START] });
    }

    /// A byte: is it acknowledged?
    pub fn hear(&mut self, byte: u8) -> bool {
        let Some(before) = self.heard.take() else {
            return false;
        };
        let anew = before.last() == Some(&START);
        let longer = [before, vec![u16::from(byte)]].concat();
        let lists = [Some(longer), Some(symbols(&[byte])).filter(|_| anew)];
        for list in lists.into_iter().flatten() {
            if let Some(packet) = self.begun(&list) {
                if packet.is(&list) {
                    self.obey(packet.deed);
                }
                self.heard = Some(list);
                return true;
            }
        }
        false
    }

    fn obey(&mut self, deed: Deed) {
        match deed {
            Deed::Prepare => self.resolved = false,
            Deed::Reset => self.reset(),
            Deed::Assign(byte) => {
                self.address = Some(byte / 2);
                self.resolved = true;
            }
            Deed::Reply | Deed::Pass => {}
        }
    }

    /// By Table 9; what is in non-volatile memory stays.
    fn reset(&mut self) {
        self.resolved = false;
        self.address = match kind_of(&self.udid) {
            Kind::Fixed => address_in(self.home),
            Kind::Persistent => self.address,
            Kind::Volatile | Kind::Random => None,
        };
        self.renew();
    }

    /// A random one takes the fresh bytes.
    fn renew(&mut self) {
        if kind_of(&self.udid) == Kind::Random {
            self.udid[12..].copy_from_slice(&self.fresh);
        }
    }

    /// What it sends in this packet, if that is a whole Get UDID. The PEC is over everything before it.
    fn reply(&self) -> Option<Vec<u8>> {
        let heard = self.heard.as_ref()?;
        self.begun(heard).filter(|packet| packet.deed == Deed::Reply && packet.is(heard))?;
        let asked = bytes_in(heard);
        let data = [vec![COUNT], reply_bytes(&self.udid, self.record().address_byte)].concat();
        let code = pec(&[asked, data.clone()].concat());
        Some([data, vec![code]].concat())
    }

    /// The next byte of a read, if it has one to send. Where it has none nothing changes.
    pub fn supply(&mut self) -> Option<u8> {
        let byte = self.reply()?.get(self.sent).copied()?;
        self.sent += 1;
        Some(byte)
    }

    /// It has lost arbitration: silent until START.
    pub fn lost(&mut self) {
        self.heard = None;
    }

    /// STOP.
    pub fn stop(&mut self) {
        self.heard = None;
    }
}
