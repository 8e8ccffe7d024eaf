//! What an ARP controller asks for, and the three commands as transactions: all go to 61h, with PEC.

use crate::addresses::{ADDRESSES, DEFAULT};
use crate::table::*;

/// Highest byte first, as on the wire.
pub type Udid = [u8; 16];

pub const PREPARE: u8 = 0x01;
pub const GET_UDID: u8 = 0x03;
pub const ASSIGN: u8 = 0x04;

/// An address byte that says none.
pub const NO_ADDRESS: u8 = 0xff;

/// Why a target gets an address.
#[derive(Clone, Copy, Debug, PartialEq, Eq, PartialOrd, Ord)]
pub enum Reason {
    /// It is fixed there.
    Fixed,
    /// It is movable, and holds it.
    Kept,
    /// It has none that it can have.
    Picked,
    /// The Assign, completed now, would leave a claim by two.
    Claimed,
}

#[derive(Clone, Copy, Debug, PartialEq, Eq)]
pub enum Command {
    Prepare,
    GetUdid,
    Assign(Udid, u8),
    /// What an Assign would give, and why. It waits to be issued or declined, and nothing is outstanding.
    Chosen(Udid, u8, Reason),
    /// The pass is over: 0.
    Ended,
    /// The pass is over, for this target there is no address: 13.
    NoneFree(Udid),
    /// The pass is over: 14.
    Abandoned,
    /// A trace with no command to answer, or no choice waits: 21.
    NotOutstanding,
}

impl Command {
    /// Is it sent on the bus?
    pub fn is_sent(&self) -> bool {
        matches!(self, Command::Prepare | Command::GetUdid | Command::Assign(..))
    }

    /// Is it a choice, to be issued or declined?
    pub fn is_choice(&self) -> bool {
        matches!(self, Command::Chosen(..))
    }

    /// Whom it gives which address, sent already or not yet.
    pub fn gives(&self) -> Option<(Udid, u8)> {
        match self {
            Command::Assign(udid, address) | Command::Chosen(udid, address, _) => Some((*udid, *address)),
            _ => None,
        }
    }

    /// Does the pass go on after it?
    pub fn is_running(&self) -> bool {
        self.is_sent() || self.is_choice()
    }
}

pub fn udid_of(bytes: &[u8]) -> Udid {
    bytes.try_into().expect("a UDID has 16 bytes")
}

/// The top two bits are zero.
pub fn is_fixed(udid: &Udid) -> bool {
    udid[0] < 0x40
}

fn to_default(protocol: u8, command: u8, sent: Vec<u8>, received: Vec<u8>) -> Transaction {
    Transaction { protocol, pec: true, address: DEFAULT, direction: 0, command, sent, received }
}

pub fn prepare() -> Transaction {
    to_default(SEND_BYTE, 0, vec![PREPARE], vec![])
}

/// Get UDID with the bytes of its reply, 17 of them in a good one.
pub fn get_udid(reply: &[u8]) -> Transaction {
    to_default(BLOCK_READ, GET_UDID, vec![], reply.to_vec())
}

/// The bytes of a good reply.
pub fn reply_bytes(udid: &Udid, address_byte: u8) -> Vec<u8> {
    [&udid[..], &[address_byte]].concat()
}

/// Bit 0 of the address byte is sent as zero. A number above 127 is no address and has no byte.
pub fn assign(udid: &Udid, address: u8) -> Transaction {
    assert!(address < ADDRESSES, "{address} is no address");
    to_default(BLOCK_WRITE, ASSIGN, reply_bytes(udid, 2 * address), vec![])
}

/// The transaction of a kind of command, where there is one: 0 Prepare To ARP, 1 Get UDID, 2 Assign Address. Any other
/// kind is refused, and so is an Assign of a number above 127.
pub fn of_kind(kind: u8, udid: &Udid, address: u8, reply: &[u8]) -> Result<Transaction, Refused> {
    match kind {
        0 => Ok(prepare()),
        1 => Ok(get_udid(reply)),
        2 if address < ADDRESSES => Ok(assign(udid, address)),
        _ => Err(Refused),
    }
}
