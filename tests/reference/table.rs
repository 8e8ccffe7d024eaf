//! The protocol table: eleven rows, each written out without PEC and with it.

use crate::pec::pec;

pub const START: u16 = 256;
pub const STOP: u16 = 257;
pub const ACK: u16 = 258;
pub const NACK: u16 = 259;

pub const PROTOCOLS: u8 = 11;
pub const QUICK: u8 = 0;
pub const SEND_BYTE: u8 = 1;
pub const RECEIVE_BYTE: u8 = 2;
pub const BLOCK_WRITE: u8 = 8;
pub const BLOCK_READ: u8 = 9;
pub const BLOCK_PROCESS_CALL: u8 = 10;

/// The most data bytes of a block, and of both blocks of a Block Process Call together.
pub const BLOCK_LIMIT: usize = 255;
pub const LONGEST_TRACE: usize = 525;

#[derive(Clone, Debug, PartialEq, Eq)]
pub struct Transaction {
    pub protocol: u8,
    pub pec: bool,
    pub address: u8,
    pub direction: u8,
    pub command: u8,
    pub sent: Vec<u8>,
    pub received: Vec<u8>,
}

/// Refusal 1.
#[derive(Clone, Copy, Debug, PartialEq, Eq)]
pub struct Refused;

/// A protocol of the table, and not Quick with PEC.
pub fn known(protocol: u8, with_pec: bool) -> bool {
    protocol < PROTOCOLS && !(protocol == QUICK && with_pec)
}

/// May the protocol carry that many data bytes sent and received?
pub fn lengths_allowed(protocol: u8, sent: usize, received: usize) -> bool {
    match protocol {
        0 => (sent, received) == (0, 0),
        1 => (sent, received) == (1, 0),
        2 => (sent, received) == (0, 1),
        3 => (sent, received) == (1, 0),
        4 => (sent, received) == (2, 0),
        5 => (sent, received) == (0, 1),
        6 => (sent, received) == (0, 2),
        7 => (sent, received) == (2, 2),
        8 => sent <= BLOCK_LIMIT && received == 0,
        9 => sent == 0 && received <= BLOCK_LIMIT,
        10 => sent <= BLOCK_LIMIT && received <= BLOCK_LIMIT - sent,
        _ => false,
    }
}

/// Quick, Send Byte and Receive Byte have no command.
pub fn has_command(protocol: u8) -> bool {
    !matches!(protocol, 0..=2)
}

/// No reason for refusal 1.
pub fn valid(t: &Transaction) -> bool {
    known(t.protocol, t.pec)
        && t.address <= 127
        && t.direction <= 1
        && (t.direction == 0 || t.protocol == QUICK)
        && (t.command == 0 || has_command(t.protocol))
        && lengths_allowed(t.protocol, t.sent.len(), t.received.len())
}

/// The table's two columns of trace lengths; none where protocol, PEC use or data lengths are refused.
pub fn trace_length(protocol: u8, with_pec: bool, sent: usize, received: usize) -> Option<usize> {
    if !known(protocol, with_pec) || !lengths_allowed(protocol, sent, received) {
        return None;
    }
    let (m, n) = (sent, received);
    let (plain, checked) = match protocol {
        0 => (4, 0),
        1 => (6, 8),
        2 => (6, 8),
        3 => (8, 10),
        4 => (10, 12),
        5 => (11, 13),
        6 => (13, 15),
        7 => (17, 19),
        8 => (8 + 2 * m, 10 + 2 * m),
        9 => (11 + 2 * n, 13 + 2 * n),
        _ => (13 + 2 * (m + n), 15 + 2 * (m + n)),
    };
    Some(if with_pec { checked } else { plain })
}

/// The bytes of a trace in order, START, STOP, ACK and NACK left out.
pub fn bytes_of(trace: &[u16]) -> Vec<u8> {
    trace.iter().filter(|&&symbol| symbol < 256).map(|&symbol| symbol as u8).collect()
}

/// Each byte followed by ACK.
fn each_acked(bytes: &[u8]) -> Vec<u16> {
    bytes.iter().flat_map(|&byte| [u16::from(byte), ACK]).collect()
}

/// Each byte followed by ACK, the last by NACK.
fn last_nacked(bytes: &[u8]) -> Vec<u16> {
    let (last, before) = bytes.split_last().expect("a read has a byte");
    [each_acked(before), vec![u16::from(*last), NACK]].concat()
}

/// A count, then the bytes it counts.
fn counted(bytes: &[u8]) -> Vec<u8> {
    [vec![bytes.len() as u8], bytes.to_vec()].concat()
}

const S: u16 = START;
const P: u16 = STOP;
const A: u16 = ACK;
const N: u16 = NACK;

/// The rows without PEC.
fn row(t: &Transaction) -> Vec<u16> {
    let w = 2 * u16::from(t.address);
    let r = 2 * u16::from(t.address) + 1;
    let c = u16::from(t.command);
    let d = |k: usize| u16::from(t.sent[k]);
    let g = |k: usize| u16::from(t.received[k]);
    let out = || each_acked(&counted(&t.sent));
    let back = || last_nacked(&counted(&t.received));
    match t.protocol {
        0 if t.direction == 0 => vec![S, w, A, P],
        0 => vec![S, r, A, P],
        1 => vec![S, w, A, d(0), A, P],
        2 => vec![S, r, A, g(0), N, P],
        3 => vec![S, w, A, c, A, d(0), A, P],
        4 => vec![S, w, A, c, A, d(0), A, d(1), A, P],
        5 => vec![S, w, A, c, A, S, r, A, g(0), N, P],
        6 => vec![S, w, A, c, A, S, r, A, g(0), A, g(1), N, P],
        7 => vec![S, w, A, c, A, d(0), A, d(1), A, S, r, A, g(0), A, g(1), N, P],
        8 => [vec![S, w, A, c, A], out(), vec![P]].concat(),
        9 => [vec![S, w, A, c, A, S, r, A], back(), vec![P]].concat(),
        _ => [vec![S, w, A, c, A], out(), vec![S, r, A], back(), vec![P]].concat(),
    }
}

/// The rows with PEC, x.
fn row_with_pec(t: &Transaction, x: u8) -> Vec<u16> {
    let w = 2 * u16::from(t.address);
    let r = 2 * u16::from(t.address) + 1;
    let c = u16::from(t.command);
    let d = |k: usize| u16::from(t.sent[k]);
    let g = |k: usize| u16::from(t.received[k]);
    let out = || each_acked(&counted(&t.sent));
    let back = || last_nacked(&[counted(&t.received), vec![x]].concat());
    let x = u16::from(x);
    match t.protocol {
        1 => vec![S, w, A, d(0), A, x, A, P],
        2 => vec![S, r, A, g(0), A, x, N, P],
        3 => vec![S, w, A, c, A, d(0), A, x, A, P],
        4 => vec![S, w, A, c, A, d(0), A, d(1), A, x, A, P],
        5 => vec![S, w, A, c, A, S, r, A, g(0), A, x, N, P],
        6 => vec![S, w, A, c, A, S, r, A, g(0), A, g(1), A, x, N, P],
        7 => vec![S, w, A, c, A, d(0), A, d(1), A, S, r, A, g(0), A, g(1), A, x, N, P],
        8 => [vec![S, w, A, c, A], out(), vec![x, A, P]].concat(),
        9 => [vec![S, w, A, c, A, S, r, A], back(), vec![P]].concat(),
        _ => [vec![S, w, A, c, A], out(), vec![S, r, A], back(), vec![P]].concat(),
    }
}

/// The transaction's trace, or refusal 1.
pub fn build(t: &Transaction) -> Result<Vec<u16>, Refused> {
    if !valid(t) {
        return Err(Refused);
    }
    let plain = row(t);
    if !t.pec {
        return Ok(plain);
    }
    Ok(row_with_pec(t, pec(&bytes_of(&plain))))
}
