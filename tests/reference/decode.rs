//! The decoder without a state machine: take each field from the place where its row has it,
//! rebuild the trace of those fields, and let the first place that differs decide.
//! What the rebuilt trace has there tells which number a wrong symbol gets.

use crate::table::*;

#[derive(Clone, Debug, PartialEq, Eq)]
pub enum Answer {
    Done(Transaction),
    Refused { number: u32, value: usize },
}

impl Answer {
    pub fn number(&self) -> u32 {
        match self {
            Answer::Done(_) => 0,
            Answer::Refused { number, .. } => *number,
        }
    }
}

fn refused(number: u32, value: usize) -> Answer {
    Answer::Refused { number, value }
}

/// A wrong symbol: 3 if it is no symbol at all, else the number given.
fn wrong(trace: &[u16], place: usize, number: u32) -> Answer {
    if trace[place] > NACK {
        refused(3, place)
    } else {
        refused(number, place)
    }
}

/// The byte at a place; where there is none any value will do, for that place differs or is past the end.
fn byte_at(trace: &[u16], place: usize) -> u8 {
    match trace.get(place) {
        Some(&symbol) if symbol < 256 => symbol as u8,
        _ => 0,
    }
}

/// Data bytes with an ACK or NACK between them, from a place on.
fn bytes_from(trace: &[u16], place: usize, count: u8) -> Vec<u8> {
    (0..usize::from(count)).map(|k| byte_at(trace, place + 2 * k)).collect()
}

/// Where a Block Process Call has its received count: after what is sent, START, the address byte and its ACK.
fn received_count_place(trace: &[u16]) -> usize {
    10 + 2 * usize::from(byte_at(trace, 5))
}

/// The data sent and received, from their places in the protocol's row.
/// A second count that is too high is taken as the highest allowed, so that its place differs.
fn guess_data(protocol: u8, trace: &[u16]) -> (Vec<u8>, Vec<u8>) {
    let bytes = |place, count| bytes_from(trace, place, count);
    match protocol {
        0 => (vec![], vec![]),
        1 => (bytes(3, 1), vec![]),
        2 => (vec![], bytes(3, 1)),
        3 => (bytes(5, 1), vec![]),
        4 => (bytes(5, 2), vec![]),
        5 => (vec![], bytes(8, 1)),
        6 => (vec![], bytes(8, 2)),
        7 => (bytes(5, 2), bytes(12, 2)),
        8 => (bytes(7, byte_at(trace, 5)), vec![]),
        9 => (vec![], bytes(10, byte_at(trace, 8))),
        _ => {
            let m = byte_at(trace, 5);
            let count_place = received_count_place(trace);
            let n = byte_at(trace, count_place).min(255 - m);
            (bytes(7, m), bytes(count_place + 2, n))
        }
    }
}

fn guess(protocol: u8, with_pec: bool, trace: &[u16]) -> Transaction {
    let (sent, received) = guess_data(protocol, trace);
    let first = byte_at(trace, 1);
    Transaction {
        protocol,
        pec: with_pec,
        address: first / 2,
        direction: if protocol == QUICK { first % 2 } else { 0 },
        command: if has_command(protocol) { byte_at(trace, 3) } else { 0 },
        sent,
        received,
    }
}

/// Does the target answer the byte before this place? It does after an address byte
/// and after every byte of a phase whose address byte says write.
fn is_target_ack(whole: &[u16], place: usize) -> bool {
    if whole[place] != ACK {
        return false;
    }
    let phase = whole[..place].iter().rposition(|&symbol| symbol == START).expect("START comes before any ACK");
    place == phase + 2 || whole[phase + 1] % 2 == 0
}

/// Does the controller answer the byte before this place? It does wherever the target does not.
fn is_controller_ack(whole: &[u16], place: usize) -> bool {
    matches!(whole[place], ACK | NACK) && !is_target_ack(whole, place)
}

/// An address byte stands after each START.
fn is_address(whole: &[u16], place: usize) -> bool {
    place > 0 && whole[place - 1] == START
}

/// The only count that can be too high: the received one of a Block Process Call. The whole trace then has the highest
/// allowed there.
fn is_limited_count(protocol: u8, whole: &[u16], place: usize) -> bool {
    protocol == BLOCK_PROCESS_CALL && place == received_count_place(whole)
}

/// The number for a symbol that differs from what the whole trace has there. 17: the controller's ACK for its NACK, or
/// its NACK for its ACK. 18: another byte for an address byte. 19: a byte for the count that can be too high.
fn number_for(protocol: u8, symbol: u16, whole: &[u16], place: usize) -> u32 {
    match symbol {
        ACK | NACK if is_controller_ack(whole, place) => 17,
        0..=255 if is_address(whole, place) => 18,
        0..=255 if is_limited_count(protocol, whole, place) => 19,
        _ => 5,
    }
}

/// A target's NACK at the place given: STOP and the end are what fits.
fn after_nack(trace: &[u16], nack: usize) -> Answer {
    if trace.len() == nack + 1 {
        return refused(4, trace.len());
    }
    if trace[nack + 1] != STOP {
        return wrong(trace, nack + 1, 5);
    }
    if trace.len() > nack + 2 {
        return wrong(trace, nack + 2, 8);
    }
    refused(6, bytes_of(&trace[..nack]).len() - 1)
}

/// The answer of the first place that differs from the whole trace, any byte standing for PEC.
fn first_difference(protocol: u8, trace: &[u16], whole: &[u16], pec_place: Option<usize>) -> Option<Answer> {
    for (place, &symbol) in trace.iter().enumerate() {
        if place == whole.len() {
            return Some(wrong(trace, place, 8));
        }
        let any_byte = pec_place == Some(place) && symbol < 256;
        if symbol == whole[place] || any_byte {
            continue;
        }
        if symbol == NACK && is_target_ack(whole, place) {
            return Some(after_nack(trace, place));
        }
        return Some(wrong(trace, place, number_for(protocol, symbol, whole, place)));
    }
    None
}

/// The answer to a trace, with decode buffers of the sizes given.
pub fn decode(protocol: u8, with_pec: bool, trace: &[u16], sent_room: usize, received_room: usize) -> Answer {
    if !known(protocol, with_pec) {
        return refused(1, 0);
    }
    if sent_room < 255 || received_room < 255 {
        return refused(2, 0);
    }
    let fields = guess(protocol, with_pec, trace);
    let whole = build(&fields).expect("guessed fields are valid");
    let pec_place = if with_pec { Some(whole.len() - 3) } else { None };
    if let Some(answer) = first_difference(protocol, trace, &whole, pec_place) {
        return answer;
    }
    if trace.len() < whole.len() {
        return refused(4, trace.len());
    }
    match pec_place {
        Some(place) if trace[place] != whole[place] => refused(7, place),
        _ => Answer::Done(fields),
    }
}
