//! What fits, by listing: every beginning, up to a limit, of every trace that can be made
//! of a few bytes. The decoder is then asked about each beginning and each way to leave it.
//! A wrong symbol gets its number from the list alone: by itself, and by what else might have followed the beginning.

use reference::decode::{decode, Answer};
use reference::numbers::Tally;
use reference::table::*;
use reference::text::{pec_use, trace_text};
use std::collections::{HashMap, HashSet};

/// Commands, counts, data and PEC.
const BYTES: [u8; 3] = [0, 1, 255];
const SYMBOLS: [u16; 9] = [0, 1, 255, START, STOP, ACK, NACK, 260, 65535];
const TAILS: [&[u16]; 5] = [&[0], &[STOP], &[STOP, 65535], &[NACK, STOP], &[ACK, 1, ACK, STOP]];

#[derive(Default)]
struct Language {
    /// Beginnings that fit, each with the symbols that may follow.
    begins: HashMap<Vec<u16>, HashSet<u16>>,
    /// Complete traces with any of the bytes for PEC, and the answer of each.
    members: HashMap<Vec<u16>, Answer>,
}

/// How many bytes from the first on the target has to acknowledge.
fn target_acks(t: &Transaction) -> usize {
    let sent_pec = usize::from(t.pec);
    match t.protocol {
        0 | 2 => 1,
        1 => 2 + sent_pec,
        3 => 3 + sent_pec,
        4 => 4 + sent_pec,
        5 | 6 | 9 => 3,
        7 => 5,
        8 => 3 + t.sent.len() + sent_pec,
        _ => 4 + t.sent.len(),
    }
}

/// Data of a length, the first few bytes taken from BYTES in every way.
fn data_choices(length: usize, free: usize) -> Vec<Vec<u8>> {
    let mut choices = vec![vec![]];
    for _ in 0..length.min(free) {
        let longer = |data: &Vec<u8>| BYTES.map(|byte| [data.clone(), vec![byte]].concat());
        choices = choices.iter().flat_map(longer).collect();
    }
    for data in &mut choices {
        data.resize(length, 0);
    }
    choices
}

/// Data sent and received, of every size that BYTES and the protocol allow.
fn all_data(protocol: u8) -> Vec<(Vec<u8>, Vec<u8>)> {
    let sizes: Vec<usize> = if protocol < BLOCK_WRITE { vec![0, 1, 2] } else { BYTES.map(usize::from).to_vec() };
    let mut all = vec![];
    for &m in sizes.iter().chain(&[0]) {
        for &n in sizes.iter().chain(&[0]) {
            if !lengths_allowed(protocol, m, n) {
                continue;
            }
            for sent in data_choices(m, 5) {
                all.extend(data_choices(n, 4).into_iter().map(|received| (sent.clone(), received)));
            }
        }
    }
    all
}

fn all_transactions(protocol: u8, with_pec: bool) -> Vec<Transaction> {
    let mut all = vec![];
    for (sent, received) in all_data(protocol) {
        for address in [0, 127] {
            for direction in 0..2 {
                for command in BYTES {
                    let (sent, received) = (sent.clone(), received.clone());
                    all.push(Transaction { protocol, pec: with_pec, address, direction, command, sent, received });
                }
            }
        }
    }
    all.retain(valid);
    all
}

impl Language {
    fn add(&mut self, trace: Vec<u16>, limit: usize, answer: Answer) {
        for end in 0..=trace.len().min(limit) {
            let next = self.begins.entry(trace[..end].to_vec()).or_default();
            next.extend(trace.get(end));
        }
        if trace.len() <= limit {
            self.members.insert(trace, answer);
        }
    }

    /// The trace with the right PEC and with others, and each of them cut by the target's NACK.
    fn add_transaction(&mut self, t: &Transaction, limit: usize) {
        let whole = build(t).expect("listed transactions are valid");
        self.add_cuts(t, &whole, limit);
        self.add(whole.clone(), limit, Answer::Done(t.clone()));
        let pec_place = whole.len() - 3;
        if !t.pec || pec_place >= limit {
            return;
        }
        for other in BYTES.map(u16::from).into_iter().filter(|&byte| byte != whole[pec_place]) {
            let mut damaged = whole.clone();
            damaged[pec_place] = other;
            self.add_cuts(t, &damaged, limit);
            self.add(damaged, limit, Answer::Refused { number: 7, value: pec_place });
        }
    }

    fn add_cuts(&mut self, t: &Transaction, whole: &[u16], limit: usize) {
        let byte_places = (0..whole.len().min(limit)).filter(|&place| whole[place] < 256);
        for (value, place) in byte_places.take(target_acks(t)).enumerate() {
            let cut = [&whole[..=place], &[NACK, STOP]].concat();
            self.add(cut, limit, Answer::Refused { number: 6, value });
        }
    }

    /// The number for a symbol that may not follow a beginning that fits.
    fn number(&self, begin: &[u16], symbol: u16) -> u32 {
        let next = &self.begins[begin];
        match symbol {
            260.. => 3,
            _ if self.members.contains_key(begin) => 8,
            ACK if next.contains(&NACK) => 17,
            NACK if next.contains(&ACK) => 17,
            0..=255 if begin.last() == Some(&START) => 18,
            0..=255 if next.iter().any(|&other| other < 256) => 19,
            _ => 5,
        }
    }

    /// The answer read off the list.
    fn answer(&self, trace: &[u16]) -> Answer {
        let misfit = (0..trace.len()).find(|&place| !self.begins.contains_key(&trace[..=place]));
        if let Some(place) = misfit {
            return Answer::Refused { number: self.number(&trace[..place], trace[place]), value: place };
        }
        match self.members.get(trace) {
            Some(answer) => answer.clone(),
            None => Answer::Refused { number: 4, value: trace.len() },
        }
    }

    fn compare(&self, tally: &mut Tally, protocol: u8, with_pec: bool, trace: &[u16]) {
        let (due, given) = (self.answer(trace), decode(protocol, with_pec, trace, 255, 255));
        if due != given {
            eprintln!("protocol {protocol} {} trace {}", pec_use(with_pec), trace_text(trace));
            eprintln!("listed  {due:?}\ndecoded {given:?}");
            std::process::exit(1);
        }
        tally.add(protocol, with_pec, &due);
    }
}

/// Compares the decoder with the list for one protocol and PEC use.
pub fn compare_all(tally: &mut Tally, protocol: u8, with_pec: bool) {
    let limit = if protocol < BLOCK_WRITE { 19 } else { 17 };
    let mut language = Language::default();
    for t in all_transactions(protocol, with_pec) {
        language.add_transaction(&t, limit);
    }
    language.compare(tally, protocol, with_pec, &[]);
    for (begin, next) in language.begins.iter().filter(|(begin, _)| begin.len() < limit) {
        for &symbol in SYMBOLS.iter().chain(next.iter().filter(|symbol| !SYMBOLS.contains(symbol))) {
            let trace = [&begin[..], &[symbol]].concat();
            language.compare(tally, protocol, with_pec, &trace);
            if !language.begins.contains_key(&trace) {
                for tail in TAILS {
                    language.compare(tally, protocol, with_pec, &[&trace[..], tail].concat());
                }
            }
        }
    }
}

/// Compares the decoder with a list of whole Block Process Calls that send as much, one for each received count.
/// It is asked about every symbol in that count's place. What a target's NACK has cut does not go so far.
pub fn compare_counts(tally: &mut Tally, with_pec: bool, sent: usize) {
    let (protocol, address, direction, command) = (BLOCK_PROCESS_CALL, 127, 0, 255);
    let place = 10 + 2 * sent;
    let mut language = Language::default();
    for received in 0..=BLOCK_LIMIT - sent {
        let (sent, received) = (vec![1; sent], vec![0; received]);
        let t = Transaction { protocol, pec: with_pec, address, direction, command, sent, received };
        language.add(build(&t).expect("listed transactions are valid"), place + 1, Answer::Done(t));
    }
    for begin in language.begins.keys().filter(|begin| begin.len() == place) {
        for symbol in 0..=261 {
            language.compare(tally, protocol, with_pec, &[&begin[..], &[symbol]].concat());
        }
    }
}
