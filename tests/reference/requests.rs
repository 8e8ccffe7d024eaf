//! Lines for the console at random: good requests of every verb, and lines that are none.

use crate::addresses::added;
use crate::commands::*;
use crate::console::{Console, LONGEST_LINE};
use crate::controller::Found;
use crate::good::{all_resolved, reply_trace};
use crate::mistakes::*;
use crate::module_lines;
use crate::random::Random;
use crate::samples::{combinations, random_sizes, transaction};
use crate::shelves::{any_last_pick, any_udid, with_kind, KINDS};
use crate::table::*;

const NAMES: [&str; 13] = [
    "quick",
    "send_byte",
    "receive_byte",
    "write_byte",
    "write_word",
    "read_byte",
    "read_word",
    "process_call",
    "block_write",
    "block_read",
    "block_process_call",
    "block_process_cal",
    "Quick",
];

const VERBS: [&str; 28] = [
    "pec", "encode", "decode", "occupied", "target", "clear", "run", "start", "step", "choose", "issue", "decline",
    "lookup", "grid", "gone", "module", "m", "pe", "Pec", "help", "Gone", "gon", "M", "modul", "ms", "chose", "issued",
    "Decline",
];

/// A number in one of the ways to write it.
fn number(random: &mut Random, value: usize) -> String {
    match random.below(8) {
        0 => format!("0x{value:x}"),
        1 => format!("0x{value:02X}"),
        2 => format!("0x{value:09x}"),
        3 => format!("{value:07}"),
        _ => value.to_string(),
    }
}

pub(crate) fn numbers<T: Copy + Into<u32>>(random: &mut Random, values: &[T]) -> String {
    values.iter().map(|&value| " ".to_string() + &number(random, value.into() as usize)).collect()
}

fn protocol(random: &mut Random, value: u8) -> String {
    match NAMES.get(usize::from(value)) {
        Some(name) if random.below(2) == 0 => name.to_string(),
        _ => number(random, usize::from(value)),
    }
}

fn pec_use(with_pec: bool) -> &'static str {
    if with_pec {
        "p"
    } else {
        "-"
    }
}

/// A transaction that is allowed, or nearly one.
fn any_transaction(random: &mut Random) -> Transaction {
    let (protocol, with_pec) = random.pick(&combinations());
    let limit = random.pick(&[3, 20, 255]);
    let sizes = random_sizes(random, protocol, limit);
    let mut t = transaction(random, protocol, with_pec, sizes);
    match random.below(12) {
        0 => t.protocol = random.byte(),
        1 => t.address = 128 + random.byte() / 2,
        2 => t.direction = random.byte(),
        3 => t.command = random.byte(),
        4 => t.sent = random.bytes(random_length(t.sent.len())),
        5 => t.received = random.bytes(random_length(t.received.len())),
        6 => t.pec = !t.pec,
        _ => {}
    }
    t
}

/// A length beside the one given.
fn random_length(length: usize) -> usize {
    if length % 2 == 0 {
        length + 1
    } else {
        length + 300
    }
}

fn encode(random: &mut Random) -> String {
    let t = any_transaction(random);
    let fields = numbers(random, &[t.address, t.direction, t.command]);
    let head = format!("encode {} {}{fields}", protocol(random, t.protocol), pec_use(t.pec));
    let sent = numbers(random, &t.sent);
    let received = numbers(random, &t.received);
    match (t.sent.is_empty(), t.received.is_empty(), random.below(2)) {
        (true, true, 0) => head,
        (_, true, 0) => format!("{head} w{sent}"),
        _ => format!("{head} w{sent} r{received}"),
    }
}

/// A trace of that protocol, whole or damaged.
fn any_trace_of(random: &mut Random, protocol: u8, with_pec: bool) -> Vec<u16> {
    let limit = random.pick(&[2, 20, 255]);
    let sizes = random_sizes(random, protocol, limit);
    let trace = trace_of(&transaction(random, protocol, with_pec, sizes));
    match random.below(8) {
        0 | 1 => trace,
        2 if with_pec => wrong_pec(random, &trace),
        3 => rubbish(random),
        4 | 5 => misled(random, &trace),
        _ => damaged(random, &trace),
    }
}

fn decode(random: &mut Random) -> String {
    let (number, with_pec) = random.pick(&combinations());
    let trace = any_trace_of(random, number, with_pec);
    let told = if random.below(10) == 0 { random.byte() % 13 } else { number };
    format!("decode {} {}{}", protocol(random, told), pec_use(with_pec), numbers(random, &trace))
}

pub(crate) fn udid_word(random: &mut Random, udid: &Udid) -> String {
    let text: String = udid.iter().map(|byte| format!("{byte:02x}")).collect();
    if random.below(4) == 0 {
        text.to_uppercase()
    } else {
        text
    }
}

fn target(random: &mut Random) -> String {
    let kind = if random.below(12) == 0 { KINDS[0] } else { random.pick(&KINDS[1..]) };
    let udid = with_kind(any_udid(random), kind);
    let byte = match random.below(200) {
        0 => random.byte() & 0xfe,
        1..=60 => 0xff,
        61..=100 => 2 * random.pick(&added()) + 1,
        _ => random.byte() | 1,
    };
    let flag = if random.below(200) == 0 { random.byte() } else { random.byte() % 2 };
    format!("target {}{}", udid_word(random, &udid), numbers(random, &[byte, flag]))
}

/// A few addresses, some of the added rows, or nearly all.
fn occupied(random: &mut Random) -> String {
    let limit = if random.below(8) == 0 { 256 } else { 128 };
    let addresses: Vec<u16> = match random.pick(&[0, 1, 2, 5, 14, 128]) {
        128 => (0..128).filter(|_| random.below(30) > 0).collect(),
        14 => added().into_iter().map(u16::from).filter(|_| random.below(4) == 0).collect(),
        few => (0..few).map(|_| random.below(limit) as u16).collect(),
    };
    format!("occupied{}", numbers(random, &addresses))
}

/// What a pass goes on with. Mostly an answer to the command that is outstanding, to a step or to the first half of one; or
/// the issue or the decline of the choice that waits.
fn step(random: &mut Random, last: Command) -> String {
    if last.is_choice() && random.below(6) > 0 {
        return random.pick(&["issue", "issue", "issue", "issue", "decline"]).to_string();
    }
    let right = match last {
        Command::Prepare => trace_of(&prepare()),
        Command::GetUdid if random.below(12) == 0 => all_resolved(),
        Command::GetUdid => {
            let kind = random.pick(&KINDS);
            let byte = random.pick(&[0xff, 0x13, 0x15, 0x91, 0x59, 0x41, 0x19, 0xfe]);
            reply_trace(&with_kind(any_udid(random), kind), byte)
        }
        Command::Assign(udid, address) | Command::Chosen(udid, address, _) => trace_of(&assign(&udid, address)),
        _ => rubbish(random),
    };
    let trace = if random.below(5) == 0 && !right.is_empty() { damaged(random, &right) } else { right };
    let verb = random.pick(&["step", "choose"]);
    format!("{verb}{}", numbers(random, &trace))
}

/// A model run: never picked, or with a last pick, now and then above 127.
fn run(random: &mut Random) -> String {
    if random.below(3) == 0 {
        return "run".to_string();
    }
    let last_pick = any_last_pick(random);
    format!("run{}", numbers(random, &[last_pick]))
}

/// An address, or a number above: often one that is bound, left or claimed, or 128 more than such a one.
fn address(random: &mut Random, console: &Console) -> u8 {
    let known: Vec<u8> = (0..=127).filter(|&address| console.found(address) != Found::Refused(15)).collect();
    if random.below(2) == 0 && !known.is_empty() {
        let above = if random.below(8) == 0 { 128 } else { 0 };
        return random.pick(&known) + above;
    }
    random.pick(&[9, 10, 11, 12, 13, 14, 0x20, 0x2c, 0x48, 0x7f, 0x80, 0xff])
}

/// A lookup, or a report.
fn asked(random: &mut Random, console: &Console, verb: &str) -> String {
    let address = address(random, console);
    format!("{verb}{}", numbers(random, &[address]))
}

/// A request that can be read. While a choice waits there are more lookups and reports.
pub fn good(random: &mut Random, console: &Console) -> String {
    let count = random.pick(&[0, 1, 9, 300]);
    match random.below(28) {
        _ if console.last().is_choice() && random.below(3) == 0 => {
            let verb = random.pick(&["lookup", "gone"]);
            asked(random, console, verb)
        }
        0 => {
            let bytes = random.bytes(count);
            format!("pec{}", numbers(random, &bytes))
        }
        1..=3 => encode(random),
        4..=6 => decode(random),
        7 => occupied(random),
        8..=10 => target(random),
        11 if random.below(3) == 0 => "clear".to_string(),
        11 | 12 => run(random),
        13 if random.below(5) == 0 => "start".to_string(),
        13 if !console.last().is_running() => "start".to_string(),
        14 => asked(random, console, "lookup"),
        15 => "grid".to_string(),
        16 | 17 => asked(random, console, "gone"),
        18 if random.below(4) == 0 => module_lines::module(random),
        18..=20 => module_lines::event(random, console),
        21 if random.below(2) == 0 => random.pick(&["issue", "decline"]).to_string(),
        _ => step(random, console.last()),
    }
}

/// A word that is likely to be wrong where it stands.
fn odd_word(random: &mut Random) -> String {
    match random.below(12) {
        0 => "256".to_string(),
        1 => "65535".to_string(),
        2 => "65536".to_string(),
        3 => "99999999999999999999999999999999999999".to_string(),
        4 => "0x".to_string(),
        5 => "0xfffffffffffffffffff".to_string(),
        6 => "0X12".to_string(),
        7 => "-1".to_string(),
        8 => "+1".to_string(),
        9 => "1g".to_string(),
        10 => random.pick(&["w", "r", "p", "-", "#", "0x1x", "1_0", "٣", "state", "byte", "deadbeef"]).to_string(),
        _ => random.pick(&VERBS).to_string(),
    }
}

/// A good line with something wrong in its characters or words.
pub fn spoilt(random: &mut Random, line: &str) -> Vec<u8> {
    let mut words: Vec<String> = line.split(' ').map(str::to_string).collect();
    let at = random.below(words.len());
    match random.below(6) {
        0 => words[at] = odd_word(random),
        1 => words.insert(at, odd_word(random)),
        2 => words.push(odd_word(random)),
        3 => {
            words.remove(at);
        }
        4 => words.truncate(at),
        _ => {
            let mut bytes = line.as_bytes().to_vec();
            let place = random.below(bytes.len());
            bytes[place] = random.byte();
            return without_feed(bytes);
        }
    }
    words.join(" ").into_bytes()
}

fn without_feed(bytes: Vec<u8>) -> Vec<u8> {
    bytes.into_iter().map(|byte| if byte == b'\n' { 11 } else { byte }).collect()
}

/// The same line with other blanks, or a comment.
fn dressed(random: &mut Random, line: Vec<u8>) -> Vec<u8> {
    match random.below(10) {
        0 => [b" \t ".to_vec(), line].concat(),
        1 => [line, b"\r".to_vec()].concat(),
        2 => [line, b" # clear 1 2".to_vec()].concat(),
        3 => [line, b"#".to_vec()].concat(),
        4 => line.into_iter().flat_map(|byte| if byte == b' ' { vec![b' ', b'\t'] } else { vec![byte] }).collect(),
        5 => [line, b"   ".to_vec()].concat(),
        _ => line,
    }
}

/// Lines at the limit of a line's length, of blanks, digits and bytes.
fn long(random: &mut Random) -> Vec<u8> {
    let length = random.pick(&[LONGEST_LINE - 1, LONGEST_LINE, LONGEST_LINE + 1, LONGEST_LINE + 5000, 70_000]);
    let (begin, fill): (&[u8], &[u8]) = match random.below(6) {
        0 => (b"pec", b" 1"),
        1 => (random.pick(&[&b"step"[..], b"choose"]), b" 7"),
        2 => (b"decode 8 -", b" 9"),
        3 => (b"clear", b" "),
        4 => (b"occupied 0", b"0"),
        _ => (b"encode block_write - 1 0 1 w", b" 3"),
    };
    let mut line = begin.to_vec();
    line.extend(fill.iter().cycle().take(length - begin.len()));
    line
}

fn noise(random: &mut Random) -> Vec<u8> {
    let count = random.below(200);
    without_feed(random.bytes(count))
}

/// One line of a session, good or not.
pub fn any_line(random: &mut Random, console: &Console) -> Vec<u8> {
    let line = match random.below(100) {
        0..=54 => good(random, console).into_bytes(),
        55..=84 => {
            let line = good(random, console);
            spoilt(random, &line)
        }
        85..=93 => noise(random),
        94 | 95 => vec![],
        96 => long(random),
        _ => random.pick(&VERBS).as_bytes().to_vec(),
    };
    dressed(random, line)
}
