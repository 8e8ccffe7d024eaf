//! Writes the stored vectors, or checks that they are what the reference gives.
//!   vectors write FOLDER
//!   vectors check FOLDER

use reference::pec::pec;
use reference::random::Random;
use reference::samples::{combinations, notable_sizes, random_sizes, transaction};
use reference::table::{build, Transaction};
use reference::text::{hex, trace_text, transaction_text};

const PEC_HEAD: &str = "\
# Packet error codes: CRC-8, x^8 + x^2 + x + 1, start 0, highest bit first.
# A line is a message, two hexadecimal digits a byte (- for no bytes), and its PEC.
";

const TRACES_HEAD: &str = "\
# Transactions and their traces.
# A line is  PROTOCOL PEC ADDRESS DIRECTION COMMAND SENT RECEIVED | TRACE
#   PROTOCOL   0 Quick, 1 Send Byte, 2 Receive Byte, 3 Write Byte, 4 Write Word, 5 Read Byte, 6 Read Word,
#              7 Process Call, 8 Block Write, 9 Block Read, 10 Block Process Call
#   PEC        p with, - without
#   ADDRESS    seven bits, two hexadecimal digits
#   DIRECTION  0 write, 1 read; 0 outside Quick
#   COMMAND    two hexadecimal digits; 00 where the protocol has none
#   SENT, RECEIVED  the data, two hexadecimal digits a byte; - for none
#   TRACE      S START, P STOP, A ACK, N NACK, a byte as two hexadecimal digits
";

/// Messages with a published or marked PEC: no bytes, 01, 80, C2 02, the check string of the catalogues,
/// and a Read Word and a Write Word of a thermometer.
fn known_messages() -> Vec<Vec<u8>> {
    vec![
        vec![],
        vec![0x01],
        vec![0x80],
        vec![0xc2, 0x02],
        b"123456789".to_vec(),
        vec![0xb4, 0x07, 0xb5, 0xd2, 0x3a],
        vec![0xb4, 0x22, 0x07, 0xc8],
        vec![0; 255],
        vec![255; 255],
    ]
}

fn pec_file() -> String {
    let mut random = Random::new(20);
    let mut messages = known_messages();
    for length in [1, 2, 3, 4, 5, 6, 7, 8, 15, 16, 17, 31, 32, 33, 63, 64, 65, 127, 128, 254, 255, 256, 257, 300] {
        messages.push(random.bytes(length));
    }
    for _ in 0..36 {
        let length = random.below(301);
        messages.push(random.bytes(length));
    }
    let lines = messages.iter().map(|message| format!("{} {:02x}\n", hex(message), pec(message)));
    PEC_HEAD.to_string() + &lines.collect::<String>()
}

fn trace_line(t: &Transaction) -> String {
    let trace = build(t).expect("a stored transaction is valid");
    format!("{} | {}\n", transaction_text(t), trace_text(&trace))
}

fn traces_file() -> String {
    const EACH: usize = 60;
    let mut random = Random::new(21);
    let mut file = TRACES_HEAD.to_string();
    for (protocol, with_pec) in combinations() {
        file.push('\n');
        let mut sizes = notable_sizes(protocol);
        while sizes.len() < EACH {
            sizes.push(random_sizes(&mut random, protocol, 9));
        }
        for both in sizes {
            file += &trace_line(&transaction(&mut random, protocol, with_pec, both));
        }
    }
    file
}

fn check(path: &str, due: &str) {
    let stored = std::fs::read_to_string(path).unwrap_or_else(|error| panic!("{path}: {error}"));
    if let Some(k) = (0..).zip(stored.lines().zip(due.lines())).find(|(_, (a, b))| a != b).map(|(k, _)| k + 1) {
        eprintln!("{path}, line {k} is not what the reference gives");
        std::process::exit(1);
    }
    if stored != due {
        eprintln!("{path} is not as long as what the reference gives");
        std::process::exit(1);
    }
    println!("{path:<28}{:>9} lines as the reference gives them", due.lines().count());
}

fn main() {
    let words: Vec<String> = std::env::args().skip(1).collect();
    let [verb, folder] = &words[..] else {
        panic!("vectors write|check FOLDER");
    };
    for (name, content) in [("pec.txt", pec_file()), ("traces.txt", traces_file())] {
        let path = format!("{folder}/{name}");
        match verb.as_str() {
            "write" => std::fs::write(&path, content).unwrap_or_else(|error| panic!("{path}: {error}")),
            "check" => check(&path, &content),
            _ => panic!("vectors write|check FOLDER"),
        }
    }
}
