//! The reference against published values, the marked cases, hand-written answers and a list by brute force.
//!   selftest FOLDER      the folder of the stored vectors

mod brute;
mod caught;

use reference::decode::{decode, Answer};
use reference::numbers::{numbers, Tally, WRONG_SYMBOL};
use reference::pec::pec;
use reference::random::Random;
use reference::samples::{combinations, notable_sizes, random_sizes, transaction};
use reference::stored;
use reference::table::*;
use reference::text::{pec_use, trace_text};
use std::collections::{BTreeMap, BTreeSet};

fn report(name: &str, cases: usize) {
    assert!(cases > 0, "{name}: no cases");
    println!("{name:<28}{cases:>9} cases");
}

/// Fields of a transaction in the order of the vectors.
fn made(protocol: u8, with_pec: bool, address: u8, command: u8, sent: &[u8], received: &[u8]) -> Transaction {
    let (sent, received) = (sent.to_vec(), received.to_vec());
    Transaction { protocol, pec: with_pec, address, direction: 0, command, sent, received }
}

/// M1 and M4, the check string of the catalogues, and the bytes of a Read Word and of a Write Word.
fn published_pecs() {
    let published: [(&[u8], u8); 7] = [
        (&[], 0x00),
        (&[0x01], 0x07),
        (&[0x80], 0x89),
        (&[0xc2, 0x02], 0xc9),
        (b"123456789", 0xf4),
        (&[0xb4, 0x07, 0xb5, 0xd2, 0x3a], 0x30),
        (&[0xb4, 0x22, 0x07, 0xc8], 0x48),
    ];
    for (message, due) in published {
        assert_eq!(pec(message), due, "PEC of {message:02x?}");
    }
    report("published PECs", published.len());
}

/// A message followed by its PEC leaves no remainder, and a changed bit does.
fn remainders() {
    let mut random = Random::new(1);
    for length in 0..300 {
        let mut message = random.bytes(length);
        message.push(pec(&message));
        assert_eq!(pec(&message), 0);
        let bit = random.below(8 * message.len());
        message[bit / 8] ^= 128 >> (bit % 8);
        assert_ne!(pec(&message), 0);
    }
    report("remainders", 600);
}

/// M2, M3, M5, M6 and M7.
fn marked_cases() {
    let prepare = made(1, true, 0x61, 0, &[0x01], &[]);
    assert_eq!(build(&prepare), Ok(vec![256, 194, 258, 1, 258, 192, 258, 257]), "M2");
    let alert = made(2, true, 0x0c, 0, &[], &[0x4f]);
    assert_eq!(build(&alert), Ok(vec![256, 25, 258, 79, 258, 0, 259, 257]), "M3");
    let empty_read = build(&made(9, false, 0x2d, 0x10, &[], &[])).expect("M5");
    assert_eq!((empty_read.len(), empty_read[8], empty_read[9]), (11, 0, NACK), "M5");
    for (with_pec, symbols) in [(false, 13 + 510), (true, LONGEST_TRACE)] {
        let whole = build(&made(10, with_pec, 0x2d, 0x10, &[1; 200], &[2; 55])).expect("M6");
        assert_eq!(whole.len(), symbols, "M6");
        assert_eq!(build(&made(10, with_pec, 0x2d, 0x10, &[1; 200], &[2; 56])), Err(Refused), "M6");
    }
    for (protocol, with_pec) in combinations() {
        assert_eq!(decode(protocol, with_pec, &[], 255, 255), Answer::Refused { number: 4, value: 0 }, "M7");
    }
    report("marked cases", 7 + combinations().len());
}

/// Every number that a protocol has for a wrong symbol is among its answers, without PEC and with it.
fn all_wrong_symbols(vectors: &[stored::AnswerVector]) {
    let there: BTreeSet<(u8, bool, u32)> = vectors.iter().map(|v| (v.protocol, v.pec, v.answer.number())).collect();
    for (protocol, with_pec) in combinations() {
        for number in numbers(protocol, with_pec).into_iter().filter(|number| WRONG_SYMBOL.contains(number)) {
            let wanted = (protocol, with_pec, number);
            assert!(there.contains(&wanted), "no answer {number} of protocol {protocol} {}", pec_use(with_pec));
        }
    }
}

fn hand_written(folder: &str) {
    let vectors = stored::answer_vectors(folder);
    for v in &vectors {
        let given = decode(v.protocol, v.pec, &v.trace, 255, 255);
        let input = format!("protocol {} {} trace {}", v.protocol, pec_use(v.pec), trace_text(&v.trace));
        assert_eq!(given, v.answer, "{input}");
    }
    all_wrong_symbols(&vectors);
    report("answers written by hand", vectors.len());
}

/// A built trace has the table's length, and decodes to what it was built from.
fn round_trips() {
    let mut random = Random::new(2);
    let mut cases = 0;
    for (protocol, with_pec) in combinations() {
        let mut sizes = notable_sizes(protocol);
        sizes.extend((0..200).map(|_| random_sizes(&mut random, protocol, BLOCK_LIMIT)));
        for both in sizes {
            let t = transaction(&mut random, protocol, with_pec, both);
            let trace = build(&t).expect("samples are valid");
            assert_eq!(Some(trace.len()), trace_length(protocol, with_pec, both.0, both.1), "{t:?}");
            assert!(trace.len() <= LONGEST_TRACE);
            assert_eq!(decode(protocol, with_pec, &trace, 255, 255), Answer::Done(t));
            cases += 1;
        }
    }
    report("round trips", cases);
}

fn report_numbers(name: &str, tally: &Tally) {
    report(name, tally.cases());
    println!("{:<28}{:?}", "  answers by number", tally.totals());
}

/// Every protocol and PEC use.
fn lists() {
    let mut tally = Tally::default();
    for (protocol, with_pec) in combinations() {
        brute::compare_all(&mut tally, protocol, with_pec);
    }
    tally.check("decoder against lists", &combinations(), 2);
    report_numbers("decoder against lists", &tally);
}

/// Received counts after data of many lengths. Of 262 numbers two are no symbols, four no bytes, and as many bytes
/// too high as were sent; after any other the trace goes on.
fn listed_counts() {
    let mut tally = Tally::default();
    let lengths: Vec<usize> = (0..=BLOCK_LIMIT).step_by(15).chain([1, 2, 254]).collect();
    for &sent in &lengths {
        brute::compare_counts(&mut tally, false, sent);
        brute::compare_counts(&mut tally, true, sent);
    }
    let (calls, too_high) = (2 * lengths.len(), 2 * lengths.iter().sum::<usize>());
    let due = BTreeMap::from([(3, 2 * calls), (4, 256 * calls - too_high), (5, 4 * calls), (19, too_high)]);
    assert_eq!(tally.totals(), due);
    report_numbers("received counts, listed", &tally);
}

fn main() {
    let folder = std::env::args().nth(1).expect("selftest FOLDER");
    published_pecs();
    remainders();
    caught::all();
    marked_cases();
    hand_written(&folder);
    round_trips();
    lists();
    listed_counts();
}
