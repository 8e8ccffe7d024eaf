//! Reading the stored vectors. A line that cannot be read ends the program with its place.

use crate::decode::Answer;
use crate::table::Transaction;
use crate::text::*;

/// A trace that the decoder is given, and the answer due.
pub struct AnswerVector {
    pub protocol: u8,
    pub pec: bool,
    pub trace: Vec<u16>,
    pub answer: Answer,
}

/// Every line of a file, read by the function given.
fn read<T>(folder: &str, name: &str, parse: fn(&str) -> Option<T>) -> Vec<T> {
    let path = format!("{folder}/{name}");
    let content = std::fs::read_to_string(&path).unwrap_or_else(|error| panic!("{path}: {error}"));
    let lines = lines_of(&content).into_iter();
    lines.map(|(number, line)| parse(line).unwrap_or_else(|| panic!("{path}, line {number}: unreadable"))).collect()
}

fn parse_pec_line(line: &str) -> Option<(Vec<u8>, u8)> {
    let (message, pec) = line.split_once(' ')?;
    Some((unhex(message)?, u8::from_str_radix(pec.trim(), 16).ok()?))
}

fn parse_trace_line(line: &str) -> Option<(Transaction, Vec<u16>)> {
    let (fields, trace) = line.split_once('|')?;
    Some((parse_transaction(fields)?, parse_trace(trace)?))
}

fn parse_answer(use_words: &str, words: &str) -> Option<Answer> {
    let (number, rest) = words.trim().split_once(' ')?;
    if number == "0" {
        return Some(Answer::Done(parse_transaction(&format!("{use_words} {rest}"))?));
    }
    Some(Answer::Refused { number: number.parse().ok()?, value: rest.trim().parse().ok()? })
}

fn parse_answer_line(line: &str) -> Option<AnswerVector> {
    let parts: Vec<&str> = line.split('|').collect();
    let [use_words, trace, answer] = parts[..] else {
        return None;
    };
    let (protocol, with_pec) = use_words.trim().split_once(' ')?;
    Some(AnswerVector {
        protocol: protocol.parse().ok()?,
        pec: parse_pec_use(with_pec.trim())?,
        trace: parse_trace(trace)?,
        answer: parse_answer(use_words.trim(), answer)?,
    })
}

/// Messages and their PEC.
pub fn pec_vectors(folder: &str) -> Vec<(Vec<u8>, u8)> {
    read(folder, "pec.txt", parse_pec_line)
}

/// Transactions and their traces.
pub fn trace_vectors(folder: &str) -> Vec<(Transaction, Vec<u16>)> {
    read(folder, "traces.txt", parse_trace_line)
}

/// Traces and the decoder's answers.
pub fn answer_vectors(folder: &str) -> Vec<AnswerVector> {
    read(folder, "answers.txt", parse_answer_line)
}
