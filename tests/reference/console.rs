//! The console, written from its description: words, requests, and the answers of the reference.

use crate::addresses::*;
use crate::commands::{Command, Reason, Udid};
use crate::console_module as modules;
use crate::controller::{Binding, Controller, Found};
use crate::decode::{decode, Answer};
use crate::model::{run_model, BINDINGS, MOST_TARGETS, RECORD};
use crate::module::Module;
use crate::pec::pec;
use crate::table::{build, Transaction};
use std::collections::VecDeque;

/// The most characters of a line.
pub const LONGEST_LINE: usize = 16384;

const NAMES: [&str; 11] = [
    "quick",
    "send_byte",
    "receive_byte",
    "write_byte",
    "write_word",
    "read_byte",
    "read_word",
    "process_call",
    "block_write",
    "block_read",
    "block_process_call",
];

const BYTE: &str = "a byte, 0 to 255";
const SYMBOL: &str = "a symbol, 0 to 65535";
pub(crate) const UDID: &str = "a UDID of 32 hexadecimal digits";
pub(crate) const END: &str = "the end of the line";

/// A column, from 1, and what was expected there.
pub(crate) type Refusal = (usize, &'static str);

pub(crate) type Outcome<T> = Result<T, Refusal>;

/// The words of a line that are not taken yet, each with its column; the column after the last character.
pub(crate) struct Line<'a> {
    pub(crate) words: VecDeque<(usize, &'a [u8])>,
    end: usize,
}

fn is_blank(character: u8) -> bool {
    matches!(character, b' ' | b'\t' | b'\r')
}

fn line_of(text: &[u8]) -> Line<'_> {
    let content = text.split(|&character| character == b'#').next().expect("a first part");
    let mut words = VecDeque::new();
    let mut column = 1;
    for word in content.split(|&character| is_blank(character)) {
        if !word.is_empty() {
            words.push_back((column, word));
        }
        column += word.len() + 1;
    }
    Line { words, end: content.len() + 1 }
}

/// The value of a word, whatever its size; a value above 2^32 stays above.
fn number_of(word: &[u8]) -> Option<u64> {
    let (digits, base) = match word.strip_prefix(b"0x") {
        Some(digits) => (digits, 16),
        None => (word, 10),
    };
    if digits.is_empty() {
        return None;
    }
    digits.iter().try_fold(0u64, |value, &character| {
        let digit = char::from(character).to_digit(base)?;
        Some((value * u64::from(base) + u64::from(digit)).min(1 << 40))
    })
}

pub(crate) fn udid_of_word(word: &[u8]) -> Option<Udid> {
    let text = std::str::from_utf8(word).ok()?;
    if text.len() != 32 || !text.bytes().all(|character| character.is_ascii_hexdigit()) {
        return None;
    }
    Some(u128::from_str_radix(text, 16).ok()?.to_be_bytes())
}

impl<'a> Line<'a> {
    /// The next word, if it means something as what is expected.
    pub(crate) fn take<T>(&mut self, expected: &'static str, read: impl Fn(&[u8]) -> Option<T>) -> Outcome<T> {
        let &(column, word) = self.words.front().ok_or((self.end, expected))?;
        let value = read(word).ok_or((column, expected))?;
        self.words.pop_front();
        Ok(value)
    }

    /// The column of the next word, or the one after the last character.
    pub(crate) fn column(&self) -> usize {
        self.words.front().map_or(self.end, |&(column, _)| column)
    }

    pub(crate) fn byte(&mut self) -> Outcome<u8> {
        self.take(BYTE, |word| number_of(word)?.try_into().ok())
    }

    /// A byte, alone on the rest of the line.
    fn only_byte(&mut self) -> Outcome<u8> {
        let byte = self.byte()?;
        self.finish(END)?;
        Ok(byte)
    }

    /// The last pick of a model run, alone on the rest of the line. Where it is missing nothing was ever picked.
    fn last_pick(&mut self) -> Outcome<u8> {
        if self.words.is_empty() {
            return Ok(NEVER);
        }
        self.only_byte()
    }

    fn protocol(&mut self) -> Outcome<u8> {
        let named = |word: &[u8]| NAMES.iter().position(|name| name.as_bytes() == word).map(|k| k as u8);
        let numbered = |word: &[u8]| number_of(word)?.try_into().ok();
        self.take("a protocol, by number or name", |word| named(word).or(numbered(word)))
    }

    fn pec_use(&mut self) -> Outcome<bool> {
        self.take("p or -", |word| match word {
            b"p" => Some(true),
            b"-" => Some(false),
            _ => None,
        })
    }

    /// Bytes up to the first word that is none.
    fn some_bytes(&mut self) -> Vec<u8> {
        std::iter::from_fn(|| self.byte().ok()).collect()
    }

    pub(crate) fn all_bytes(&mut self) -> Outcome<Vec<u8>> {
        let bytes = self.some_bytes();
        self.finish(BYTE)?;
        Ok(bytes)
    }

    fn all_symbols(&mut self) -> Outcome<Vec<u16>> {
        let symbols = std::iter::from_fn(|| self.take(SYMBOL, |word| number_of(word)?.try_into().ok()).ok()).collect();
        self.finish(SYMBOL)?;
        Ok(symbols)
    }

    /// No word is left.
    pub(crate) fn finish(&self, expected: &'static str) -> Outcome<()> {
        match self.words.front() {
            None => Ok(()),
            Some(&(column, _)) => Err((column, expected)),
        }
    }

    /// w B... r B...: what is missing at the end is empty.
    fn both_lists(&mut self) -> Outcome<(Vec<u8>, Vec<u8>)> {
        if self.words.is_empty() {
            return Ok((vec![], vec![]));
        }
        self.take("w", |word| (word == b"w").then_some(()))?;
        let sent = self.some_bytes();
        if self.words.is_empty() {
            return Ok((sent, vec![]));
        }
        self.take("a byte, 0 to 255, or r", |word| (word == b"r").then_some(()))?;
        Ok((sent, self.all_bytes()?))
    }
}

fn symbols_text(symbols: &[u16]) -> String {
    symbols.iter().map(|symbol| format!(" {symbol}")).collect()
}

fn bytes_text(bytes: &[u8]) -> String {
    bytes.iter().map(|byte| format!(" 0x{byte:02x}")).collect()
}

pub(crate) fn udid_text(udid: &Udid) -> String {
    udid.iter().map(|byte| format!("{byte:02x}")).collect()
}

fn reason_text(reason: &Reason) -> &'static str {
    match reason {
        Reason::Fixed => "fixed",
        Reason::Kept => "kept",
        Reason::Picked => "picked",
        Reason::Claimed => "claimed",
    }
}

fn command_text(command: &Command) -> String {
    match command {
        Command::Prepare => "0 next prepare\n".to_string(),
        Command::GetUdid => "0 next get\n".to_string(),
        Command::Assign(udid, address) => format!("0 next assign {} 0x{address:02x}\n", udid_text(udid)),
        Command::Chosen(udid, address, reason) => {
            format!("0 chosen {} 0x{address:02x} {}\n", udid_text(udid), reason_text(reason))
        }
        Command::Ended => "0 end\n".to_string(),
        Command::NoneFree(udid) => format!("13 end {}\n", udid_text(udid)),
        Command::Abandoned => "14 end\n".to_string(),
        Command::NotOutstanding => "21\n".to_string(),
    }
}

fn decoded_text(answer: &Answer) -> String {
    match answer {
        Answer::Done(t) => format!(
            "0 address 0x{:02x} direction {} command 0x{:02x} w{} r{}\n",
            t.address,
            t.direction,
            t.command,
            bytes_text(&t.sent),
            bytes_text(&t.received)
        ),
        Answer::Refused { number: number @ (1 | 2), .. } => format!("{number}\n"),
        Answer::Refused { number: 6, value } => format!("6 byte {value}\n"),
        Answer::Refused { number, value } => format!("{number} place {value}\n"),
    }
}

pub struct Console {
    occupied: Addresses,
    records: Vec<u8>,
    controller: Controller,
    module: Option<Module>,
}

impl Default for Console {
    fn default() -> Console {
        Console::new()
    }
}

impl Console {
    pub fn new() -> Console {
        let none = Addresses::new();
        Console { controller: Controller::new(&none, NEVER), occupied: none, records: vec![], module: None }
    }

    /// The command outstanding, or the choice that waits, or how the pass ended.
    pub fn last(&self) -> Command {
        self.controller.last
    }

    /// The module, if there is one.
    pub fn module(&self) -> Option<&Module> {
        self.module.as_ref()
    }

    /// What a lookup would find.
    pub fn found(&self, address: u8) -> Found {
        self.controller.lookup(address)
    }

    /// The answer to a line, without its line feed.
    pub fn answer(&mut self, text: &[u8]) -> String {
        if text.len() > LONGEST_LINE {
            return format!("? {} expected a line of at most {LONGEST_LINE} characters\n", LONGEST_LINE + 1);
        }
        let mut line = line_of(text);
        let Some((column, verb)) = line.words.pop_front() else {
            return String::new();
        };
        let answer = match verb {
            b"pec" => line.all_bytes().map(|bytes| format!("0 pec 0x{:02x}\n", pec(&bytes))),
            b"encode" => encoded(line),
            b"decode" => decoded(line),
            b"occupied" => self.occupy(line),
            b"target" => self.target(line),
            b"clear" => line.finish(END).map(|()| self.clear()),
            b"run" => line.last_pick().map(|last_pick| self.run(last_pick)),
            b"start" => line.finish(END).map(|()| self.start()),
            b"step" => line.all_symbols().map(|symbols| command_text(&self.controller.step(&symbols))),
            b"choose" => line.all_symbols().map(|symbols| command_text(&self.controller.choose(&symbols))),
            b"issue" => line.finish(END).map(|()| command_text(&self.controller.issue())),
            b"decline" => line.finish(END).map(|()| command_text(&self.controller.decline())),
            b"lookup" => line.only_byte().map(|address| self.lookup(address)),
            b"gone" => line.only_byte().map(|address| self.gone(address)),
            b"grid" => line.finish(END).map(|()| self.grid()),
            b"module" => modules::module(line).map(|module| self.make(module)),
            b"m" => modules::request(line).and_then(|request| self.happen(column, request)),
            _ => Err((column, "a verb")),
        };
        answer.unwrap_or_else(|(column, expected)| format!("? {column} expected {expected}\n"))
    }

    fn occupy(&mut self, mut line: Line) -> Outcome<String> {
        let addresses = line.all_bytes()?;
        if addresses.iter().any(|&address| address >= ADDRESSES) {
            return Ok("1\n".to_string());
        }
        self.occupied.extend(addresses);
        Ok(format!("0 occupied {}\n", self.occupied.len()))
    }

    fn target(&mut self, mut line: Line) -> Outcome<String> {
        let column = line.column();
        let udid = line.take(UDID, udid_of_word)?;
        let (byte, flag) = (line.byte()?, line.byte()?);
        line.finish(END)?;
        let index = self.records.len() / RECORD;
        if index >= MOST_TARGETS {
            return Err((column, "at most 120 targets"));
        }
        self.records.extend(udid);
        self.records.extend([byte, flag]);
        Ok(format!("0 target {index}\n"))
    }

    fn clear(&mut self) -> String {
        *self = Console::new();
        "0 clear\n".to_string()
    }

    fn run(&mut self, last_pick: u8) -> String {
        let mut bindings = [0; BINDINGS];
        let outcome = run_model(&mut self.records, &mut bindings, &self.occupied, last_pick);
        let mut text = match outcome.answer {
            0 => "0".to_string(),
            1 => return "1\n".to_string(),
            13 => format!("13 udid {}", udid_text(&outcome.udid)),
            number => return format!("{number} record {}\n", outcome.record),
        };
        text += &format!(" bound {} get {} last 0x{:02x}\n", outcome.how_many, outcome.get_udids, outcome.last_pick);
        for address in outcome.bound {
            let place = 16 * usize::from(address);
            let udid: Udid = bindings[place..place + 16].try_into().expect("16 bytes");
            text += &format!(" 0x{address:02x} {}\n", udid_text(&udid));
        }
        for (index, record) in self.records.chunks(RECORD).enumerate() {
            text += &format!(" target {index} 0x{:02x} {}\n", record[16], record[17]);
        }
        text
    }

    /// A pass with the occupied set of now; of the controller before, its last pick stays.
    fn start(&mut self) -> String {
        self.controller = Controller::new(&self.occupied, self.controller.last_pick);
        command_text(&self.controller.start())
    }

    fn lookup(&self, address: u8) -> String {
        match self.controller.lookup(address) {
            Found::Bound(udid) => format!("0 udid {}\n", udid_text(&udid)),
            Found::Refused(number) => format!("{number}\n"),
        }
    }

    fn gone(&mut self, address: u8) -> String {
        match self.controller.gone(address) {
            Found::Bound(_) => "0 gone\n".to_string(),
            Found::Refused(number) => format!("{number}\n"),
        }
    }

    /// A module in place of any other.
    fn make(&mut self, module: Module) -> String {
        self.module = Some(module);
        "0 module\n".to_string()
    }

    /// What happens to the module; where there is none the verb is refused.
    fn happen(&mut self, column: usize, request: modules::Request) -> Outcome<String> {
        let module = self.module.as_mut().ok_or((column, modules::NO_MODULE))?;
        Ok(modules::answer(module, request))
    }

    fn cell(&self, address: u8) -> String {
        match self.controller.bindings.get(&address) {
            Some(Binding::Bound(_)) => format!("{address:02x}"),
            Some(Binding::Claimed) => "XX".to_string(),
            Some(Binding::Left) => "LL".to_string(),
            None if self.controller.starting.contains(&address) => "UU".to_string(),
            None => "--".to_string(),
        }
    }

    fn grid(&self) -> String {
        let head: String = (0..16).map(|column| format!("  {column:x}")).collect();
        let mut text = format!("0 grid\n   {head}\n");
        for row in (0..ADDRESSES).step_by(16) {
            let cells: Vec<String> = (row..row + 16).map(|address| self.cell(address)).collect();
            text += &format!("{row:02x}: {}\n", cells.join(" "));
        }
        text
    }
}

fn encoded(mut line: Line) -> Outcome<String> {
    let (protocol, pec) = (line.protocol()?, line.pec_use()?);
    let (address, direction, command) = (line.byte()?, line.byte()?, line.byte()?);
    let (sent, received) = line.both_lists()?;
    let transaction = Transaction { protocol, pec, address, direction, command, sent, received };
    Ok(match build(&transaction) {
        Ok(trace) => format!("0 trace{}\n", symbols_text(&trace)),
        Err(_) => "1\n".to_string(),
    })
}

fn decoded(mut line: Line) -> Outcome<String> {
    let (protocol, with_pec) = (line.protocol()?, line.pec_use()?);
    let symbols = line.all_symbols()?;
    Ok(decoded_text(&decode(protocol, with_pec, &symbols, 255, 255)))
}

/// The lines of an input. The last one may lack its line feed.
pub fn lines(input: &[u8]) -> Vec<&[u8]> {
    let mut lines: Vec<&[u8]> = input.split(|&character| character == b'\n').collect();
    if lines.last().is_some_and(|last| last.is_empty()) {
        lines.pop();
    }
    lines
}
