//! The console's two verbs for a module: `module` makes one, and `m` is what happens to it.

use crate::commands::{is_fixed, NO_ADDRESS};
use crate::console::{udid_of_word, udid_text, Line, Outcome, END, UDID};
use crate::module::{kind_of, Kind, Module};

const ODD: &str = "an odd byte, below 255 for a fixed module";
const FLAG: &str = "0 or 1";
const EIGHT: &str = "8 hexadecimal digits";
const EVENT: &str = "start, byte, supply, lost, stop or state";
/// What is expected where there is no module.
pub const NO_MODULE: &str = "a module, which the verb module makes";

/// What a line asks of the module.
pub enum Request {
    Start,
    Bytes(Vec<u8>),
    Supply,
    Lost,
    Stop,
    State,
}

fn eight_digits(word: &[u8]) -> Option<[u8; 4]> {
    let text = std::str::from_utf8(word).ok()?;
    if text.len() != 8 || !text.bytes().all(|character| character.is_ascii_hexdigit()) {
        return None;
    }
    Some(u32::from_str_radix(text, 16).ok()?.to_be_bytes())
}

/// UDID BYTE FLAG and, for a random one, the bytes that it takes at a reset. Where these are missing its own stay.
pub fn module(mut line: Line) -> Outcome<Module> {
    let udid = line.take(UDID, udid_of_word)?;
    let at_byte = line.column();
    let byte = line.byte()?;
    if byte % 2 == 0 || byte == NO_ADDRESS && is_fixed(&udid) {
        return Err((at_byte, ODD));
    }
    let at_flag = line.column();
    let flag = line.byte()?;
    if flag > 1 {
        return Err((at_flag, FLAG));
    }
    let own = [udid[12], udid[13], udid[14], udid[15]];
    let given = kind_of(&udid) == Kind::Random && !line.words.is_empty();
    let fresh = if given { line.take(EIGHT, eight_digits)? } else { own };
    line.finish(END)?;
    Ok(Module::of_record(udid, byte, flag, fresh).expect("a record"))
}

/// What stands after `m`.
pub fn request(mut line: Line) -> Outcome<Request> {
    let word = line.take(EVENT, |word| {
        let words: [&[u8]; 6] = [b"start", b"byte", b"supply", b"lost", b"stop", b"state"];
        words.iter().position(|known| *known == word)
    })?;
    if word == 1 {
        return Ok(Request::Bytes(line.all_bytes()?));
    }
    line.finish(END)?;
    Ok(match word {
        0 => Request::Start,
        2 => Request::Supply,
        3 => Request::Lost,
        4 => Request::Stop,
        _ => Request::State,
    })
}

/// The answer, and what the request does to the module.
pub fn answer(module: &mut Module, request: Request) -> String {
    match request {
        Request::Start => {
            module.start();
            "0 start\n".to_string()
        }
        Request::Bytes(bytes) => {
            let heard = bytes.into_iter().map(|byte| if module.hear(byte) { " ack" } else { " nack" });
            format!("0{}\n", heard.collect::<String>())
        }
        Request::Supply => match module.supply() {
            Some(byte) => format!("0 byte 0x{byte:02x}\n"),
            None => "0 released\n".to_string(),
        },
        Request::Lost => {
            module.lost();
            "0 lost\n".to_string()
        }
        Request::Stop => {
            module.stop();
            "0 stop\n".to_string()
        }
        Request::State => {
            let record = module.record();
            let flag = u8::from(record.resolved);
            format!("0 module {} 0x{:02x} {flag}\n", udid_text(&record.udid), record.address_byte)
        }
    }
}
