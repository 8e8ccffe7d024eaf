//! Sessions of the console about modules, worked out by hand. The cases of the reference's `module_cases.rs` are made
//! into sessions too.

use reference::module_cases::{self, event_of, parts_of, Case};
use reference::module_events::Event;

/// The example of the order.
pub const EXAMPLE: [(&str, &str); 12] = [
    ("module 80000000000000000000000000000000 0xff 0", "0 module"),
    ("m start", "0 start"),
    ("m byte 0xc2 0x01 0xc0", "0 ack ack ack"),
    ("m start", "0 start"),
    ("m byte 0xc2 0x03", "0 ack ack"),
    ("m start", "0 start"),
    ("m byte 0xc3", "0 ack"),
    ("m supply", "0 byte 0x11"),
    ("m lost", "0 lost"),
    ("m supply", "0 released"),
    ("m stop", "0 stop"),
    ("m state", "0 module 80000000000000000000000000000000 0xff 0"),
];

/// Lines that are refused, with their columns, and what they leave as it was.
pub const REFUSED: [(&str, &str); 64] = [
    ("m start", "? 1 expected a module, which the verb module makes"),
    (" \tm state", "? 3 expected a module, which the verb module makes"),
    ("m byte", "? 1 expected a module, which the verb module makes"),
    ("m byte 194 1 192", "? 1 expected a module, which the verb module makes"),
    ("m supply # nothing", "? 1 expected a module, which the verb module makes"),
    ("m", "? 2 expected start, byte, supply, lost, stop or state"),
    ("m ", "? 3 expected start, byte, supply, lost, stop or state"),
    ("m go", "? 3 expected start, byte, supply, lost, stop or state"),
    ("m Start", "? 3 expected start, byte, supply, lost, stop or state"),
    ("m 194", "? 3 expected start, byte, supply, lost, stop or state"),
    ("m start now", "? 9 expected the end of the line"),
    ("m supply 1", "? 10 expected the end of the line"),
    ("m lost 1", "? 8 expected the end of the line"),
    ("m stop 1", "? 8 expected the end of the line"),
    ("m state 0", "? 9 expected the end of the line"),
    ("m byte 256", "? 8 expected a byte, 0 to 255"),
    ("m byte 1 2 x", "? 12 expected a byte, 0 to 255"),
    ("module", "? 7 expected a UDID of 32 hexadecimal digits"),
    ("module 80", "? 8 expected a UDID of 32 hexadecimal digits"),
    ("module 800000000000000000000000000000000 0xff 0", "? 8 expected a UDID of 32 hexadecimal digits"),
    ("module 80000000000000000000000000000000", "? 40 expected a byte, 0 to 255"),
    ("module 80000000000000000000000000000000 256 0", "? 41 expected a byte, 0 to 255"),
    ("module 80000000000000000000000000000000 0x40", "? 41 expected an odd byte, below 255 for a fixed module"),
    ("module 80000000000000000000000000000000 0 0", "? 41 expected an odd byte, below 255 for a fixed module"),
    ("module 80000000000000000000000000000000 254 2", "? 41 expected an odd byte, below 255 for a fixed module"),
    ("module 00000000000000000000000000000000 0xff 0", "? 41 expected an odd byte, below 255 for a fixed module"),
    ("module 3f000000000000000000000000000000 255 1", "? 41 expected an odd byte, below 255 for a fixed module"),
    ("module 00000000000000000000000000000000 0xff", "? 41 expected an odd byte, below 255 for a fixed module"),
    ("module 80000000000000000000000000000000 0xff", "? 45 expected a byte, 0 to 255"),
    ("module 80000000000000000000000000000000 0xff 256", "? 46 expected a byte, 0 to 255"),
    ("module 80000000000000000000000000000000 0xff x", "? 46 expected a byte, 0 to 255"),
    ("module 80000000000000000000000000000000 0xff 2", "? 46 expected 0 or 1"),
    ("module 80000000000000000000000000000000 0xff 255 x", "? 46 expected 0 or 1"),
    ("module 80000000000000000000000000000000 0xff 0 deadbeef", "? 48 expected the end of the line"),
    ("module 40000000000000000000000000000000 0xff 0 deadbeef", "? 48 expected the end of the line"),
    ("module 00000000000000000000000000000000 0x41 0 deadbeef", "? 48 expected the end of the line"),
    ("module c0000000000000000000000000000000 0xff 0 deadbee", "? 48 expected 8 hexadecimal digits"),
    ("module c0000000000000000000000000000000 0xff 0 deadbeef0", "? 48 expected 8 hexadecimal digits"),
    ("module c0000000000000000000000000000000 0xff 0 0xdeadbe", "? 48 expected 8 hexadecimal digits"),
    ("module c0000000000000000000000000000000 0xff 0 deadbeeg", "? 48 expected 8 hexadecimal digits"),
    ("module c0000000000000000000000000000000 0xff 0 +eadbeef", "? 48 expected 8 hexadecimal digits"),
    ("module c0000000000000000000000000000000 0xff 0 deadbeef 1", "? 57 expected the end of the line"),
    ("m state", "? 1 expected a module, which the verb module makes"),
    ("module 80000000000000000000000000000000 0xff 1", "0 module"),
    ("m state", "0 module 80000000000000000000000000000000 0xff 1"),
    ("m byte 0xc2", "0 nack"),
    ("m byte", "0"),
    ("m start", "0 start"),
    ("m byte", "0"),
    ("m byte 194 1 192 x", "? 18 expected a byte, 0 to 255"),
    ("m start x", "? 9 expected the end of the line"),
    ("module 00000000000000000000000000000000 0xff 0", "? 41 expected an odd byte, below 255 for a fixed module"),
    ("module 80000000000000000000000000000000 0x40 0", "? 41 expected an odd byte, below 255 for a fixed module"),
    ("m byte 0xC2 001 192 0 0", "0 ack ack ack nack nack"),
    ("m state", "0 module 80000000000000000000000000000000 0xff 0"),
    ("module 8000000000000000000000000000000A 0x21 1", "0 module"),
    ("m byte 0xc2", "0 nack"),
    ("m supply", "0 released"),
    ("m lost", "0 lost"),
    ("m stop", "0 stop"),
    ("m state", "0 module 8000000000000000000000000000000a 0x21 1"),
    ("clear", "0 clear"),
    ("m state", "? 1 expected a module, which the verb module makes"),
    ("m go", "? 3 expected start, byte, supply, lost, stop or state"),
];

/// The bytes that a random module takes at a reset: its own where none are given.
pub const FRESH_BYTES: [(&str, &str); 16] = [
    ("module c0000000000000000000000001020304 0x41 1", "0 module"),
    ("m start", "0 start"),
    ("m byte 0xc2 0x02 0xc9", "0 ack ack ack"),
    ("m state", "0 module c0000000000000000000000001020304 0xff 0"),
    ("module c0000000000000000000000001020304 0x41 1 DeadBeef", "0 module"),
    ("m state", "0 module c0000000000000000000000001020304 0x41 1"),
    ("m start", "0 start"),
    ("m byte 0xc2 0x40 0x00", "0 ack ack ack"),
    ("m state", "0 module c00000000000000000000000deadbeef 0xff 0"),
    ("m start", "0 start"),
    ("m byte 0xc2 0x02 0xc9", "0 ack ack ack"),
    ("m state", "0 module c00000000000000000000000deadbeef 0xff 0"),
    ("module ffffffffffffffffffffffffffffffff 0xff 0 00000000", "0 module"),
    ("m start", "0 start"),
    ("m byte 0xc2 0x02 0xc9", "0 ack ack ack"),
    ("m state", "0 module ffffffffffffffffffffffff00000000 0xff 0"),
];

/// A module beside the targets and the controller: neither touches the other, and `clear` takes it away.
pub const BESIDE: [(&str, &str); 27] = [
    ("target 80000000000000000000000000000000 0xff 0", "0 target 0"),
    ("module 80000000000000000000000000000000 0x43 1", "0 module"),
    ("m start", "0 start"),
    ("m byte 0xc2 0x43", "0 ack ack"),
    ("run", "0 bound 1 get 2 last 0x0d\n 0x0d 80000000000000000000000000000000\n target 0 0x1b 1"),
    ("start", "0 next prepare"),
    ("occupied 0x21", "0 occupied 1"),
    ("pec 0xc2 0x43", "0 pec 0x09"),
    ("step 256 194 258 1 258 192 258 257", "0 next get"),
    ("lookup 0x21", "15"),
    ("gone 0x21", "15"),
    ("m start", "0 start"),
    ("m byte 0xc3", "0 ack"),
    ("m supply", "0 byte 0x11"),
    ("step 256 194 258 3 258 256 195 259 257", "0 end"),
    ("start", "0 next prepare"),
    ("m supply", "0 byte 0x80"),
    ("nothing", "? 1 expected a verb"),
    ("m supply", "0 byte 0x00"),
    ("step 256", "14 end"),
    ("m state", "0 module 80000000000000000000000000000000 0x43 1"),
    ("m start", "0 start"),
    ("m byte 0xc2 1 0xc0", "0 ack ack ack"),
    ("run", "0 bound 1 get 2 last 0x7f\n 0x0d 80000000000000000000000000000000\n target 0 0x1b 1"),
    ("clear", "0 clear"),
    ("m start", "? 1 expected a module, which the verb module makes"),
    ("run", "0 bound 0 get 0 last 0x7f"),
];

/// A record as `module` and `m state` have it.
fn record(words: &str) -> String {
    let (udid, byte, flag) = parts_of(words);
    let digits: String = udid.iter().map(|byte| format!("{byte:02x}")).collect();
    format!("module {digits} 0x{byte:02x} {flag}")
}

/// One word of a case as a request and the answer due.
fn line(word: &str) -> (String, String) {
    let (request, answer) = match event_of(word) {
        Event::Start => ("start".to_string(), "start".to_string()),
        Event::Stop => ("stop".to_string(), "stop".to_string()),
        Event::Lost => ("lost".to_string(), "lost".to_string()),
        Event::Byte(byte) => (format!("byte {byte}"), if word.ends_with('+') { "ack" } else { "nack" }.to_string()),
        _ if word == ">.." => ("supply".to_string(), "released".to_string()),
        _ => ("supply".to_string(), format!("byte 0x{}", &word[1..])),
    };
    (format!("m {request}"), format!("0 {answer}"))
}

/// A case as a session: the module is made, and its state is asked for at the end. Every byte has a line of its own.
fn session(case: &Case) -> Vec<(String, String)> {
    let (udid, ..) = parts_of(case.before);
    let fresh = if udid[0] >= 0xc0 { " deadbeef" } else { "" };
    let mut lines = vec![(record(case.before) + fresh, "0 module".to_string())];
    lines.extend(case.events.split(' ').map(line));
    lines.push(("m state".to_string(), format!("0 {}", record(case.after))));
    lines
}

/// All cases, one after the other.
pub fn cases() -> Vec<(String, String)> {
    module_cases::all().flat_map(session).collect()
}
