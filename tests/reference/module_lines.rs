//! Lines of the console for a module at random. Most of them go on with the packet that the module stands in.

use crate::commands::NO_ADDRESS;
use crate::console::Console;
use crate::module::{Module, READ};
use crate::module_events::{packet, Event};
use crate::random::Random;
use crate::requests::{any_line, numbers, spoilt, udid_word};
use crate::shelves::{any_udid, with_kind, KINDS};

/// A module that can be made: of any kind, and a random one mostly with the bytes that it takes at a reset.
pub fn module(random: &mut Random) -> String {
    let kind = random.pick(&KINDS);
    let udid = with_kind(any_udid(random), kind);
    let byte = match random.below(12) {
        0..=3 if kind > 0 => NO_ADDRESS,
        4 => random.byte() % 16 * 2 + 1,
        5 => random.byte(),
        _ => random.pick(&[0x21, 0x41, 0x43, 0xc1, 0xfb, 0xfd]),
    };
    let flag = if random.below(30) == 0 { random.byte() } else { random.byte() % 2 };
    let words = format!("module {}{}", udid_word(random, &udid), numbers(random, &[byte, flag]));
    let eight = u32::from_be_bytes([random.byte(), random.byte(), random.byte(), random.byte()]);
    match random.below(16) {
        0 => format!("{words} {eight:08x}"),
        1 => format!("{words} 0x{eight:06x}"),
        2 if kind == 0xc0 => words,
        3..=8 if kind == 0xc0 => format!("{words} {eight:08X}"),
        _ if kind == 0xc0 => format!("{words} {eight:08x}"),
        _ => words,
    }
}

/// The bytes that a packet begins with.
fn first_bytes(events: &[Event]) -> Vec<u8> {
    let byte = |event: &Event| match event {
        Event::Byte(byte) => Some(*byte),
        _ => None,
    };
    events.iter().skip(1).map_while(byte).collect()
}

/// Bytes that go on with what the module has heard. Now and then one differs, or some are missing or too many.
fn next_bytes(random: &mut Random, module: &Module) -> Vec<u8> {
    let heard = module.bytes_heard().unwrap_or_default();
    for _ in 0..20 {
        let bytes = first_bytes(&packet(random, module));
        if bytes.len() <= heard.len() || !bytes.starts_with(&heard) {
            continue;
        }
        let mut rest = bytes[heard.len()..].to_vec();
        let at = random.below(rest.len());
        match random.below(12) {
            0 | 1 => rest.truncate(at + 1),
            2 => rest[at] ^= random.pick(&[1, 2, 16, 128, 255]),
            3 => rest.push(random.byte()),
            _ => {}
        }
        return rest;
    }
    let count = random.below(4);
    random.bytes(count)
}

/// What happens to the module next.
fn next(random: &mut Random, module: &Module) -> String {
    if module.is_sending() {
        return "m supply".to_string();
    }
    let Some(heard) = module.bytes_heard() else {
        return random.pick(&["m start", "m start", "m start", "m state"]).to_string();
    };
    let waits = matches!(heard[..], [_, command] if command == 3 || command % 2 == 1 && command > 0x1f);
    let bytes = match (waits, random.below(8)) {
        (true, 0..=3) => return "m start".to_string(),
        (true, 4..=6) => vec![READ],
        _ => next_bytes(random, module),
    };
    format!("m byte{}", numbers(random, &bytes))
}

/// A line for the module that there is.
pub fn event(random: &mut Random, console: &Console) -> String {
    let any = ["start", "byte", "supply", "lost", "stop", "state", "byte 0xc2", "byte 0xc3", "byte 195 17"];
    let disturbed = random.below(60) == 0;
    match console.module() {
        Some(module) if !disturbed => next(random, module),
        _ => format!("m {}", random.pick(&any)),
    }
}

/// A line of a session that is mostly about modules.
pub fn module_line(random: &mut Random, console: &Console) -> Vec<u8> {
    match random.below(100) {
        0 => module(random).into_bytes(),
        1..=5 => {
            let line = if random.below(2) == 0 { module(random) } else { event(random, console) };
            spoilt(random, &line)
        }
        6 => any_line(random, console),
        7..=10 => b"m state".to_vec(),
        _ if console.module().is_none() => module(random).into_bytes(),
        _ => event(random, console).into_bytes(),
    }
}
