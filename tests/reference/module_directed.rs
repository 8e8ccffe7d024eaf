//! Directed commands and resets between passes, worked out by hand, on a shelf with a module of each kind.

use reference::addresses::{Addresses, NEVER};
use reference::commands::*;
use reference::controller::Controller;
use reference::module::Module;
use reference::module_bus::ModuleBus;
use reference::module_cases::{parts_of, words_of, FRESH};
use reference::text::trace_text;

/// Fixed at 20h; persistent, at 30h; volatile; random.
const SHELF: [&str; 4] = [
    "00000000000000000000000000000001 41 0",
    "40000000000000000000000000000002 61 1",
    "80000000000000000000000000000003 ff 0",
    "c0000000000000000000000000000004 ff 0",
];

fn shelf() -> ModuleBus<Module> {
    let module = |words: &&str| {
        let (udid, byte, flag) = parts_of(words);
        Module::of_record(udid, byte, flag, FRESH).expect("a record")
    };
    ModuleBus::new(SHELF.iter().map(module).collect())
}

fn shown(bus: &ModuleBus<Module>) -> Vec<String> {
    bus.records().iter().map(words_of).collect()
}

fn pass(bus: &mut ModuleBus<Module>, last_pick: u8) -> u8 {
    let mut controller = Controller::new(&Addresses::new(), last_pick);
    let mut command = controller.start();
    while command.is_sent() {
        command = controller.step(&bus.answer(&command));
    }
    assert_eq!(command, Command::Ended);
    controller.last_pick
}

/// After a pass from 45h on: 20h, 30h, 46h and 47h. Then Get UDID and Reset, directed to each and to nobody.
fn directed() -> usize {
    let mut bus = shelf();
    assert_eq!(pass(&mut bus, 0x45), 0x47);
    let bound = [
        "00000000000000000000000000000001 41 1",
        "40000000000000000000000000000002 61 1",
        "80000000000000000000000000000003 8d 1",
        "c0000000000000000000000000000004 8f 1",
    ];
    assert_eq!(shown(&bus), bound);
    let replies = [
        (0x41, "00 00 00 00 00 00 00 00 00 00 00 00 00 00 00 01 41 1d"),
        (0x61, "40 00 00 00 00 00 00 00 00 00 00 00 00 00 00 02 61 d0"),
        (0x8d, "80 00 00 00 00 00 00 00 00 00 00 00 00 00 00 03 8d cc"),
        (0x8f, "c0 00 00 00 00 00 00 00 00 00 00 00 00 00 00 04 8f 78"),
    ];
    for (command, data) in replies {
        let read: Vec<String> = data.split(' ').map(|byte| format!("A {byte}")).collect();
        let due = format!("S c2 A {command:02x} A S c3 A 11 {} N P", read.join(" "));
        assert_eq!(trace_text(&bus.ask(command)), due);
        assert_eq!(bus.winners.len(), 1);
    }
    for (command, due) in [(0x43, "S c2 A 43 N P"), (0xff, "S c2 A ff N P"), (0x1f, "S c2 A 1f N P")] {
        assert_eq!(trace_text(&bus.ask(command)), due);
    }
    assert_eq!(trace_text(&bus.ask(0x03)), "S c2 A 03 A S c3 N P");
    assert_eq!(shown(&bus), bound);
    resets(&mut bus);
    replies.len() + 4
}

/// A directed Reset reaches one module, and each kind has another state then.
fn resets(bus: &mut ModuleBus<Module>) {
    assert_eq!(trace_text(&bus.reset(0x42)), "S c2 A 42 N P");
    assert_eq!(trace_text(&bus.reset(0x60)), "S c2 A 60 A e0 A P");
    assert_eq!(shown(bus)[1], "40000000000000000000000000000002 61 0");
    assert_eq!(trace_text(&bus.reset(0x8c)), "S c2 A 8c A 6a A P");
    assert_eq!(shown(bus)[2], "80000000000000000000000000000003 ff 0");
    assert_eq!(trace_text(&bus.reset(0x8c)), "S c2 A 8c N P");
    assert_eq!(trace_text(&bus.reset(0x8e)), "S c2 A 8e A 64 A P");
    assert_eq!(shown(bus)[3], "c00000000000000000000000deadbeef ff 0");
    assert_eq!(trace_text(&bus.reset(0x40)), "S c2 A 40 A 00 A P");
    assert_eq!(shown(bus)[0], "00000000000000000000000000000001 41 0");
    // The next pass goes on from the last pick, 47h: 48h to 4Bh are on a row of the table.
    assert_eq!(pass(bus, 0x47), 0x4d);
    let after = [
        "00000000000000000000000000000001 41 1",
        "40000000000000000000000000000002 61 1",
        "80000000000000000000000000000003 99 1",
        "c00000000000000000000000deadbeef 9b 1",
    ];
    assert_eq!(shown(bus), after);
}

/// A general Reset reaches all at once, a fixed one that was moved among them.
fn general() -> usize {
    let mut bus = shelf();
    pass(&mut bus, NEVER);
    let moved = Command::Assign(bus.modules[0].udid, 0x50);
    assert_eq!(bus.answer(&moved).len(), 2 + 2 * 21);
    assert_eq!(shown(&bus)[0], "00000000000000000000000000000001 a1 1");
    assert_eq!(trace_text(&bus.reset(0x02)), "S c2 A 02 A c9 A P");
    let after = [
        "00000000000000000000000000000001 41 0",
        "40000000000000000000000000000002 61 0",
        "80000000000000000000000000000003 ff 0",
        "c00000000000000000000000deadbeef ff 0",
    ];
    assert_eq!(shown(&bus), after);
    // Nobody is reached by a directed command below 10h, whoever has the address.
    pass(&mut bus, NEVER);
    assert_eq!(shown(&bus)[2], "80000000000000000000000000000003 1b 1");
    assert_eq!(trace_text(&bus.reset(0x1a)), "S c2 A 1a N P");
    assert_eq!(trace_text(&bus.ask(0x1b)), "S c2 A 1b N P");
    4
}

/// Nobody on the bus: nobody acknowledges.
fn nobody() -> usize {
    let mut bus: ModuleBus<Module> = ModuleBus::new(vec![]);
    assert_eq!(trace_text(&bus.answer(&Command::Prepare)), "S c2 N P");
    assert_eq!(trace_text(&bus.answer(&Command::GetUdid)), "S c2 N P");
    2
}

pub fn all() -> usize {
    directed() + general() + nobody()
}
