//! The cases of `module_cases.rs` on the reference's module, and how a module begins.

use reference::commands::udid_of;
use reference::module::Module;
use reference::module_cases::{self, parts_of, words_of, FRESH};
use reference::text::unhex;

/// How many events the cases have.
fn cases() -> usize {
    let run = |case: &module_cases::Case| {
        let (udid, byte, flag) = parts_of(case.before);
        case.run(&mut Module::of_record(udid, byte, flag, FRESH).expect("a record"))
    };
    module_cases::all().map(run).sum()
}

/// Table 9 at power on: the address in ROM or in memory, and the record after it.
fn powered_on() -> usize {
    let cases = [
        ("0102030405060708090a0b0c0d0e0f10", 0x20, "0102030405060708090a0b0c0d0e0f10 41 0"),
        ("0102030405060708090a0b0c0d0e0f10", 0x7f, "0102030405060708090a0b0c0d0e0f10 ff 0"),
        ("0102030405060708090a0b0c0d0e0f10", 0x80, "0102030405060708090a0b0c0d0e0f10 ff 0"),
        ("4102030405060708090a0b0c0d0e0f10", 0x20, "4102030405060708090a0b0c0d0e0f10 41 0"),
        ("4102030405060708090a0b0c0d0e0f10", 0xff, "4102030405060708090a0b0c0d0e0f10 ff 0"),
        ("8102030405060708090a0b0c0d0e0f10", 0x20, "8102030405060708090a0b0c0d0e0f10 ff 0"),
        ("c102030405060708090a0b0c0d0e0f10", 0x20, "c102030405060708090a0b0cdeadbeef ff 0"),
    ];
    for (udid, stored, due) in cases {
        let udid = udid_of(&unhex(udid).expect("hexadecimal digits"));
        let mut module = Module::power_on(udid, stored, FRESH);
        assert_eq!(words_of(&module.record()), due);
        assert_eq!(module.address, Some(stored).filter(|&address| udid[0] < 0x80 && address < 128));
        assert!(!module.hear(0xc2), "silent after power on");
        module.start();
        assert!(module.hear(0xc2));
    }
    cases.len()
}

/// A fixed one that was powered on without an address has none after a reset either. One at 7Fh has.
fn without_a_home() -> usize {
    for (stored, due) in [(0x80, None), (0xff, None), (0x7f, Some(0x7f)), (0x00, Some(0x00))] {
        let mut module = Module::power_on([0x01; 16], stored, FRESH);
        module.start();
        // The UDID is 01.. and the address byte 42h; the PEC is that of a table.
        let assign = [&[0xc2, 0x04, 0x11], &[0x01; 16][..], &[0x42, 0x63]].concat();
        assert!(assign.into_iter().all(|byte| module.hear(byte)), "Assign with {stored:02x}");
        assert_eq!((module.address, module.resolved), (Some(0x21), true));
        module.start();
        assert!([0xc2, 0x02, 0xc9].into_iter().all(|byte| module.hear(byte)), "Reset with {stored:02x}");
        assert_eq!((module.address, module.resolved), (due, false));
    }
    4
}

/// What is no record.
fn refused() -> usize {
    let cases = [
        (0x01, 0x40, 0, 10),
        (0x01, 0xfe, 0, 10),
        (0x81, 0x00, 0, 10),
        (0x81, 0x41, 2, 10),
        (0x81, 0xff, 255, 10),
        (0x01, 0xff, 2, 10),
        (0x01, 0xff, 0, 12),
        (0x3f, 0xff, 1, 12),
    ];
    for (first, byte, flag, number) in cases {
        assert_eq!(Module::of_record([first; 16], byte, flag, FRESH), Err(number), "{first:02x} {byte:02x} {flag}");
    }
    for (first, byte, flag) in [(0x01, 0x41, 1), (0x40, 0xff, 1), (0x80, 0xff, 0), (0xc0, 0x01, 0), (0x00, 0xfd, 1)] {
        assert!(Module::of_record([first; 16], byte, flag, FRESH).is_ok(), "{first:02x} {byte:02x} {flag}");
    }
    cases.len()
}

/// How many events were worked out.
pub fn all() -> usize {
    cases() + powered_on() + without_a_home() + refused()
}
