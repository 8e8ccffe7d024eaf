//! Sessions of the console about choices, worked out by hand: requests, and the answer due to each.

use crate::sessions::*;
use Line::*;

/// The example of the order.
pub const EXAMPLE: [(&str, &str); 6] = [
    ("issue", "21"),
    ("start", "0 next prepare"),
    ("choose 256 194 258 1 258 192 258 257", "0 next get"),
    (
        "choose 256 194 258 3 258 256 195 258 17 258 128 258 0 258 0 258 0 258 0 258 0 258 0 258 0 258 0 258 0 258 0 \
258 0 258 0 258 0 258 0 258 0 258 65 258 116 259 257",
        "0 chosen 80000000000000000000000000000000 0x20 kept",
    ),
    ("step 256", "21"),
    ("issue", "0 next assign 80000000000000000000000000000000 0x20"),
];

/// Lines that are no requests, and what is 21 before the first pass.
pub const REFUSED: [(&str, &str); 17] = [
    ("issue 1", "? 7 expected the end of the line"),
    ("decline x", "? 9 expected the end of the line"),
    ("issue  decline", "? 8 expected the end of the line"),
    ("choose 65536", "? 8 expected a symbol, 0 to 65535"),
    ("choose 256 x", "? 12 expected a symbol, 0 to 65535"),
    ("Issue", "? 1 expected a verb"),
    ("chosen", "? 1 expected a verb"),
    ("choose", "21"),
    ("choose 60000", "21"),
    ("issue # now", "21"),
    ("decline", "21"),
    ("start", "0 next prepare"),
    ("issue", "21"),
    ("choose 60000", "14 end"),
    ("decline", "21"),
    ("choose", "21"),
    ("issue", "21"),
];

/// A line of a session.
enum Line {
    As(&'static str),
    /// The line of a step, as one of its first half.
    Half(&'static str),
    /// All 128 addresses are occupied.
    OccupyAll,
}

/// Every reason, and choices that are issued. A report between the choice and the Assign undoes a claim.
const ISSUED: [(Line, &str); 57] = [
    (As("occupied 0x2c"), "0 occupied 1"),
    (As("start"), "0 next prepare"),
    (Half(PREPARED), "0 next get"),
    (Half(REPLY_80_AT_20), "0 chosen 80000000000000000000000000000000 0x20 kept"),
    (Half(ASSIGN_20), "21"),
    (As(ASSIGN_20), "21"),
    (As("lookup 0x20"), "15"),
    (As("issue now"), "? 7 expected the end of the line"),
    (As("issue"), "0 next assign 80000000000000000000000000000000 0x20"),
    (As("issue"), "21"),
    (As("decline"), "21"),
    (Half(ASSIGN_20), "0 next get"),
    (As("lookup 0x20"), "0 udid 80000000000000000000000000000000"),
    (Half(REPLY_00_AT_20), "0 chosen 00000000000000000000000000000000 0x20 claimed"),
    (As("gone 0x20"), "0 gone"),
    (As("lookup 0x20"), "20"),
    (As("gone 0x20"), "20"),
    (As("issue"), "0 next assign 00000000000000000000000000000000 0x20"),
    (As(ASSIGN_20_TO_00), "0 next get"),
    (As("lookup 0x20"), "0 udid 00000000000000000000000000000000"),
    (Half(REPLY_00_AT_20), "0 chosen 00000000000000000000000000000000 0x20 fixed"),
    (As("lookup 0x20"), "15"),
    (As("issue"), "0 next assign 00000000000000000000000000000000 0x20"),
    (As(ASSIGN_20_TO_00), "0 next get"),
    (Half(REPLY_01_AT_20), "0 chosen 01000000000000000000000000000000 0x20 claimed"),
    (As("issue"), "0 next assign 01000000000000000000000000000000 0x20"),
    (Half(ASSIGN_20_TO_01), "0 next get"),
    (As("lookup 0x20"), "16"),
    (Half(REPLY_00_AT_20), "0 chosen 00000000000000000000000000000000 0x20 claimed"),
    (As("gone 0x20"), "16"),
    (As("issue"), "0 next assign 00000000000000000000000000000000 0x20"),
    (As("choose"), "0 next get"),
    (Half(REPLY_80_AT_20), "0 chosen 80000000000000000000000000000000 0x0d picked"),
    (As("issue"), "0 next assign 80000000000000000000000000000000 0x0d"),
    (As(ASSIGN_0D), "0 next get"),
    (Half(REPLY_00), "0 chosen 00000000000000000000000000000000 0x0e picked"),
    (As("issue"), "0 next assign 00000000000000000000000000000000 0x0e"),
    (As("step"), "0 next get"),
    (Half(REPLY_00_AT_48), "0 chosen 00000000000000000000000000000000 0x48 fixed"),
    (As("issue"), "0 next assign 00000000000000000000000000000000 0x48"),
    (As("step"), "0 next get"),
    (Half(REPLY_80_AT_48), "0 chosen 80000000000000000000000000000000 0x0f picked"),
    (As("lookup 0x0d"), "15"),
    (As("issue"), "0 next assign 80000000000000000000000000000000 0x0f"),
    (As("step"), "0 next get"),
    (Half(REPLY_00_AT_2C), "0 chosen 00000000000000000000000000000000 0x2c claimed"),
    (As("gone 0x2c"), "15"),
    (As("issue"), "0 next assign 00000000000000000000000000000000 0x2c"),
    (As(ASSIGN_2C_TO_00), "0 next get"),
    (As("lookup 0x2c"), "16"),
    (Half(REPLY_00_AT_0C), "0 chosen 00000000000000000000000000000000 0x0c claimed"),
    (As("issue"), "0 next assign 00000000000000000000000000000000 0x0c"),
    (As("step"), "0 next get"),
    (As("lookup 0x0c"), "15"),
    (Half(SILENCE), "0 end"),
    (As("issue"), "21"),
    (As("decline"), "21"),
];

/// Choices that are declined, or dropped by a start or by `clear`. Other verbs leave a choice alone.
const DECLINED: [(Line, &str); 52] = [
    (As("start"), "0 next prepare"),
    (As(PREPARED), "0 next get"),
    (As(REPLY_80_AT_20), "0 next assign 80000000000000000000000000000000 0x20"),
    (As(ASSIGN_20), "0 next get"),
    (Half(REPLY_80), "0 chosen 80000000000000000000000000000000 0x0d picked"),
    (As("lookup 0x20"), "15"),
    (As("decline 0"), "? 9 expected the end of the line"),
    (As("decline"), "14 end"),
    (As("decline"), "21"),
    (As("issue"), "21"),
    (Half(REPLY_80), "21"),
    (As(REPLY_80), "21"),
    (As("lookup 0x20"), "15"),
    (As("lookup 0x0d"), "15"),
    (As("start"), "0 next prepare"),
    (As("issue"), "21"),
    (Half(PREPARED), "0 next get"),
    (Half(REPLY_80), "0 chosen 80000000000000000000000000000000 0x0e picked"),
    (As("target 80000000000000000000000000000000 0xff 0"), "0 target 0"),
    (As("run"), "0 bound 1 get 2 last 0x0d\n 0x0d 80000000000000000000000000000000\n target 0 0x1b 1"),
    (As("occupied 0x0e"), "0 occupied 1"),
    (As("pec"), "0 pec 0x00"),
    (As("gone 0x0e"), "15"),
    (As("step 65536"), "? 6 expected a symbol, 0 to 65535"),
    (As("start"), "0 next prepare"),
    (As("issue"), "21"),
    (As("decline"), "21"),
    (Half(PREPARED), "0 next get"),
    (Half(REPLY_80), "0 chosen 80000000000000000000000000000000 0x0f picked"),
    (As("issue"), "0 next assign 80000000000000000000000000000000 0x0f"),
    (Half(SILENCE), "0 next get"),
    (Half(REPLY_00_AT_20), "0 chosen 00000000000000000000000000000000 0x20 fixed"),
    (As("clear"), "0 clear"),
    (As("issue"), "21"),
    (As("start"), "0 next prepare"),
    (Half(PREPARED), "0 next get"),
    (As(REPLY_00_AT_20), "0 next assign 00000000000000000000000000000000 0x20"),
    (Half(ASSIGN_20_TO_00), "0 next get"),
    (Half(REPLY_01_AT_20), "0 chosen 01000000000000000000000000000000 0x20 claimed"),
    (As("decline"), "14 end"),
    (As("lookup 0x20"), "0 udid 00000000000000000000000000000000"),
    (OccupyAll, "0 occupied 128"),
    (As("start"), "0 next prepare"),
    (Half(PREPARED), "0 next get"),
    (Half(REPLY_80), "13 end 80000000000000000000000000000000"),
    (As("issue"), "21"),
    (As("decline"), "21"),
    (As("start"), "0 next prepare"),
    (Half(PREPARED), "0 next get"),
    (Half(REPLY_00_AT_20), "0 chosen 00000000000000000000000000000000 0x20 claimed"),
    (As("decline"), "14 end"),
    (As("lookup 0x20"), "15"),
];

fn text(line: &Line) -> String {
    match line {
        As(text) => text.to_string(),
        Half(step) => step.replacen("step", "choose", 1),
        OccupyAll => (0..128).fold("occupied".to_string(), |text, address| format!("{text} {address}")),
    }
}

fn session(lines: &[(Line, &str)]) -> Vec<(String, String)> {
    lines.iter().map(|(line, due)| (text(line), due.to_string())).collect()
}

/// Choices that are issued: requests of one session, and the answer due to each.
pub fn issued() -> Vec<(String, String)> {
    session(&ISSUED)
}

/// Choices that are declined or dropped: the same.
pub fn declined() -> Vec<(String, String)> {
    session(&DECLINED)
}
