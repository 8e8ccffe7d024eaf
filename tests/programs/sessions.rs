//! Sessions of the console worked out by hand: requests, and the answer due to each.

/// Wrong symbols worked out by hand: requests of one session, and the answer due to each.
pub const WRONG_SYMBOLS: [(&str, &str); 19] = [
    ("decode read_byte - 256 64 258 16 258 256 65 258 7 258", "17 place 9"),
    ("decode read_byte - 256 64 258 16 258 256 67", "18 place 6"),
    ("decode read_byte - 256 65", "18 place 1"),
    ("decode read_byte - 256 64 258 16 258 256 65 258 7 257", "5 place 9"),
    ("decode receive_byte p 256 65 258 7 259", "17 place 4"),
    ("decode receive_byte - 256 64", "18 place 1"),
    ("decode receive_byte - 256 65 258 258", "5 place 3"),
    ("decode receive_byte - 256 65 259 258", "5 place 3"),
    ("decode send_byte - 256 258", "5 place 1"),
    ("decode send_byte - 256 300", "3 place 1"),
    ("decode 10 - 256 64 258 16 258 1 258 9 258 256 65 258 255", "19 place 12"),
    ("decode 10 - 256 64 258 16 258 1 258 9 258 256 65 258 254", "4 place 13"),
    ("decode block_process_call p 256 64 258 16 258 1 258 9 258 256 65 258 258", "5 place 12"),
    ("start", "0 next prepare"),
    ("step 256 195", "14 end"),
    ("start", "0 next prepare"),
    ("step 256 194 258 1 258 192 258 257", "0 next get"),
    ("step 256 194 258 3 258 256 195 258 17 259", "0 next get"),
    ("step 256 194 258 3 258 256 197", "0 next get"),
];

/// Answers to the three commands: the reply of the UDID 80.. with no address, and with 20h as its own; the Assign of
/// 0Dh to it; the reply of 00.., which is fixed, with no address; and nobody who answers Get UDID.
pub const PREPARED: &str = "step 256 194 258 1 258 192 258 257";
pub const REPLY_80: &str =
    "step 256 194 258 3 258 256 195 258 17 258 128 258 0 258 0 258 0 258 0 258 0 258 0 258 0 258 0 \
258 0 258 0 258 0 258 0 258 0 258 0 258 0 258 255 258 71 259 257";
pub const REPLY_80_AT_20: &str =
    "step 256 194 258 3 258 256 195 258 17 258 128 258 0 258 0 258 0 258 0 258 0 258 0 258 0 \
258 0 258 0 258 0 258 0 258 0 258 0 258 0 258 0 258 65 258 116 259 257";
pub const ASSIGN_0D: &str =
    "step 256 194 258 4 258 17 258 128 258 0 258 0 258 0 258 0 258 0 258 0 258 0 258 0 258 0 258 \
0 258 0 258 0 258 0 258 0 258 0 258 26 258 141 258 257";
pub const REPLY_00: &str =
    "step 256 194 258 3 258 256 195 258 17 258 0 258 0 258 0 258 0 258 0 258 0 258 0 258 0 258 0 \
258 0 258 0 258 0 258 0 258 0 258 0 258 0 258 255 258 82 259 257";
pub const SILENCE: &str = "step 256 194 258 3 258 256 195 259 257";

/// Last picks worked out by hand: requests of one session, and the answer due to each.
pub const LAST_PICKS: [(&str, &str); 67] = [
    ("target 80000000000000000000000000000000 0xff 0", "0 target 0"),
    ("run 0x77", "0 bound 1 get 2 last 0x0d\n 0x0d 80000000000000000000000000000000\n target 0 0x1b 1"),
    ("run", "0 bound 1 get 2 last 0x7f\n 0x0d 80000000000000000000000000000000\n target 0 0x1b 1"),
    ("run 128", "1"),
    ("run 255", "1"),
    ("run 256", "? 5 expected a byte, 0 to 255"),
    ("run now", "? 5 expected a byte, 0 to 255"),
    ("run 9 9", "? 7 expected the end of the line"),
    ("run 128 9", "? 9 expected the end of the line"),
    ("clear", "0 clear"),
    ("target 80000000000000000000000000000000 0xff 0", "0 target 0"),
    ("target 00000000000000000000000000000000 0x13 0", "0 target 1"),
    ("target 40000000000000000000000000000000 0x41 0", "0 target 2"),
    (
        "run 13",
        "0 bound 3 get 4 last 0x0e\n \
0x09 00000000000000000000000000000000\n \
0x0e 80000000000000000000000000000000\n \
0x20 40000000000000000000000000000000\n \
target 0 0x1d 1\n \
target 1 0x13 1\n \
target 2 0x41 1",
    ),
    ("clear", "0 clear"),
    ("target 81000000000000000000000000000000 0xff 1", "0 target 0"),
    ("run 0x3f", "0 bound 1 get 2 last 0x45\n 0x45 81000000000000000000000000000000\n target 0 0x8b 1"),
    ("target 81000000000000000000000000000000 0xff 0", "0 target 1"),
    ("run 126", "11 record 1"),
    ("run 128", "1"),
    ("clear", "0 clear"),
    ("run", "0 bound 0 get 0 last 0x7f"),
    ("run 5", "0 bound 0 get 0 last 0x05"),
    ("start", "0 next prepare"),
    (PREPARED, "0 next get"),
    (REPLY_80, "0 next assign 80000000000000000000000000000000 0x0d"),
    (ASSIGN_0D, "0 next get"),
    (REPLY_80, "0 next assign 80000000000000000000000000000000 0x0e"),
    ("step", "0 next get"),
    (REPLY_80, "0 next assign 80000000000000000000000000000000 0x0f"),
    ("start", "0 next prepare"),
    (PREPARED, "0 next get"),
    (REPLY_80_AT_20, "0 next assign 80000000000000000000000000000000 0x20"),
    ("step", "0 next get"),
    (REPLY_80, "0 next assign 80000000000000000000000000000000 0x10"),
    ("step", "0 next get"),
    (SILENCE, "0 end"),
    ("run", "0 bound 0 get 0 last 0x7f"),
    ("start", "0 next prepare"),
    (PREPARED, "0 next get"),
    (REPLY_80, "0 next assign 80000000000000000000000000000000 0x11"),
    ("clear", "0 clear"),
    ("start", "0 next prepare"),
    (PREPARED, "0 next get"),
    (REPLY_80, "0 next assign 80000000000000000000000000000000 0x0d"),
    ("occupied 0 1 2 3 4 5 6 7 8 9 10 11 12 13 14 15 16 17 18 19 20 21 22 23 24 25 26 27 28 29 30 31", "0 occupied 32"),
    (
        "occupied 32 33 34 35 36 37 38 39 40 41 42 43 44 45 46 47 48 49 50 51 52 53 54 55 56 57 58 59 60 61 \
62 63",
        "0 occupied 64",
    ),
    (
        "occupied 64 65 66 67 68 69 70 71 72 73 74 75 76 77 78 79 80 81 82 83 84 85 86 87 88 89 90 91 92 93 \
94 95",
        "0 occupied 96",
    ),
    (
        "occupied 96 97 98 99 100 101 102 103 104 105 106 107 108 109 110 111 112 113 114 115 116 117 118 \
119 120 121 122 123 124 125 126 127",
        "0 occupied 128",
    ),
    ("target 80000000000000000000000000000000 0xff 1", "0 target 0"),
    ("run 0x33", "13 udid 80000000000000000000000000000000 bound 0 get 1 last 0x33\n target 0 0xff 0"),
    ("run", "13 udid 80000000000000000000000000000000 bound 0 get 1 last 0x7f\n target 0 0xff 0"),
    ("run 200", "1"),
    ("clear", "0 clear"),
    ("target 80000000000000000000000000000000 0xff 0", "0 target 0"),
    ("run 128", "1"),
    ("run 256", "? 5 expected a byte, 0 to 255"),
    ("run 9 9", "? 7 expected the end of the line"),
    ("run", "0 bound 1 get 2 last 0x0d\n 0x0d 80000000000000000000000000000000\n target 0 0x1b 1"),
    ("start", "0 next prepare"),
    (PREPARED, "0 next get"),
    (REPLY_00, "0 next assign 00000000000000000000000000000000 0x0d"),
    ("step", "0 next get"),
    ("occupied 14", "0 occupied 1"),
    ("start", "0 next prepare"),
    (PREPARED, "0 next get"),
    (REPLY_80, "0 next assign 80000000000000000000000000000000 0x0f"),
];

/// The Assign of 20h to 80..; two fixed targets at 20h, 00.. and 01.., and the Assigns to them.
pub const ASSIGN_20: &str =
    "step 256 194 258 4 258 17 258 128 258 0 258 0 258 0 258 0 258 0 258 0 258 0 258 0 258 0 258 \
0 258 0 258 0 258 0 258 0 258 0 258 64 258 12 258 257";
pub const REPLY_00_AT_20: &str =
    "step 256 194 258 3 258 256 195 258 17 258 0 258 0 258 0 258 0 258 0 258 0 258 0 258 0 \
258 0 258 0 258 0 258 0 258 0 258 0 258 0 258 0 258 65 258 97 259 257";
pub const ASSIGN_20_TO_00: &str =
    "step 256 194 258 4 258 17 258 0 258 0 258 0 258 0 258 0 258 0 258 0 258 0 258 0 258 0 \
258 0 258 0 258 0 258 0 258 0 258 0 258 64 258 25 258 257";
pub const REPLY_01_AT_20: &str =
    "step 256 194 258 3 258 256 195 258 17 258 1 258 0 258 0 258 0 258 0 258 0 258 0 258 0 \
258 0 258 0 258 0 258 0 258 0 258 0 258 0 258 0 258 65 258 111 259 257";
pub const ASSIGN_20_TO_01: &str =
    "step 256 194 258 4 258 17 258 1 258 0 258 0 258 0 258 0 258 0 258 0 258 0 258 0 258 0 \
258 0 258 0 258 0 258 0 258 0 258 0 258 64 258 23 258 257";

/// Reports worked out by hand: requests of one session, and the answer due to each.
pub const GONE: [(&str, &str); 86] = [
    ("gone 0x20", "15"),
    ("gone 128", "1"),
    ("gone 255", "1"),
    ("gone", "? 5 expected a byte, 0 to 255"),
    ("gone 256", "? 6 expected a byte, 0 to 255"),
    ("gone x20", "? 6 expected a byte, 0 to 255"),
    ("gone 9 9", "? 8 expected the end of the line"),
    ("gone 128 9", "? 10 expected the end of the line"),
    ("Gone 9", "? 1 expected a verb"),
    ("start", "0 next prepare"),
    ("gone 0x20", "15"),
    ("gone 0x61", "15"),
    (PREPARED, "0 next get"),
    (REPLY_80_AT_20, "0 next assign 80000000000000000000000000000000 0x20"),
    ("gone 0x20", "15"),
    (ASSIGN_20, "0 next get"),
    ("lookup 0x20", "0 udid 80000000000000000000000000000000"),
    ("gone 0x20 20", "? 11 expected the end of the line"),
    ("gone 0xa0", "1"),
    ("lookup 0x20", "0 udid 80000000000000000000000000000000"),
    ("gone 0x20", "0 gone"),
    ("lookup 0x20", "20"),
    ("gone 32", "20"),
    (
        "grid",
        "0 grid\n     0  1  2  3  4  5  6  7  8  9  a  b  c  d  e  f\n\
00: UU UU UU UU UU UU UU UU UU UU UU UU UU -- -- --\n\
10: -- -- -- -- -- -- -- -- -- -- -- -- -- -- -- --\n\
20: LL -- -- -- -- -- -- -- UU -- -- -- UU UU -- --\n\
30: -- -- -- -- -- -- -- UU -- -- -- -- -- -- -- --\n\
40: UU UU UU UU UU -- -- -- UU UU UU UU -- -- -- --\n\
50: -- -- -- -- -- -- -- -- -- -- -- -- -- -- -- --\n\
60: -- UU -- -- -- -- -- -- -- -- -- -- -- -- -- --\n\
70: -- -- -- -- -- -- -- -- UU UU UU UU UU UU UU UU",
    ),
    (REPLY_80, "0 next assign 80000000000000000000000000000000 0x0d"),
    ("gone 0x20", "20"),
    ("gone 0x0d", "15"),
    (ASSIGN_0D, "0 next get"),
    ("lookup 0x20", "20"),
    ("gone 0x0d", "0 gone"),
    (REPLY_80, "0 next assign 80000000000000000000000000000000 0x0e"),
    ("step", "0 next get"),
    ("lookup 0x0d", "20"),
    ("lookup 0x0e", "15"),
    (REPLY_00_AT_20, "0 next assign 00000000000000000000000000000000 0x20"),
    ("lookup 0x20", "20"),
    (ASSIGN_20_TO_00, "0 next get"),
    ("lookup 0x20", "0 udid 00000000000000000000000000000000"),
    (REPLY_01_AT_20, "0 next assign 01000000000000000000000000000000 0x20"),
    ("gone 0x20", "0 gone"),
    (ASSIGN_20_TO_01, "0 next get"),
    ("lookup 0x20", "0 udid 01000000000000000000000000000000"),
    (REPLY_00_AT_20, "0 next assign 00000000000000000000000000000000 0x20"),
    (ASSIGN_20_TO_00, "0 next get"),
    ("lookup 0x20", "16"),
    ("gone 0x20", "16"),
    (
        "grid",
        "0 grid\n     0  1  2  3  4  5  6  7  8  9  a  b  c  d  e  f\n\
00: UU UU UU UU UU UU UU UU UU UU UU UU UU LL -- --\n\
10: -- -- -- -- -- -- -- -- -- -- -- -- -- -- -- --\n\
20: XX -- -- -- -- -- -- -- UU -- -- -- UU UU -- --\n\
30: -- -- -- -- -- -- -- UU -- -- -- -- -- -- -- --\n\
40: UU UU UU UU UU -- -- -- UU UU UU UU -- -- -- --\n\
50: -- -- -- -- -- -- -- -- -- -- -- -- -- -- -- --\n\
60: -- UU -- -- -- -- -- -- -- -- -- -- -- -- -- --\n\
70: -- -- -- -- -- -- -- -- UU UU UU UU UU UU UU UU",
    ),
    (SILENCE, "0 end"),
    ("gone 0x20", "16"),
    ("gone 0x0d", "20"),
    ("gone 0x0e", "15"),
    (SILENCE, "21"),
    ("lookup 0x0d", "20"),
    ("start", "0 next prepare"),
    ("lookup 0x0d", "15"),
    ("gone 0x20", "15"),
    ("lookup 0x20", "15"),
    (PREPARED, "0 next get"),
    (REPLY_80_AT_20, "0 next assign 80000000000000000000000000000000 0x20"),
    (ASSIGN_20, "0 next get"),
    (REPLY_80, "0 next assign 80000000000000000000000000000000 0x0f"),
    ("lookup 0x20", "15"),
    ("gone 0x20", "15"),
    ("step", "0 next get"),
    ("target 80000000000000000000000000000000 0xff 0", "0 target 0"),
    ("run", "0 bound 1 get 2 last 0x0d\n 0x0d 80000000000000000000000000000000\n target 0 0x1b 1"),
    ("gone 0x0d", "15"),
    (REPLY_80_AT_20, "0 next assign 80000000000000000000000000000000 0x20"),
    (ASSIGN_20, "0 next get"),
    (SILENCE, "0 end"),
    ("gone 0x20", "0 gone"),
    ("lookup 0x20", "20"),
    ("clear", "0 clear"),
    ("gone 0x20", "15"),
    ("lookup 0x20", "15"),
    ("occupied 0x20", "0 occupied 1"),
    ("start", "0 next prepare"),
    (PREPARED, "0 next get"),
    (REPLY_00_AT_20, "0 next assign 00000000000000000000000000000000 0x20"),
    (ASSIGN_20_TO_00, "0 next get"),
    ("gone 0x20", "16"),
    (REPLY_80_AT_20, "0 next assign 80000000000000000000000000000000 0x0d"),
    (ASSIGN_0D, "0 next get"),
    ("gone 0x0d", "0 gone"),
    ("occupied 0x0d", "0 occupied 2"),
    (
        "grid",
        "0 grid\n     0  1  2  3  4  5  6  7  8  9  a  b  c  d  e  f\n\
00: UU UU UU UU UU UU UU UU UU UU UU UU UU LL -- --\n\
10: -- -- -- -- -- -- -- -- -- -- -- -- -- -- -- --\n\
20: XX -- -- -- -- -- -- -- UU -- -- -- UU UU -- --\n\
30: -- -- -- -- -- -- -- UU -- -- -- -- -- -- -- --\n\
40: UU UU UU UU UU -- -- -- UU UU UU UU -- -- -- --\n\
50: -- -- -- -- -- -- -- -- -- -- -- -- -- -- -- --\n\
60: -- UU -- -- -- -- -- -- -- -- -- -- -- -- -- --\n\
70: -- -- -- -- -- -- -- -- UU UU UU UU UU UU UU UU",
    ),
];

/// Fixed targets at 48h, a prototype address: 00.. and 01.., and the Assigns to them. 80.., which is movable, with 48h as
/// its own. 00.. at 2Ch and at 0Ch, and the Assigns.
pub const REPLY_00_AT_48: &str =
    "step 256 194 258 3 258 256 195 258 17 258 0 258 0 258 0 258 0 258 0 258 0 258 0 258 0 \
258 0 258 0 258 0 258 0 258 0 258 0 258 0 258 0 258 145 258 95 259 257";
pub const ASSIGN_48_TO_00: &str =
    "step 256 194 258 4 258 17 258 0 258 0 258 0 258 0 258 0 258 0 258 0 258 0 258 0 258 0 \
258 0 258 0 258 0 258 0 258 0 258 0 258 144 258 39 258 257";
pub const REPLY_01_AT_48: &str =
    "step 256 194 258 3 258 256 195 258 17 258 1 258 0 258 0 258 0 258 0 258 0 258 0 258 0 \
258 0 258 0 258 0 258 0 258 0 258 0 258 0 258 0 258 145 258 81 259 257";
pub const ASSIGN_48_TO_01: &str =
    "step 256 194 258 4 258 17 258 1 258 0 258 0 258 0 258 0 258 0 258 0 258 0 258 0 258 0 \
258 0 258 0 258 0 258 0 258 0 258 0 258 144 258 41 258 257";
pub const REPLY_80_AT_48: &str =
    "step 256 194 258 3 258 256 195 258 17 258 128 258 0 258 0 258 0 258 0 258 0 258 0 258 0 \
258 0 258 0 258 0 258 0 258 0 258 0 258 0 258 0 258 145 258 74 259 257";
pub const REPLY_00_AT_2C: &str =
    "step 256 194 258 3 258 256 195 258 17 258 0 258 0 258 0 258 0 258 0 258 0 258 0 258 0 \
258 0 258 0 258 0 258 0 258 0 258 0 258 0 258 0 258 89 258 41 259 257";
pub const ASSIGN_2C_TO_00: &str =
    "step 256 194 258 4 258 17 258 0 258 0 258 0 258 0 258 0 258 0 258 0 258 0 258 0 258 0 \
258 0 258 0 258 0 258 0 258 0 258 0 258 88 258 81 258 257";
pub const REPLY_00_AT_0C: &str =
    "step 256 194 258 3 258 256 195 258 17 258 0 258 0 258 0 258 0 258 0 258 0 258 0 258 0 \
258 0 258 0 258 0 258 0 258 0 258 0 258 0 258 0 258 25 258 238 259 257";
pub const ASSIGN_0C_TO_00: &str =
    "step 256 194 258 4 258 17 258 0 258 0 258 0 258 0 258 0 258 0 258 0 258 0 258 0 258 0 \
258 0 258 0 258 0 258 0 258 0 258 0 258 24 258 150 258 257";

/// The rows of Table 17 worked out by hand: requests of one session, and the answer due to each. M8 and M9 come first.
pub const ROWS: [(&str, &str); 79] = [
    (
        "grid",
        "0 grid\n     0  1  2  3  4  5  6  7  8  9  a  b  c  d  e  f\n\
00: UU UU UU UU UU UU UU UU UU UU UU UU UU -- -- --\n\
10: -- -- -- -- -- -- -- -- -- -- -- -- -- -- -- --\n\
20: -- -- -- -- -- -- -- -- UU -- -- -- UU UU -- --\n\
30: -- -- -- -- -- -- -- UU -- -- -- -- -- -- -- --\n\
40: UU UU UU UU UU -- -- -- UU UU UU UU -- -- -- --\n\
50: -- -- -- -- -- -- -- -- -- -- -- -- -- -- -- --\n\
60: -- UU -- -- -- -- -- -- -- -- -- -- -- -- -- --\n\
70: -- -- -- -- -- -- -- -- UU UU UU UU UU UU UU UU",
    ),
    ("target 80000000000000000000000000000000 0xff 0", "0 target 0"),
    ("target 00000000000000000000000000000000 0x13 0", "0 target 1"),
    ("target 40000000000000000000000000000000 0x41 0", "0 target 2"),
    (
        "run",
        "0 bound 3 get 4 last 0x0d\n \
0x09 00000000000000000000000000000000\n \
0x0d 80000000000000000000000000000000\n \
0x20 40000000000000000000000000000000\n \
target 0 0x1b 1\n \
target 1 0x13 1\n \
target 2 0x41 1",
    ),
    ("clear", "0 clear"),
    ("target 40000000000000000000000000000000 0xff 0", "0 target 0"),
    ("target 80000000000000000000000000000000 0x13 0", "0 target 1"),
    (
        "run",
        "0 bound 2 get 3 last 0x0e\n \
0x0d 40000000000000000000000000000000\n \
0x0e 80000000000000000000000000000000\n \
target 0 0x1b 1\n \
target 1 0x1d 1",
    ),
    ("clear", "0 clear"),
    ("target 00000000000000000000000000000000 0x91 0", "0 target 0"),
    ("run", "0 bound 1 get 2 last 0x7f\n 0x48 00000000000000000000000000000000\n target 0 0x91 1"),
    ("target 80000000000000000000000000000000 0x91 0", "0 target 1"),
    (
        "run 0x47",
        "0 bound 2 get 3 last 0x4c\n \
0x48 00000000000000000000000000000000\n \
0x4c 80000000000000000000000000000000\n \
target 0 0x91 1\n \
target 1 0x99 1",
    ),
    ("target 01000000000000000000000000000000 0x91 0", "0 target 2"),
    ("run", "12 record 2"),
    ("occupied 0x48", "0 occupied 1"),
    ("run", "12 record 0"),
    ("clear", "0 clear"),
    ("target 00000000000000000000000000000000 0x19 0", "0 target 0"),
    ("run", "12 record 0"),
    ("clear", "0 clear"),
    ("start", "0 next prepare"),
    (PREPARED, "0 next get"),
    (REPLY_00_AT_48, "0 next assign 00000000000000000000000000000000 0x48"),
    ("lookup 0x48", "15"),
    ("gone 0x48", "15"),
    (ASSIGN_48_TO_00, "0 next get"),
    ("lookup 0x48", "0 udid 00000000000000000000000000000000"),
    (
        "grid",
        "0 grid\n     0  1  2  3  4  5  6  7  8  9  a  b  c  d  e  f\n\
00: UU UU UU UU UU UU UU UU UU UU UU UU UU -- -- --\n\
10: -- -- -- -- -- -- -- -- -- -- -- -- -- -- -- --\n\
20: -- -- -- -- -- -- -- -- UU -- -- -- UU UU -- --\n\
30: -- -- -- -- -- -- -- UU -- -- -- -- -- -- -- --\n\
40: UU UU UU UU UU -- -- -- 48 UU UU UU -- -- -- --\n\
50: -- -- -- -- -- -- -- -- -- -- -- -- -- -- -- --\n\
60: -- UU -- -- -- -- -- -- -- -- -- -- -- -- -- --\n\
70: -- -- -- -- -- -- -- -- UU UU UU UU UU UU UU UU",
    ),
    (REPLY_80_AT_48, "0 next assign 80000000000000000000000000000000 0x0d"),
    (ASSIGN_0D, "0 next get"),
    ("gone 0x48", "0 gone"),
    ("lookup 0x48", "20"),
    ("gone 0x48", "20"),
    (
        "grid",
        "0 grid\n     0  1  2  3  4  5  6  7  8  9  a  b  c  d  e  f\n\
00: UU UU UU UU UU UU UU UU UU UU UU UU UU 0d -- --\n\
10: -- -- -- -- -- -- -- -- -- -- -- -- -- -- -- --\n\
20: -- -- -- -- -- -- -- -- UU -- -- -- UU UU -- --\n\
30: -- -- -- -- -- -- -- UU -- -- -- -- -- -- -- --\n\
40: UU UU UU UU UU -- -- -- LL UU UU UU -- -- -- --\n\
50: -- -- -- -- -- -- -- -- -- -- -- -- -- -- -- --\n\
60: -- UU -- -- -- -- -- -- -- -- -- -- -- -- -- --\n\
70: -- -- -- -- -- -- -- -- UU UU UU UU UU UU UU UU",
    ),
    (REPLY_80_AT_48, "0 next assign 80000000000000000000000000000000 0x0e"),
    ("step", "0 next get"),
    (REPLY_01_AT_48, "0 next assign 01000000000000000000000000000000 0x48"),
    ("lookup 0x48", "20"),
    (ASSIGN_48_TO_01, "0 next get"),
    ("lookup 0x48", "0 udid 01000000000000000000000000000000"),
    (REPLY_01_AT_48, "0 next assign 01000000000000000000000000000000 0x48"),
    ("lookup 0x48", "15"),
    (
        "grid",
        "0 grid\n     0  1  2  3  4  5  6  7  8  9  a  b  c  d  e  f\n\
00: UU UU UU UU UU UU UU UU UU UU UU UU UU -- -- --\n\
10: -- -- -- -- -- -- -- -- -- -- -- -- -- -- -- --\n\
20: -- -- -- -- -- -- -- -- UU -- -- -- UU UU -- --\n\
30: -- -- -- -- -- -- -- UU -- -- -- -- -- -- -- --\n\
40: UU UU UU UU UU -- -- -- UU UU UU UU -- -- -- --\n\
50: -- -- -- -- -- -- -- -- -- -- -- -- -- -- -- --\n\
60: -- UU -- -- -- -- -- -- -- -- -- -- -- -- -- --\n\
70: -- -- -- -- -- -- -- -- UU UU UU UU UU UU UU UU",
    ),
    (ASSIGN_48_TO_01, "0 next get"),
    ("lookup 0x48", "0 udid 01000000000000000000000000000000"),
    (REPLY_01_AT_48, "0 next assign 01000000000000000000000000000000 0x48"),
    ("step", "0 next get"),
    ("lookup 0x48", "15"),
    (REPLY_80_AT_48, "0 next assign 80000000000000000000000000000000 0x0f"),
    ("step", "0 next get"),
    (REPLY_01_AT_48, "0 next assign 01000000000000000000000000000000 0x48"),
    (ASSIGN_48_TO_01, "0 next get"),
    ("lookup 0x48", "0 udid 01000000000000000000000000000000"),
    (REPLY_00_AT_48, "0 next assign 00000000000000000000000000000000 0x48"),
    ("gone 0x48", "0 gone"),
    (ASSIGN_48_TO_00, "0 next get"),
    ("lookup 0x48", "0 udid 00000000000000000000000000000000"),
    (REPLY_01_AT_48, "0 next assign 01000000000000000000000000000000 0x48"),
    (ASSIGN_48_TO_01, "0 next get"),
    ("lookup 0x48", "16"),
    ("gone 0x48", "16"),
    (REPLY_00_AT_48, "0 next assign 00000000000000000000000000000000 0x48"),
    (ASSIGN_48_TO_00, "0 next get"),
    ("lookup 0x48", "16"),
    (
        "grid",
        "0 grid\n     0  1  2  3  4  5  6  7  8  9  a  b  c  d  e  f\n\
00: UU UU UU UU UU UU UU UU UU UU UU UU UU -- -- --\n\
10: -- -- -- -- -- -- -- -- -- -- -- -- -- -- -- --\n\
20: -- -- -- -- -- -- -- -- UU -- -- -- UU UU -- --\n\
30: -- -- -- -- -- -- -- UU -- -- -- -- -- -- -- --\n\
40: UU UU UU UU UU -- -- -- XX UU UU UU -- -- -- --\n\
50: -- -- -- -- -- -- -- -- -- -- -- -- -- -- -- --\n\
60: -- UU -- -- -- -- -- -- -- -- -- -- -- -- -- --\n\
70: -- -- -- -- -- -- -- -- UU UU UU UU UU UU UU UU",
    ),
    (SILENCE, "0 end"),
    ("occupied 0x2c", "0 occupied 1"),
    ("start", "0 next prepare"),
    (PREPARED, "0 next get"),
    ("lookup 0x48", "15"),
    (REPLY_00_AT_2C, "0 next assign 00000000000000000000000000000000 0x2c"),
    (ASSIGN_2C_TO_00, "0 next get"),
    ("lookup 0x2c", "16"),
    (REPLY_00_AT_0C, "0 next assign 00000000000000000000000000000000 0x0c"),
    (ASSIGN_0C_TO_00, "0 next get"),
    ("gone 0x0c", "16"),
    (
        "grid",
        "0 grid\n     0  1  2  3  4  5  6  7  8  9  a  b  c  d  e  f\n\
00: UU UU UU UU UU UU UU UU UU UU UU UU XX -- -- --\n\
10: -- -- -- -- -- -- -- -- -- -- -- -- -- -- -- --\n\
20: -- -- -- -- -- -- -- -- UU -- -- -- XX UU -- --\n\
30: -- -- -- -- -- -- -- UU -- -- -- -- -- -- -- --\n\
40: UU UU UU UU UU -- -- -- UU UU UU UU -- -- -- --\n\
50: -- -- -- -- -- -- -- -- -- -- -- -- -- -- -- --\n\
60: -- UU -- -- -- -- -- -- -- -- -- -- -- -- -- --\n\
70: -- -- -- -- -- -- -- -- UU UU UU UU UU UU UU UU",
    ),
];
