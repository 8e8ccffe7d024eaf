//! Modules worked out by hand: what stands on the wire, and what the module does. The PECs here are those of a table of
//! 256 remainders, another way than the reference's.
//!
//! A case has the module's record, what happens, and the record after it. In what happens:
//!
//!   S P L        START, STOP, told that it lost
//!   c2+ c2-      a byte that it acknowledges, and one that it does not
//!   >11 >..      a byte that it supplies, and nothing where it has none

use crate::bus::Target;
use crate::commands::{udid_of, Udid};
use crate::model::record_of;
use crate::module_events::{Event, Reaction, Renewable};
use crate::text::{hex, unhex};

/// The vendor-specific bytes that a random one takes.
pub const FRESH: [u8; 4] = [0xde, 0xad, 0xbe, 0xef];

/// A module, what happens to it, and what it is then.
pub struct Case {
    pub name: &'static str,
    pub before: &'static str,
    pub events: &'static str,
    pub after: &'static str,
}

const fn case(name: &'static str, before: &'static str, events: &'static str, after: &'static str) -> Case {
    Case { name, before, events, after }
}

/// Records: volatile with no address, at 20h and at 21h.
const NONE: &str = "8102030405060708090a0b0c0d0e0f10 ff 0";
const NONE_RESOLVED: &str = "8102030405060708090a0b0c0d0e0f10 ff 1";
const AT_20: &str = "8102030405060708090a0b0c0d0e0f10 41 0";
const RESOLVED: &str = "8102030405060708090a0b0c0d0e0f10 41 1";
const AT_21: &str = "8102030405060708090a0b0c0d0e0f10 43 0";
const RESOLVED_21: &str = "8102030405060708090a0b0c0d0e0f10 43 1";
/// At 0Fh, below what a directed command can name.
const AT_0F: &str = "8102030405060708090a0b0c0d0e0f10 1f 1";
/// Fixed at 20h, and with 21h assigned.
const FIXED: &str = "0102030405060708090a0b0c0d0e0f10 41 0";
const FIXED_21: &str = "0102030405060708090a0b0c0d0e0f10 43 1";
/// Persistent, with and without an address.
const KEEPS_NONE: &str = "4102030405060708090a0b0c0d0e0f10 ff 0";
const KEEPS_21: &str = "4102030405060708090a0b0c0d0e0f10 43 0";
const KEEPS_21_RESOLVED: &str = "4102030405060708090a0b0c0d0e0f10 43 1";
/// Random, before and after a reset.
const RANDOM_21: &str = "c102030405060708090a0b0c0d0e0f10 43 1";
const RENEWED: &str = "c102030405060708090a0b0cdeadbeef ff 0";
const RENEWED_21: &str = "c102030405060708090a0b0cdeadbeef 43 1";

/// First bytes, commands and STARTs.
const PLACES: [Case; 30] = [
    case("as after STOP", NONE, "c2- c3- 01- >.. P c2- >..", NONE),
    case("C2h alone is a first byte", NONE, "S c2+ P S c3- P S 00- P S 40- P S c0- P S ff-", NONE),
    case("its own address is not asked for", AT_20, "S 40- P S 41- P S c2+", AT_20),
    case("silent after NACK", NONE, "S 40- c2- 01- c0- >.. S c2+", NONE),
    case("silent after STOP", NONE, "S c2+ 01+ P c0- S c2+", NONE),
    case("a repeated START is a START", RESOLVED, "S c2+ S c2+ 01+ S c2+ 01+ c0+", AT_20),
    case("a STOP inside a packet ends it", RESOLVED, "S c2+ P 01- c0- S c2+ 01+ P c0-", RESOLVED),
    case("a START inside a packet ends it", RESOLVED, "S c2+ 01+ S c0- S c2+ 01+ S c2+ c0-", RESOLVED),
    case("general commands", NONE, "S c2+ 01+ S c2+ 02+ S c2+ 03+ S c2+ 04+", NONE),
    case("general commands, resolved", RESOLVED, "S c2+ 01+ S c2+ 02+ S c2+ 03+ S c2+ 04+", RESOLVED),
    case("reserved commands", NONE, "S c2+ 00- S c2+ 05- S c2+ 06- S c2+ 1e- S c2+ 1f- S c2+ fe- S c2+ ff-", NONE),
    case("reserved, at 7Fh", AT_20, "S c2+ fe- S c2+ ff- S c2+ 00-", AT_20),
    case("directed, its own", AT_20, "S c2+ 40+ S c2+ 41+", AT_20),
    case("directed, another's", AT_20, "S c2+ 42- S c2+ 43- S c2+ 3e- S c2+ 3f- S c2+ c0- S c2+ c1-", AT_20),
    case("directed, Address Valid clear", NONE, "S c2+ 40- S c2+ 41- S c2+ 20- S c2+ fd-", NONE),
    case("directed, also where resolved", RESOLVED, "S c2+ 40+ S c2+ 41+", RESOLVED),
    case("C3h after Get UDID", NONE, "S c2+ 03+ S c3+", NONE),
    case("C3h where resolved", RESOLVED, "S c2+ 03+ S c3- >.. c3- S c3-", RESOLVED),
    case("C3h where resolved, AV clear", NONE_RESOLVED, "S c2+ 03+ S c3- >..", NONE_RESOLVED),
    case("C3h after another command", AT_20, "S c2+ 01+ S c3- S c2+ 02+ S c3- S c2+ 04+ S c3- S c2+ 40+ S c3-", AT_20),
    case("C3h without a repeated START", NONE, "S c2+ 03+ c3- >..", NONE),
    case("C3h after two STARTs", NONE, "S c2+ 03+ S S c3- >..", NONE),
    case("C3h after STOP", NONE, "S c2+ 03+ P S c3- >..", NONE),
    case("C3h after a byte that got NACK", NONE, "S c2+ 03+ 11- S c3- >..", NONE),
    case("C3h after it lost", NONE, "S c2+ 03+ L S c3- >..", NONE),
    case("C3h again", NONE, "S c2+ 03+ S c3+ S c3- >.. S c2+ 03+ S c3+ >11 S c3- >..", NONE),
    case("C3h twice", NONE, "S c2+ 03+ S c3+ c3- >..", NONE),
    case("another packet after Get UDID", RESOLVED, "S c2+ 03+ S c2+ 01+ c0+", AT_20),
    case("Get UDID after Get UDID", NONE, "S c2+ 03+ S c2+ 03+ S c3+ >11", NONE),
    case("another first byte after Get UDID", NONE, "S c2+ 03+ S 40- c3- S c3-", NONE),
];

/// Prepare To ARP and Reset Device.
const SHORT: [Case; 20] = [
    case("Prepare To ARP", RESOLVED, "S c2+ 01+ c0+ P", AT_20),
    case("Prepare, AV clear", NONE_RESOLVED, "S c2+ 01+ c0+ P", NONE),
    case("Prepare, wrong PEC", RESOLVED, "S c2+ 01+ c1- P S c2+ 01+ 40- c0- P", RESOLVED),
    case("Prepare without PEC", RESOLVED, "S c2+ 01+ P", RESOLVED),
    case("Prepare takes effect at its PEC", RESOLVED, "S c2+ 01+ c0+", AT_20),
    case("a byte after the PEC undoes nothing", RESOLVED, "S c2+ 01+ c0+ c0- c2- P", AT_20),
    case("nothing is supplied after the PEC", RESOLVED, "S c2+ 01+ c0+ >.. P", AT_20),
    case("the PEC begins anew at START", RESOLVED, "S c2+ 03+ S c2+ 01+ c0+ S c2+ 01+ c0+", AT_20),
    case("Reset, volatile", RESOLVED, "S c2+ 02+ c9+ P", NONE),
    case("Reset, wrong PEC", RESOLVED, "S c2+ 02+ c8- P S c2+ 02+ c0- P", RESOLVED),
    case("Reset, volatile with no address", NONE_RESOLVED, "S c2+ 02+ c9+ P", NONE),
    case("Reset, persistent", KEEPS_21_RESOLVED, "S c2+ 02+ c9+ P", KEEPS_21),
    case("Reset, persistent with no address", KEEPS_NONE, "S c2+ 02+ c9+ P", KEEPS_NONE),
    case("Reset, random", RANDOM_21, "S c2+ 02+ c9+ P", RENEWED),
    case("Reset, directed", RESOLVED, "S c2+ 40+ 00+ P S c2+ 40-", NONE),
    case("Reset, directed, wrong PEC", RESOLVED, "S c2+ 40+ c9- P S c2+ 40+ 07- P", RESOLVED),
    case("Reset, directed, persistent", KEEPS_21_RESOLVED, "S c2+ 42+ 0e+ P S c2+ 42+", KEEPS_21),
    case("Reset, directed, random", RANDOM_21, "S c2+ 42+ 0e+ P S c2+ 42-", RENEWED),
    case("Reset, directed, to another", RESOLVED, "S c2+ 42- 0e- P", RESOLVED),
    case("Reset, directed, not resolved", AT_21, "S c2+ 42+ 0e+ P", NONE),
];

/// Assign Address.
const ASSIGNED: [Case; 22] = [
    case(
        "Assign 21h",
        NONE,
        "S c2+ 04+ 11+ 81+ 02+ 03+ 04+ 05+ 06+ 07+ 08+ 09+ 0a+ 0b+ 0c+ 0d+ 0e+ 0f+ 10+ 42+ 1b+ P",
        RESOLVED_21,
    ),
    case(
        "Assign to a resolved one",
        RESOLVED,
        "S c2+ 04+ 11+ 81+ 02+ 03+ 04+ 05+ 06+ 07+ 08+ 09+ 0a+ 0b+ 0c+ 0d+ 0e+ 0f+ 10+ 42+ 1b+ 1b- P",
        RESOLVED_21,
    ),
    case(
        "bit 0 is ignored",
        NONE,
        "S c2+ 04+ 11+ 81+ 02+ 03+ 04+ 05+ 06+ 07+ 08+ 09+ 0a+ 0b+ 0c+ 0d+ 0e+ 0f+ 10+ 41+ 12+ P S c2+ 41+",
        RESOLVED,
    ),
    case(
        "the PEC is over the byte as it came",
        NONE,
        "S c2+ 04+ 11+ 81+ 02+ 03+ 04+ 05+ 06+ 07+ 08+ 09+ 0a+ 0b+ 0c+ 0d+ 0e+ 0f+ 10+ 41+ 15- P",
        NONE,
    ),
    case(
        "Assign FEh is 7Fh, and no directed command reaches it",
        NONE,
        "S c2+ 04+ 11+ 81+ 02+ 03+ 04+ 05+ 06+ 07+ 08+ 09+ 0a+ 0b+ 0c+ 0d+ 0e+ 0f+ 10+ fe+ 26+ P S c2+ fe- S c2+ ff-",
        NONE_RESOLVED,
    ),
    case(
        "Assign FFh is 7Fh too",
        RESOLVED,
        "S c2+ 04+ 11+ 81+ 02+ 03+ 04+ 05+ 06+ 07+ 08+ 09+ 0a+ 0b+ 0c+ 0d+ 0e+ 0f+ 10+ ff+ 21+ P",
        NONE_RESOLVED,
    ),
    case(
        "Assign 00h, and no directed command reaches it",
        NONE,
        "S c2+ 04+ 11+ 81+ 02+ 03+ 04+ 05+ 06+ 07+ 08+ 09+ 0a+ 0b+ 0c+ 0d+ 0e+ 0f+ 10+ 00+ d2+ P S c2+ 00- S c2+ 01+",
        "8102030405060708090a0b0c0d0e0f10 01 1",
    ),
    case(
        "the address byte alone is nothing",
        RESOLVED,
        "S c2+ 04+ 11+ 81+ 02+ 03+ 04+ 05+ 06+ 07+ 08+ 09+ 0a+ 0b+ 0c+ 0d+ 0e+ 0f+ 10+ 42+ P",
        RESOLVED,
    ),
    case(
        "Assign, wrong PEC",
        AT_20,
        "S c2+ 04+ 11+ 81+ 02+ 03+ 04+ 05+ 06+ 07+ 08+ 09+ 0a+ 0b+ 0c+ 0d+ 0e+ 0f+ 10+ 42+ 1a- 1b- P",
        AT_20,
    ),
    case("Assign, a count of 16", NONE, "S c2+ 04+ 10- 81- P", NONE),
    case("Assign, a count of 18", NONE, "S c2+ 04+ 12- 81- P", NONE),
    case("Assign, a count of 0 and of 255", NONE, "S c2+ 04+ 00- S c2+ 04+ ff- S c2+ 04+ 91-", NONE),
    case("Assign, the first byte differs", NONE, "S c2+ 04+ 11+ 80- 02- P S c2+ 04+ 11+ c1- S c2+ 04+ 11+ 01-", NONE),
    case("Assign, the second byte differs", NONE, "S c2+ 04+ 11+ 81+ 03- 03- P", NONE),
    case("Assign, the ninth byte differs", NONE, "S c2+ 04+ 11+ 81+ 02+ 03+ 04+ 05+ 06+ 07+ 08+ 0a- 0a- P", NONE),
    case(
        "Assign, the last byte differs",
        NONE,
        "S c2+ 04+ 11+ 81+ 02+ 03+ 04+ 05+ 06+ 07+ 08+ 09+ 0a+ 0b+ 0c+ 0d+ 0e+ 0f+ 11- 42- 0e- 1b- P",
        NONE,
    ),
    case(
        "nothing is supplied inside an Assign, and it goes on",
        NONE,
        "S c2+ 04+ >.. 11+ >.. 81+ 02+ 03+ 04+ 05+ 06+ 07+ 08+ 09+ 0a+ 0b+ 0c+ 0d+ 0e+ 0f+ 10+ >.. 42+ 1b+ P",
        RESOLVED_21,
    ),
    case(
        "a START inside an Assign ends it",
        NONE,
        "S c2+ 04+ 11+ 81+ 02+ 03+ 04+ 05+ 06+ 07+ 08+ S 09- S c2+ 04+ 11+ 81+ 02+",
        NONE,
    ),
    case(
        "Assign to a persistent one, which keeps it at a reset",
        KEEPS_NONE,
        "S c2+ 04+ 11+ 41+ 02+ 03+ 04+ 05+ 06+ 07+ 08+ 09+ 0a+ 0b+ 0c+ 0d+ 0e+ 0f+ 10+ 42+ 87+ P S c2+ 02+ c9+ P",
        KEEPS_21,
    ),
    case(
        "Assign to a fixed one, which takes it",
        FIXED,
        "S c2+ 04+ 11+ 01+ 02+ 03+ 04+ 05+ 06+ 07+ 08+ 09+ 0a+ 0b+ 0c+ 0d+ 0e+ 0f+ 10+ 42+ 0e+ P S c2+ 40- S c2+ 42+",
        FIXED_21,
    ),
    case(
        "and has its own again after a reset",
        FIXED,
        "S c2+ 04+ 11+ 01+ 02+ 03+ 04+ 05+ 06+ 07+ 08+ 09+ 0a+ 0b+ 0c+ 0d+ 0e+ 0f+ 10+ 42+ 0e+ P \
S c2+ 42+ 0e+ P S c2+ 42-",
        FIXED,
    ),
    case(
        "Assign to a random one, by the UDID that it has after a reset",
        RANDOM_21,
        "S c2+ 02+ c9+ P S c2+ 04+ 11+ c1+ 02+ 03+ 04+ 05+ 06+ 07+ 08+ 09+ 0a+ 0b+ 0c+ 0d- P \
S c2+ 04+ 11+ c1+ 02+ 03+ 04+ 05+ 06+ 07+ 08+ 09+ 0a+ 0b+ 0c+ de+ ad+ be+ ef+ 42+ ca+ P",
        RENEWED_21,
    ),
];

/// Reads.
const SENT: [Case; 14] = [
    case(
        "a whole reply, then released",
        NONE,
        "S c2+ 03+ S c3+ >11 >81 >02 >03 >04 >05 >06 >07 >08 >09 >0a >0b >0c >0d >0e >0f >10 >ff >5e >.. >.. P >..",
        NONE,
    ),
    case(
        "with its address",
        AT_20,
        "S c2+ 03+ S c3+ >11 >81 >02 >03 >04 >05 >06 >07 >08 >09 >0a >0b >0c >0d >0e >0f >10 >41 >6d >.. P",
        AT_20,
    ),
    case(
        "directed, resolved: the PEC is over another command",
        RESOLVED,
        "S c2+ 41+ S c3+ >11 >81 >02 >03 >04 >05 >06 >07 >08 >09 >0a >0b >0c >0d >0e >0f >10 >41 >04 >.. P",
        RESOLVED,
    ),
    case(
        "directed, not resolved, at the lowest that it reaches",
        "8102030405060708090a0b0c0d0e0f10 21 0",
        "S c2+ 21+ S c3+ >11 >81 >02 >03 >04 >05 >06 >07 >08 >09 >0a >0b >0c >0d >0e >0f >10 >21 >89 >.. P",
        "8102030405060708090a0b0c0d0e0f10 21 0",
    ),
    case(
        "directed, at the highest that it reaches",
        "8102030405060708090a0b0c0d0e0f10 fd 1",
        "S c2+ fd+ S c3+ >11 >81 >02 >03 >04 >05 >06 >07 >08 >09 >0a >0b >0c >0d >0e >0f >10 >fd >d9 >.. P \
S c2+ fc+ 3d+",
        NONE,
    ),
    case("below the lowest", AT_0F, "S c2+ 1f- S c2+ 1e- 9d-", AT_0F),
    case("the reply begins anew", NONE, "S c2+ 03+ S c3+ >11 >81 >02 S c2+ 03+ S c3+ >11 >81 >02 >03", NONE),
    case("lost at once", NONE, "S c2+ 03+ S c3+ >11 L >.. c2- >.. P >..", NONE),
    case("lost, until a repeated START", AT_20, "S c2+ 03+ S c3+ >11 >81 L >.. 41- S c2+ 41+ S c3+ >11", AT_20),
    case("lost outside of a read", RESOLVED, "S c2+ 01+ L c0- S c2+ L 01- >.. P", RESOLVED),
    case("a byte in the middle of a read", NONE, "S c2+ 03+ S c3+ >11 81- >.. S c3-", NONE),
    case("the first byte of the reply sent to it", NONE, "S c2+ 03+ S c3+ 11- >..", NONE),
    case(
        "a fixed one with what was assigned",
        FIXED,
        "S c2+ 04+ 11+ 01+ 02+ 03+ 04+ 05+ 06+ 07+ 08+ 09+ 0a+ 0b+ 0c+ 0d+ 0e+ 0f+ 10+ 42+ 0e+ P \
S c2+ 03+ S c3- P S c2+ 43+ S c3+ >11 >01 >02 >03 >04 >05 >06 >07 >08 >09 >0a >0b >0c >0d >0e >0f >10 >43 >47 >.. P \
S c2+ 01+ c0+ P S c2+ 03+ S c3+ >11 >01 >02 >03 >04 >05 >06 >07 >08 >09 >0a >0b >0c >0d >0e >0f >10 >43 >76 >.. P",
        "0102030405060708090a0b0c0d0e0f10 43 0",
    ),
    case(
        "a random one with its new bytes",
        RANDOM_21,
        "S c2+ 42+ 0e+ P \
S c2+ 03+ S c3+ >11 >c1 >02 >03 >04 >05 >06 >07 >08 >09 >0a >0b >0c >de >ad >be >ef >ff >8f >.. P",
        RENEWED,
    ),
];

/// All cases.
pub fn all() -> impl Iterator<Item = &'static Case> {
    PLACES.iter().chain(&SHORT).chain(&ASSIGNED).chain(&SENT)
}

/// The UDID, the address byte and the flag of a record in words.
pub fn parts_of(words: &str) -> (Udid, u8, u8) {
    let words: Vec<&str> = words.split(' ').collect();
    let bytes = |word: &str| unhex(word).expect("hexadecimal digits");
    (udid_of(&bytes(words[0])), bytes(words[1])[0], words[2].parse().expect("a flag"))
}

/// A record in words.
pub fn words_of(target: &Target) -> String {
    let record = record_of(target);
    format!("{} {} {}", hex(&record[..16]), hex(&record[16..17]), record[17])
}

/// What happens at a word.
pub fn event_of(word: &str) -> Event {
    match word {
        "S" => Event::Start,
        "P" => Event::Stop,
        "L" => Event::Lost,
        _ if word.starts_with('>') => Event::Supply,
        _ => Event::Byte(u8::from_str_radix(&word[..2], 16).expect("a byte")),
    }
}

/// The same event in words, with what the module does.
fn done(module: &mut impl Renewable, word: &str) -> String {
    let event = event_of(word);
    match (event, event.happen(module)) {
        (Event::Byte(byte), Reaction::Acknowledged(true)) => format!("{byte:02x}+"),
        (Event::Byte(byte), _) => format!("{byte:02x}-"),
        (_, Reaction::Supplied(Some(byte))) => format!(">{byte:02x}"),
        (_, Reaction::Supplied(None)) => ">..".to_string(),
        _ => word.to_string(),
    }
}

impl Case {
    /// The case on a module that was made of its record: how many events it has.
    pub fn run(&self, module: &mut impl Renewable) -> usize {
        let mut given = vec![];
        for word in self.events.split(' ') {
            given.push(done(module, word));
            assert_eq!(given.last().map(String::as_str), Some(word), "{}: {}", self.name, given.join(" "));
        }
        assert_eq!(words_of(&module.record()), self.after, "{}", self.name);
        given.len()
    }
}
