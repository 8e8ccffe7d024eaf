//! Families of cases for the encoder.

use crate::codec_abi::{encode, pairs, Content, Lent, Written};
use crate::family::Family;
use reference::random::Random;
use reference::samples::{combinations, notable_sizes, random_sizes, transaction};
use reference::stored;
use reference::table::{build, Transaction, BLOCK_LIMIT, LONGEST_TRACE};
use reference::text::transaction_text;

const AMPLE: usize = 2 * LONGEST_TRACE + 40;

/// The reference's answer and what it writes, for an output of that many bytes.
fn due(t: &Transaction, room: usize) -> (Written, Vec<u8>) {
    match build(t) {
        Err(_) => (Written { answer: 1, symbols: 0 }, vec![]),
        Ok(trace) if room / 2 < trace.len() => (Written { answer: 2, symbols: 0 }, vec![]),
        Ok(trace) => (Written { answer: 0, symbols: trace.len() as u32 }, pairs(&trace)),
    }
}

/// One call: the answer, the trace, and everything around it as it was.
fn case_with(family: &mut Family, t: &Transaction, room: usize, null_if_empty: bool) {
    let (answer, front) = due(t, room);
    let mut out = Lent::new(room);
    let given = encode(t, null_if_empty, &mut out);
    let input = || format!("{} into {room} bytes", transaction_text(t));
    family.same(input, &(answer, Content::due(room, &front)), &(given, out.content()));
}

fn case(family: &mut Family, t: &Transaction, room: usize) {
    case_with(family, t, room, false);
}

fn stored_vectors(folder: &str) -> usize {
    let mut family = Family::new("encode stored");
    for (t, trace) in stored::trace_vectors(folder) {
        family.same(|| transaction_text(&t), &Ok(trace.clone()), &build(&t));
        case(&mut family, &t, 2 * trace.len());
    }
    family.done()
}

/// Random transactions with ample room.
fn random_valid() -> usize {
    let mut family = Family::new("encode random");
    let mut random = Random::new(40);
    for (protocol, with_pec) in combinations() {
        for _ in 0..600 {
            let sizes = random_sizes(&mut random, protocol, BLOCK_LIMIT);
            case(&mut family, &transaction(&mut random, protocol, with_pec, sizes), AMPLE);
        }
    }
    family.done()
}

/// Room for the trace exactly, for less and for more, odd numbers of bytes included.
fn rooms() -> usize {
    let mut family = Family::new("encode rooms");
    let mut random = Random::new(41);
    for (protocol, with_pec) in combinations() {
        for sizes in notable_sizes(protocol) {
            let t = transaction(&mut random, protocol, with_pec, sizes);
            let exact = 2 * build(&t).expect("samples are valid").len();
            let near = [exact, exact - 1, exact - 2, exact - 3, exact + 1, exact + 2, exact + 64];
            for room in near.into_iter().chain([exact / 2, 2, 1, 0, 131_072, 131_074]) {
                case(&mut family, &t, room);
            }
        }
    }
    family.done()
}

/// Every protocol number.
fn protocol_numbers() -> usize {
    let mut family = Family::new("encode protocol numbers");
    let mut random = Random::new(42);
    for protocol in 0..=255 {
        for with_pec in [false, true] {
            for sizes in [(0, 0), (1, 0), (0, 1), (2, 0), (0, 2), (2, 2), (1, 1), (4, 0), (0, 4), (8, 0), (0, 8)] {
                let mut t = transaction(&mut random, 0, with_pec, sizes);
                t.protocol = protocol;
                t.direction = 0;
                case(&mut family, &t, AMPLE);
                t.command = random.byte();
                case(&mut family, &t, AMPLE);
                case(&mut family, &t, 0);
            }
        }
    }
    family.done()
}

/// Every value of address, direction and command, each by itself, and two wrong ones together.
fn fields() -> usize {
    let mut family = Family::new("encode fields");
    let mut random = Random::new(43);
    for (protocol, with_pec) in combinations() {
        let sizes = random_sizes(&mut random, protocol, 3);
        let t = transaction(&mut random, protocol, with_pec, sizes);
        for value in 0..=255 {
            case(&mut family, &Transaction { address: value, ..t.clone() }, AMPLE);
            case(&mut family, &Transaction { direction: value, ..t.clone() }, AMPLE);
            case(&mut family, &Transaction { command: value, ..t.clone() }, AMPLE);
            case(&mut family, &Transaction { address: value, command: value, ..t.clone() }, AMPLE);
            case(&mut family, &Transaction { direction: value, ..t.clone() }, 0);
        }
    }
    family.done()
}

/// Data lengths that belong and that do not, for every protocol, Quick with PEC included.
fn lengths() -> usize {
    const LENGTHS: [usize; 19] =
        [0, 1, 2, 3, 4, 31, 32, 33, 254, 255, 256, 257, 258, 300, 511, 512, 65_536, 65_537, 65_538];
    let mut family = Family::new("encode lengths");
    let mut random = Random::new(44);
    for protocol in 0..=12 {
        for with_pec in [false, true] {
            for m in LENGTHS {
                for n in LENGTHS {
                    let t = transaction(&mut random, protocol, with_pec, (m, n));
                    case(&mut family, &t, AMPLE);
                    case(&mut family, &t, 20);
                }
            }
        }
    }
    family.done()
}

/// Two blocks of 254, 255 and 256 bytes together, split in every way.
fn block_sums() -> usize {
    let mut family = Family::new("encode block sums");
    let mut random = Random::new(45);
    for with_pec in [false, true] {
        for sum in [254, 255, 256, 257] {
            for m in 0..=sum {
                case(&mut family, &transaction(&mut random, 10, with_pec, (m, sum - m)), AMPLE);
            }
        }
    }
    family.done()
}

/// No data as a null pointer.
fn null_pointers() -> usize {
    let mut family = Family::new("encode null pointers");
    let mut random = Random::new(46);
    for (protocol, with_pec) in combinations() {
        for sizes in [(0, 0), (1, 0), (0, 1), (2, 0), (0, 2)] {
            case_with(&mut family, &transaction(&mut random, protocol, with_pec, sizes), AMPLE, true);
        }
    }
    family.done()
}

pub fn all(folder: &str) -> usize {
    let valid = stored_vectors(folder) + random_valid() + rooms();
    let refused = protocol_numbers() + fields() + lengths() + block_sums();
    valid + refused + null_pointers()
}
