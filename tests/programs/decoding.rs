//! Families of cases for the decoder.

use crate::codec_abi::{decode, Content, Decoded, Lent};
use crate::family::Family;
use reference::damage::*;
use reference::decode::{decode as reference_decode, Answer};
use reference::numbers::{Tally, WRONG_SYMBOL};
use reference::random::Random;
use reference::samples::{combinations, notable_sizes, random_sizes, transaction};
use reference::stored;
use reference::table::*;
use reference::text::{pec_use, trace_text};

/// What the reference answers, and what it writes to the two buffers.
fn due(answer: Answer) -> (Decoded, Vec<u8>, Vec<u8>) {
    match answer {
        Answer::Refused { number, value } => (Decoded { answer: number, value, ..Decoded::default() }, vec![], vec![]),
        Answer::Done(t) => {
            let decoded = Decoded {
                answer: 0,
                value: 0,
                address: u32::from(t.address),
                direction: u32::from(t.direction),
                command: u32::from(t.command),
                sent: t.sent.len(),
                received: t.received.len(),
            };
            (decoded, t.sent, t.received)
        }
    }
}

/// One call: the answer, and both buffers with their margins. The answer due is handed back.
fn case_in(family: &mut Family, protocol: u8, with_pec: bool, trace: &[u16], rooms: (usize, usize)) -> Answer {
    let answer = reference_decode(protocol, with_pec, trace, rooms.0, rooms.1);
    let (decoded, sent, received) = due(answer.clone());
    let (mut sent_lent, mut received_lent) = (Lent::new(rooms.0), Lent::new(rooms.1));
    let given = decode(protocol, with_pec, trace, &mut sent_lent, &mut received_lent);
    let due = (decoded, Content::due(rooms.0, &sent), Content::due(rooms.1, &received));
    let input = || format!("{protocol} {} | {} | rooms {rooms:?}", pec_use(with_pec), trace_text(trace));
    family.same(input, &due, &(given, sent_lent.content(), received_lent.content()));
    answer
}

/// One call with room for any data.
pub fn case(family: &mut Family, protocol: u8, with_pec: bool, trace: &[u16]) -> Answer {
    case_in(family, protocol, with_pec, trace, (255, 255))
}

/// How many traces were answered with each number.
pub fn print_numbers(reached: &Tally) {
    println!("{:<28}{:?}", "  answers by number", reached.totals());
}

/// The count of a family that has to reach every number for a wrong symbol.
fn done(family: Family, reached: &Tally) -> usize {
    let cases = family.done();
    print_numbers(reached);
    for number in WRONG_SYMBOL {
        assert!(reached.totals().get(&number).is_some_and(|&times| times >= 20), "too few answers {number}");
    }
    cases
}

fn sample(random: &mut Random, protocol: u8, with_pec: bool, sizes: (usize, usize)) -> Vec<u16> {
    build(&transaction(random, protocol, with_pec, sizes)).expect("samples are valid")
}

/// The stored traces, and the answers written by hand, which the reference has to give too.
fn stored_vectors(folder: &str) -> usize {
    let mut family = Family::new("decode stored");
    for (t, trace) in stored::trace_vectors(folder) {
        let answer = reference_decode(t.protocol, t.pec, &trace, 255, 255);
        family.same(|| trace_text(&trace), &Answer::Done(t.clone()), &answer);
        case(&mut family, t.protocol, t.pec, &trace);
    }
    for v in stored::answer_vectors(folder) {
        let answer = reference_decode(v.protocol, v.pec, &v.trace, 255, 255);
        family.same(|| trace_text(&v.trace), &v.answer, &answer);
        case(&mut family, v.protocol, v.pec, &v.trace);
    }
    family.done()
}

fn random_valid() -> usize {
    let mut family = Family::new("decode random");
    let mut random = Random::new(50);
    for (protocol, with_pec) in combinations() {
        for _ in 0..600 {
            let sizes = random_sizes(&mut random, protocol, BLOCK_LIMIT);
            let trace = sample(&mut random, protocol, with_pec, sizes);
            case(&mut family, protocol, with_pec, &trace);
        }
    }
    family.done()
}

struct Damages {
    replaced: Family,
    moved: Family,
    cut: Family,
    nacked: Family,
    appended: Family,
    misled: Family,
    reached: Tally,
}

impl Damages {
    /// Every damage at the places given.
    fn try_at(&mut self, protocol: u8, with_pec: bool, trace: &[u16], places: &[usize]) {
        let reached = &mut self.reached;
        let mut each = |family: &mut Family, traces: Vec<Vec<u16>>| {
            for damaged in traces {
                reached.add(protocol, with_pec, &case(family, protocol, with_pec, &damaged));
            }
        };
        for &place in places {
            each(&mut self.replaced, replaced(trace, place));
            each(&mut self.moved, moved(trace, place));
            each(&mut self.cut, cut(trace, place));
            each(&mut self.nacked, nacked(trace, place));
        }
        each(&mut self.appended, appended(trace));
        each(&mut self.misled, [readdressed(trace), recounted(trace), reanswered(trace)].concat());
    }
}

/// Traces of every protocol and notable size, small ones with random sizes, and the longest at every place.
fn damaged() -> usize {
    let mut random = Random::new(51);
    let mut damages = Damages {
        replaced: Family::new("decode replaced"),
        moved: Family::new("decode dropped and doubled"),
        cut: Family::new("decode cut"),
        nacked: Family::new("decode nacked"),
        appended: Family::new("decode appended"),
        misled: Family::new("decode misled"),
        reached: Tally::default(),
    };
    for (protocol, with_pec) in combinations() {
        let mut all_sizes = notable_sizes(protocol);
        all_sizes.extend((0..16).map(|_| random_sizes(&mut random, protocol, 6)));
        for sizes in all_sizes {
            let trace = sample(&mut random, protocol, with_pec, sizes);
            let some = places(&mut random, trace.len());
            damages.try_at(protocol, with_pec, &trace, &some);
        }
    }
    for (protocol, sizes) in [(8, (255, 0)), (9, (0, 255)), (10, (100, 155))] {
        let trace = sample(&mut random, protocol, true, sizes);
        let every: Vec<usize> = (0..trace.len()).collect();
        damages.try_at(protocol, true, &trace, &every);
    }
    let Damages { replaced, moved, cut, nacked, appended, misled, reached } = damages;
    let cases = replaced.done() + moved.done() + cut.done() + nacked.done() + appended.done() + misled.done();
    print_numbers(&reached);
    reached.check("decode damages", &combinations(), 20);
    cases
}

/// Every number at a place, symbol or not, the trace whole and cut after it. The answers to the cut ones are counted.
fn every_number(family: &mut Family, reached: &mut Tally, told: (u8, bool), trace: &[u16], place: usize) {
    for number in 0..=261 {
        let mut damaged = trace.to_vec();
        damaged[place] = number;
        case(family, told.0, told.1, &damaged);
        reached.add(told.0, told.1, &case(family, told.0, told.1, &damaged[..=place]));
    }
}

/// Every number for each address byte. Half of the bytes have the wrong direction for the first, outside Quick.
/// All but one are wrong for a repeated one.
fn address_bytes() -> usize {
    let mut family = Family::new("decode address bytes");
    let mut random = Random::new(58);
    let mut reached = Tally::default();
    let (mut first, mut repeated) = (0, 0);
    for told in combinations() {
        let sizes = random_sizes(&mut random, told.0, 5);
        let trace = sample(&mut random, told.0, told.1, sizes);
        for place in bytes_after_start(&trace, 1) {
            every_number(&mut family, &mut reached, told, &trace, place);
            first += usize::from(place == 1 && told.0 != QUICK);
            repeated += usize::from(place > 1);
        }
    }
    let totals = reached.totals();
    assert_eq!((first, repeated), (20, 10));
    assert_eq!((totals[&5], totals[&18]), (4 * (1 + first + repeated), 128 * first + 255 * repeated));
    family.done()
}

/// Every number for the received count of a Block Process Call. As many bytes are too high as were sent.
fn received_counts() -> usize {
    const SENT: [usize; 10] = [0, 1, 2, 31, 32, 127, 128, 200, 254, 255];
    let mut family = Family::new("decode received counts");
    let mut random = Random::new(59);
    let mut reached = Tally::default();
    for with_pec in [false, true] {
        for m in SENT {
            let trace = sample(&mut random, BLOCK_PROCESS_CALL, with_pec, (m, BLOCK_LIMIT - m));
            every_number(&mut family, &mut reached, (BLOCK_PROCESS_CALL, with_pec), &trace, 10 + 2 * m);
        }
    }
    let totals = reached.totals();
    assert_eq!((totals[&5], totals[&19]), (2 * 4 * SENT.len(), 2 * SENT.iter().sum::<usize>()));
    family.done()
}

/// Every other PEC; with the end cut, more after STOP, and the PEC not acknowledged.
fn wrong_pecs() -> usize {
    let mut family = Family::new("decode wrong pecs");
    let mut random = Random::new(52);
    for (protocol, _) in combinations().into_iter().filter(|&(_, with_pec)| with_pec) {
        for limit in [0, 3, 40, BLOCK_LIMIT] {
            let sizes = random_sizes(&mut random, protocol, limit);
            let mut trace = sample(&mut random, protocol, true, sizes);
            let pec_place = trace.len() - 3;
            for pec in 0..256 {
                trace[pec_place] = pec;
                case(&mut family, protocol, true, &trace);
                for tail in [&[NACK][..], &[NACK, STOP], &[ACK, STOP], &[NACK, STOP, 0], &[ACK, STOP, 260]] {
                    case(&mut family, protocol, true, &[&trace[..=pec_place], tail].concat());
                }
            }
        }
    }
    family.done()
}

/// One bit of one byte turned, everything else right.
fn turned_bits() -> usize {
    let mut family = Family::new("decode turned bits");
    let mut random = Random::new(53);
    for (protocol, with_pec) in combinations() {
        for limit in (0..40).chain([BLOCK_LIMIT]) {
            let sizes = random_sizes(&mut random, protocol, limit);
            let trace = sample(&mut random, protocol, with_pec, sizes);
            for place in (0..trace.len()).filter(|&place| trace[place] < 256) {
                let mut damaged = trace.clone();
                damaged[place] ^= 1 << random.below(8);
                case(&mut family, protocol, with_pec, &damaged);
            }
        }
    }
    family.done()
}

/// Each stored trace told as every protocol and PEC use, and some as every number.
fn wrongly_told(folder: &str) -> usize {
    let mut family = Family::new("decode wrongly told");
    for (k, (_, trace)) in stored::trace_vectors(folder).iter().enumerate() {
        let highest = if k % 60 == 0 { 255 } else { PROTOCOLS };
        for protocol in 0..=highest {
            case(&mut family, protocol, false, trace);
            case(&mut family, protocol, true, trace);
        }
    }
    family.done()
}

/// Two blocks whose counts add up to 254 up to 257, split in every way: the trace whole, and cut after the count.
fn count_sums() -> usize {
    let mut family = Family::new("decode count sums");
    let mut random = Random::new(54);
    for with_pec in [false, true] {
        for m in 0..=BLOCK_LIMIT {
            let trace = sample(&mut random, BLOCK_PROCESS_CALL, with_pec, (m, BLOCK_LIMIT - m));
            let count_place = 10 + 2 * m;
            for n in [254, 255, 256, 257].map(|sum: usize| sum.saturating_sub(m)).into_iter().chain([255]) {
                if n > 255 {
                    continue;
                }
                let mut other = trace.clone();
                other[count_place] = n as u16;
                case(&mut family, BLOCK_PROCESS_CALL, with_pec, &other);
                other.splice(count_place + 2..count_place + 2, [9, ACK]);
                case(&mut family, BLOCK_PROCESS_CALL, with_pec, &other);
                for end in [count_place + 1, count_place + 2] {
                    case(&mut family, BLOCK_PROCESS_CALL, with_pec, &other[..end]);
                }
            }
        }
    }
    family.done()
}

/// A number at random: any, any that is a symbol or just above, or a byte and an ACK by turns.
fn rubbish_symbol(random: &mut Random, kind: usize, place: usize) -> u16 {
    match kind {
        0 => random.draw() as u16,
        1 => random.below(264) as u16,
        2 => random.pick(&[0, 1, 2, 255, START, STOP, ACK, NACK, 260]),
        _ if place % 2 == 0 => random.pick(&[ACK, ACK, ACK, ACK, ACK, START, NACK]),
        _ => random.below(4) as u16,
    }
}

/// How much of a trace is kept before rubbish: nothing, all up to an address byte or the byte after one, or any part.
fn kept(random: &mut Random, trace: &[u16], kind: usize) -> usize {
    match kind {
        0 => 0,
        1 => random.pick(&[bytes_after_start(trace, 1), bytes_after_start(trace, 3)].concat()),
        _ => random.below(trace.len() + 1),
    }
}

/// Rubbish of up to 2,000 symbols, by itself or after a beginning that fits.
fn rubbish() -> usize {
    let mut family = Family::new("decode rubbish");
    let mut random = Random::new(55);
    let mut reached = Tally::default();
    for (protocol, with_pec) in combinations() {
        for round in 0..4800 {
            let sizes = random_sizes(&mut random, protocol, if round % 7 == 0 { BLOCK_LIMIT } else { 5 });
            let mut trace = sample(&mut random, protocol, with_pec, sizes);
            trace.truncate(kept(&mut random, &trace, round % 3));
            let more = random.below(if round % 50 == 0 { 2000 } else { 24 });
            for place in 0..more {
                trace.push(rubbish_symbol(&mut random, round % 4, place));
            }
            reached.add(protocol, with_pec, &case(&mut family, protocol, with_pec, &trace));
        }
    }
    done(family, &reached)
}

/// From a beginning that fits: each symbol of a few after it, and on from there where it still fits.
/// The highest byte is among them for an address byte and for the byte after one, which may be a count.
fn walk(family: &mut Family, reached: &mut Tally, told: (u8, bool), trace: &mut Vec<u16>, limit: usize) {
    let answer = case(family, told.0, told.1, trace);
    reached.add(told.0, told.1, &answer);
    if trace.len() == limit || answer.number() != 4 {
        return;
    }
    let start_before = |distance| trace.len() >= distance && trace[trace.len() - distance] == START;
    let highest = (start_before(1) || start_before(3)).then_some(255);
    for symbol in [0, 1, 254, START, STOP, ACK, NACK, 260].into_iter().chain(highest) {
        trace.push(symbol);
        walk(family, reached, told, trace, limit);
        trace.pop();
    }
}

fn short_traces() -> usize {
    let mut family = Family::new("decode all short traces");
    let mut reached = Tally::default();
    for (protocol, with_pec) in combinations() {
        let limit = if protocol < BLOCK_WRITE { 20 } else { 18 };
        walk(&mut family, &mut reached, (protocol, with_pec), &mut vec![], limit);
    }
    done(family, &reached)
}

/// So many symbols more that the length does not go into 16 bits.
fn very_long() -> usize {
    let mut family = Family::new("decode very long");
    let mut random = Random::new(57);
    for (protocol, with_pec) in combinations() {
        let sizes = random_sizes(&mut random, protocol, 10);
        let trace = sample(&mut random, protocol, with_pec, sizes);
        for (kept, symbol) in [(trace.len(), 0), (trace.len(), 65_535), (trace.len() - 1, STOP), (0, START), (0, ACK)] {
            case(&mut family, protocol, with_pec, &[&trace[..kept], &[symbol; 65_536]].concat());
        }
    }
    family.done()
}

/// Buffers too small, just large enough and larger, for traces that decode and that do not.
fn buffers() -> usize {
    const ROOMS: [usize; 9] = [0, 1, 254, 255, 256, 300, 511, 512, 65_536];
    let mut family = Family::new("decode buffers");
    let mut random = Random::new(56);
    for protocol in 0..=12 {
        for with_pec in [false, true] {
            let told = if known(protocol, with_pec) { (protocol, with_pec) } else { (BLOCK_PROCESS_CALL, true) };
            for limit in [0, 2, BLOCK_LIMIT] {
                let sizes = random_sizes(&mut random, told.0, limit);
                let trace = sample(&mut random, told.0, told.1, sizes);
                let mut damaged = trace.clone();
                damaged[trace.len() - 2] = 300;
                for rooms in ROOMS.into_iter().flat_map(|sent| ROOMS.map(|received| (sent, received))) {
                    for tried in [&trace[..], &damaged, &trace[..trace.len() - 1], &[]] {
                        case_in(&mut family, protocol, with_pec, tried, rooms);
                    }
                }
            }
        }
    }
    family.done()
}

pub fn all(folder: &str) -> usize {
    let whole = stored_vectors(folder) + random_valid();
    let broken = damaged() + wrong_pecs() + turned_bits() + count_sums();
    let wrong = address_bytes() + received_counts();
    whole + broken + wrong + wrongly_told(folder) + rubbish() + short_traces() + very_long() + buffers()
}
