//! Traces whose bits were changed on the way: what a change hits, whether the shape stays, and what answer is due.

use crate::codec_abi::{encode, Lent};
use crate::decoding::case;
use crate::family::Family;
use reference::decode::Answer;
use reference::numbers::WRONG_SYMBOL;
use reference::random::Random;
use reference::samples::transaction;
use reference::table::*;
use reference::text::trace_text;
use std::collections::BTreeSet;

/// What a byte of a message is. The PEC goes with the data.
#[derive(Clone, Copy, PartialEq, Eq, PartialOrd, Ord)]
pub enum Kind {
    Data,
    Command,
    Address,
    Count,
}

use Kind::*;

/// What each byte of a message with PEC is, row by row.
pub fn kinds(protocol: u8, sizes: (usize, usize)) -> Vec<Kind> {
    let (sent, received) = (vec![Data; sizes.0], vec![Data; sizes.1]);
    let before_pec = match protocol {
        1 => [vec![Address], sent].concat(),
        2 => [vec![Address], received].concat(),
        3 | 4 => [vec![Address, Command], sent].concat(),
        5 | 6 => [vec![Address, Command, Address], received].concat(),
        7 => [vec![Address, Command], sent, vec![Address], received].concat(),
        8 => [vec![Address, Command, Count], sent].concat(),
        9 => [vec![Address, Command, Address, Count], received].concat(),
        _ => [vec![Address, Command, Count], sent, vec![Address, Count], received].concat(),
    };
    [before_pec, vec![Data]].concat()
}

/// What is due, as `said` has it: the shape stays and the change is caught, or it is not; the shape does not stay.
const WRONG_PEC: &str = "7 at PEC's place";
const OTHER_MESSAGE: &str = "another whole message";
const WRONG_PLACE: &str = "a wrong symbol";

/// What the answer to a trace says.
fn said(answer: &Answer, trace: &[u16]) -> &'static str {
    match answer {
        Answer::Refused { number: 7, value } if *value == trace.len() - 3 => WRONG_PEC,
        Answer::Refused { number, .. } if WRONG_SYMBOL.contains(number) => WRONG_PLACE,
        Answer::Done(t) if build(t).is_ok_and(|whole| whole == trace) => OTHER_MESSAGE,
        _ => "something else",
    }
}

/// A transaction with its trace, as the library encodes it.
pub struct Sample {
    pub t: Transaction,
    pub trace: Vec<u16>,
    pub kinds: Vec<Kind>,
}

impl Sample {
    /// A random transaction. The trace is the reference's too.
    pub fn new(random: &mut Random, protocol: u8, sizes: (usize, usize)) -> Sample {
        let t = transaction(random, protocol, true, sizes);
        let mut out = Lent::new(2 * LONGEST_TRACE);
        let written = encode(&t, false, &mut out);
        let (trace, kinds) = (out.symbols(written.symbols), kinds(protocol, sizes));
        assert_eq!(build(&t).as_ref(), Ok(&trace), "{t:?}");
        assert_eq!(kinds.len(), bytes_of(&trace).len(), "{t:?}");
        Sample { t, trace, kinds }
    }

    /// The bits of all its bytes.
    pub fn bits(&self) -> usize {
        8 * self.kinds.len()
    }

    /// The trace after a change to its bytes. START, STOP, ACK and NACK stay.
    fn changed(&self, change: &[usize]) -> Vec<u16> {
        let places: Vec<usize> = (0..self.trace.len()).filter(|&place| self.trace[place] < 256).collect();
        let mut other = self.trace.clone();
        for bit in change {
            other[places[bit / 8]] ^= 128 >> (bit % 8);
        }
        other
    }

    /// What the change hits: a count, else an address, else the command, else only data and PEC.
    pub fn hit(&self, change: &[usize]) -> Kind {
        change.iter().map(|bit| self.kinds[bit / 8]).max().expect("a change turns a bit over")
    }

    /// Does the trace still have the shape of its protocol? It does if no count is changed and no direction, and if two
    /// address bytes are changed alike.
    fn keeps_shape(&self, other: &[u16]) -> bool {
        let both = bytes_of(&self.trace).into_iter().zip(bytes_of(other));
        let turned: Vec<(Kind, u8)> = self.kinds.iter().copied().zip(both.map(|(one, two)| one ^ two)).collect();
        let of_kind = |wanted| turned.iter().filter(move |(kind, _)| *kind == wanted).map(|&(_, bits)| bits);
        let addresses: BTreeSet<u8> = of_kind(Address).collect();
        of_kind(Count).all(|bits| bits == 0) && addresses.len() == 1 && addresses.iter().all(|bits| bits % 2 == 0)
    }

    /// One change: the library answers as the reference does. If the shape stays, a change that is caught is answered with 7
    /// at PEC's place, and one that is not is another whole message. Else a symbol is wrong.
    pub fn tried(&self, family: &mut Family, change: &[usize], is_caught: bool) -> Answer {
        let other = self.changed(change);
        let answer = case(family, self.t.protocol, true, &other);
        let due = match self.keeps_shape(&other) {
            true if is_caught => WRONG_PEC,
            true => OTHER_MESSAGE,
            false => WRONG_PLACE,
        };
        let input = || format!("{} changed at {change:?}: {answer:?}", trace_text(&self.trace));
        assert_eq!(due, said(&answer, &other), "{}", input());
        answer
    }
}
