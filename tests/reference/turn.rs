//! One operation of a script, with what can be worked out from it.

use reference::commands::*;
use reference::controller::Controller;
use reference::decode::{decode, Answer};
use reference::recorder::{Due, Op};
use reference::table::{BLOCK_READ, BLOCK_WRITE, SEND_BYTE};

/// The controller before an operation and after it, and the answer.
pub struct Turn<'a> {
    pub before: &'a Controller,
    pub op: &'a Op,
    pub due: &'a Due,
    pub after: &'a Controller,
    /// Of a trace that answers a command: its protocol, and what the decoder makes of the trace.
    pub decoded: Option<(u8, Answer)>,
    /// Of a trace after which there is an Assign or a choice: how it came to the address.
    pub choice: Option<Choice>,
}

#[derive(Clone, Copy, Debug, PartialEq, Eq, PartialOrd, Ord)]
pub enum Choice {
    Fixed,
    Kept,
    Picked,
}

impl<'a> Turn<'a> {
    pub fn new(before: &'a Controller, op: &'a Op, due: &'a Due, after: &'a Controller) -> Turn<'a> {
        let decoded = decoded(before, op);
        let choice = choice(before, after, &decoded);
        Turn { before, op, due, after, decoded, choice }
    }
}

fn decoded(before: &Controller, op: &Op) -> Option<(u8, Answer)> {
    let protocol = match before.last {
        Command::Prepare => SEND_BYTE,
        Command::GetUdid => BLOCK_READ,
        Command::Assign(..) => BLOCK_WRITE,
        _ => return None,
    };
    Some((protocol, decode(protocol, true, op.trace()?, 255, 255)))
}

/// A picked address is never the one that the reply has: that is in use, or FFh, for 7Fh, which is reserved.
fn choice(before: &Controller, after: &Controller, decoded: &Option<(u8, Answer)>) -> Option<Choice> {
    let (Command::GetUdid, Some((udid, address))) = (before.last, after.last.gives()) else {
        return None;
    };
    let Some((_, Answer::Done(reply))) = decoded else {
        return None;
    };
    Some(match reply.received[16] / 2 == address {
        true if is_fixed(&udid) => Choice::Fixed,
        true => Choice::Kept,
        false => Choice::Picked,
    })
}
