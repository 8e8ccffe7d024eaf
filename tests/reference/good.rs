//! Right answers to the commands of a controller.

use crate::commands::*;
use crate::mistakes::{nacked_at, trace_of};
use crate::recorder::Recorder;

/// Starts a pass, and somebody acknowledges Prepare.
pub fn begin(recorder: &mut Recorder) -> Command {
    recorder.start();
    recorder.step(trace_of(&prepare()))
}

pub fn reply_trace(udid: &Udid, address_byte: u8) -> Vec<u16> {
    trace_of(&get_udid(&reply_bytes(udid, address_byte)))
}

pub fn reply(recorder: &mut Recorder, udid: &Udid, address_byte: u8) -> Command {
    recorder.step(reply_trace(udid, address_byte))
}

/// Acknowledges the Assign Address that is outstanding, if one is.
pub fn accept(recorder: &mut Recorder) -> Command {
    match recorder.outstanding() {
        Command::Assign(udid, address) => recorder.step(trace_of(&assign(&udid, address))),
        other => other,
    }
}

/// Nobody acknowledges the last byte of the Assign Address that is outstanding, if one is.
pub fn refuse(recorder: &mut Recorder) -> Command {
    match recorder.outstanding() {
        Command::Assign(udid, address) => recorder.step(nacked_at(&trace_of(&assign(&udid, address)), 20)),
        other => other,
    }
}

/// A target replies and takes what it is given.
pub fn join(recorder: &mut Recorder, udid: &Udid, address_byte: u8) -> Command {
    reply(recorder, udid, address_byte);
    accept(recorder)
}

/// All are resolved: the read address gets NACK.
pub fn all_resolved() -> Vec<u16> {
    nacked_at(&trace_of(&get_udid(&[])), 2)
}

/// The last Get UDID, and all addresses looked up.
pub fn finish(recorder: &mut Recorder) {
    recorder.step(all_resolved());
    recorder.lookups();
}
