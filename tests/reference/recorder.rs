//! A script for a controller, with the answers of the reference.

use crate::addresses::*;
use crate::commands::Command;
use crate::controller::{Controller, Found};

#[derive(Clone, Debug)]
pub enum Op {
    /// A new controller, with these addresses occupied and this last pick.
    New(Addresses, u8),
    Start,
    Step(Vec<u16>),
    /// The first half of a step.
    Choose(Vec<u16>),
    /// The second half: the choice that waits is sent.
    Issue,
    /// The choice that waits is not sent.
    Decline,
    /// All 128 addresses, and the last pick.
    Lookups,
    /// The module at this address is reported gone.
    Gone(u8),
}

impl Op {
    /// The trace that it hands to the controller, if it does.
    pub fn trace(&self) -> Option<&[u16]> {
        match self {
            Op::Step(trace) | Op::Choose(trace) => Some(trace),
            _ => None,
        }
    }
}

#[derive(Clone, Debug, PartialEq, Eq)]
pub enum Due {
    Nothing,
    Command(Command),
    Found(Vec<Found>, u8),
    Gone(Found),
}

pub struct Recorder {
    controller: Controller,
    pub entries: Vec<(Op, Due)>,
}

/// What an operation does to a controller, and its answer.
pub fn apply(controller: &mut Controller, op: &Op) -> Due {
    match op {
        Op::New(occupied, last_pick) => {
            *controller = Controller::new(occupied, *last_pick);
            Due::Nothing
        }
        Op::Start => Due::Command(controller.start()),
        Op::Step(trace) => Due::Command(controller.step(trace)),
        Op::Choose(trace) => Due::Command(controller.choose(trace)),
        Op::Issue => Due::Command(controller.issue()),
        Op::Decline => Due::Command(controller.decline()),
        Op::Lookups => {
            let all = (0..ADDRESSES).map(|address| controller.lookup(address)).collect();
            Due::Found(all, controller.last_pick)
        }
        Op::Gone(address) => Due::Gone(controller.gone(*address)),
    }
}

impl Recorder {
    pub fn new(occupied: &Addresses, last_pick: u8) -> Recorder {
        let mut recorder = Recorder { controller: Controller::new(occupied, last_pick), entries: vec![] };
        recorder.renew(occupied, last_pick);
        recorder
    }

    /// An operation, with its answer.
    pub fn record(&mut self, op: Op) {
        let due = apply(&mut self.controller, &op);
        self.entries.push((op, due));
    }

    pub fn renew(&mut self, occupied: &Addresses, last_pick: u8) {
        self.record(Op::New(occupied.clone(), last_pick));
    }

    pub fn start(&mut self) -> Command {
        self.record(Op::Start);
        self.outstanding()
    }

    /// What is outstanding after the step.
    pub fn step(&mut self, trace: Vec<u16>) -> Command {
        self.record(Op::Step(trace));
        self.outstanding()
    }

    /// The first half of a step.
    pub fn choose(&mut self, trace: Vec<u16>) -> Command {
        self.record(Op::Choose(trace));
        self.outstanding()
    }

    /// The choice that waits is sent, if one does.
    pub fn issue(&mut self) -> Command {
        self.record(Op::Issue);
        self.outstanding()
    }

    /// The choice that waits is not sent, if one does.
    pub fn decline(&mut self) -> Command {
        self.record(Op::Decline);
        self.outstanding()
    }

    /// What a step would answer.
    pub fn trial(&self, trace: &[u16]) -> Command {
        self.controller.clone().step(trace)
    }

    pub fn lookups(&mut self) {
        self.record(Op::Lookups);
    }

    /// The module at an address is reported gone.
    pub fn gone(&mut self, address: u8) {
        self.record(Op::Gone(address));
    }

    /// What a lookup would answer.
    pub fn found(&self, address: u8) -> Found {
        self.controller.lookup(address)
    }

    /// The addresses whose lookup would be answered with that number.
    pub fn answered_with(&self, number: u32) -> Vec<u8> {
        (0..ADDRESSES).filter(|&address| self.found(address).number() == number).collect()
    }

    /// What is outstanding, or the choice that waits, or how the pass ended.
    pub fn outstanding(&self) -> Command {
        self.controller.last
    }

    pub fn passes(&self) -> usize {
        self.entries.iter().filter(|(op, _)| matches!(op, Op::Start)).count()
    }

    pub fn reports(&self) -> usize {
        self.entries.iter().filter(|(op, _)| matches!(op, Op::Gone(_))).count()
    }

    /// How many choices waited.
    pub fn choices(&self) -> usize {
        self.entries.iter().filter(|(_, due)| matches!(due, Due::Command(Command::Chosen(..)))).count()
    }
}
