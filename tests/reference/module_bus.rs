//! A bus of modules, bit by bit: START, each byte and STOP reach every module, and a zero beats a one.

use crate::bus::Target;
use crate::commands::*;
use crate::module::*;
use crate::pec::pec;
use crate::table::*;

/// The end of the bus that is a module's.
pub trait End {
    /// START or repeated START.
    fn start(&mut self);
    /// A byte is received: does the module acknowledge it?
    fn hear(&mut self, byte: u8) -> bool;
    /// A byte is asked for: what the module sends, if anything.
    fn supply(&mut self) -> Option<u8>;
    /// The module has lost arbitration.
    fn lost(&mut self);
    /// STOP.
    fn stop(&mut self);
    /// Its record in the model.
    fn record(&self) -> Target;
}

impl End for Module {
    fn start(&mut self) {
        Module::start(self)
    }

    fn hear(&mut self, byte: u8) -> bool {
        Module::hear(self, byte)
    }

    fn supply(&mut self) -> Option<u8> {
        Module::supply(self)
    }

    fn lost(&mut self) {
        Module::lost(self)
    }

    fn stop(&mut self) {
        Module::stop(self)
    }

    fn record(&self) -> Target {
        Module::record(self)
    }
}

/// Modules on one wire, and what stood on it since the last START that began a packet.
pub struct ModuleBus<M> {
    pub modules: Vec<M>,
    trace: Vec<u16>,
    /// Who has sent every byte of the last read, and was never told that it lost.
    pub winners: Vec<usize>,
}

impl<M: End> ModuleBus<M> {
    /// A bus that nothing has been sent on.
    pub fn new(modules: Vec<M>) -> ModuleBus<M> {
        ModuleBus { modules, trace: vec![], winners: vec![] }
    }

    /// The records of all modules.
    pub fn records(&self) -> Vec<Target> {
        self.modules.iter().map(M::record).collect()
    }

    fn start(&mut self) {
        self.modules.iter_mut().for_each(M::start);
        self.trace.push(START);
    }

    /// Everybody hears the byte, whoever acknowledges it.
    fn write(&mut self, byte: u8) -> bool {
        let taken = self.modules.iter_mut().fold(false, |taken, module| module.hear(byte) | taken);
        self.trace.extend([u16::from(byte), if taken { ACK } else { NACK }]);
        taken
    }

    /// Eight bits of all that send. Who gives a one and sees a zero is told, and gives nothing more.
    fn read(&mut self, acknowledged: bool) -> u8 {
        let sent: Vec<Option<u8>> = self.modules.iter_mut().map(M::supply).collect();
        let mut sending: Vec<(usize, u8)> =
            sent.iter().enumerate().filter_map(|(k, byte)| Some((k, (*byte)?))).collect();
        let mut shown = 0;
        for power in (0..8).rev() {
            let gives_one = |&(_, byte): &(usize, u8)| byte >> power & 1 == 1;
            let one = sending.iter().all(gives_one);
            shown = 2 * shown + u8::from(one);
            if !one {
                sending.iter().filter(|sender| gives_one(sender)).for_each(|&(k, _)| self.modules[k].lost());
                sending.retain(|sender| !gives_one(sender));
            }
        }
        self.winners.retain(|k| sending.iter().any(|(other, _)| other == k));
        self.trace.extend([u16::from(shown), if acknowledged { ACK } else { NACK }]);
        shown
    }

    /// STOP, and all that stood on the wire.
    fn stop(&mut self) -> Vec<u16> {
        self.modules.iter_mut().for_each(M::stop);
        self.trace.push(STOP);
        std::mem::take(&mut self.trace)
    }

    /// A message and its PEC, up to STOP or to the byte that nobody acknowledges.
    pub fn send(&mut self, message: &[u8]) -> Vec<u16> {
        self.start();
        let whole = [message, &[pec(message)]].concat();
        for byte in whole {
            if !self.write(byte) {
                break;
            }
        }
        self.stop()
    }

    /// A Get UDID, general or directed. The last byte that is read gets NACK.
    pub fn ask(&mut self, command: u8) -> Vec<u16> {
        self.winners.clear();
        self.start();
        if !(self.write(WRITE) && self.write(command)) {
            return self.stop();
        }
        self.start();
        if !self.write(READ) {
            return self.stop();
        }
        self.winners = (0..self.modules.len()).collect();
        let count = self.read(true);
        for _ in 0..count {
            self.read(true);
        }
        self.read(false);
        self.stop()
    }

    /// A directed or a general Reset Device.
    pub fn reset(&mut self, command: u8) -> Vec<u16> {
        self.send(&[WRITE, command])
    }

    /// The trace of a command of the controller.
    pub fn answer(&mut self, command: &Command) -> Vec<u16> {
        match command {
            Command::Prepare => self.send(&[WRITE, PREPARE]),
            Command::GetUdid => self.ask(GET_UDID),
            Command::Assign(udid, address) => {
                self.send(&[vec![WRITE, ASSIGN, COUNT], reply_bytes(udid, 2 * address)].concat())
            }
            _ => vec![],
        }
    }
}
