//! Modules of the library, as an end of the bus.

use reference::addresses::Addresses;
use reference::bus::Target;
use reference::commands;
use reference::module::Module;
use reference::module_bus::End;
use reference::module_events::Renewable;

#[repr(C)]
#[derive(Clone, Copy, Debug, Default, PartialEq, Eq)]
pub struct Udid {
    pub high: u64,
    pub low: u64,
}

#[repr(C)]
#[derive(Clone, Copy, Debug, Default, PartialEq, Eq)]
pub struct HbModule {
    pub udid: Udid,
    pub fresh: u32,
    pub home: u8,
    pub valid: u8,
    pub address: u8,
    pub resolved: u8,
    pub phase: u8,
    pub place: u8,
    pub pec: u8,
    pub given: u8,
}

#[repr(C)]
#[derive(Clone, Copy, Debug, PartialEq, Eq)]
pub struct Heard {
    pub after: HbModule,
    pub ack: u32,
}

#[repr(C)]
#[derive(Clone, Copy, Debug, PartialEq, Eq)]
pub struct Supplied {
    pub after: HbModule,
    pub drives: u32,
    pub byte: u32,
}

#[repr(C)]
#[derive(Clone, Copy, Debug, PartialEq, Eq)]
pub struct Resumed {
    pub module: HbModule,
    pub answer: u32,
}

#[repr(C)]
#[derive(Clone, Copy)]
struct Pool {
    low: u64,
    high: u64,
}

/// What a model run answers.
#[repr(C)]
#[derive(Clone, Copy)]
pub struct Ran {
    pub answer: u32,
    pub count: u32,
    pub gets: u32,
    pub picked: u32,
    place: usize,
    udid: Udid,
    bound: Pool,
}

mod raw {
    use super::*;

    extern "C" {
        pub fn hb_module_power_on(udid: Udid, address: u8, fresh: u32) -> HbModule;
        pub fn hb_module_of_record(udid: Udid, address_byte: u8, flag: u8, fresh: u32) -> Resumed;
        pub fn hb_module_refresh(m: HbModule, fresh: u32) -> HbModule;
        pub fn hb_module_start(m: HbModule) -> HbModule;
        pub fn hb_module_stop(m: HbModule) -> HbModule;
        pub fn hb_module_lost(m: HbModule) -> HbModule;
        pub fn hb_module_receive(m: HbModule, byte: u8) -> Heard;
        pub fn hb_module_supply(m: HbModule) -> Supplied;
        pub fn hb_module_address_byte(m: HbModule) -> u8;
        pub fn hb_run_model(
            occupied: Pool,
            last: u8,
            records: *mut u8,
            records_len: usize,
            bindings: *mut u8,
            bindings_len: usize,
        ) -> Ran;
    }
}

/// The two halves of an identifier.
pub fn halves(udid: &commands::Udid) -> Udid {
    let whole = u128::from_be_bytes(*udid);
    Udid { high: (whole >> 64) as u64, low: whole as u64 }
}

/// A model run over the records.
pub fn run_model(occupied: &Addresses, last: u8, records: &mut [u8], bindings: &mut [u8]) -> Ran {
    let whole = occupied.iter().fold(0u128, |set, &address| set | 1 << address);
    let pool = Pool { low: whole as u64, high: (whole >> 64) as u64 };
    unsafe { raw::hb_run_model(pool, last, records.as_mut_ptr(), records.len(), bindings.as_mut_ptr(), bindings.len()) }
}

impl Resumed {
    /// A module that a record describes.
    pub fn of_record(udid: &commands::Udid, address_byte: u8, flag: u8, fresh: [u8; 4]) -> Resumed {
        unsafe { raw::hb_module_of_record(halves(udid), address_byte, flag, u32::from_be_bytes(fresh)) }
    }
}

/// What outlasts a packet: identifier, fresh bytes, home, Address Valid, address, Address Resolved.
pub type Lasting = (Udid, u32, u8, bool, u8, bool);

impl HbModule {
    /// The same as the reference's, silent.
    pub fn like(module: &Module) -> HbModule {
        HbModule {
            udid: halves(&module.udid),
            fresh: u32::from_be_bytes(module.fresh),
            home: module.home,
            valid: u8::from(module.address.is_some()),
            address: module.address.unwrap_or(0),
            resolved: u8::from(module.resolved),
            ..HbModule::default()
        }
    }

    pub fn lasting(&self) -> Lasting {
        (self.udid, self.fresh, self.home, self.valid != 0, self.address, self.resolved != 0)
    }

    /// Phase, place, PEC and given are 0: so it is after power on, STOP, lost and NACK.
    pub fn is_silent(&self) -> bool {
        (self.phase, self.place, self.pec, self.given) == (0, 0, 0, 0)
    }

    pub fn power_on(udid: &commands::Udid, address: u8, fresh: [u8; 4]) -> HbModule {
        unsafe { raw::hb_module_power_on(halves(udid), address, u32::from_be_bytes(fresh)) }
    }

    pub fn refreshed(self, fresh: [u8; 4]) -> HbModule {
        unsafe { raw::hb_module_refresh(self, u32::from_be_bytes(fresh)) }
    }

    pub fn started(self) -> HbModule {
        unsafe { raw::hb_module_start(self) }
    }

    pub fn stopped(self) -> HbModule {
        unsafe { raw::hb_module_stop(self) }
    }

    pub fn told_lost(self) -> HbModule {
        unsafe { raw::hb_module_lost(self) }
    }

    pub fn received(self, byte: u8) -> Heard {
        unsafe { raw::hb_module_receive(self, byte) }
    }

    pub fn supplied(self) -> Supplied {
        unsafe { raw::hb_module_supply(self) }
    }

    pub fn address_byte(self) -> u8 {
        unsafe { raw::hb_module_address_byte(self) }
    }
}

impl End for HbModule {
    fn start(&mut self) {
        *self = self.started();
    }

    fn hear(&mut self, byte: u8) -> bool {
        let heard = self.received(byte);
        assert!(heard.ack < 2, "{heard:x?}");
        *self = heard.after;
        heard.ack == 1
    }

    fn supply(&mut self) -> Option<u8> {
        let supplied = self.supplied();
        *self = supplied.after;
        match (supplied.drives, supplied.byte) {
            (0, 0xff) => None,
            (1, byte @ 0..=255) => Some(byte as u8),
            _ => panic!("{supplied:x?}"),
        }
    }

    fn lost(&mut self) {
        *self = self.told_lost();
    }

    fn stop(&mut self) {
        *self = self.stopped();
    }

    fn record(&self) -> Target {
        let udid = u128::from(self.udid.high) << 64 | u128::from(self.udid.low);
        Target { udid: udid.to_be_bytes(), address_byte: self.address_byte(), resolved: self.resolved != 0 }
    }
}

impl Renewable for HbModule {
    fn refresh(&mut self, fresh: [u8; 4]) {
        *self = self.refreshed(fresh);
    }
}
