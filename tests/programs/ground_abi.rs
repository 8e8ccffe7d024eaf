//! PEC, addresses and trace lengths of the library.

mod raw {
    extern "C" {
        pub fn hb_pec_byte(crc: u8, byte: u8) -> u8;
        pub fn hb_pec(s: *const u8, n: usize) -> u8;
        pub fn hb_wire_for_write(address: u8) -> u8;
        pub fn hb_wire_for_read(address: u8) -> u8;
        pub fn hb_address_from_wire(wire: u8) -> u8;
        pub fn hb_is_reserved(address: u8) -> u8;
        pub fn hb_is_listed(address: u8) -> u8;
        pub fn hb_pec_bytes(crc: u8, s: *const u8, n: usize) -> u8;
        pub fn hb_wire_is_read(wire: u8) -> u8;
        pub fn hb_is_seven_bit(address: u8) -> u8;
        pub fn hb_is_default(address: u8) -> u8;
        pub fn hb_is_host(address: u8) -> u8;
        pub fn hb_is_alert_response(address: u8) -> u8;
        pub fn hb_trace_length(protocol: u8, pec: u8, sent: usize, received: usize) -> usize;
    }
}

pub fn pec_byte(crc: u8, byte: u8) -> u8 {
    unsafe { raw::hb_pec_byte(crc, byte) }
}

pub fn pec(message: &[u8]) -> u8 {
    unsafe { raw::hb_pec(message.as_ptr(), message.len()) }
}

pub fn pec_bytes(crc: u8, message: &[u8]) -> u8 {
    unsafe { raw::hb_pec_bytes(crc, message.as_ptr(), message.len()) }
}

pub fn pec_of_null() -> u8 {
    unsafe { raw::hb_pec(std::ptr::null(), 0) }
}

pub fn wire_for_write(address: u8) -> u8 {
    unsafe { raw::hb_wire_for_write(address) }
}

pub fn wire_for_read(address: u8) -> u8 {
    unsafe { raw::hb_wire_for_read(address) }
}

pub fn address_from_wire(wire: u8) -> u8 {
    unsafe { raw::hb_address_from_wire(wire) }
}

pub fn is_reserved(address: u8) -> u8 {
    unsafe { raw::hb_is_reserved(address) }
}

pub fn is_listed(address: u8) -> u8 {
    unsafe { raw::hb_is_listed(address) }
}

pub fn wire_is_read(wire: u8) -> u8 {
    unsafe { raw::hb_wire_is_read(wire) }
}

/// Whether it is below 128, the default, the host's and the alert response address.
pub fn kinds(address: u8) -> [u8; 4] {
    unsafe {
        [
            raw::hb_is_seven_bit(address),
            raw::hb_is_default(address),
            raw::hb_is_host(address),
            raw::hb_is_alert_response(address),
        ]
    }
}

pub fn trace_length(protocol: u8, with_pec: bool, sent: usize, received: usize) -> usize {
    unsafe { raw::hb_trace_length(protocol, u8::from(with_pec), sent, received) }
}
