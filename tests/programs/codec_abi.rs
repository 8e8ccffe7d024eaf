//! The library's encoder and decoder, and the buffers lent to them.

mod raw {
    use super::{Decoded, Written};

    extern "C" {
        pub fn hb_encode(
            protocol: u8,
            pec: u8,
            address: u8,
            direction: u8,
            command: u8,
            sent: *const u8,
            sent_len: usize,
            received: *const u8,
            received_len: usize,
            out: *mut u8,
            out_len: usize,
        ) -> Written;

        pub fn hb_decode(
            protocol: u8,
            pec: u8,
            trace: *const u8,
            trace_len: usize,
            sent: *mut u8,
            sent_len: usize,
            received: *mut u8,
            received_len: usize,
        ) -> Decoded;
    }
}

#[repr(C)]
#[derive(Clone, Copy, Debug, PartialEq, Eq)]
pub struct Written {
    pub answer: u32,
    pub symbols: u32,
}

#[repr(C)]
#[derive(Clone, Copy, Debug, Default, PartialEq, Eq)]
pub struct Decoded {
    pub answer: u32,
    pub address: u32,
    pub direction: u32,
    pub command: u32,
    pub value: usize,
    pub sent: usize,
    pub received: usize,
}

/// Bytes on either side of a lent buffer that nobody may touch.
const MARGIN: usize = 24;

/// A buffer to lend, filled with a pattern, its margins included.
pub struct Lent {
    bytes: Vec<u8>,
    length: usize,
}

/// What a lent buffer and its margins hold.
#[derive(PartialEq)]
pub struct Content(Vec<u8>);

fn pattern(place: usize) -> u8 {
    (place * 151 + 77) as u8
}

fn untouched(length: usize) -> Vec<u8> {
    (0..length + 2 * MARGIN).map(pattern).collect()
}

impl Lent {
    pub fn new(length: usize) -> Lent {
        Lent { bytes: untouched(length), length }
    }

    fn pointer(&mut self) -> *mut u8 {
        unsafe { self.bytes.as_mut_ptr().add(MARGIN) }
    }

    /// The symbols of the front.
    pub fn symbols(&self, count: u32) -> Vec<u16> {
        let front = &self.bytes[MARGIN..MARGIN + 2 * count as usize];
        front.chunks(2).map(|pair| u16::from_le_bytes([pair[0], pair[1]])).collect()
    }

    pub fn content(self) -> Content {
        Content(self.bytes)
    }
}

impl Content {
    /// That front written and the rest untouched.
    pub fn due(length: usize, front: &[u8]) -> Content {
        let mut bytes = untouched(length);
        bytes[MARGIN..MARGIN + front.len()].copy_from_slice(front);
        Content(bytes)
    }
}

impl std::fmt::Debug for Content {
    /// Only the bytes that are not the pattern's, each run after its place in the buffer.
    fn fmt(&self, f: &mut std::fmt::Formatter) -> std::fmt::Result {
        write!(f, "changed")?;
        let changed = |place: usize| self.0[place] != pattern(place);
        for place in (0..self.0.len()).filter(|&place| changed(place)) {
            if place == 0 || !changed(place - 1) {
                write!(f, " {}:", place as isize - MARGIN as isize)?;
            }
            write!(f, " {:02x}", self.0[place])?;
        }
        Ok(())
    }
}

/// Symbols as byte pairs, low byte first.
pub fn pairs(trace: &[u16]) -> Vec<u8> {
    trace.iter().flat_map(|symbol| symbol.to_le_bytes()).collect()
}

/// An empty slice goes as a null pointer where the caller asks for it.
fn pointer(bytes: &[u8], null_if_empty: bool) -> *const u8 {
    if bytes.is_empty() && null_if_empty {
        std::ptr::null()
    } else {
        bytes.as_ptr()
    }
}

pub fn encode(t: &reference::table::Transaction, null_if_empty: bool, out: &mut Lent) -> Written {
    unsafe {
        raw::hb_encode(
            t.protocol,
            u8::from(t.pec),
            t.address,
            t.direction,
            t.command,
            pointer(&t.sent, null_if_empty),
            t.sent.len(),
            pointer(&t.received, null_if_empty),
            t.received.len(),
            out.pointer(),
            out.length,
        )
    }
}

/// The decoder's answer; the trace lies in a block of exactly its size.
pub fn decode(protocol: u8, with_pec: bool, trace: &[u16], sent: &mut Lent, received: &mut Lent) -> Decoded {
    let bytes = pairs(trace).into_boxed_slice();
    unsafe {
        raw::hb_decode(
            protocol,
            u8::from(with_pec),
            pointer(&bytes, trace.is_empty()),
            bytes.len(),
            sent.pointer(),
            sent.length,
            received.pointer(),
            received.length,
        )
    }
}
