//! Table 17 of SMBus 3.3.1, Appendix C: reserved and pre-assigned addresses, row by row as it has them.

/// Address bits 7 to 1, the R/W# bit, and what stands there. X is either.
pub const ROWS: [(&str, &str, &str); 22] = [
    ("0000 000", "0", "General Call Address"),
    ("0000 000", "1", "START byte"),
    ("0000 001", "X", "CBUS address"),
    ("0000 010", "X", "Address reserved for different bus format"),
    ("0000 011", "X", "Reserved for future use"),
    ("0000 1XX", "X", "HS Mode Controller Code"),
    ("0001 000", "X", "SMBus Host"),
    ("0001 001", "X", "Smart Battery Charger"),
    ("0001 010", "X", "Smart Battery Selector, Smart Battery System Manager"),
    ("0001 011", "X", "Smart Battery"),
    ("0001 100", "1", "SMBus Alert Response Address"),
    ("0001 100", "0", "Invalid: no write to the SMBus Alert Response Address"),
    ("0101 000", "1", "PMBus ZONE READ"),
    ("0101 100", "X", "Reserved by previous versions: LCD Contrast Controller"),
    ("0101 101", "X", "Reserved by previous versions: CCFL Backlight Driver"),
    ("0110 111", "0", "PMBus ZONE WRITE"),
    ("1000 0XX", "X", "Reserved by previous versions: PCMCIA Socket Controllers"),
    ("1000 100", "X", "Reserved by previous versions: Graphics Controller"),
    ("1001 0XX", "X", "Prototype Addresses"),
    ("1100 001", "X", "SMBus Device Default Address"),
    ("1111 0XX", "X", "10-bit target addressing"),
    ("1111 1XX", "X", "Reserved for future use"),
];

/// Does a row's pattern cover an address? Each bit is that of the pattern, or the pattern has X there.
pub fn covers(pattern: &str, address: u8) -> bool {
    let bits = format!("{address:07b}");
    let wanted: Vec<char> = pattern.chars().filter(|&character| character != ' ').collect();
    assert_eq!(wanted.len(), bits.len(), "a row has seven bits: {pattern}");
    wanted.iter().zip(bits.chars()).all(|(&due, bit)| due == 'X' || due == bit)
}

/// Is an address on a row, for a read or for a write?
pub fn has(address: u8) -> bool {
    ROWS.iter().any(|(pattern, ..)| covers(pattern, address))
}
