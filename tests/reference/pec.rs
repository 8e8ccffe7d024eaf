//! The packet error code as the remainder of a long division of bit strings.

/// x^8 + x^2 + x + 1, highest power first.
const DIVISOR: [bool; 9] = [true, false, false, false, false, false, true, true, true];

/// The message's bits, highest bit of each byte first.
fn bits(message: &[u8]) -> Vec<bool> {
    let mut string = Vec::with_capacity(8 * message.len() + 8);
    for byte in message {
        for power in (0..8).rev() {
            string.push(byte >> power & 1 == 1);
        }
    }
    string
}

/// The number that a bit string writes, highest bit first.
fn number(string: &[bool]) -> u8 {
    string.iter().fold(0, |sum, &bit| 2 * sum + u8::from(bit))
}

/// The remainder of the message, followed by eight zero bits, divided by the polynomial.
pub fn pec(message: &[u8]) -> u8 {
    let mut dividend = bits(message);
    let quotient_bits = dividend.len();
    dividend.extend([false; 8]);
    for place in 0..quotient_bits {
        if dividend[place] {
            for (power, &bit) in DIVISOR.iter().enumerate() {
                dividend[place + power] ^= bit;
            }
        }
    }
    number(&dividend[quotient_bits..])
}
