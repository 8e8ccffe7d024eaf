//! Transactions and traces as text.

use crate::table::*;

/// Bytes as pairs of hexadecimal digits; `-` for none.
pub fn hex(bytes: &[u8]) -> String {
    if bytes.is_empty() {
        return "-".to_string();
    }
    bytes.iter().map(|byte| format!("{byte:02x}")).collect()
}

pub fn unhex(word: &str) -> Option<Vec<u8>> {
    if word == "-" {
        return Some(vec![]);
    }
    if word.len() % 2 != 0 || !word.is_ascii() {
        return None;
    }
    (0..word.len() / 2).map(|k| u8::from_str_radix(&word[2 * k..2 * k + 2], 16).ok()).collect()
}

fn symbol_text(symbol: u16) -> String {
    match symbol {
        START => "S".to_string(),
        STOP => "P".to_string(),
        ACK => "A".to_string(),
        NACK => "N".to_string(),
        0..=255 => format!("{symbol:02x}"),
        _ => format!("#{symbol}"),
    }
}

fn parse_symbol(word: &str) -> Option<u16> {
    match word {
        "S" => Some(START),
        "P" => Some(STOP),
        "A" => Some(ACK),
        "N" => Some(NACK),
        _ if word.starts_with('#') => word[1..].parse().ok(),
        _ if word.len() == 2 => u16::from_str_radix(word, 16).ok(),
        _ => None,
    }
}

/// S, P, A, N, bytes as two hexadecimal digits, and #260 or higher for what is no symbol.
pub fn trace_text(trace: &[u16]) -> String {
    trace.iter().map(|&symbol| symbol_text(symbol)).collect::<Vec<_>>().join(" ")
}

pub fn parse_trace(text: &str) -> Option<Vec<u16>> {
    text.split_whitespace().map(parse_symbol).collect()
}

pub fn pec_use(with_pec: bool) -> &'static str {
    if with_pec {
        "p"
    } else {
        "-"
    }
}

pub fn parse_pec_use(word: &str) -> Option<bool> {
    match word {
        "p" => Some(true),
        "-" => Some(false),
        _ => None,
    }
}

/// Protocol, PEC use, address, direction, command, data sent, data received.
pub fn transaction_text(t: &Transaction) -> String {
    format!(
        "{} {} {:02x} {} {:02x} {} {}",
        t.protocol,
        pec_use(t.pec),
        t.address,
        t.direction,
        t.command,
        hex(&t.sent),
        hex(&t.received)
    )
}

pub fn parse_transaction(text: &str) -> Option<Transaction> {
    let words: Vec<&str> = text.split_whitespace().collect();
    let [protocol, with_pec, address, direction, command, sent, received] = words[..] else {
        return None;
    };
    Some(Transaction {
        protocol: protocol.parse().ok()?,
        pec: parse_pec_use(with_pec)?,
        address: u8::from_str_radix(address, 16).ok()?,
        direction: direction.parse().ok()?,
        command: u8::from_str_radix(command, 16).ok()?,
        sent: unhex(sent)?,
        received: unhex(received)?,
    })
}

/// The lines of a vector file that are neither empty nor comments, with their numbers.
pub fn lines_of(content: &str) -> Vec<(usize, &str)> {
    let numbered = content.lines().enumerate().map(|(k, line)| (k + 1, line.trim()));
    numbered.filter(|(_, line)| !line.is_empty() && !line.starts_with('#')).collect()
}
