//! Messages in words, for whoever reads a record.
use crate::message::{self, HEADER};

pub fn dotted(address: &[u8]) -> String {
    address.iter().map(u8::to_string).collect::<Vec<_>>().join(".")
}

fn name(code: u8) -> &'static str {
    match code {
        1 => "mask",
        3 => "routers",
        6 => "DNS servers",
        12 => "name",
        50 => "requested address",
        51 => "lease time",
        53 => "message type",
        54 => "server identifier",
        55 => "request list",
        57 => "longest message",
        58 => "T1",
        59 => "T2",
        61 => "client identifier",
        _ => "",
    }
}

fn kind(value: u8) -> &'static str {
    match value {
        1 => "DISCOVER",
        2 => "OFFER",
        3 => "REQUEST",
        4 => "DECLINE",
        5 => "ACK",
        6 => "NAK",
        7 => "RELEASE",
        8 => "INFORM",
        _ => "of no known type",
    }
}

fn value(code: u8, data: &[u8]) -> String {
    match (code, data) {
        (53, [value]) => kind(*value).into(),
        (1 | 3 | 6 | 50 | 54, _) if !data.is_empty() && data.len() % 4 == 0 => {
            data.chunks(4).map(dotted).collect::<Vec<_>>().join(" ")
        }
        (51 | 58 | 59, [a, b, c, d]) => format!("{} s", u32::from_be_bytes([*a, *b, *c, *d])),
        (57, [a, b]) => u16::from_be_bytes([*a, *b]).to_string(),
        (12, _) => format!("{:?}", String::from_utf8_lossy(data)),
        _ => data.iter().map(|byte| format!("{byte:02x}")).collect(),
    }
}

/// A DHCP message, a line for its header and one for each option.
fn dhcp(message: &[u8], out: &mut Vec<String>) {
    if message.len() < HEADER {
        out.push(format!("{} bytes, too few for a header", message.len()));
        return;
    }
    let number = |at: usize| u32::from_be_bytes(message[at..at + 4].try_into().unwrap());
    let hardware: Vec<String> = message[28..34].iter().map(|byte| format!("{byte:02x}")).collect();
    let cookie = if message[236..240] == message::COOKIE { "" } else { ", not DHCP's cookie" };
    out.push(format!(
        "op {}, hardware type {}, length {}, id {}, client {}, your {}, hardware {}{cookie}",
        message[0],
        message[1],
        message[2],
        number(4),
        dotted(&message[12..16]),
        dotted(&message[16..20]),
        hardware.join(":")
    ));
    let items = message::options(message);
    for (code, data) in &items {
        out.push(format!("option {code} {}, {} bytes: {}", name(*code), data.len(), value(*code, data)));
    }
}

/// What a line's bytes say, if it has a reply or a buffer in it.
pub fn words(line: &[u8]) -> Vec<String> {
    let mut out = vec![];
    let line = String::from_utf8_lossy(line);
    let Some((key, hex)) = line.rsplit_once('=') else { return out };
    let bytes: Vec<u8> = (0..hex.len() / 2).filter_map(|i| u8::from_str_radix(hex.get(2 * i..2 * i + 2)?, 16).ok()).collect();
    if key.ends_with(" reply") {
        dhcp(&bytes, &mut out);
    } else if key == "buffer bytes" && bytes.len() >= 8 {
        let word = |at: usize| u16::from_be_bytes([bytes[at], bytes[at + 1]]);
        let length = (word(4) as usize).clamp(8, bytes.len());
        out.push(format!("UDP port {} to {}, length {}, checksum {}", word(0), word(2), word(4), word(6)));
        dhcp(&bytes[8..length], &mut out);
        if bytes.len() > length {
            out.push(format!("{} bytes behind it are not as they were lent", bytes.len() - length));
        }
    }
    out
}
