//! Hex, decimals and the digest.

const DIGITS: &[u8; 16] = b"0123456789abcdef";

pub fn hex(bytes: &[u8], out: &mut Vec<u8>) {
    for byte in bytes {
        out.push(DIGITS[(byte >> 4) as usize]);
        out.push(DIGITS[(byte & 15) as usize]);
    }
}

pub fn decimal(value: usize, out: &mut Vec<u8>) {
    if 10 <= value {
        decimal(value / 10, out);
    }
    out.push(b'0' + (value % 10) as u8);
}

fn digit(byte: u8) -> Option<u8> {
    match byte {
        b'0'..=b'9' => Some(byte - b'0'),
        b'a'..=b'f' => Some(byte - b'a' + 10),
        b'A'..=b'F' => Some(byte - b'A' + 10),
        _ => None,
    }
}

pub fn bytes_of_hex(text: &[u8]) -> Option<Vec<u8>> {
    if text.len() % 2 != 0 {
        return None;
    }
    text.chunks(2).map(|pair| Some(16 * digit(pair[0])? + digit(pair[1])?)).collect()
}

/// The digest of no bytes.
pub const FNV_START: u64 = 0xcbf29ce484222325;

/// FNV-1a, 64 bits, carried on over more bytes.
pub fn fnv(digest: u64, bytes: &[u8]) -> u64 {
    bytes.iter().fold(digest, |digest, byte| (digest ^ *byte as u64).wrapping_mul(0x100000001b3))
}
