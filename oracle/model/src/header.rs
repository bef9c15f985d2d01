//! Document 01, "Header layout" and "Refusal numbers"; document 02, request 4, the kept length.

use crate::bytes::{from, number, put, store, take};
use crate::security::Security;
use oracle_format::layout::header::{DESTINATION, KEPT, SECURED, SECURITY, SOURCE};
use oracle_format::{Number, Part};

pub const TYPES: [u8; 7] = [0, 1, 2, 3, 5, 6, 7];
pub const VERSIONS: [u8; 3] = [0, 1, 2];
pub const MODES: [u8; 3] = [0, 2, 3];

/// The value if it is listed, else the refusal. The whole byte is looked at.
pub fn listed(values: &[u8], value: u8, refusal: Number) -> Result<u8, Number> {
    if values.contains(&value) {
        Ok(value)
    } else {
        Err(refusal)
    }
}

#[derive(Clone, Copy)]
pub struct Address {
    pub pan: u64,
    pub mode: u8,
    pub address: u64,
}

/// Bytes of an address by its mode.
fn width(mode: u8) -> usize {
    match mode {
        2 => 2,
        _ => 8,
    }
}

#[derive(Clone, Copy)]
pub struct Header {
    pub frame_type: u8,
    pub pending: bool,
    pub acknowledge: bool,
    pub compress: bool,
    pub suppress: bool,
    pub elements: bool,
    pub version: u8,
    pub sequence: u8,
    pub destination: Option<Address>,
    pub source: Option<Address>,
    pub security: Option<Security>,
    pub kept_length: usize,
}

/// An address at a place with its PAN id in front, or with the PAN id that is already known.
fn read_address(s: &[u8], at: usize, mode: u8, known: Option<u64>) -> Result<(Option<Address>, usize), Number> {
    if mode == 0 {
        return Ok((None, at));
    }
    let (pan, at) = match known {
        Some(pan) => (pan, at),
        None => (number(take(s, at, 2)?), at + 2),
    };
    let address = number(take(s, at, width(mode))?);
    Ok((Some(Address { pan, mode, address }), at + width(mode)))
}

fn spell_address(address: &Option<Address>, out: &mut Vec<u8>) {
    let address = address.unwrap_or(Address { pan: 0, mode: 0, address: 0 });
    out.push(address.mode);
    put(address.pan, 2, out);
    put(address.address, 8, out);
}

fn build_address(spelled: &[u8]) -> Option<Address> {
    match spelled[0] {
        0 => None,
        mode => Some(Address { pan: number(&spelled[1..3]), mode, address: number(&spelled[3..11]) }),
    }
}

fn put_address(address: &Option<Address>, with_pan: bool, out: &mut Vec<u8>) {
    if let Some(address) = address {
        if with_pan {
            put(address.pan, 2, out);
        }
        put(address.address, width(address.mode), out);
    }
}

/// Bytes of an address in a frame, with its PAN id or without.
fn octets(address: &Option<Address>, with_pan: bool) -> usize {
    address.map_or(0, |address| 2 * with_pan as usize + width(address.mode))
}

fn mode_of(address: &Option<Address>) -> u64 {
    address.map_or(0, |address| address.mode as u64)
}

impl Header {
    /// The crate's number: 3, plus 4 or 10 for each address, blind to compression and security.
    pub fn size(&self) -> usize {
        3 + octets(&self.destination, true) + octets(&self.source, true)
    }

    /// The parts as they would lie in a frame: frame control and sequence byte, destination, source, security part.
    fn length(&self) -> usize {
        2 + 1
            + octets(&self.destination, true)
            + octets(&self.source, !self.compress)
            + self.security.map_or(0, |security| security.length())
    }

    /// The same record with its length kept.
    fn with_length(self) -> Header {
        Header { kept_length: self.length(), ..self }
    }

    /// Frame control with bits 7, 8 and 9 clear, and the sequence byte.
    fn put_start(&self, out: &mut Vec<u8>) {
        let bits = self.frame_type as u64
            + 8 * self.security.is_some() as u64
            + 16 * self.pending as u64
            + 32 * self.acknowledge as u64
            + 64 * self.compress as u64
            + 1024 * mode_of(&self.destination)
            + 4096 * self.version as u64
            + 16384 * mode_of(&self.source);
        put(bits, 2, out);
        out.push(self.sequence);
    }
}

impl Part for Header {
    type Record = Header;
    const PLACED: bool = false;

    /// 1 below three bytes; 2; 3; 4 destination; 4 source; 1 destination; 5; 1 source; 1 security part.
    fn read(bytes: &[u8], place: usize) -> Result<(Header, usize), Number> {
        let s = from(bytes, place);
        let bits = number(&take(s, 0, 3)?[..2]);
        let field = |at: u32, count: u32| (bits / 2u64.pow(at) % 2u64.pow(count)) as u8;
        let version = listed(&VERSIONS, field(12, 2), 2)?;
        let frame_type = listed(&TYPES, field(0, 3), 3)?;
        let to = listed(&MODES, field(10, 2), 4)?;
        let from = listed(&MODES, field(14, 2), 4)?;
        let compress = field(6, 1) == 1;
        let (destination, at) = read_address(s, 3, to, None)?;
        if compress && destination.is_none() {
            return Err(5);
        }
        let known = if compress { destination.map(|address| address.pan) } else { None };
        let (source, at) = read_address(s, at, from, known)?;
        let (security, length) = if field(3, 1) == 1 {
            let (security, taken) = Security::read(s, at)?;
            (Some(security), at + taken)
        } else {
            (None, at)
        };
        let header = Header {
            frame_type,
            pending: field(4, 1) == 1,
            acknowledge: field(5, 1) == 1,
            compress,
            suppress: field(8, 1) == 1,
            elements: field(9, 1) == 1,
            version,
            sequence: s[2],
            destination,
            source,
            security,
            kept_length: 0,
        };
        Ok((header.with_length(), length))
    }

    fn spell(record: &Header, out: &mut Vec<u8>) {
        out.extend_from_slice(&[
            record.frame_type,
            record.pending as u8,
            record.acknowledge as u8,
            record.compress as u8,
            record.suppress as u8,
            record.elements as u8,
            record.version,
            record.sequence,
        ]);
        spell_address(&record.destination, out);
        spell_address(&record.source, out);
        out.push(record.security.is_some() as u8);
        match &record.security {
            Some(security) => Security::spell(security, out),
            None => out.extend_from_slice(&[0; 16]),
        }
        out.push(record.kept_length as u8);
    }

    /// A kept length of 0 stands for the right one.
    fn build(spelled: &[u8]) -> Option<Header> {
        let header = Header {
            frame_type: spelled[0],
            pending: spelled[1] == 1,
            acknowledge: spelled[2] == 1,
            compress: spelled[3] == 1,
            suppress: spelled[4] == 1,
            elements: spelled[5] == 1,
            version: spelled[6],
            sequence: spelled[7],
            destination: build_address(&spelled[DESTINATION..]),
            source: build_address(&spelled[SOURCE..]),
            security: match spelled[SECURED] {
                0 => None,
                _ => Security::build(&spelled[SECURITY..]),
            },
            kept_length: spelled[KEPT] as usize,
        };
        Some(if header.kept_length == 0 { header.with_length() } else { header })
    }

    /// 8 for the kept length, then for the level; 1 below three bytes of room; 6; 1 addresses; 7; 1 security part.
    fn write(record: Header, counter: Option<u32>, buffer: &mut [u8], place: usize) -> Option<Result<usize, Number>> {
        if record.kept_length != record.length() || record.security.map_or(false, |security| 7 < security.control.level) {
            return Some(Err(8));
        }
        let room = buffer.len().saturating_sub(place);
        let mut part = Vec::new();
        record.put_start(&mut part);
        if room < part.len() {
            return Some(Err(1));
        }
        if record.compress && (record.destination.is_none() || record.source.is_none()) {
            return Some(Err(6));
        }
        put_address(&record.destination, true, &mut part);
        put_address(&record.source, !record.compress, &mut part);
        if room < part.len() {
            return Some(Err(1));
        }
        if let Some(security) = record.security {
            let Some(counter) = counter else { return Some(Err(7)) };
            security.bytes(counter, &mut part);
        }
        Some(store(buffer, place, &part))
    }

    fn counter(record: &Header) -> Option<u32> {
        record.security.map(|security| security.counter)
    }
}
