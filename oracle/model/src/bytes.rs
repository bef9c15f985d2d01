//! Little-endian numbers at a place, and parts that are one such number.

use oracle_format::{Number, Part};

/// The bytes from a place on; past the end there are none.
pub fn from(bytes: &[u8], place: usize) -> &[u8] {
    &bytes[place.min(bytes.len())..]
}

/// The part's bytes, or 1 if the input ends before they are complete.
pub fn take(bytes: &[u8], place: usize, count: usize) -> Result<&[u8], Number> {
    from(bytes, place).get(..count).ok_or(1)
}

pub fn number(bytes: &[u8]) -> u64 {
    bytes.iter().rev().fold(0, |value, byte| value * 256 + *byte as u64)
}

pub fn put(value: u64, width: usize, out: &mut Vec<u8>) {
    out.extend_from_slice(&value.to_le_bytes()[..width]);
}

/// Stores the bytes of a whole part at a place, or answers 1 and stores nothing. A place past the end has no room, not even for no byte.
pub fn store(buffer: &mut [u8], place: usize, part: &[u8]) -> Result<usize, Number> {
    let room = buffer.get_mut(place..).and_then(|rest| rest.get_mut(..part.len())).ok_or(1)?;
    room.copy_from_slice(part);
    Ok(part.len())
}

macro_rules! numbered {
    ($part:ident, $width:expr) => {
        pub struct $part;

        impl Part for $part {
            type Record = u64;

            fn read(bytes: &[u8], place: usize) -> Result<(u64, usize), Number> {
                Ok((number(take(bytes, place, $width)?), $width))
            }

            fn spell(record: &u64, out: &mut Vec<u8>) {
                put(*record, $width, out);
            }

            fn build(spelled: &[u8]) -> Option<u64> {
                Some(number(spelled))
            }

            fn write(record: u64, _: Option<u32>, buffer: &mut [u8], place: usize) -> Option<Result<usize, Number>> {
                let mut part = Vec::new();
                put(record, $width, &mut part);
                Some(store(buffer, place, &part))
            }
        }
    };
}

numbered!(Pan, 2);
numbered!(Short, 2);
numbered!(Extended, 8);
