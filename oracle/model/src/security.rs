//! Document 01, "Header layout": security control, frame counter, key identifier. Level bits 0-2, key mode bits 3-4, bits 5-7 not read.

use crate::bytes::{number, put, store, take};
use oracle_format::{Number, Part};

#[derive(Clone, Copy)]
pub struct Control {
    pub level: u8,
    pub key_mode: u8,
}

impl Control {
    fn of(byte: u8) -> Control {
        Control { level: byte % 8, key_mode: byte / 8 % 4 }
    }
}

impl Part for Control {
    type Record = Control;

    fn read(bytes: &[u8], place: usize) -> Result<(Control, usize), Number> {
        Ok((Control::of(take(bytes, place, 1)?[0]), 1))
    }

    fn spell(record: &Control, out: &mut Vec<u8>) {
        out.extend_from_slice(&[record.level, record.key_mode]);
    }

    fn build(spelled: &[u8]) -> Option<Control> {
        Some(Control { level: spelled[0], key_mode: spelled[1] })
    }

    /// 8, then 1. A control by itself has no counter, and writes its own key mode.
    fn write(record: Control, _: Option<u32>, buffer: &mut [u8], place: usize) -> Option<Result<usize, Number>> {
        if 7 < record.level {
            return Some(Err(8));
        }
        Some(store(buffer, place, &[record.level + 8 * record.key_mode]))
    }
}

/// The key identifier's case is its key mode: 0 nothing, 1 index, 2 source of four bytes and index, 3 source of eight bytes and index.
#[derive(Clone, Copy)]
pub struct Security {
    pub control: Control,
    pub counter: u32,
    pub key: u8,
    pub source: u64,
    pub index: u8,
}

/// Bytes of the key source for each key mode.
const SOURCE: [usize; 4] = [0, 0, 4, 8];
/// Bytes of the key index for each key mode.
const INDEX: [usize; 4] = [0, 1, 1, 1];

impl Security {
    pub fn length(&self) -> usize {
        1 + 4 + SOURCE[self.key as usize] + INDEX[self.key as usize]
    }

    /// The part's bytes, with the caller's counter and the key identifier's mode.
    pub fn bytes(&self, counter: u32, out: &mut Vec<u8>) {
        out.push(self.control.level + 8 * self.key);
        put(counter as u64, 4, out);
        put(self.source, SOURCE[self.key as usize], out);
        put(self.index as u64, INDEX[self.key as usize], out);
    }
}

impl Part for Security {
    type Record = Security;

    fn read(bytes: &[u8], place: usize) -> Result<(Security, usize), Number> {
        let control = Control::of(take(bytes, place, 1)?[0]);
        let mode = control.key_mode as usize;
        let length = 1 + 4 + SOURCE[mode] + INDEX[mode];
        let part = take(bytes, place, length)?;
        let record = Security {
            control,
            counter: number(&part[1..5]) as u32,
            key: control.key_mode,
            source: number(&part[5..5 + SOURCE[mode]]),
            index: number(&part[5 + SOURCE[mode]..]) as u8,
        };
        Ok((record, length))
    }

    fn spell(record: &Security, out: &mut Vec<u8>) {
        Control::spell(&record.control, out);
        put(record.counter as u64, 4, out);
        out.push(record.key);
        put(record.source, 8, out);
        out.push(record.index);
    }

    fn build(spelled: &[u8]) -> Option<Security> {
        Some(Security {
            control: Control::build(spelled)?,
            counter: number(&spelled[2..6]) as u32,
            key: spelled[6],
            source: number(&spelled[7..15]),
            index: spelled[15],
        })
    }

    /// 8, 7, 1.
    fn write(record: Security, counter: Option<u32>, buffer: &mut [u8], place: usize) -> Option<Result<usize, Number>> {
        if 7 < record.control.level {
            return Some(Err(8));
        }
        let Some(counter) = counter else { return Some(Err(7)) };
        let mut part = Vec::new();
        record.bytes(counter, &mut part);
        Some(store(buffer, place, &part))
    }

    fn size(record: &Security) -> Option<usize> {
        Some(record.length())
    }

    fn counter(record: &Security) -> Option<u32> {
        Some(record.counter)
    }
}
