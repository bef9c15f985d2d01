//! The frames and records that a digest command makes: exactly as FORMAT.md tells, so that any program can make the same.

use crate::layout::{self, DESCRIPTOR, EMPTY_DESCRIPTOR, PENDING, RECEIVE, SLOTS, SUPERFRAME, TRANSMIT};

/// The generator: one step of xorshift64 for each byte.
pub struct Draw(u64);

impl Draw {
    pub fn byte(&mut self) -> u8 {
        self.0 ^= self.0 << 13;
        self.0 ^= self.0 >> 7;
        self.0 ^= self.0 << 17;
        (self.0 >> 56) as u8
    }

    fn fill(&mut self, bytes: &mut [u8]) {
        for byte in bytes {
            *byte = self.byte();
        }
    }
}

/// The commands that one digest command stands for.
pub struct Run {
    draw: Draw,
    family: u8,
    left: usize,
}

/// The part kinds of family 5, by the byte drawn.
const PARTS: [u8; 9] = *b"scnaxfegq";
const TYPES: [u8; 8] = [0, 1, 2, 3, 0, 5, 6, 7];
const MODES: [u8; 3] = [0, 2, 3];
const DIRECTIONS: [u8; 2] = [RECEIVE, TRANSMIT];

impl Run {
    /// Family, state (eight bytes, not all 0), count (two bytes).
    pub fn of_command(bytes: &[u8]) -> Option<Run> {
        let [family, state @ .., low, high] = bytes else { return None };
        let state = u64::from_le_bytes(state.try_into().ok()?);
        if state == 0 || FAMILIES <= *family {
            return None;
        }
        Some(Run { draw: Draw(state), family: *family, left: *low as usize + 256 * *high as usize })
    }

    /// The next command's kind, its bytes into `made`.
    pub fn next_command(&mut self, made: &mut Vec<u8>) -> Option<u8> {
        if self.left == 0 {
            return None;
        }
        self.left -= 1;
        made.clear();
        Some(match self.family {
            0 => header(&mut self.draw, made),
            1 => beacon(&mut self.draw, made),
            2 => view(&mut self.draw, made),
            3 => header_record(&mut self.draw, made),
            4 => beacon_record(&mut self.draw, made),
            _ => part(&mut self.draw, made),
        })
    }
}

pub const FAMILIES: u8 = 6;

/// The eleven bytes in front of an input or a record.
fn prefix(place: u8, room: u8, out: u8, choice: u8, counter: [u8; 4], made: &mut Vec<u8>) {
    made.extend_from_slice(&[place, 0, room, 0, out, 0, choice]);
    made.extend_from_slice(&counter);
}

/// Every draw is made whether it is used or not. `scarce` choices lie anywhere below `most`; the others are ample.
fn extent(choice: u8, drawn: u8, most: u8) -> u8 {
    if choice % 4 == 0 {
        drawn % most
    } else {
        most + drawn % 4
    }
}

/// Type 4 becomes 0, version 3 becomes 1, mode 1 becomes 2.
fn mend(frame: &mut [u8]) {
    if frame[0] % 8 == 4 {
        frame[0] -= 4;
    }
    if frame[1] / 16 % 4 == 3 {
        frame[1] -= 32;
    }
    if frame[1] / 4 % 4 == 1 {
        frame[1] += 4;
    }
    if frame[1] / 64 == 1 {
        frame[1] += 64;
    }
}

/// Compression without a destination gets a short one.
fn address_compressed(frame: &mut [u8]) {
    if frame[0] / 64 % 2 == 1 && frame[1] / 4 % 4 == 0 {
        frame[1] += 8;
    }
}

fn header(draw: &mut Draw, made: &mut Vec<u8>) -> u8 {
    let mode = draw.byte();
    let length = extent(mode / 4, draw.byte(), 37);
    let room = extent(mode / 16, draw.byte(), 37);
    let choice = draw.byte() % 3;
    let mut counter = [0; 4];
    draw.fill(&mut counter);
    let mut frame = [0; 41];
    draw.fill(&mut frame);
    let place = draw.byte();
    let bit = draw.byte();
    if mode % 4 != 0 {
        mend(&mut frame);
    }
    if mode % 4 >= 2 {
        address_compressed(&mut frame);
    }
    if mode / 64 == 0 {
        frame[(place % 41) as usize] ^= 1 << (bit % 8);
    }
    prefix(0, room, 0, choice, counter, made);
    made.extend_from_slice(&frame[..length as usize]);
    b'h'
}

fn beacon(draw: &mut Draw, made: &mut Vec<u8>) -> u8 {
    let mode = draw.byte();
    let length = extent(mode, draw.byte(), 96);
    let room = extent(mode / 4, draw.byte(), 96);
    let mut content = [0; 100];
    draw.fill(&mut content);
    prefix(0, room, 0, 0, [0; 4], made);
    made.extend_from_slice(&content[..length as usize]);
    b'b'
}

fn view(draw: &mut Draw, made: &mut Vec<u8>) -> u8 {
    let mode = draw.byte();
    let length = extent(mode / 4, draw.byte(), 133);
    let mut frame = [0; 137];
    draw.fill(&mut frame);
    if mode % 4 != 0 {
        mend(&mut frame);
        address_compressed(&mut frame);
    }
    if mode % 4 >= 2 {
        frame[0] -= frame[0] % 16;
    }
    made.extend_from_slice(&frame[..length as usize]);
    b'p'
}

/// An address by its mode: what the mode has no room for is 0.
fn fit_address(bytes: &mut [u8]) {
    bytes[0] = MODES[(bytes[0] % 3) as usize];
    let used = [1, 1, 5, 11][bytes[0] as usize];
    bytes[used..].fill(0);
}

fn fit_security(bytes: &mut [u8]) {
    bytes[0] %= 8;
    bytes[1] %= 4;
    bytes[6] %= 4;
    match bytes[6] {
        0 => bytes[7..16].fill(0),
        1 => bytes[7..15].fill(0),
        2 => bytes[11..15].fill(0),
        _ => (),
    }
}

fn header_record(draw: &mut Draw, made: &mut Vec<u8>) -> u8 {
    let mode = draw.byte();
    let room = extent(mode, draw.byte(), 37);
    let choice = draw.byte() % 3;
    let mut counter = [0; 4];
    draw.fill(&mut counter);
    let mut record = [0; layout::HEADER];
    draw.fill(&mut record);
    record[0] = TYPES[(record[0] % 8) as usize];
    for flag in &mut record[1..6] {
        *flag %= 2;
    }
    record[6] %= 3;
    fit_address(&mut record[8..19]);
    fit_address(&mut record[19..30]);
    record[30] %= 2;
    if record[30] == 0 {
        record[31..47].fill(0);
    } else {
        fit_security(&mut record[31..47]);
    }
    record[47] = 0;
    prefix(0, room, 0, choice, counter, made);
    made.extend_from_slice(&record);
    b'H'
}

fn fit_order(bytes: &mut [u8]) {
    bytes[0] %= 2;
    bytes[1] = if bytes[0] == 1 { 0 } else { bytes[1] % 15 };
}

fn fit_superframe(bytes: &mut [u8]) {
    fit_order(&mut bytes[0..2]);
    fit_order(&mut bytes[2..4]);
    bytes[4] %= 16;
    for flag in &mut bytes[5..8] {
        *flag %= 2;
    }
}

fn fit_slots(bytes: &mut [u8]) {
    bytes[0] %= 2;
    bytes[1] %= 8;
    let count = bytes[1] as usize;
    for (index, entry) in bytes[2..].chunks_mut(DESCRIPTOR).enumerate() {
        if index < count {
            entry[2] %= 16;
            entry[3] %= 16;
            entry[4] = DIRECTIONS[(entry[4] % 2) as usize];
        } else {
            entry.copy_from_slice(&EMPTY_DESCRIPTOR);
        }
    }
}

fn fit_pending(bytes: &mut [u8]) {
    bytes[0] %= 8;
    bytes[15] %= 8;
    let (short, extended) = (bytes[0] as usize, bytes[15] as usize);
    bytes[1 + 2 * short..15].fill(0xff);
    bytes[16 + 8 * extended..].fill(0xff);
}

fn beacon_record(draw: &mut Draw, made: &mut Vec<u8>) -> u8 {
    let mode = draw.byte();
    let room = extent(mode, draw.byte(), 96);
    let mut record = [0; SUPERFRAME + SLOTS + PENDING];
    draw.fill(&mut record);
    fit_superframe(&mut record[..SUPERFRAME]);
    fit_slots(&mut record[SUPERFRAME..SUPERFRAME + SLOTS]);
    fit_pending(&mut record[SUPERFRAME + SLOTS..]);
    prefix(0, room, 0, 0, [0; 4], made);
    made.extend_from_slice(&record);
    b'B'
}

fn part(draw: &mut Draw, made: &mut Vec<u8>) -> u8 {
    let kind = PARTS[(draw.byte() % 9) as usize];
    let mode = draw.byte();
    let length = extent(mode, draw.byte(), 76);
    let room = extent(mode / 4, draw.byte(), 76);
    let place = draw.byte() % 4;
    let out = draw.byte() % 4;
    let mut counter = [0; 4];
    draw.fill(&mut counter);
    let mut input = [0; 80];
    draw.fill(&mut input);
    prefix(place, room, out, 1, counter, made);
    made.extend_from_slice(&input[..length as usize]);
    kind
}
