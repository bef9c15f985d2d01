//! The suites: commands that leave no case of a small field out, and random ones by their digests.

use oracle_format::layout::{self, DESCRIPTOR, EMPTY_DESCRIPTOR, RECEIVE, TRANSMIT};
use oracle_format::text::hex;

/// Takes a command: its kind and its bytes.
pub type Take<'a> = dyn FnMut(u8, &[u8]) + 'a;

pub struct Suite {
    pub name: &'static str,
    pub what: &'static str,
    pub make: fn(&mut Take),
}

pub const SUITES: &[Suite] = &[
    Suite { name: "bits", what: "from_bits and orders of every byte; constants", make: bits },
    Suite { name: "short", what: "every input of 0 to 2 bytes, twelve kinds", make: short },
    Suite { name: "controls", what: "65,536 frame controls at nine lengths", make: controls },
    Suite { name: "secured", what: "256 control bytes, 18 address forms, every cut and room", make: secured },
    Suite { name: "security", what: "256 control bytes alone, every cut and room", make: security },
    Suite { name: "identifiers", what: "PAN ids and addresses, every cut, room and place", make: identifiers },
    Suite { name: "superframes", what: "65,536 superframes, every room, alone and in a beacon", make: superframes },
    Suite { name: "slots", what: "256 GTS headers by 256 directions; every cut and room", make: slots },
    Suite { name: "pending", what: "256 pending headers, every cut and room", make: pending },
    Suite { name: "beacons", what: "512 counts of a beacon, every cut and room", make: beacons },
    Suite { name: "views", what: "65,536 frame controls with a payload; beacons cut", make: views },
    Suite { name: "places", what: "every kind at every place, past the end too", make: places },
    Suite { name: "long", what: "inputs of 100 to 500 bytes, every kind", make: long },
    Suite { name: "headers", what: "header records that no reader makes, every room", make: header_records },
    Suite { name: "sizes", what: "get_octet_size of header records of every shape", make: sizes },
    Suite { name: "parts", what: "records of the parts, every room", make: part_records },
    Suite { name: "eight", what: "records that are refused with 8", make: eight },
    Suite { name: "unused", what: "records with anything past their counts", make: unused },
    Suite { name: "kept", what: "header records with every kept length, and every refusal", make: kept_lengths },
];

/// How the writing is asked for.
#[derive(Clone, Copy)]
struct Into {
    room: usize,
    place: usize,
    choice: u8,
}

const COUNTER: [u8; 4] = [0x78, 0x56, 0x34, 0x12];

fn room(room: usize) -> Into {
    Into { room, place: 0, choice: 2 }
}

fn command(take: &mut Take, kind: u8, place: usize, into: Into, rest: &[u8]) {
    let mut bytes = Vec::with_capacity(11 + rest.len());
    for number in [place, into.room, into.place] {
        bytes.extend_from_slice(&(number as u16).to_le_bytes());
    }
    bytes.push(into.choice);
    bytes.extend_from_slice(&COUNTER);
    bytes.extend_from_slice(rest);
    take(kind, &bytes);
}

/// Bytes that differ from place to place and name no special value.
fn filler(count: usize) -> Vec<u8> {
    (0..count).map(|index| (index * 29 + 17) as u8).collect()
}

fn bits(take: &mut Take) {
    take(b'k', &[]);
    for kind in *b"tvmo" {
        for byte in 0..=255 {
            take(kind, &[byte]);
        }
    }
}

fn short(take: &mut Take) {
    for kind in *b"hscnaxfegqbp" {
        let mut one = |input: &[u8]| match kind {
            b'p' => take(kind, input),
            _ => command(take, kind, 0, Into { choice: 1, ..room(4) }, input),
        };
        one(&[]);
        for first in 0..=255 {
            one(&[first]);
            for second in 0..=255 {
                one(&[first, second]);
            }
        }
    }
}

fn controls(take: &mut Take) {
    for length in [3, 4, 7, 9, 13, 17, 23, 28, 37] {
        let mut frame = filler(length);
        for bits in 0..=65535u16 {
            frame[..2].copy_from_slice(&bits.to_le_bytes());
            command(take, b'h', 0, room(37), &frame);
        }
    }
}

/// Destination mode, source mode, compression, and the bytes up to the security part.
const FORMS: [(u8, u8, u8, usize); 18] = [
    (0, 0, 0, 3),
    (0, 2, 0, 7),
    (0, 3, 0, 13),
    (2, 0, 0, 7),
    (2, 2, 0, 11),
    (2, 3, 0, 17),
    (3, 0, 0, 13),
    (3, 2, 0, 17),
    (3, 3, 0, 23),
    (0, 0, 1, 3),
    (0, 2, 1, 5),
    (0, 3, 1, 11),
    (2, 0, 1, 7),
    (2, 2, 1, 9),
    (2, 3, 1, 15),
    (3, 0, 1, 13),
    (3, 2, 1, 15),
    (3, 3, 1, 21),
];

/// Bytes of the security part by key mode.
const SECURED: [usize; 4] = [5, 6, 10, 14];

fn secured(take: &mut Take) {
    for (to, from, compress, start) in FORMS {
        for control in 0..=255u8 {
            let whole = start + SECURED[(control / 8 % 4) as usize];
            let mut frame = filler(whole + 1);
            frame[0] = 1 + 8 + 64 * compress;
            frame[1] = 4 * to + 64 * from + 16 * (control % 3);
            frame[start] = control;
            for cut in 3..=whole + 1 {
                command(take, b'h', 0, room(37), &frame[..cut]);
            }
            for space in 0..=whole + 1 {
                command(take, b'h', 0, room(space), &frame[..whole]);
            }
            for choice in 0..2 {
                command(take, b'h', 0, Into { choice, ..room(whole) }, &frame[..whole]);
            }
        }
    }
}

fn security(take: &mut Take) {
    for control in 0..=255u8 {
        let whole = SECURED[(control / 8 % 4) as usize];
        let mut part = filler(whole + 1);
        part[0] = control;
        for cut in 0..=whole + 1 {
            command(take, b's', 0, room(16), &part[..cut]);
        }
        for space in 0..=whole + 1 {
            for choice in 0..3 {
                command(take, b's', 0, Into { choice, ..room(space) }, &part);
            }
        }
        for space in 0..3 {
            command(take, b'c', 0, room(space), &part);
        }
    }
}

fn identifiers(take: &mut Take) {
    for kind in *b"nax" {
        for length in 0..=10 {
            for place in 0..=11 {
                command(take, kind, place, room(8), &filler(length));
            }
        }
        for space in 0..=10 {
            for place in 0..=11 {
                command(take, kind, 0, Into { place, ..room(space) }, &filler(8));
            }
        }
    }
    for (kind, width) in [(b'N', 2), (b'A', 2), (b'X', 8)] {
        for pattern in [0x00, 0x01, 0x7f, 0x80, 0xfe, 0xff] {
            for at in 0..width {
                let mut value = vec![0xff; width];
                value[at] = pattern;
                for space in 0..=9 {
                    command(take, kind, 0, room(space), &value);
                }
            }
        }
    }
}

fn superframes(take: &mut Take) {
    for bits in 0..=65535u16 {
        let [low, high] = bits.to_le_bytes();
        for space in 0..=3 {
            command(take, b'f', 0, room(space), &[low, high, 0xee]);
        }
        command(take, b'b', 0, room(5), &[low, high, 0, 0]);
    }
}

fn slots(take: &mut Take) {
    for header in 0..=255u8 {
        let count = (header % 8) as usize;
        let whole = if count == 0 { 1 } else { 2 + 3 * count };
        let mut part = filler(whole + 3);
        part[0] = header;
        for directions in 0..=255 {
            part[1] = directions;
            command(take, b'g', 0, room(24), &part);
            if [0x00, 0x55, 0xaa, 0xff].contains(&directions) {
                for cut in 0..part.len() {
                    command(take, b'g', 0, room(23), &part[..cut]);
                }
                for space in 0..=whole + 1 {
                    command(take, b'g', 0, room(space), &part);
                }
            }
        }
    }
    // A descriptor alone, every start and length, every cut and room.
    for byte in 0..=255 {
        let part = [0x34, 0x12, byte, 0xee];
        for cut in 0..=4 {
            command(take, b'e', 0, room(4), &part[..cut]);
            command(take, b'e', 0, room(cut), &part);
        }
    }
}

fn pending(take: &mut Take) {
    for header in 0..=255u8 {
        let whole = 1 + 2 * (header % 8) as usize + 8 * (header / 16 % 8) as usize;
        let mut part = filler(whole + 1);
        part[0] = header;
        for cut in 0..=whole + 1 {
            command(take, b'q', 0, room(72), &part[..cut]);
            command(take, b'q', 0, room(cut), &part);
        }
    }
}

fn beacons(take: &mut Take) {
    for counts in 0..512usize {
        let (count, short, extended) = (counts % 8, counts / 8 % 8, counts / 64);
        let tail = if count == 0 { 3 } else { 4 + 3 * count };
        let whole = tail + 1 + 2 * short + 8 * extended;
        let mut content = filler(whole + 1);
        content[2] = (count + 128 * (short % 2) + 8 * (extended % 8)) as u8;
        content[tail] = (short + 16 * extended + 8 * (count % 2) + 128 * (short % 2)) as u8;
        for cut in 0..=whole + 1 {
            command(take, b'b', 0, room(whole), &content[..cut]);
            command(take, b'b', 0, room(cut), &content);
        }
    }
}

fn views(take: &mut Take) {
    for length in [3, 9, 24, 37, 60] {
        let mut frame = filler(length);
        for bits in 0..=65535u16 {
            frame[..2].copy_from_slice(&bits.to_le_bytes());
            take(b'p', &frame);
        }
    }
    // Beacon frames of every form and type 0 version, with seven slots and three addresses, at every cut.
    for (to, from, compress, start) in FORMS {
        for secured in 0..2 {
            for version in 0..3 {
                let mut frame = filler(start + 60);
                frame[0] = 64 * compress + 8 * secured;
                frame[1] = 4 * to + 64 * from + 16 * version;
                frame[start + 2] = 0x87;
                frame[start + 25] = 0x12;
                for cut in 0..frame.len() {
                    take(b'p', &frame[..cut]);
                }
            }
        }
    }
}

fn places(take: &mut Take) {
    let parts: [(u8, &[u8]); 11] = [
        (b'h', &[0x69, 0x98, 7, 0x34, 0x12, 1, 0, 2, 0, 0x0d, 1, 0, 0, 0, 9]),
        (b's', &[0x15, 1, 2, 3, 4, 5, 6, 7, 8, 9]),
        (b'c', &[0xff]),
        (b'n', &[0x34, 0x12]),
        (b'a', &[0x34, 0x12]),
        (b'x', &[1, 2, 3, 4, 5, 6, 7, 8]),
        (b'f', &[0x46, 0xcf]),
        (b'e', &[2, 0, 0x35]),
        (b'g', &[0x82, 0xfe, 2, 0, 0x35, 3, 0, 0x17]),
        (b'q', &[0x11, 1, 2, 3, 4, 5, 6, 7, 8, 9, 10]),
        (b'b', &[0x46, 0xcf, 0x81, 0xff, 2, 0, 0x35, 0]),
    ];
    for (kind, part) in parts {
        for before in 0..=5 {
            let mut input = filler(before);
            input.extend_from_slice(part);
            for place in (0..=input.len() + 2).chain([255, 256, 65535]) {
                command(take, kind, place, room(16), &input);
            }
            command(take, kind, before, room(20), &[&input[..], &[0xee]].concat());
        }
        for space in 0..=20 {
            for place in (0..=space + 2).chain([255, 256, 65535]) {
                command(take, kind, 0, Into { room: space, place, choice: 2 }, part);
                command(take, kind, 0, Into { room: space, place, choice: 0 }, part);
            }
        }
    }
}

fn long(take: &mut Take) {
    for length in 100..=500 {
        let mut input = filler(length);
        input[0] = 0x69;
        input[1] = 0xec;
        for kind in *b"hscnaxfegqb" {
            command(take, kind, 0, room(100), &input);
            command(take, kind, length - 40, room(256), &input);
        }
        take(b'p', &input);
        input[0] = 0x40;
        take(b'p', &input);
    }
}

fn address(mode: u8, pan: u16) -> Vec<u8> {
    let mut spelled = vec![0; 11];
    spelled[0] = mode;
    if mode != 0 {
        spelled[1..3].copy_from_slice(&pan.to_le_bytes());
        let width = if mode == 2 { 2 } else { 8 };
        spelled[3..3 + width].copy_from_slice(&filler(width));
    }
    spelled
}

/// A security record: level, the record's own key mode, the key identifier's case.
fn security_record(level: u8, mode: u8, key: u8) -> Vec<u8> {
    let mut spelled = vec![level, mode, 0xd0, 0xd1, 0xd2, 0xd3, key];
    let (source, index) = [(0, 0), (0, 1), (4, 1), (8, 1)][key as usize];
    let mut bytes = vec![0; 9];
    bytes[..source].copy_from_slice(&filler(source));
    bytes[8] = 0x99 * index;
    spelled.extend_from_slice(&bytes);
    spelled
}

fn header_record(start: [u8; 8], destination: &[u8], source: &[u8], security: &Option<Vec<u8>>) -> Vec<u8> {
    let mut spelled = start.to_vec();
    spelled.extend_from_slice(destination);
    spelled.extend_from_slice(source);
    match security {
        None => spelled.extend_from_slice(&[0; 17]),
        Some(security) => {
            spelled.push(1);
            spelled.extend_from_slice(security);
        }
    }
    // The kept length: the right one.
    spelled.push(0);
    spelled
}

/// No security part, and one of each key identifier with each key mode.
fn securities() -> Vec<Option<Vec<u8>>> {
    let mut securities = vec![None];
    for key in 0..4 {
        for mode in 0..4 {
            securities.push(Some(security_record(5, mode, key)));
        }
    }
    securities
}

fn header_records(take: &mut Take) {
    let securities = securities();
    for to in [0, 2, 3] {
        for from in [0, 2, 3] {
            for compress in 0..2 {
                for pan in [0x1234, 0xabcd] {
                    for security in &securities {
                        let start = [1, 0, 1, compress, 0, 0, 1, 7];
                        let record = header_record(start, &address(to, 0x1234), &address(from, pan), security);
                        for space in 0..=39 {
                            for choice in 0..2 {
                                command(take, b'H', 0, Into { choice, ..room(space) }, &record);
                            }
                        }
                        command(take, b'H', 0, Into { choice: 2, ..room(37) }, &record);
                    }
                }
            }
        }
    }
    // Every type, version, flag and level.
    for kind in [0, 1, 2, 3, 5, 6, 7] {
        for version in 0..3 {
            for flags in 0..32u8 {
                let flag = |at: u8| flags / (1 << at) % 2;
                let start = [kind, flag(0), flag(1), flag(2), flag(3), flag(4), version, 0xfe];
                for security in [None, Some(security_record(flags % 8, 3, version))] {
                    let record = header_record(start, &address(2, 1), &address(3, 2), &security);
                    command(take, b'H', 0, room(37), &record);
                }
            }
        }
    }
}

/// Records of every type, version, flags, address forms and security part, those that no reader makes too.
fn sizes(take: &mut Take) {
    let securities = securities();
    for kind in [0, 1, 2, 3, 5, 6, 7] {
        for version in 0..3 {
            for flags in 0..32u8 {
                let flag = |at: u8| flags / (1 << at) % 2;
                let start = [kind, flag(0), flag(1), flag(2), flag(3), flag(4), version, 0xfe];
                for to in [0, 2, 3] {
                    for from in [0, 2, 3] {
                        for security in &securities {
                            take(b'z', &header_record(start, &address(to, 0x1234), &address(from, 0xabcd), security));
                        }
                    }
                }
            }
        }
    }
}

fn superframe(beacon: [u8; 2], superframe: [u8; 2], slot: u8, flags: u8) -> Vec<u8> {
    vec![beacon[0], beacon[1], superframe[0], superframe[1], slot, flags % 2, flags / 2 % 2, flags / 4 % 2]
}

/// The order of a half byte.
fn order(half: u8) -> [u8; 2] {
    if half == 15 {
        [1, 0]
    } else {
        [0, half]
    }
}

/// The direction that the pattern's bit of this index means, set Receive.
fn direction(pattern: u8, index: usize) -> u8 {
    if pattern >> index & 1 == 1 {
        RECEIVE
    } else {
        TRANSMIT
    }
}

fn slots_record(permit: u8, count: usize, directions: u8) -> Vec<u8> {
    let mut spelled = vec![permit, count as u8];
    for index in 0..7 {
        if index < count {
            let slot = index as u8;
            spelled.extend_from_slice(&[slot, 0x80 + slot, slot + 3, 15 - slot, direction(directions, index)]);
        } else {
            spelled.extend_from_slice(&EMPTY_DESCRIPTOR);
        }
    }
    spelled
}

fn pending_record(short: usize, extended: usize) -> Vec<u8> {
    let mut spelled = vec![short as u8];
    spelled.extend_from_slice(&filler(2 * short));
    spelled.resize(15, 0xff);
    spelled.push(extended as u8);
    spelled.extend_from_slice(&filler(8 * extended));
    spelled.resize(layout::PENDING, 0xff);
    spelled
}

fn part_records(take: &mut Take) {
    for level in 0..8 {
        for mode in 0..4 {
            for space in 0..=2 {
                command(take, b'C', 0, room(space), &[level, mode]);
            }
            for key in 0..4 {
                let record = security_record(level, mode, key);
                for space in 0..=15 {
                    for choice in 0..3 {
                        command(take, b'S', 0, Into { choice, ..room(space) }, &record);
                    }
                }
            }
        }
    }
    for halves in 0..=255u8 {
        for slot in 0..16 {
            for flags in 0..8 {
                let record = superframe(order(halves % 16), order(halves / 16), slot, flags);
                command(take, b'F', 0, room(2), &record);
                if slot == 9 {
                    for space in [0, 1, 3] {
                        command(take, b'F', 0, room(space), &record);
                    }
                }
            }
        }
    }
    for halves in 0..=255 {
        for direction in [RECEIVE, TRANSMIT] {
            for space in 0..=4 {
                command(take, b'E', 0, room(space), &[0xcd, 0xab, halves % 16, halves / 16, direction]);
            }
        }
    }
    for count in 0..=7 {
        for directions in 0..=255u16 {
            if directions >> count == 0 {
                for permit in 0..2 {
                    command(take, b'G', 0, room(24), &slots_record(permit, count, directions as u8));
                }
            }
        }
        for space in 0..=25 {
            command(take, b'G', 0, room(space), &slots_record(1, count, 0x2d));
        }
    }
    for counts in 0..64 {
        for space in 0..=72 {
            command(take, b'Q', 0, room(space), &pending_record(counts % 8, counts / 8));
        }
    }
    for counts in 0..512 {
        let (count, short, extended) = (counts % 8, counts / 8 % 8, counts / 64);
        let half = (counts % 16) as u8;
        let record = [
            superframe(order(half), order(15 - half), half, half % 8),
            slots_record(1, count, 0x2d),
            pending_record(short, extended),
        ]
        .concat();
        let whole = 3 + if count == 0 { 0 } else { 1 + 3 * count } + 1 + 2 * short + 8 * extended;
        for space in 0..=whole + 1 {
            command(take, b'B', 0, room(space), &record);
        }
    }
}

fn beacon_record(first: &[u8], slots: &[u8], pending: &[u8]) -> Vec<u8> {
    [first, slots, pending].concat()
}

fn eight(take: &mut Take) {
    let plain = superframe(order(6), order(4), 15, 5);
    let few = slots_record(1, 1, 1);
    let none = pending_record(1, 1);
    for space in [0, 1, 2, 3, 40, 96] {
        for level in [8, 9, 15, 16, 127, 128, 255] {
            for choice in 0..2 {
                let into = Into { choice, ..room(space) };
                command(take, b'C', 0, into, &[level, 1]);
                for key in 0..4 {
                    let security = security_record(level, key, key);
                    command(take, b'S', 0, into, &security);
                    for compress in 0..2 {
                        let start = [1, 0, 1, compress, 0, 0, 1, 7];
                        let record = header_record(start, &address(2, 1), &address(0, 0), &Some(security.clone()));
                        command(take, b'H', 0, into, &record);
                    }
                }
            }
        }
        for value in 15..=255 {
            for first in [
                superframe([0, value], order(15), 1, 2),
                superframe(order(15), [0, value], 1, 2),
                superframe(order(0), order(0), value, 7),
            ] {
                command(take, b'F', 0, room(space), &first);
                command(take, b'B', 0, room(space), &beacon_record(&first, &few, &none));
            }
            for entry in [[1, 2, value, 0, TRANSMIT], [1, 2, 0, value, TRANSMIT]] {
                command(take, b'E', 0, room(space), &entry);
                let mut slots = slots_record(0, 3, 5);
                slots[2 + 2 * DESCRIPTOR..2 + 3 * DESCRIPTOR].copy_from_slice(&entry);
                command(take, b'G', 0, room(space), &slots);
                command(take, b'B', 0, room(space), &beacon_record(&plain, &slots, &none));
            }
        }
        for count in 8..=255 {
            let mut slots = slots_record(1, 7, 0x55);
            slots[1] = count;
            command(take, b'G', 0, room(space), &slots);
            command(take, b'B', 0, room(space), &beacon_record(&plain, &slots, &none));
            for at in [0, 15] {
                let mut pending = pending_record(7, 7);
                pending[at] = count;
                command(take, b'Q', 0, room(space), &pending);
                command(take, b'B', 0, room(space), &beacon_record(&plain, &few, &pending));
            }
        }
    }
}

fn unused(take: &mut Take) {
    for count in 0..=7 {
        for entry in [[0, 0, 0, 0, RECEIVE], [1, 2, 3, 4, TRANSMIT], [0xff, 0xff, 255, 255, TRANSMIT], [9, 9, 16, 0, RECEIVE]] {
            let mut slots = slots_record(1, count, 0x7f);
            for place in count..7 {
                slots[2 + place * DESCRIPTOR..][..DESCRIPTOR].copy_from_slice(&entry);
            }
            let mut pending = pending_record(count, 7 - count);
            for byte in pending[1 + 2 * count..15].iter_mut() {
                *byte = entry[2];
            }
            for byte in pending[16 + 8 * (7 - count)..].iter_mut() {
                *byte = entry[1];
            }
            let first = superframe(order(6), order(4), 15, 5);
            for space in 0..=96 {
                command(take, b'G', 0, room(space), &slots);
                command(take, b'Q', 0, room(space), &pending);
                command(take, b'B', 0, room(space), &beacon_record(&first, &slots, &pending));
            }
        }
    }
}

/// Header records with a kept length that is given. All of them: at a room of two bytes, which is refusal 1, and at one that is enough, with a
/// counter and without, which is 7 where they are secured; among them are level 8, and compression without an address, which is 6. The right
/// one and those beside it: at every room.
fn kept_lengths(take: &mut Take) {
    let part = |level, mode, key: u8| (Some(security_record(level, mode, key)), SECURED[key as usize]);
    let securities = [(None, 0), part(5, 0, 0), part(5, 1, 1), part(5, 3, 2), part(5, 3, 3), part(8, 1, 1)];
    for (to, from, compress, start) in FORMS {
        for (security, secured) in &securities {
            let start_of_record = [1, 0, 1, compress, 0, 0, 1, 7];
            let mut record = header_record(start_of_record, &address(to, 0x1234), &address(from, 0x1234), security);
            let right = start + secured;
            for kept in 1..=255 {
                record[layout::header::KEPT] = kept as u8;
                take(b'z', &record);
                for choice in 0..2 {
                    command(take, b'H', 0, Into { choice, ..room(2) }, &record);
                    command(take, b'H', 0, Into { choice, ..room(37) }, &record);
                    if right.abs_diff(kept) <= 1 {
                        for space in 0..=39 {
                            command(take, b'H', 0, Into { choice, ..room(space) }, &record);
                        }
                    }
                }
            }
        }
    }
}

/// The state of the generator for the thousand of this number: splitmix64 of the number, made odd.
fn state(number: u64) -> u64 {
    let mut z = number.wrapping_add(1).wrapping_mul(0x9e3779b97f4a7c15);
    z = (z ^ (z >> 30)).wrapping_mul(0xbf58476d1ce4e5b9);
    z = (z ^ (z >> 27)).wrapping_mul(0x94d049bb133111eb);
    (z ^ (z >> 31)) | 1
}

/// The digest command of a family's thousand.
pub fn thousand(family: u8, number: u64) -> Vec<u8> {
    let mut bytes = vec![family];
    bytes.extend_from_slice(&state(256 * number + family as u64).to_le_bytes());
    bytes.extend_from_slice(&1000u16.to_le_bytes());
    bytes
}

/// A command as its line, without a line feed.
pub fn line(kind: u8, bytes: &[u8]) -> Vec<u8> {
    let mut text = vec![kind, b'\t'];
    hex(bytes, &mut text);
    text
}
