//! Document 01, "Beacon layout", as requests 2 and 6 of document 02 change it.

use crate::bytes::{from, number, put, store, take};
use oracle_format::layout::{DESCRIPTOR, RECEIVE, SLOTS, SUPERFRAME, TRANSMIT};
use oracle_format::{Number, Part};

/// Case (0 numbered, 1 OnDemand or Inactive) and value.
#[derive(Clone, Copy)]
pub struct Order(pub u8, pub u8);

pub fn order_of(value: u8) -> Order {
    if value <= 14 {
        Order(0, value)
    } else {
        Order(1, 0)
    }
}

impl Order {
    fn bits(self) -> u8 {
        match self.0 {
            0 => self.1,
            _ => 15,
        }
    }

    fn fits(self) -> bool {
        self.0 == 1 || self.1 <= 14
    }
}

/// A part of a beacon: whether it is free of 8, and its bytes.
trait Encoded {
    fn fits(&self) -> bool;
    fn bytes(&self, out: &mut Vec<u8>);
}

/// 8, then 1.
fn write<T: Encoded>(record: T, buffer: &mut [u8], place: usize) -> Option<Result<usize, Number>> {
    if !record.fits() {
        return Some(Err(8));
    }
    let mut part = Vec::new();
    record.bytes(&mut part);
    Some(store(buffer, place, &part))
}

fn bit(byte: u8, at: u32) -> bool {
    byte / 2u8.pow(at) % 2 == 1
}

#[derive(Clone, Copy)]
pub struct Superframe {
    beacon_order: Order,
    superframe_order: Order,
    final_slot: u8,
    battery: bool,
    coordinator: bool,
    association: bool,
}

impl Encoded for Superframe {
    fn fits(&self) -> bool {
        self.beacon_order.fits() && self.superframe_order.fits() && self.final_slot <= 15
    }

    fn bytes(&self, out: &mut Vec<u8>) {
        out.push(self.beacon_order.bits() + 16 * self.superframe_order.bits());
        out.push(self.final_slot + 16 * self.battery as u8 + 64 * self.coordinator as u8 + 128 * self.association as u8);
    }
}

impl Part for Superframe {
    type Record = Superframe;

    fn read(bytes: &[u8], place: usize) -> Result<(Superframe, usize), Number> {
        let part = take(bytes, place, 2)?;
        let record = Superframe {
            beacon_order: order_of(part[0] % 16),
            superframe_order: order_of(part[0] / 16),
            final_slot: part[1] % 16,
            battery: bit(part[1], 4),
            coordinator: bit(part[1], 6),
            association: bit(part[1], 7),
        };
        Ok((record, 2))
    }

    fn spell(record: &Superframe, out: &mut Vec<u8>) {
        out.extend_from_slice(&[
            record.beacon_order.0,
            record.beacon_order.1,
            record.superframe_order.0,
            record.superframe_order.1,
            record.final_slot,
            record.battery as u8,
            record.coordinator as u8,
            record.association as u8,
        ]);
    }

    fn build(spelled: &[u8]) -> Option<Superframe> {
        Some(Superframe {
            beacon_order: Order(spelled[0], spelled[1]),
            superframe_order: Order(spelled[2], spelled[3]),
            final_slot: spelled[4],
            battery: spelled[5] == 1,
            coordinator: spelled[6] == 1,
            association: spelled[7] == 1,
        })
    }

    fn write(record: Superframe, _: Option<u32>, buffer: &mut [u8], place: usize) -> Option<Result<usize, Number>> {
        write(record, buffer, place)
    }
}

#[derive(Clone, Copy)]
pub struct Descriptor {
    address: u64,
    start: u8,
    length: u8,
    receive: bool,
}

impl Descriptor {
    /// An unused place.
    pub const UNUSED: Descriptor = Descriptor { address: 0xffff, start: 0, length: 0, receive: true };
}

impl Encoded for Descriptor {
    fn fits(&self) -> bool {
        self.start <= 15 && self.length <= 15
    }

    fn bytes(&self, out: &mut Vec<u8>) {
        put(self.address, 2, out);
        out.push(self.start + 16 * self.length);
    }
}

impl Part for Descriptor {
    type Record = Descriptor;

    /// Read alone it is Receive: the direction byte belongs to the list.
    fn read(bytes: &[u8], place: usize) -> Result<(Descriptor, usize), Number> {
        let part = take(bytes, place, 3)?;
        let record = Descriptor { address: number(&part[..2]), start: part[2] % 16, length: part[2] / 16, receive: true };
        Ok((record, 3))
    }

    fn spell(record: &Descriptor, out: &mut Vec<u8>) {
        put(record.address, 2, out);
        let direction = if record.receive { RECEIVE } else { TRANSMIT };
        out.extend_from_slice(&[record.start, record.length, direction]);
    }

    fn build(spelled: &[u8]) -> Option<Descriptor> {
        Some(Descriptor { address: number(&spelled[..2]), start: spelled[2], length: spelled[3], receive: spelled[4] == RECEIVE })
    }

    fn write(record: Descriptor, _: Option<u32>, buffer: &mut [u8], place: usize) -> Option<Result<usize, Number>> {
        write(record, buffer, place)
    }
}

#[derive(Clone, Copy)]
pub struct Slots {
    permit: bool,
    count: u8,
    places: [Descriptor; 7],
}

impl Slots {
    pub const EMPTY: Slots = Slots { permit: false, count: 0, places: [Descriptor::UNUSED; 7] };
}

impl Encoded for Slots {
    /// The count before any entry; entries past it are ignored.
    fn fits(&self) -> bool {
        self.count <= 7 && self.places[..self.count as usize].iter().all(Encoded::fits)
    }

    fn bytes(&self, out: &mut Vec<u8>) {
        let used = &self.places[..self.count as usize];
        out.push(self.count + 128 * self.permit as u8);
        if 0 < self.count {
            out.push(used.iter().rev().fold(0, |bits, slot| 2 * bits + slot.receive as u8));
        }
        for slot in used {
            slot.bytes(out);
        }
    }
}

impl Part for Slots {
    type Record = Slots;

    /// For n > 0, 1+3n bytes are demanded after the header and consumed (request 2). A set direction bit is Receive (request 6).
    fn read(bytes: &[u8], place: usize) -> Result<(Slots, usize), Number> {
        let header = take(bytes, place, 1)?[0];
        let mut record = Slots { permit: bit(header, 7), count: header % 8, ..Slots::EMPTY };
        let n = record.count as usize;
        if n == 0 {
            return Ok((record, 1));
        }
        let part = take(bytes, place, 1 + 1 + 3 * n)?;
        for k in 0..n {
            record.places[k] = Descriptor::read(part, 2 + 3 * k)?.0;
            record.places[k].receive = bit(part[1], k as u32);
        }
        Ok((record, part.len()))
    }

    fn spell(record: &Slots, out: &mut Vec<u8>) {
        out.extend_from_slice(&[record.permit as u8, record.count]);
        for place in &record.places {
            Descriptor::spell(place, out);
        }
    }

    fn build(spelled: &[u8]) -> Option<Slots> {
        let mut record = Slots { permit: spelled[0] == 1, count: spelled[1], ..Slots::EMPTY };
        for (place, entry) in record.places.iter_mut().zip(spelled[2..].chunks(DESCRIPTOR)) {
            *place = Descriptor::build(entry)?;
        }
        Some(record)
    }

    fn write(record: Slots, _: Option<u32>, buffer: &mut [u8], place: usize) -> Option<Result<usize, Number>> {
        write(record, buffer, place)
    }
}

#[derive(Clone, Copy)]
pub struct Pending {
    short_count: u8,
    short: [u64; 7],
    extended_count: u8,
    extended: [u64; 7],
}

impl Pending {
    pub const EMPTY: Pending = Pending { short_count: 0, short: [0xffff; 7], extended_count: 0, extended: [u64::MAX; 7] };
}

impl Encoded for Pending {
    fn fits(&self) -> bool {
        self.short_count <= 7 && self.extended_count <= 7
    }

    fn bytes(&self, out: &mut Vec<u8>) {
        out.push(self.short_count + 16 * self.extended_count);
        for address in &self.short[..self.short_count as usize] {
            put(*address, 2, out);
        }
        for address in &self.extended[..self.extended_count as usize] {
            put(*address, 8, out);
        }
    }
}

impl Part for Pending {
    type Record = Pending;

    fn read(bytes: &[u8], place: usize) -> Result<(Pending, usize), Number> {
        let header = take(bytes, place, 1)?[0];
        let (short, extended) = ((header % 8) as usize, (header / 16 % 8) as usize);
        let part = take(bytes, place, 1 + 2 * short + 8 * extended)?;
        let mut record = Pending { short_count: short as u8, extended_count: extended as u8, ..Pending::EMPTY };
        for k in 0..short {
            record.short[k] = number(&part[1 + 2 * k..][..2]);
        }
        for k in 0..extended {
            record.extended[k] = number(&part[1 + 2 * short + 8 * k..][..8]);
        }
        Ok((record, part.len()))
    }

    fn spell(record: &Pending, out: &mut Vec<u8>) {
        out.push(record.short_count);
        for address in record.short {
            put(address, 2, out);
        }
        out.push(record.extended_count);
        for address in record.extended {
            put(address, 8, out);
        }
    }

    fn build(spelled: &[u8]) -> Option<Pending> {
        let mut record = Pending { short_count: spelled[0], extended_count: spelled[15], ..Pending::EMPTY };
        for k in 0..7 {
            record.short[k] = number(&spelled[1 + 2 * k..][..2]);
            record.extended[k] = number(&spelled[16 + 8 * k..][..8]);
        }
        Some(record)
    }

    fn write(record: Pending, _: Option<u32>, buffer: &mut [u8], place: usize) -> Option<Result<usize, Number>> {
        write(record, buffer, place)
    }
}

#[derive(Clone, Copy)]
pub struct Beacon {
    superframe: Superframe,
    slots: Slots,
    pending: Pending,
}

impl Encoded for Beacon {
    fn fits(&self) -> bool {
        self.superframe.fits() && self.slots.fits() && self.pending.fits()
    }

    fn bytes(&self, out: &mut Vec<u8>) {
        self.superframe.bytes(out);
        self.slots.bytes(out);
        self.pending.bytes(out);
    }
}

impl Part for Beacon {
    type Record = Beacon;

    /// Its three parts, one behind the other.
    fn read(bytes: &[u8], place: usize) -> Result<(Beacon, usize), Number> {
        let content = from(bytes, place);
        let (superframe, taken) = Superframe::read(content, 0)?;
        let (slots, more) = Slots::read(content, taken)?;
        let (pending, last) = Pending::read(content, taken + more)?;
        Ok((Beacon { superframe, slots, pending }, taken + more + last))
    }

    fn spell(record: &Beacon, out: &mut Vec<u8>) {
        Superframe::spell(&record.superframe, out);
        Slots::spell(&record.slots, out);
        Pending::spell(&record.pending, out);
    }

    fn build(spelled: &[u8]) -> Option<Beacon> {
        Some(Beacon {
            superframe: Superframe::build(spelled)?,
            slots: Slots::build(&spelled[SUPERFRAME..])?,
            pending: Pending::build(&spelled[SUPERFRAME + SLOTS..])?,
        })
    }

    fn write(record: Beacon, _: Option<u32>, buffer: &mut [u8], place: usize) -> Option<Result<usize, Number>> {
        write(record, buffer, place)
    }
}
