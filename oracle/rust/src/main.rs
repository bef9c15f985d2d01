//! The Rust side: ieee802154 0.6.1 through its public interface. Private fields are taken from the text that Debug prints; records with private
//! fields are built by reading bytes that hold them.

mod debug;

use byte::{BytesExt, Error, TryRead, TryWrite};
use debug::Scan;
use ieee802154::mac::beacon::{
    Beacon, BeaconOrder, GuaranteedTimeSlotDescriptor, GuaranteedTimeSlotInformation, PendingAddress, SuperframeOrder,
    SuperframeSpecification,
};
use ieee802154::mac::frame::security::default::Unimplemented;
use ieee802154::mac::security::{AuxiliarySecurityHeader, KeyIdentifier, KeySource, SecurityContext, SecurityControl};
use ieee802154::mac::{
    Address, AddressMode, ExtendedAddress, FooterMode, Frame, FrameContent, FrameType, FrameVersion, Header, PanId, ShortAddress,
};
use oracle_format::layout::{header, DESCRIPTOR, EMPTY_DESCRIPTOR, RECEIVE, SLOTS, SUPERFRAME, TRANSMIT};
use oracle_format::{nothing_behind, Number, Part, Side, UNKNOWN};

struct Rust;

fn main() {
    oracle_format::program::<Rust>();
}

/// Document 01's number for an error of the crate. A short slice and a bad offset are 1; the crate has one name for 4 and 5.
fn number(error: Error) -> Number {
    match error {
        Error::BadInput { err: "InvalidFrameVersion" } => 2,
        Error::BadInput { err: "InvalidFrameType" } => 3,
        Error::BadInput { err: "InvalidAddressMode" } => 4,
        Error::BadInput { err: "DisallowedPanIdCompress" } => 6,
        Error::BadInput { err: "MissingSecurityCtx" } => 7,
        Error::BadInput { .. } => UNKNOWN,
        _ => 1,
    }
}

fn read_at<'a, T: TryRead<'a>>(bytes: &'a [u8], place: usize) -> Result<(T, usize), Number> {
    let mut offset = place;
    let value = bytes.read(&mut offset).map_err(number)?;
    Ok((value, offset - place))
}

fn write_at<T: TryWrite<Ctx>, Ctx>(value: T, ctx: Ctx, buffer: &mut [u8], place: usize) -> Option<Result<usize, Number>> {
    let mut offset = place;
    Some(buffer.write_with(&mut offset, value, ctx).map(|()| offset - place).map_err(number))
}

/// The counter travels in a security context that can do nothing else.
fn context(counter: u32) -> SecurityContext<Unimplemented, Unimplemented> {
    let mut context = SecurityContext::no_security();
    context.frame_counter = counter;
    context
}

fn flag(value: bool) -> u8 {
    value as u8
}

fn u16_of(bytes: &[u8]) -> u16 {
    u16::from_le_bytes(bytes[..2].try_into().unwrap())
}

fn u32_of(bytes: &[u8]) -> u32 {
    u32::from_le_bytes(bytes[..4].try_into().unwrap())
}

fn u64_of(bytes: &[u8]) -> u64 {
    u64::from_le_bytes(bytes[..8].try_into().unwrap())
}

fn spell_address(address: Option<Address>, out: &mut Vec<u8>) {
    let mut spelled = [0; 11];
    spelled[0] = AddressMode::from(address) as u8;
    match address {
        None => (),
        Some(Address::Short(pan, short)) => {
            spelled[1..3].copy_from_slice(&pan.0.to_le_bytes());
            spelled[3..5].copy_from_slice(&short.0.to_le_bytes());
        }
        Some(Address::Extended(pan, extended)) => {
            spelled[1..3].copy_from_slice(&pan.0.to_le_bytes());
            spelled[3..11].copy_from_slice(&extended.0.to_le_bytes());
        }
    }
    out.extend_from_slice(&spelled);
}

fn build_address(spelled: &[u8]) -> Option<Address> {
    let pan = PanId(u16_of(&spelled[1..]));
    match spelled[0] {
        0 => None,
        2 => Some(Address::Short(pan, ShortAddress(u16_of(&spelled[3..])))),
        _ => Some(Address::Extended(pan, ExtendedAddress(u64_of(&spelled[3..])))),
    }
}

struct HeaderPart;

impl Part for HeaderPart {
    type Record = Header;
    const PLACED: bool = false;

    fn read(bytes: &[u8], place: usize) -> Result<(Header, usize), Number> {
        read_at(bytes, place)
    }

    fn spell(record: &Header, out: &mut Vec<u8>) {
        out.extend_from_slice(&[
            record.frame_type as u8,
            flag(record.frame_pending),
            flag(record.ack_request),
            flag(record.pan_id_compress),
            flag(record.seq_no_suppress),
            flag(record.ie_present),
            record.version as u8,
            record.seq,
        ]);
        spell_address(record.destination, out);
        spell_address(record.source, out);
        out.push(flag(record.has_security()));
        match &record.auxiliary_security_header {
            Some(security) => SecurityPart::spell(security, out),
            None => out.extend_from_slice(&[0; 16]),
        }
        // The crate keeps no length.
        out.push(0);
    }

    fn build(spelled: &[u8]) -> Option<Header> {
        if spelled[header::KEPT] != 0 {
            return None;
        }
        let secured = match spelled[header::SECURED] {
            0 => None,
            _ => Some(SecurityPart::build(&spelled[header::SECURITY..])?),
        };
        Some(Header {
            frame_type: FrameType::from_bits(spelled[0])?,
            frame_pending: spelled[1] == 1,
            ack_request: spelled[2] == 1,
            pan_id_compress: spelled[3] == 1,
            seq_no_suppress: spelled[4] == 1,
            ie_present: spelled[5] == 1,
            version: FrameVersion::from_bits(spelled[6])?,
            seq: spelled[7],
            destination: build_address(&spelled[header::DESTINATION..]),
            source: build_address(&spelled[header::SOURCE..]),
            auxiliary_security_header: secured,
        })
    }

    fn write(record: Header, counter: Option<u32>, buffer: &mut [u8], place: usize) -> Option<Result<usize, Number>> {
        let mut own = counter.map(context);
        write_at(record, &own.as_mut(), buffer, place)
    }

    fn counter(record: &Header) -> Option<u32> {
        record.auxiliary_security_header.map(|security| security.get_frame_counter())
    }
}

struct SecurityPart;

impl Part for SecurityPart {
    type Record = AuxiliarySecurityHeader;

    fn read(bytes: &[u8], place: usize) -> Result<(AuxiliarySecurityHeader, usize), Number> {
        read_at(bytes, place)
    }

    fn spell(record: &AuxiliarySecurityHeader, out: &mut Vec<u8>) {
        ControlPart::spell(&record.control, out);
        out.extend_from_slice(&record.get_frame_counter().to_le_bytes());
        let mut key = [0; 10];
        if let Some(identifier) = record.key_identifier {
            key[9] = identifier.key_index;
            match identifier.key_source {
                None => key[0] = 1,
                Some(KeySource::Short(source)) => {
                    key[0] = 2;
                    key[1..5].copy_from_slice(&source.to_le_bytes());
                }
                Some(KeySource::Long(source)) => {
                    key[0] = 3;
                    key[1..9].copy_from_slice(&source.to_le_bytes());
                }
            }
        }
        out.extend_from_slice(&key);
    }

    fn build(spelled: &[u8]) -> Option<AuxiliarySecurityHeader> {
        let control = ControlPart::build(spelled)?;
        let key_source = match spelled[6] {
            2 => Some(KeySource::Short(u32_of(&spelled[7..]))),
            3 => Some(KeySource::Long(u64_of(&spelled[7..]))),
            _ => None,
        };
        let identifier = match spelled[6] {
            0 => None,
            _ => Some(KeyIdentifier { key_source, key_index: spelled[15] }),
        };
        // The crate calls this unsafe since a counter is seldom set by hand; no memory is at stake.
        Some(unsafe { AuxiliarySecurityHeader::new_unsafe(control, identifier, u32_of(&spelled[2..])) })
    }

    fn write(
        record: AuxiliarySecurityHeader,
        counter: Option<u32>,
        buffer: &mut [u8],
        place: usize,
    ) -> Option<Result<usize, Number>> {
        write_at(record, &context(counter?), buffer, place)
    }

    fn size(record: &AuxiliarySecurityHeader) -> Option<usize> {
        Some(record.get_octet_size())
    }

    fn counter(record: &AuxiliarySecurityHeader) -> Option<u32> {
        Some(record.get_frame_counter())
    }
}

struct ControlPart;

impl Part for ControlPart {
    type Record = SecurityControl;

    fn read(bytes: &[u8], place: usize) -> Result<(SecurityControl, usize), Number> {
        read_at(bytes, place)
    }

    fn spell(record: &SecurityControl, out: &mut Vec<u8>) {
        let text = format!("{record:?}");
        let mut scan = Scan::new(&text);
        let levels = ["None", "MIC32", "MIC64", "MIC128", "ENC", "ENCMIC32", "ENCMIC64", "ENCMIC128"];
        out.push(scan.word_of("security_level: ", &levels));
        out.push(scan.word_of("key_id_mode: ", &["None", "KeyIndex", "KeySource4", "KeySource8"]));
    }

    fn build(spelled: &[u8]) -> Option<SecurityControl> {
        if 7 < spelled[0] {
            return None;
        }
        Some(SecurityControl::try_read(&[spelled[0] + 8 * spelled[1]], ()).unwrap().0)
    }

    fn write(record: SecurityControl, _: Option<u32>, buffer: &mut [u8], place: usize) -> Option<Result<usize, Number>> {
        write_at(record, (), buffer, place)
    }
}

macro_rules! identifier {
    ($part:ident, $record:ident, $number:ty) => {
        struct $part;

        impl Part for $part {
            type Record = $record;

            fn read(bytes: &[u8], place: usize) -> Result<($record, usize), Number> {
                read_at(bytes, place)
            }

            fn spell(record: &$record, out: &mut Vec<u8>) {
                out.extend_from_slice(&record.0.to_le_bytes());
            }

            fn build(spelled: &[u8]) -> Option<$record> {
                Some($record(<$number>::from_le_bytes(spelled.try_into().unwrap())))
            }

            fn write(record: $record, _: Option<u32>, buffer: &mut [u8], place: usize) -> Option<Result<usize, Number>> {
                write_at(record, (), buffer, place)
            }
        }
    };
}

identifier!(PanIdPart, PanId, u16);
identifier!(ShortPart, ShortAddress, u16);
identifier!(ExtendedPart, ExtendedAddress, u64);

fn beacon_order(order: BeaconOrder) -> [u8; 2] {
    match order {
        BeaconOrder::BeaconOrder(value) => [0, value],
        BeaconOrder::OnDemand => [1, 0],
    }
}

fn superframe_order(order: SuperframeOrder) -> [u8; 2] {
    match order {
        SuperframeOrder::SuperframeOrder(value) => [0, value],
        SuperframeOrder::Inactive => [1, 0],
    }
}

struct SuperframePart;

impl Part for SuperframePart {
    type Record = SuperframeSpecification;

    fn read(bytes: &[u8], place: usize) -> Result<(SuperframeSpecification, usize), Number> {
        read_at(bytes, place)
    }

    fn spell(record: &SuperframeSpecification, out: &mut Vec<u8>) {
        out.extend_from_slice(&beacon_order(record.beacon_order));
        out.extend_from_slice(&superframe_order(record.superframe_order));
        out.extend_from_slice(&[
            record.final_cap_slot,
            flag(record.battery_life_extension),
            flag(record.pan_coordinator),
            flag(record.association_permit),
        ]);
    }

    fn build(spelled: &[u8]) -> Option<SuperframeSpecification> {
        Some(SuperframeSpecification {
            beacon_order: match spelled[0] {
                0 => BeaconOrder::BeaconOrder(spelled[1]),
                _ => BeaconOrder::OnDemand,
            },
            superframe_order: match spelled[2] {
                0 => SuperframeOrder::SuperframeOrder(spelled[3]),
                _ => SuperframeOrder::Inactive,
            },
            final_cap_slot: spelled[4],
            battery_life_extension: spelled[5] == 1,
            pan_coordinator: spelled[6] == 1,
            association_permit: spelled[7] == 1,
        })
    }

    fn write(record: SuperframeSpecification, _: Option<u32>, buffer: &mut [u8], place: usize) -> Option<Result<usize, Number>> {
        write_at(record, (), buffer, place)
    }
}

fn spell_descriptor(scan: &mut Scan, out: &mut Vec<u8>) {
    out.extend_from_slice(&(scan.number("short_address: ShortAddress(") as u16).to_le_bytes());
    out.push(scan.number("starting_slot: ") as u8);
    out.push(scan.number("length: ") as u8);
    out.push([RECEIVE, TRANSMIT][scan.word_of("direction: ", &["Receive", "Transmit"]) as usize]);
}

struct DescriptorPart;

impl Part for DescriptorPart {
    type Record = GuaranteedTimeSlotDescriptor;

    fn read(bytes: &[u8], place: usize) -> Result<(GuaranteedTimeSlotDescriptor, usize), Number> {
        read_at(bytes, place)
    }

    fn spell(record: &GuaranteedTimeSlotDescriptor, out: &mut Vec<u8>) {
        spell_descriptor(&mut Scan::new(&format!("{record:?}")), out);
    }

    fn build(spelled: &[u8]) -> Option<GuaranteedTimeSlotDescriptor> {
        let mut whole = [0; SLOTS];
        whole[1] = 1;
        whole[2..2 + DESCRIPTOR].copy_from_slice(spelled);
        for unused in whole[2 + DESCRIPTOR..].chunks_mut(DESCRIPTOR) {
            unused.copy_from_slice(&EMPTY_DESCRIPTOR);
        }
        Some(SlotsPart::build(&whole)?.slots()[0])
    }

    fn write(
        record: GuaranteedTimeSlotDescriptor,
        _: Option<u32>,
        buffer: &mut [u8],
        place: usize,
    ) -> Option<Result<usize, Number>> {
        write_at(record, (), buffer, place)
    }
}

struct SlotsPart;

impl Part for SlotsPart {
    type Record = GuaranteedTimeSlotInformation;

    fn read(bytes: &[u8], place: usize) -> Result<(GuaranteedTimeSlotInformation, usize), Number> {
        read_at(bytes, place)
    }

    /// Where nothing stands behind the slots, with a byte there.
    fn read_folded(bytes: &[u8], place: usize) -> Result<(GuaranteedTimeSlotInformation, usize), Number> {
        if nothing_behind(bytes, place) {
            read_at(&[bytes, &[0]].concat(), place)
        } else {
            read_at(bytes, place)
        }
    }

    fn spell(record: &GuaranteedTimeSlotInformation, out: &mut Vec<u8>) {
        let text = format!("{record:?}");
        let mut scan = Scan::new(&text);
        out.push(flag(record.permit));
        out.push(scan.number("slot_count: ") as u8);
        scan.past("slots: [");
        for _ in 0..7 {
            spell_descriptor(&mut scan, out);
        }
        assert_eq!(out[out.len() - SLOTS + 1] as usize, record.slots().len());
    }

    /// By reading the bytes that hold the record, and one to spare.
    fn build(spelled: &[u8]) -> Option<GuaranteedTimeSlotInformation> {
        let count = spelled[1] as usize;
        if 7 < count {
            return None;
        }
        let (used, unused) = spelled[2..].split_at(count * DESCRIPTOR);
        let usable = |entry: &[u8]| entry[2] < 16 && entry[3] < 16;
        if !used.chunks(DESCRIPTOR).all(usable) || !unused.chunks(DESCRIPTOR).all(|entry| entry == EMPTY_DESCRIPTOR) {
            return None;
        }
        let mut bytes = vec![spelled[0] << 7 | spelled[1], 0];
        for (index, entry) in used.chunks(DESCRIPTOR).enumerate() {
            bytes[1] |= ((entry[4] == TRANSMIT) as u8) << index;
            bytes.extend_from_slice(&[entry[0], entry[1], entry[3] << 4 | entry[2]]);
        }
        bytes.push(0);
        Some(GuaranteedTimeSlotInformation::try_read(&bytes, ()).unwrap().0)
    }

    fn write(
        record: GuaranteedTimeSlotInformation,
        _: Option<u32>,
        buffer: &mut [u8],
        place: usize,
    ) -> Option<Result<usize, Number>> {
        write_at(record, (), buffer, place)
    }
}

struct PendingPart;

impl Part for PendingPart {
    type Record = PendingAddress;

    fn read(bytes: &[u8], place: usize) -> Result<(PendingAddress, usize), Number> {
        read_at(bytes, place)
    }

    fn spell(record: &PendingAddress, out: &mut Vec<u8>) {
        let text = format!("{record:?}");
        let mut scan = Scan::new(&text);
        let short = scan.number("short_address_count: ");
        out.push(short as u8);
        for _ in 0..7 {
            out.extend_from_slice(&(scan.number("ShortAddress(") as u16).to_le_bytes());
        }
        let extended = scan.number("extended_address_count: ");
        out.push(extended as u8);
        for _ in 0..7 {
            out.extend_from_slice(&scan.number("ExtendedAddress(").to_le_bytes());
        }
        assert_eq!((short, extended), (record.short_addresses().len() as u64, record.extended_addresses().len() as u64));
    }

    /// By reading the bytes that hold the record.
    fn build(spelled: &[u8]) -> Option<PendingAddress> {
        let (short, extended) = (spelled[0] as usize, spelled[15] as usize);
        if 7 < short || 7 < extended {
            return None;
        }
        let (used, unused) = spelled[1..15].split_at(2 * short);
        let (used_extended, unused_extended) = spelled[16..].split_at(8 * extended);
        if !unused.iter().chain(unused_extended).all(|byte| *byte == 0xff) {
            return None;
        }
        let bytes = [&[spelled[15] << 4 | spelled[0]], used, used_extended].concat();
        Some(PendingAddress::try_read(&bytes, ()).unwrap().0)
    }

    fn write(record: PendingAddress, _: Option<u32>, buffer: &mut [u8], place: usize) -> Option<Result<usize, Number>> {
        write_at(record, (), buffer, place)
    }
}

struct BeaconPart;

impl Part for BeaconPart {
    type Record = Beacon;

    fn read(bytes: &[u8], place: usize) -> Result<(Beacon, usize), Number> {
        read_at(bytes, place)
    }

    fn spell(record: &Beacon, out: &mut Vec<u8>) {
        SuperframePart::spell(&record.superframe_spec, out);
        SlotsPart::spell(&record.guaranteed_time_slot_info, out);
        PendingPart::spell(&record.pending_address, out);
    }

    fn build(spelled: &[u8]) -> Option<Beacon> {
        Some(Beacon {
            superframe_spec: SuperframePart::build(spelled)?,
            guaranteed_time_slot_info: SlotsPart::build(&spelled[SUPERFRAME..SUPERFRAME + SLOTS])?,
            pending_address: PendingPart::build(&spelled[SUPERFRAME + SLOTS..])?,
        })
    }

    fn write(record: Beacon, _: Option<u32>, buffer: &mut [u8], place: usize) -> Option<Result<usize, Number>> {
        write_at(record, (), buffer, place)
    }
}

/// The crate has no payload view: the header, the beacon of an unsecured beacon frame, the rest.
fn view_parts(bytes: &[u8]) -> Result<(Header, Option<Beacon>, usize), Number> {
    let mut offset = 0;
    let header: Header = bytes.read(&mut offset).map_err(number)?;
    let beacon = if header.frame_type == FrameType::Beacon && !header.has_security() {
        Some(bytes.read(&mut offset).map_err(number)?)
    } else {
        None
    };
    Ok((header, beacon, offset))
}

impl Side for Rust {
    type Header = HeaderPart;
    type Security = SecurityPart;
    type Control = ControlPart;
    type PanId = PanIdPart;
    type Short = ShortPart;
    type Extended = ExtendedPart;
    type Superframe = SuperframePart;
    type Descriptor = DescriptorPart;
    type Slots = SlotsPart;
    type Pending = PendingPart;
    type Beacon = BeaconPart;

    const EXCHANGED: bool = true;

    fn header_size(header: &Header) -> usize {
        header.get_octet_size()
    }

    fn frame_type(bits: u8) -> Result<u8, Number> {
        FrameType::from_bits(bits).map(|value| value as u8).ok_or(3)
    }

    fn frame_version(bits: u8) -> Result<u8, Number> {
        FrameVersion::from_bits(bits).map(|value| value as u8).ok_or(2)
    }

    fn address_mode(bits: u8) -> Result<u8, Number> {
        AddressMode::from_bits(bits).map(|value| value as u8).map_err(|error| number(error.into()))
    }

    fn orders(byte: u8) -> [u8; 4] {
        let (first, second) = (beacon_order(BeaconOrder::from(byte)), superframe_order(SuperframeOrder::from(byte)));
        [first[0], first[1], second[0], second[1]]
    }

    fn constants(out: &mut Vec<u8>) {
        PanIdPart::spell(&PanId::broadcast(), out);
        ShortPart::spell(&ShortAddress::broadcast(), out);
        ShortPart::spell(&ShortAddress::BROADCAST, out);
        ExtendedPart::spell(&ExtendedAddress::broadcast(), out);
        ExtendedPart::spell(&ExtendedAddress::BROADCAST, out);
        for mode in [AddressMode::None, AddressMode::Short, AddressMode::Extended] {
            spell_address(Address::broadcast(&mode), out);
        }
        DescriptorPart::spell(&GuaranteedTimeSlotDescriptor::new(), out);
        SlotsPart::spell(&GuaranteedTimeSlotInformation::new(), out);
        PendingPart::spell(&PendingAddress::new(), out);
    }

    /// Where the crate's own frame reader reads the same parts (unsecured, no command), it is held against the view as well.
    fn view(bytes: &[u8]) -> Result<(usize, &[u8]), Number> {
        let parts = view_parts(bytes);
        let comparable = match &parts {
            Ok((header, _, _)) => !header.has_security() && header.frame_type != FrameType::MacCommand,
            Err(_) => true,
        };
        if comparable {
            let whole = Frame::try_read(bytes, FooterMode::None);
            match (&parts, whole) {
                (Ok((header, beacon, start)), Ok((frame, _))) => {
                    assert_eq!(*header, frame.header);
                    assert_eq!(frame.payload.as_ptr(), bytes[*start..].as_ptr());
                    assert_eq!(frame.payload.len(), bytes.len() - start);
                    if let FrameContent::Beacon(content) = frame.content {
                        assert_eq!(*beacon, Some(content));
                    }
                }
                (Err(own), Err(error)) => assert_eq!(*own, number(error)),
                _ => panic!("the crate's frame reader and its parts disagree"),
            }
        }
        parts.map(|(_, _, start)| (start, &bytes[start..]))
    }
}
