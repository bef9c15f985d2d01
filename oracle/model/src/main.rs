//! The model as a program.

mod beacon;
mod bytes;
mod header;
mod security;

use bytes::{Extended, Pan, Short};
use oracle_format::{Number, Part, Side};

struct Model;

fn main() {
    oracle_format::program::<Model>();
}

impl Side for Model {
    type Header = header::Header;
    type Security = security::Security;
    type Control = security::Control;
    type PanId = Pan;
    type Short = Short;
    type Extended = Extended;
    type Superframe = beacon::Superframe;
    type Descriptor = beacon::Descriptor;
    type Slots = beacon::Slots;
    type Pending = beacon::Pending;
    type Beacon = beacon::Beacon;

    fn header_size(header: &header::Header) -> usize {
        header.size()
    }

    fn frame_type(bits: u8) -> Result<u8, Number> {
        header::listed(&header::TYPES, bits, 3)
    }

    fn frame_version(bits: u8) -> Result<u8, Number> {
        header::listed(&header::VERSIONS, bits, 2)
    }

    fn address_mode(bits: u8) -> Result<u8, Number> {
        header::listed(&header::MODES, bits, 4)
    }

    /// A byte above 14 names no order; the crate's conversion gives OnDemand and Inactive.
    fn orders(byte: u8) -> [u8; 4] {
        let order = beacon::order_of(byte);
        [order.0, order.1, order.0, order.1]
    }

    fn constants(out: &mut Vec<u8>) {
        out.extend_from_slice(&[0xff; 2 + 2 + 2 + 8 + 8]);
        for (mode, ones) in [(0, 0), (2, 4), (3, 10)] {
            let mut address = [0; 11];
            address[0] = mode;
            address[1..1 + ones].fill(0xff);
            out.extend_from_slice(&address);
        }
        beacon::Descriptor::spell(&beacon::Descriptor::UNUSED, out);
        beacon::Slots::spell(&beacon::Slots::EMPTY, out);
        beacon::Pending::spell(&beacon::Pending::EMPTY, out);
    }

    /// "Payload view and C entry points": the header, for an unsecured Beacon the beacon, then the rest.
    fn view(bytes: &[u8]) -> Result<(usize, &[u8]), Number> {
        let (header, mut start) = header::Header::read(bytes, 0)?;
        if header.frame_type == 0 && header.security.is_none() {
            start += beacon::Beacon::read(bytes, start)?.1;
        }
        Ok((start, &bytes[start..]))
    }
}
