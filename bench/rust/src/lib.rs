//! The four C entries over the Rust crate, under the names of our own archive, so that one driver links with either.

use byte::{BytesExt, Error, TryRead, TryWrite};
use ieee802154::mac::beacon::Beacon;
use ieee802154::mac::frame::security::default::Unimplemented;
use ieee802154::mac::security::SecurityContext;
use ieee802154::mac::Header;

/// A pointer and a length as a slice; no byte may stand at a null pointer.
unsafe fn slice<'a>(bytes: *const u8, length: usize) -> &'a [u8] {
    if length == 0 {
        &[]
    } else {
        core::slice::from_raw_parts(bytes, length)
    }
}

unsafe fn room<'a>(bytes: *mut u8, length: usize) -> &'a mut [u8] {
    if length == 0 {
        &mut []
    } else {
        core::slice::from_raw_parts_mut(bytes, length)
    }
}

/// The refusal of a reading. The crate's errors differ in the length of their names, which is the cheapest way to tell them apart.
fn reading(error: Error) -> u64 {
    match error {
        Error::BadInput { err } => match err.len() {
            19 => 1002,
            16 => 1003,
            _ => 1004,
        },
        _ => 1001,
    }
}

/// The refusal of a writing.
fn writing(error: Error) -> u64 {
    match error {
        Error::BadInput { err } => match err.len() {
            23 => 1006,
            _ => 1007,
        },
        _ => 1001,
    }
}

/// # Safety
/// `frame` points to `length` bytes that can be read.
#[no_mangle]
pub unsafe extern "C" fn knobtangle_read_header(frame: *const u8, length: usize) -> u64 {
    match Header::try_read(slice(frame, length), ()) {
        Ok((_, taken)) => taken as u64,
        Err(error) => reading(error),
    }
}

/// # Safety
/// `content` points to `length` bytes that can be read.
#[no_mangle]
pub unsafe extern "C" fn knobtangle_read_beacon(content: *const u8, length: usize) -> u64 {
    match Beacon::try_read(slice(content, length), ()) {
        Ok((_, taken)) => taken as u64,
        Err(error) => reading(error),
    }
}

/// # Safety
/// `frame` points to `length` bytes that can be read, `out` to `size` others that can be written.
#[no_mangle]
pub unsafe extern "C" fn knobtangle_rewrite_header(frame: *const u8, length: usize, out: *mut u8, size: usize) -> u64 {
    let header = match Header::try_read(slice(frame, length), ()) {
        Ok((header, _)) => header,
        Err(error) => return reading(error),
    };
    let mut context = SecurityContext::<Unimplemented, Unimplemented>::no_security();
    let own = match header.auxiliary_security_header {
        Some(security) => {
            context.frame_counter = security.get_frame_counter();
            Some(&mut context)
        }
        None => None,
    };
    let mut offset = 0;
    match room(out, size).write_with(&mut offset, header, &own) {
        Ok(()) => offset as u64,
        Err(error) => writing(error),
    }
}

/// # Safety
/// `content` points to `length` bytes that can be read, `out` to `size` others that can be written.
#[no_mangle]
pub unsafe extern "C" fn knobtangle_rewrite_beacon(content: *const u8, length: usize, out: *mut u8, size: usize) -> u64 {
    let beacon = match Beacon::try_read(slice(content, length), ()) {
        Ok((beacon, _)) => beacon,
        Err(error) => return reading(error),
    };
    match beacon.try_write(room(out, size), ()) {
        Ok(written) => written as u64,
        Err(error) => writing(error),
    }
}
