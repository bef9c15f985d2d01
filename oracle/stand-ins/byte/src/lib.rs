//! Stand-in for the crate `byte` 0.2: the names that the customer's files and the harness use, and no more. Written from those uses and
//! from the crate's public interface, not from its text. What rests on it is listed in oracle/README.md.
#![no_std]

/// Why bytes could not be read or written.
#[derive(Clone, Copy, Debug, PartialEq, Eq)]
pub enum Error {
    /// The slice ends too soon.
    Incomplete,
    /// The place is past the end of the slice.
    BadOffset(usize),
    /// The bytes, or the value, are not allowed.
    BadInput { err: &'static str },
}

pub type Result<T> = core::result::Result<T, Error>;

/// The number of bytes asked for, if the slice has them.
pub fn check_len(bytes: &[u8], len: usize) -> Result<usize> {
    if len <= bytes.len() {
        Ok(len)
    } else {
        Err(Error::Incomplete)
    }
}

/// A value read from the beginning of a slice, with the count of bytes that it took.
pub trait TryRead<'a, Ctx = ()>: Sized {
    fn try_read(bytes: &'a [u8], ctx: Ctx) -> Result<(Self, usize)>;
}

/// A value written to the beginning of a slice; the answer is the count of bytes that it took.
pub trait TryWrite<Ctx = ()> {
    fn try_write(self, bytes: &mut [u8], ctx: Ctx) -> Result<usize>;
}

/// Reading and writing at a place that moves behind what was read or written.
pub trait BytesExt<Ctx> {
    fn read_with<'a, T: TryRead<'a, Ctx>>(&'a self, offset: &mut usize, ctx: Ctx) -> Result<T>;
    fn write_with<T: TryWrite<Ctx>>(&mut self, offset: &mut usize, value: T, ctx: Ctx) -> Result<()>;

    fn read<'a, T: TryRead<'a, Ctx>>(&'a self, offset: &mut usize) -> Result<T>
    where
        Ctx: Default,
    {
        self.read_with(offset, Ctx::default())
    }

    fn write<T: TryWrite<Ctx>>(&mut self, offset: &mut usize, value: T) -> Result<()>
    where
        Ctx: Default,
    {
        self.write_with(offset, value, Ctx::default())
    }
}

impl<Ctx> BytesExt<Ctx> for [u8] {
    fn read_with<'a, T: TryRead<'a, Ctx>>(&'a self, offset: &mut usize, ctx: Ctx) -> Result<T> {
        let part = self.get(*offset..).ok_or(Error::BadOffset(*offset))?;
        let (value, taken) = T::try_read(part, ctx)?;
        *offset += taken;
        Ok(value)
    }

    fn write_with<T: TryWrite<Ctx>>(&mut self, offset: &mut usize, value: T, ctx: Ctx) -> Result<()> {
        let part = self.get_mut(*offset..).ok_or(Error::BadOffset(*offset))?;
        *offset += value.try_write(part, ctx)?;
        Ok(())
    }
}

pub mod ctx {
    /// The order of a number's bytes.
    #[derive(Clone, Copy, Debug, PartialEq, Eq)]
    pub enum Endian {
        Little,
        Big,
    }

    pub const LE: Endian = Endian::Little;
    pub const BE: Endian = Endian::Big;
    /// The machine's order; turned round on demand, to find out which fields are left to it.
    pub const NATIVE: Endian = if cfg!(target_endian = "little") != cfg!(turned) { LE } else { BE };

    /// Where no order is named: the machine's.
    impl Default for Endian {
        fn default() -> Self {
            NATIVE
        }
    }

    /// How many bytes a slice takes.
    #[derive(Clone, Copy, Debug, PartialEq, Eq)]
    pub enum Bytes {
        Len(usize),
    }
}

pub use ctx::{BE, LE};

macro_rules! number {
    ($($kind:ty),*) => { $(
        impl TryRead<'_, ctx::Endian> for $kind {
            fn try_read(bytes: &[u8], order: ctx::Endian) -> Result<(Self, usize)> {
                let width = check_len(bytes, core::mem::size_of::<$kind>())?;
                let mut own = [0; core::mem::size_of::<$kind>()];
                own.copy_from_slice(&bytes[..width]);
                let value = if order == LE { <$kind>::from_le_bytes(own) } else { <$kind>::from_be_bytes(own) };
                Ok((value, width))
            }
        }

        impl TryWrite<ctx::Endian> for $kind {
            fn try_write(self, bytes: &mut [u8], order: ctx::Endian) -> Result<usize> {
                let width = check_len(bytes, core::mem::size_of::<$kind>())?;
                let own = if order == LE { self.to_le_bytes() } else { self.to_be_bytes() };
                bytes[..width].copy_from_slice(&own);
                Ok(width)
            }
        }
    )* };
}

number!(u8, u16, u32, u64);

impl<'a> TryRead<'a, ctx::Bytes> for &'a [u8] {
    fn try_read(bytes: &'a [u8], ctx::Bytes::Len(count): ctx::Bytes) -> Result<(Self, usize)> {
        let count = check_len(bytes, count)?;
        Ok((&bytes[..count], count))
    }
}

impl TryWrite for &[u8] {
    fn try_write(self, bytes: &mut [u8], _ctx: ()) -> Result<usize> {
        let count = check_len(bytes, self.len())?;
        bytes[..count].copy_from_slice(self);
        Ok(count)
    }
}
