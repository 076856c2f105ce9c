//! Stand-in for `wincode`: enough of its traits for `Bitmap` and
//! `KeyRangeMap` to state their encoding. Nothing is ever encoded here.

use std::mem::MaybeUninit;

pub use derives::{SchemaRead, SchemaWrite};

#[derive(Debug)]
pub struct ReadError;
#[derive(Debug)]
pub struct WriteError;
pub type ReadResult<T> = Result<T, ReadError>;
pub type WriteResult<T> = Result<T, WriteError>;

pub mod io {
    pub trait Reader<'de>: Sized {
        fn by_ref(&mut self) -> &mut Self {
            self
        }
    }
    impl<'de, R: Reader<'de>> Reader<'de> for &mut R {}

    pub trait Writer: Sized {
        fn by_ref(&mut self) -> &mut Self {
            self
        }
    }
    impl<W: Writer> Writer for &mut W {}
}

pub mod len {
    use crate::io::{Reader, Writer};
    use crate::{ReadResult, WriteResult};

    pub trait SeqLen {
        fn write_bytes_needed(len: usize) -> WriteResult<usize>;
        fn write(writer: impl Writer, len: usize) -> WriteResult<()>;
        fn read<'de>(reader: impl Reader<'de>) -> ReadResult<usize>;
    }
}

pub mod config {
    pub trait Config {
        type LengthEncoding: crate::len::SeqLen;
    }
}

/// # Safety
/// As in the crate this stands for: `size_of` is what `write` writes.
pub unsafe trait SchemaWrite<C: config::Config> {
    type Src: ?Sized;
    fn size_of(src: &Self::Src) -> WriteResult<usize>;
    fn write(writer: impl io::Writer, src: &Self::Src) -> WriteResult<()>;
}

/// # Safety
/// As in the crate this stands for: `read` fills `dst` if it returns `Ok`.
pub unsafe trait SchemaRead<'de, C: config::Config> {
    type Dst;
    fn read(reader: impl io::Reader<'de>, dst: &mut MaybeUninit<Self::Dst>) -> ReadResult<()>;

    fn get(reader: impl io::Reader<'de>) -> ReadResult<Self::Dst> {
        let mut dst = MaybeUninit::uninit();
        Self::read(reader, &mut dst)?;
        // SAFETY: `read` returned `Ok`, so it has filled `dst`.
        Ok(unsafe { dst.assume_init() })
    }
}

macro_rules! never_encoded {
    ($($t:ty),*) => {$(
        unsafe impl<C: config::Config> SchemaWrite<C> for $t {
            type Src = Self;
            fn size_of(_: &Self) -> WriteResult<usize> {
                Err(WriteError)
            }
            fn write(_: impl io::Writer, _: &Self) -> WriteResult<()> {
                Err(WriteError)
            }
        }
    )*};
}
macro_rules! never_decoded {
    ($($t:ty),*) => {$(
        unsafe impl<'de, C: config::Config> SchemaRead<'de, C> for $t {
            type Dst = Self;
            fn read(_: impl io::Reader<'de>, _: &mut MaybeUninit<Self>) -> ReadResult<()> {
                Err(ReadError)
            }
        }
    )*};
}
never_encoded!(usize, u128, [usize]);
never_decoded!(usize, u128, Vec<usize>);
