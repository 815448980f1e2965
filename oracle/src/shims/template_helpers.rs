//! Stands for the crate `grib_template_helpers`: the traits `TryFromSlice`, `WriteToBuffer`, `Dump` and `DumpField`.
//!
//! Leans on it:
//! - `helpers.rs` reads the overall minimum of template 5.3 through `TryFromSlice`. **This one decides answers**: a
//!   signed number is a sign bit and a magnitude, minus zero is zero, as document 01 has it. For three octets the text
//!   says so itself; for one, two and four it is said here.
//! - `encoder/writer.rs` and `encoder/bitmap.rs` implement `WriteToBuffer` whole; the bit writer's answer is theirs.
//! - Sections and templates, through the derive macros, and the numbers that the encoder writes into Sections 5 and 6:
//!   they have to compile, no door runs them, and they panic.

pub trait TryFromSlice: Sized {
    fn try_from_slice(_slice: &[u8], _pos: &mut usize) -> Result<Self, &'static str> {
        unimplemented!("reading a section")
    }
}

pub trait WriteToBuffer {
    fn write_to_buffer(&self, _buf: &mut [u8]) -> Result<usize, &'static str> {
        unimplemented!("writing a section")
    }

    fn num_bytes_required(&self) -> usize {
        unimplemented!("writing a section")
    }
}

pub trait Dump {}

pub trait DumpField {}

macro_rules! written {
    ($($kind:ty),*) => {$(
        impl WriteToBuffer for $kind {}
    )*};
}

macro_rules! unsigned {
    ($($kind:ty),*) => {$(
        impl TryFromSlice for $kind {
            fn try_from_slice(slice: &[u8], pos: &mut usize) -> Result<Self, &'static str> {
                let rest = slice.get(*pos..).unwrap_or_default();
                let octets = rest.first_chunk().ok_or("slice is too short")?;
                *pos += octets.len();
                Ok(<$kind>::from_be_bytes(*octets))
            }
        }
    )*};
}

macro_rules! sign_and_magnitude {
    ($($kind:ty, $unsigned:ty);*) => {$(
        impl TryFromSlice for $kind {
            fn try_from_slice(slice: &[u8], pos: &mut usize) -> Result<Self, &'static str> {
                let coded = <$unsigned>::try_from_slice(slice, pos)?;
                let sign = 1 << (<$unsigned>::BITS - 1);
                let magnitude = (coded & !sign) as $kind;
                Ok(if coded & sign == 0 { magnitude } else { -magnitude })
            }
        }
    )*};
}

written!(u8, u16, u32);
unsigned!(u8, u16, u32);
sign_and_magnitude!(i8, u8; i16, u16; i32, u32);
