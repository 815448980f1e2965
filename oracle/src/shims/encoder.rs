//! Stands for `encoder.rs`: the traits of an encoder, and the header of a section.
//!
//! Leans on it: `encoder/complex.rs` and `encoder/simple.rs` implement the traits. `write_section7` writes the
//! five-octet header through the function here; the door to packing cuts the header off again, since a payload is
//! what comes after it.

pub(crate) trait Encode {
    type Output;

    fn encode(&self) -> Self::Output;
}

pub(crate) trait WriteGrib2DataSections {
    fn section5_len(&self) -> usize;
    fn write_section5(&self, buf: &mut [u8]) -> Result<usize, &'static str>;
    fn section6_len(&self) -> usize;
    fn write_section6(&self, buf: &mut [u8]) -> Result<usize, &'static str>;
    fn section7_len(&self) -> usize;
    fn write_section7(&self, buf: &mut [u8]) -> Result<usize, &'static str>;
}

pub(crate) const HEADER_OCTETS: usize = 5;

pub(crate) fn write_section_header(length: u32, number: u8, buf: &mut [u8]) -> Result<usize, &'static str> {
    buf[..4].copy_from_slice(&length.to_be_bytes());
    buf[4] = number;
    Ok(HEADER_OCTETS)
}
