//! Door to `decoder.rs`: the bit reader of `stream.rs`, and the way to the doors of its private modules.

use super::stream::{BitStream, NBitwiseIterator};

pub(crate) use super::complex::door::{message, unpack_complex, unpack_spatial};
pub(crate) use super::run_length::door::run_length;

pub(crate) fn read_bits(octets: &[u8], start: usize, width: usize, count: usize) -> Vec<u32> {
    match BitStream::new(octets, width, count) {
        BitStream::ZeroSized(zeros) => zeros.take(count).collect(),
        BitStream::NonZeroSized(numbers) => numbers.with_offset(start).take(count).collect(),
    }
}

pub(crate) fn read_bits_on(octets: &[u8], start: usize, width: usize, most: usize) -> Vec<u32> {
    NBitwiseIterator::new(octets, width).with_offset(start).take(most).collect()
}
