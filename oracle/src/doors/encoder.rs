//! Door to the encoder: the bit writer of `writer.rs`, and the way to the door of `complex.rs`.

use super::writer::NBitwise;
use crate::WriteToBuffer;

pub(crate) use super::complex::door::{Packed, pack};

pub(crate) fn write_bits(
    numbers: &[u32],
    start: usize,
    width: usize,
    buffer: &mut [u8],
) -> Result<usize, &'static str> {
    NBitwise::new(numbers, width).with_offset_bits(start).write_to_buffer(buffer)
}
