//! Stands for `decoder/helpers.rs`: `num_octets`, the octets that so many bits take, rounded up.
//!
//! Leans on it: `decode_complex_packing` in `decoder/complex.rs`, for the places of the group fields and the room of
//! the values; `decoder/bitmap.rs`, which no door runs.

pub(crate) fn num_octets(bits: usize) -> usize {
    bits.div_ceil(8)
}
