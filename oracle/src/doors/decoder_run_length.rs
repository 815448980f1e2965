//! Door to `decoder/run_length.rs`: the levels, without the map from levels to physical values.

use super::{DecodeError, rleunpack};

pub(crate) fn run_length(bits: u8, max_level: u16, declared: usize, payload: &[u8]) -> Result<Vec<u16>, DecodeError> {
    rleunpack(payload, bits, max_level, Some(declared)).map(Vec::from)
}
