//! Section 7 of a message: its header of five octets, and the payload after it.

use crate::section::{headed, whole, NotSection};

/// The payload of a whole Section 7: what follows its header, which is its length in four octets and its number.
///
/// # Errors
///
/// [`NotSection`] where the octets are not one whole Section 7.
pub fn payload_of(section7: &[u8]) -> Result<&[u8], NotSection> {
    let (length, payload) = headed(7, section7)?;
    whole(7, length, section7)?;
    Ok(payload)
}

/// The Section 7 of a payload; none where four octets do not hold its length, which no payload of a packing comes near.
pub fn section7_of(payload: &[u8]) -> Option<Vec<u8>> {
    let length = u32::try_from(payload.len().checked_add(5)?).ok()?;
    Some([&length.to_be_bytes(), &[7][..], payload].concat())
}
