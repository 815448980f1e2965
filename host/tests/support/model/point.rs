//! One point as document 02 says it in No. 3: "the answer equals that place in the full unpacking", which is the
//! model's own. And the C call itself, whose two lent values no wrapper shows.

use super::{points, section5};

/// A point: its mark (0 number, 1, 2) and its number, 0 where it is missing.
pub type Point = (u8, i64);

/// All points of a map under 5.2, or the refusal as far as 9. A Section 5 of another template is 14.
pub fn map(section5: &[u8], payload: &[u8]) -> Result<Vec<Point>, u32> {
    let input = section5::input(section5, payload)?;
    if input.differences.is_some() {
        return Err(14);
    }
    Ok(points(&input)?.into_iter().map(|(mark, number)| (mark, number as i64)).collect())
}

/// The point at a place of a map. "15 when the place is not below the declared count; it comes after 9, and 10 does not
/// arise."
pub fn at(map: &Result<Vec<Point>, u32>, place: u32) -> Result<Point, u32> {
    map.as_ref().map_err(|number| *number)?.get(place as usize).copied().ok_or(15)
}

extern "C" {
    fn cleatmow_point(
        place: u32,
        section5: *const u8,
        section5_len: usize,
        payload: *const u8,
        payload_len: usize,
        mark: *mut u8,
        number: *mut i64,
    ) -> u32;
}

/// What the C call answers, and leaves in the two values.
pub fn call(place: u32, section5: &[u8], payload: &[u8], mark: &mut u8, number: &mut i64) -> u32 {
    // SAFETY: each pointer is that of a slice, with its length, or of a value; the two that are written to are borrowed
    // for that. The call keeps none.
    unsafe { cleatmow_point(place, section5.as_ptr(), section5.len(), payload.as_ptr(), payload.len(), mark, number) }
}

/// The two values that the call is lent, with guards about each.
#[derive(Clone, Copy, Debug, PartialEq)]
#[repr(C)]
pub struct Lent {
    before: [u8; 16],
    mark: u8,
    between: [u8; 7],
    number: i64,
    after: [u8; 16],
}

impl Lent {
    /// All octets are this one. No point has such a mark or such a number.
    pub fn new(octet: u8) -> Lent {
        assert!(octet > 2);
        let number = i64::from_ne_bytes([octet; 8]);
        Lent { before: [octet; 16], mark: octet, between: [octet; 7], number, after: [octet; 16] }
    }

    /// Makes the call on them, and answers its number.
    pub fn call(&mut self, place: u32, section5: &[u8], payload: &[u8]) -> u32 {
        call(place, section5, payload, &mut self.mark, &mut self.number)
    }

    /// As the documents leave them: success writes both and nothing else, and a refusal writes nothing.
    pub fn left(self, right: Result<Point, u32>) -> (u32, Lent) {
        match right {
            Ok((mark, number)) => (0, Lent { mark, number, ..self }),
            Err(refusal) => (refusal, self),
        }
    }
}
