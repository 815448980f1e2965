//! The groups of a map as its own payload has them, for a person to read. No point is made of them: points come from
//! the calls alone.

use crate::shown;
use cleatmow::{Differences, Template};
use std::fmt;

/// A group, by what the group fields say of it.
#[derive(Clone, Copy, Debug, PartialEq, Eq)]
pub struct OwnGroup {
    /// Which of the groups it is. The first is 0.
    pub which: u32,
    /// The place of its first point. The first place is 0.
    pub start: u64,
    pub length: u64,
    pub reference: u64,
    pub width: u64,
}

/// The groups of a payload whose group fields no call has refused.
pub fn own_groups<'a>(
    template: &Template,
    differences: Option<Differences>,
    payload: &'a [u8],
) -> impl Iterator<Item = OwnGroup> + 'a {
    let template = *template;
    let octets = |width: u8| (u64::from(template.groups) * u64::from(width)).div_ceil(8);
    let descriptors = differences
        .map_or(0, |Differences { order, descriptor_octets }| (u64::from(order) + 1) * u64::from(descriptor_octets));
    let widths_at = descriptors + octets(template.number_width);
    let lengths_at = widths_at + octets(template.width_bits);
    let code =
        move |at: u64, width: u8, group: u32| number(payload, 8 * at + u64::from(group) * u64::from(width), width);
    let mut start = 0;
    (0..template.groups).map(move |which| {
        let length = if which + 1 == template.groups {
            u64::from(template.last_length)
        } else {
            code(lengths_at, template.length_bits, which) * u64::from(template.length_increment)
                + u64::from(template.length_reference)
        };
        let group = OwnGroup {
            which,
            start,
            length,
            reference: code(descriptors, template.number_width, which),
            width: code(widths_at, template.width_bits, which) + u64::from(template.width_reference),
        };
        start += length;
        group
    })
}

/// The number in so many bits. Octets past the end count as 0.
fn number(payload: &[u8], bit: u64, width: u8) -> u64 {
    (bit..bit + u64::from(width)).fold(0, |number, bit| {
        let octet = usize::try_from(bit / 8).ok().and_then(|place| payload.get(place)).unwrap_or(&0);
        number << 1 | u64::from(octet >> (7 - bit % 8) & 1)
    })
}

/// Groups and points are counted from 1.
impl fmt::Display for OwnGroup {
    fn fmt(&self, f: &mut fmt::Formatter<'_>) -> fmt::Result {
        match self.length {
            0 => write!(f, "no points")?,
            1 => write!(f, "point {}", shown::count(self.start + 1))?,
            length => write!(f, "points {} to {}", shown::count(self.start + 1), shown::count(self.start + length))?,
        }
        write!(f, ", reference {}, width {}", self.reference, self.width)
    }
}
