//! Section 5 as document 02 says it in No. 1: reading takes each field from the octets that the request names, writing
//! puts one field after another. Neither goes by a table, so that they share none with the calls or with each other.

use super::{answer, template, Input};
use crate::support::guarded;
use crate::support::maps::Numbers;
use cleatmow::{Differences, Template};

/// The fields of a Section 5, in the request's order; or 14 "when fewer octets are lent than the template has, the
/// length is not the template's, the section number is not 5, or the template is neither". What stands behind is not
/// looked at.
pub fn fields(section5: &[u8]) -> Result<Vec<u32>, u32> {
    let spatial = match section5 {
        [0, 0, 0, 47, 5, _, _, _, _, 0, 2, ..] if section5.len() >= 47 => false,
        [0, 0, 0, 49, 5, _, _, _, _, 0, 3, ..] if section5.len() >= 49 => true,
        _ => return Err(14),
    };
    // By the first octet. The section's first is 1.
    let one = |octet: usize| u32::from(section5[octet - 1]);
    let two = |octet: usize| 256 * one(octet) + one(octet + 1);
    let four = |octet: usize| 65_536 * two(octet) + two(octet + 2);
    let (length, number, declared, template_number) = (four(1), one(5), four(6), two(10));
    let (reference, binary_scale, decimal_scale) = (four(12), two(16), two(18));
    let (number_width, field_type, splitting, management) = (one(20), one(21), one(22), one(23));
    let (missing_1, missing_2, groups) = (four(24), four(28), four(32));
    let (width_reference, width_bits) = (one(36), one(37));
    let (length_reference, increment, last_length, length_bits) = (four(38), one(42), four(43), one(47));
    let mut fields = vec![length, number, declared, template_number, reference, binary_scale, decimal_scale];
    fields.extend([number_width, field_type, splitting, management, missing_1, missing_2, groups]);
    fields.extend([width_reference, width_bits, length_reference, increment, last_length, length_bits]);
    if spatial {
        let (order, descriptor_octets) = (one(48), one(49));
        fields.extend([order, descriptor_octets]);
    }
    Ok(fields)
}

/// The octets of a Section 5 of these fields; or 14, for fewer numbers than the template has fields too; or 13 for a
/// number that its octets do not hold. Numbers behind the last field are not looked at.
pub fn octets(fields: &[u32]) -> Result<Vec<u8>, u32> {
    let count = match fields {
        [47, 5, _, 2, ..] if fields.len() >= 20 => 20,
        [49, 5, _, 3, ..] if fields.len() >= 22 => 22,
        _ => return Err(14),
    };
    let one = |number: u32| u8::try_from(number).map(|number| vec![number]).map_err(|_| 13_u32);
    let two = |number: u32| u16::try_from(number).map(|number| number.to_be_bytes().to_vec()).map_err(|_| 13_u32);
    let four = |number: u32| number.to_be_bytes().to_vec();
    let mut rest = fields[..count].iter().copied();
    let mut next = || rest.next().expect("as many as are counted");
    let mut octets = Vec::new();
    // Section length and number, declared points, template.
    octets.extend([four(next()), one(next())?, four(next()), two(next())?]);
    // Reference value, binary and decimal scale.
    octets.extend([four(next()), two(next())?, two(next())?]);
    // Number width, original field type, splitting method, missing management.
    octets.extend([one(next())?, one(next())?, one(next())?, one(next())?]);
    // Missing values, groups.
    octets.extend([four(next()), four(next()), four(next())]);
    // Width reference and bits; length reference, increment, last length, length bits.
    octets.extend([one(next())?, one(next())?]);
    octets.extend([four(next()), one(next())?, four(next()), one(next())?]);
    // In 5.3 the order and the descriptor octets.
    for number in rest {
        octets.push(one(number)?);
    }
    Ok(octets.concat())
}

/// What unpacking is given by a Section 5 and a payload, or 14.
pub fn input(section5: &[u8], payload: &[u8]) -> Result<Input, u32> {
    let fields = fields(section5)?;
    let [_, _, declared, _, _, _, _, number_width, _, splitting, missing, _, _, groups, ref lengths @ ..] = fields[..]
    else {
        panic!("20 fields or 22: {fields:?}");
    };
    let [width_reference, width_bits, length_reference, length_increment, last_length, length_bits, ref more @ ..] =
        *lengths
    else {
        panic!("20 fields or 22: {fields:?}");
    };
    // Each of these was read from one octet.
    let octet = |number: u32| number as u8;
    let widths = (octet(width_reference), octet(width_bits));
    let lengths = (length_reference, octet(length_increment), last_length, octet(length_bits));
    let template = Template {
        splitting: octet(splitting),
        missing: octet(missing),
        ..template(octet(number_width), groups, widths, lengths)
    };
    let differences = match *more {
        [order, descriptor_octets] => {
            Some(Differences { order: octet(order), descriptor_octets: octet(descriptor_octets) })
        }
        _ => None,
    };
    Ok(Input { template, differences, declared, payload: payload.to_vec() })
}

/// The Section 5 of a map. What is carried through as bits is any, and so are the missing values.
pub fn of_map(map: &Input, chance: &mut Numbers) -> Vec<u8> {
    let Template { number_width, splitting, missing, groups, .. } = map.template;
    let Template { width_reference, width_bits, length_reference, length_increment, last_length, length_bits, .. } =
        map.template;
    let (length, number) = if map.differences.is_some() { (49, 3) } else { (47, 2) };
    let mut any = |bits: u32| (chance.any() >> (64 - bits)) as u32;
    let mut fields = vec![length, 5, map.declared, number, any(32), any(16), any(16)];
    fields.extend([number_width.into(), any(8), splitting.into(), missing.into(), any(32), any(32), groups]);
    fields.extend([width_reference, width_bits].map(u32::from));
    fields.extend([length_reference, length_increment.into(), last_length, length_bits.into()]);
    if let Some(Differences { order, descriptor_octets }) = map.differences {
        fields.extend([order, descriptor_octets].map(u32::from));
    }
    octets(&fields).expect("each number fits its octets")
}

/// Fields as the calls lend and take them: numbers of four octets, big-endian.
pub fn lent_fields(fields: &[u32]) -> Vec<u8> {
    fields.iter().copied().flat_map(u32::to_be_bytes).collect()
}

/// The whole numbers of a list of fields. Spare octets short of one are not used.
pub fn whole_fields(lent: &[u8]) -> Vec<u32> {
    lent.chunks_exact(4).map(|number| u32::from_be_bytes(number.try_into().expect("four octets"))).collect()
}

/// What reading answers, and the buffer as it is left.
pub fn read(section5: &[u8], lent: &[u8]) -> (u32, Vec<u8>) {
    lent_answer(fields(section5).map(|fields| lent_fields(&fields)), lent)
}

/// What writing answers, and the buffer as it is left.
pub fn write(fields: &[u8], lent: &[u8]) -> (u32, Vec<u8>) {
    lent_answer(octets(&whole_fields(fields)), lent)
}

/// What unpacking by a Section 5 answers, and the buffer as it is left: 14 "comes before all others".
pub fn unpack(section5: &[u8], payload: &[u8], lent: &[u8]) -> (u32, Vec<u8>) {
    match input(section5, payload) {
        Ok(input) => answer(&input, lent),
        Err(number) => (number, lent.to_vec()),
    }
}

/// "A lent output that is too small is 10.", after all others. Octets past the answer are unchanged.
fn lent_answer(octets: Result<Vec<u8>, u32>, lent: &[u8]) -> (u32, Vec<u8>) {
    let mut left = lent.to_vec();
    match octets {
        Err(number) => (number, left),
        Ok(octets) if octets.len() > left.len() => (10, left),
        Ok(octets) => {
            left[..octets.len()].copy_from_slice(&octets);
            (0, left)
        }
    }
}

/// What the call that reads answers, and leaves in the octets. Where a view is answered, it is of the template's fields
/// at the front of the octets, and of nothing past them.
pub fn call_read(section5: &[u8], lent: &mut [u8]) -> u32 {
    let front = lent.as_ptr();
    match cleatmow::read_section5_into(section5, lent) {
        Ok(view) => {
            guarded::hold_view(view, front, fields(section5).expect("a Section 5 that was read").len());
            assert!(view.iter().eq(whole_fields(view.octets())));
            0
        }
        Err(refusal) => refusal.number(),
    }
}

/// What the call that writes answers, and leaves in the octets. The section that is answered has as many octets as it
/// says, the first of the lent ones.
pub fn call_write(fields: &[u8], lent: &mut [u8]) -> u32 {
    let front = lent.as_ptr();
    match cleatmow::write_section5_into(fields, lent) {
        Ok(section5) => {
            assert_eq!((section5.as_ptr(), section5.len()), (front, usize::from(section5[3])));
            0
        }
        Err(refusal) => refusal.number(),
    }
}

/// What the call that unpacks answers, and leaves in the octets. Where a view is answered, it is of the points that
/// octets 6 to 9 declare.
pub fn call_unpack(section5: &[u8], payload: &[u8], lent: &mut [u8]) -> u32 {
    let front = lent.as_ptr();
    match cleatmow::unpack_into(section5, payload, lent) {
        Ok(view) => {
            guarded::hold_view(view, front, input(section5, payload).expect("a map that was read").declared as usize);
            0
        }
        Err(refusal) => refusal.number(),
    }
}
