//! Door to `encoder/complex.rs`: from a list of numbers to groups, template numbers and payload, without the step
//! from physical values and without its path for all-equal data, which document 01 leaves out.

use super::{
    Bitmap, BitsRequired, CodedValues, ComplexPacking, Encoded, Groups, SimplePacking, WriteGrib2DataSections,
};
use crate::shims::encoder::HEADER_OCTETS;
use crate::{Group, Packing, Template};

/// A packing as the Rust holds it, and its Section 7.
pub(crate) struct Packed {
    encoded: Encoded,
    section: Vec<u8>,
    /// The octets of the section that the Rust says it wrote.
    written: usize,
}

pub(crate) fn pack(numbers: &[u32], lookahead: usize) -> Result<Packed, &'static str> {
    let groups = Groups::from_values(numbers, lookahead);
    let complex = ComplexPacking::from(&groups);
    // The number width, as the text's encoder sets it once it has the numbers.
    let num_bits = numbers.iter().max().unwrap().bits_required();
    let simple = SimplePacking { ref_val: 0., exp: 0, dec: 0, num_bits };
    let coded = CodedValues::NonUnique(groups);
    let encoded = Encoded::new(simple, complex, coded, Bitmap::for_values(&[]));
    let mut section = vec![0; encoded.section7_len()];
    let written = encoded.write_section7(&mut section)?;
    Ok(Packed { encoded, section, written })
}

impl Packed {
    pub(crate) fn packing(&self) -> Packing {
        let Self { encoded: Encoded { simple, complex, coded, .. }, section, written } = self;
        let CodedValues::NonUnique(groups) = coded else { panic!("the path for all-equal data is not taken") };
        Packing {
            template: template(simple, complex),
            missing_values: [complex.primary_missing_value, complex.secondary_missing_value],
            groups: listed(groups),
            payload: section[HEADER_OCTETS..*written].to_vec(),
            announced: section.len() - HEADER_OCTETS,
        }
    }
}

fn template(simple: &SimplePacking, complex: &ComplexPacking) -> Template {
    Template {
        number_width: simple.num_bits,
        splitting: complex.group_splitting_method,
        missing: complex.missing_value_management,
        groups: complex.num_groups,
        width_reference: complex.group_width_ref,
        width_bits: complex.num_group_width_bits,
        length_reference: complex.group_len_ref,
        length_increment: complex.group_len_inc,
        last_length: complex.group_len_last,
        length_bits: complex.num_group_len_bits,
    }
}

fn listed(Groups(groups): &Groups) -> Vec<Group> {
    let starts = groups.iter().scan(0, |next, group| {
        let start = *next;
        *next += group.len();
        Some(start)
    });
    let group = |(start, group): (usize, &super::Group)| Group {
        start: start as u32,
        length: group.len() as u32,
        least: group.ref_val,
        width: group.width.into(),
    };
    starts.zip(groups).map(group).collect()
}
