//! Door to `decoder/complex.rs`: both templates as the Rust itself unpacks them, with its own tests of the template
//! numbers, up to the step to physical values.

use super::{Complex, ComplexSpatial, DecodeError, DecodedValue, Grib2GpvUnpack, ToPrimitive};
use crate::decoder::{Grib2SubmessageDecoder, simple::door::before_floats};
use crate::def::grib2::template::{Template5_2, Template5_3, Template5_4, param_set};
use crate::def::grib2::{DataRepresentationTemplate, Section, Section5Payload, SectionHeader};
use crate::shims::encoder::HEADER_OCTETS;
use crate::{Differences, Point, Template};

pub(crate) fn unpack_complex(template: &Template, message: &Grib2SubmessageDecoder) -> Result<Vec<Point>, DecodeError> {
    let (simple, complex) = parameters(template);
    let template = Template5_2 { simple, orig_field_type: 0, complex };
    let points = before_floats(Complex(message, &template).iter()?);
    Ok(points.map(point).collect())
}

pub(crate) fn unpack_spatial(
    template: &Template,
    differences: &Differences,
    message: &Grib2SubmessageDecoder,
) -> Result<Vec<Point>, DecodeError> {
    let (simple, complex) = parameters(template);
    let template = Template5_3 {
        simple,
        orig_field_type: 0,
        complex,
        spatial_diff_order: differences.order,
        num_extra_desc_octets: differences.descriptor_octets,
    };
    let points = before_floats(ComplexSpatial(message, &template).iter()?);
    Ok(points.map(point).collect())
}

fn parameters(template: &Template) -> (param_set::SimplePacking, param_set::ComplexPacking) {
    let simple = param_set::SimplePacking { ref_val: 0., exp: 0, dec: 0, num_bits: template.number_width };
    let complex = param_set::ComplexPacking {
        group_splitting_method: template.splitting,
        missing_value_management: template.missing,
        primary_missing_value: u32::MAX,
        secondary_missing_value: u32::MAX,
        num_groups: template.groups,
        group_width_ref: template.width_reference,
        num_group_width_bits: template.width_bits,
        group_len_ref: template.length_reference,
        group_len_inc: template.length_increment,
        group_len_last: template.last_length,
        num_group_len_bits: template.length_bits,
    };
    (simple, complex)
}

/// A message with this payload. Unpacking is handed its template beside the message and looks at no declared count, so
/// Section 5 is the shortest that there is.
pub(crate) fn message(payload: &[u8]) -> Grib2SubmessageDecoder {
    let header = SectionHeader { len: 0, sect_num: 5 };
    let shortest = Section5Payload {
        num_encoded_points: 0,
        template_num: 4,
        template: DataRepresentationTemplate::_5_4(Template5_4 { precision: 0 }),
    };
    Grib2SubmessageDecoder {
        num_points_total: 0,
        sect5_param: Section { header, payload: shortest },
        sect6_bytes: Vec::new(),
        sect7_bytes: [&[0; HEADER_OCTETS], payload].concat(),
    }
}

fn point<N: ToPrimitive + Into<i64>>(value: DecodedValue<N>) -> Point {
    match value {
        DecodedValue::Normal(number) => Point::Number(number.into()),
        DecodedValue::Missing1 => Point::Missing1,
        DecodedValue::Missing2 => Point::Missing2,
    }
}
