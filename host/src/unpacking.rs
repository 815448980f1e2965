//! Unpacking under templates 5.2 and 5.3.

use crate::fields::declared_points;
use crate::{ffi, lent, Filled, Point, Points, Refusal, POINT_OCTETS};

/// The points of a map, from the octets of its Section 5 and its payload. No number of the template is typed.
///
/// `section5` is a Section 5 of template 5.2 or 5.3, from its first octet on; octets behind it are not looked at.
/// `payload` is Section 7 after its five-octet header.
///
/// # Errors
///
/// [`Refusal::Section5`], and then those of [`unpack_complex`] or [`unpack_spatial`], by the template, in their order.
pub fn unpack(section5: &[u8], payload: &[u8]) -> Result<Vec<Point>, Refusal> {
    let mut points = lent_points(declared_points(section5)?);
    Ok(unpack_into(section5, payload, &mut points)?.iter().collect())
}

/// The points of a map, from the octets of its Section 5 and its payload, in octets that the caller lends.
///
/// On success the points stand at the front of `lent`, [`POINT_OCTETS`] each, and the answer is a view over them; the
/// octets past them are unchanged. A refusal changes nothing, but for [`Refusal::Beyond`], as in
/// [`unpack_spatial_into`]. The other arguments are those of [`unpack`].
///
/// # Errors
///
/// [`Refusal::Section5`], and then those of [`unpack_complex_into`] or [`unpack_spatial_into`], by the template, in
/// their order.
pub fn unpack_into<'a>(section5: &[u8], payload: &[u8], lent: &'a mut [u8]) -> Result<Points<'a>, Refusal> {
    Refusal::answered(ffi::unpack(section5, payload, lent))?;
    Ok(Filled::front(lent, declared_points(section5)? as usize))
}

/// One point of a map under template 5.2, from the octets of its Section 5 and its payload: the one that [`unpack`]
/// answers at this place. The map is not unpacked, and nothing is allocated.
///
/// `place` is the point's place in the map's list; the first is 0. The other arguments are those of [`unpack`].
///
/// # Errors
///
/// [`Refusal::Section5`], for a Section 5 of template 5.3 too; then those of [`unpack_complex`] in their order,
/// wherever in the map the fault is; and [`Refusal::Place`].
pub fn point(section5: &[u8], payload: &[u8], place: u32) -> Result<Point, Refusal> {
    // No point has this mark: one that a call did not write is not taken for a number.
    let (mut mark, mut number) = (u8::MAX, 0);
    Refusal::answered(ffi::point(place, section5, payload, &mut mark, &mut number))?;
    Ok(Point::left(mark, number))
}

/// The numbers of template 5.2, in Section 5's order.
#[derive(Clone, Copy, Debug, PartialEq, Eq)]
pub struct Template {
    /// The bits of a group reference: up to 31. Octet 20 of Section 5.
    pub number_width: u8,
    /// The splitting method: 1. Octet 22.
    pub splitting: u8,
    /// Missing management: 0, 1 or 2. Octet 23.
    pub missing: u8,
    /// The group count: 1 to 4,194,304. Octets 32 to 35.
    pub groups: u32,
    /// What is added to each width code. Octet 36.
    pub width_reference: u8,
    /// The bits of a width code: up to 32. Octet 37.
    pub width_bits: u8,
    /// What is added to each length. Octets 38 to 41.
    pub length_reference: u32,
    /// What each length code is multiplied by. Octet 42.
    pub length_increment: u8,
    /// The length of the last group. Octets 43 to 46.
    pub last_length: u32,
    /// The bits of a length code: up to 32. Octet 47.
    pub length_bits: u8,
}

/// The two numbers that template 5.3 has besides.
#[derive(Clone, Copy, Debug, PartialEq, Eq)]
pub struct Differences {
    /// The differencing order: 1 or 2. Octet 48 of Section 5.
    pub order: u8,
    /// The octets of each first value and of the overall minimum: 1 to 4. Octet 49.
    pub descriptor_octets: u8,
}

/// The points of a map under template 5.2.
///
/// `declared` is how many points the map is declared to have; `payload` is Section 7 after its five-octet header.
///
/// # Errors
///
/// [`Refusal::Splitting`], [`Refusal::Management`], [`Refusal::GroupCount`], [`Refusal::Width`], [`Refusal::Short`] for
/// the group fields, [`Refusal::GroupSize`], [`Refusal::Short`] for the values, and [`Refusal::Points`], tested in this
/// order.
pub fn unpack_complex(template: &Template, declared: u32, payload: &[u8]) -> Result<Vec<Point>, Refusal> {
    let mut points = lent_points(declared);
    Ok(unpack_complex_into(template, declared, payload, &mut points)?.iter().collect())
}

/// The points of a map under template 5.2, in octets that the caller lends.
///
/// On success the points stand at the front of `lent`, [`POINT_OCTETS`] each, and the answer is a view over them; the
/// octets past them are unchanged, and so is all of `lent` on a refusal. The other arguments are those of
/// [`unpack_complex`].
///
/// # Errors
///
/// [`Refusal::Splitting`], [`Refusal::Management`], [`Refusal::GroupCount`], [`Refusal::Width`], [`Refusal::Short`] for
/// the group fields, [`Refusal::GroupSize`], [`Refusal::Short`] for the values, [`Refusal::Points`] and
/// [`Refusal::Room`], tested in this order.
pub fn unpack_complex_into<'a>(
    template: &Template,
    declared: u32,
    payload: &[u8],
    lent: &'a mut [u8],
) -> Result<Points<'a>, Refusal> {
    Refusal::answered(ffi::unpack_complex(template, declared, payload, lent))?;
    Ok(Filled::front(lent, declared as usize))
}

/// The points of a map under template 5.3, restored from their differences.
///
/// `declared` is how many points the map is declared to have; `payload` is Section 7 after its five-octet header.
///
/// # Errors
///
/// [`Refusal::Order`], [`Refusal::Splitting`], [`Refusal::Management`], [`Refusal::Descriptors`], [`Refusal::Short`] for
/// the descriptors, [`Refusal::GroupCount`], [`Refusal::Width`], [`Refusal::Short`] for the group fields,
/// [`Refusal::GroupSize`], [`Refusal::Short`] for the values, [`Refusal::Points`] and [`Refusal::Beyond`], tested in
/// this order.
pub fn unpack_spatial(
    template: &Template,
    differences: &Differences,
    declared: u32,
    payload: &[u8],
) -> Result<Vec<Point>, Refusal> {
    let mut points = lent_points(declared);
    Ok(unpack_spatial_into(template, differences, declared, payload, &mut points)?.iter().collect())
}

/// The points of a map under template 5.3, in octets that the caller lends.
///
/// On success the points stand at the front of `lent`, [`POINT_OCTETS`] each, and the answer is a view over them; the
/// octets past them are unchanged. A refusal changes nothing, but for [`Refusal::Beyond`], which leaves number 0 and mark
/// 0 in the declared places: they look like points, and no view shows them. The other arguments are those of
/// [`unpack_spatial`].
///
/// # Errors
///
/// [`Refusal::Order`], [`Refusal::Splitting`], [`Refusal::Management`], [`Refusal::Descriptors`], [`Refusal::Short`] for
/// the descriptors, [`Refusal::GroupCount`], [`Refusal::Width`], [`Refusal::Short`] for the group fields,
/// [`Refusal::GroupSize`], [`Refusal::Short`] for the values, [`Refusal::Points`], [`Refusal::Room`] and
/// [`Refusal::Beyond`], tested in this order.
pub fn unpack_spatial_into<'a>(
    template: &Template,
    differences: &Differences,
    declared: u32,
    payload: &[u8],
    lent: &'a mut [u8],
) -> Result<Points<'a>, Refusal> {
    Refusal::answered(ffi::unpack_spatial(template, differences, declared, payload, lent))?;
    Ok(Filled::front(lent, declared as usize))
}

/// Octets to lend for a declared count of points. A count above [`MOST_POINTS`](crate::MOST_POINTS), which is refused
/// before the room is looked at, gets none.
pub fn lent_points(declared: u32) -> Vec<u8> {
    vec![0; lent(declared) * POINT_OCTETS]
}
