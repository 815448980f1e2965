//! The fields of Section 5 under templates 5.2 and 5.3, read from its octets and written to them.

use crate::filled::One;
use crate::{ffi, numbers_as_octets, Filled, InOctets, Refusal};

/// The places of the fields of Section 5: one for each row of document 02's table, in its order.
///
/// ```
/// use cleatmow::{field, read_section5, unpack, write_section5, Point};
///
/// let fields = [47, 5, 4, 2, 0, 0, 0, 3, 0, 1, 0, u32::MAX, u32::MAX, 2, 0, 1, 3, 0, 1, 0];
/// let section5 = write_section5(&fields)?;
/// assert_eq!(read_section5(&section5)?, fields);
/// assert_eq!((fields[field::DECLARED], fields[field::GROUPS]), (4, 2));
/// assert_eq!(unpack(&section5, &[0xBC, 0x80, 0x40])?, [5, 6, 5, 7].map(Point::Number));
/// # Ok::<(), cleatmow::Refusal>(())
/// ```
pub mod field {
    /// The section length: 47 or 49. Octets 1 to 4.
    pub const SECTION_LENGTH: usize = 0;
    /// The section number: 5. Octet 5.
    pub const SECTION_NUMBER: usize = 1;
    /// The declared points, missing ones too. Octets 6 to 9.
    pub const DECLARED: usize = 2;
    /// The template: 2 or 3. Octets 10 and 11.
    pub const TEMPLATE: usize = 3;
    /// The reference value, as bits. Octets 12 to 15.
    pub const REFERENCE: usize = 4;
    /// The binary scale, as bits. Octets 16 and 17.
    pub const BINARY_SCALE: usize = 5;
    /// The decimal scale, as bits. Octets 18 and 19.
    pub const DECIMAL_SCALE: usize = 6;
    /// The number width. Octet 20.
    pub const NUMBER_WIDTH: usize = 7;
    /// The original field type. Octet 21.
    pub const FIELD_TYPE: usize = 8;
    /// The splitting method. Octet 22.
    pub const SPLITTING: usize = 9;
    /// Missing management. Octet 23.
    pub const MISSING: usize = 10;
    /// The primary missing value. Octets 24 to 27.
    pub const PRIMARY_MISSING: usize = 11;
    /// The secondary missing value. Octets 28 to 31.
    pub const SECONDARY_MISSING: usize = 12;
    /// The groups. Octets 32 to 35.
    pub const GROUPS: usize = 13;
    /// The width reference. Octet 36.
    pub const WIDTH_REFERENCE: usize = 14;
    /// The width bits. Octet 37.
    pub const WIDTH_BITS: usize = 15;
    /// The length reference. Octets 38 to 41.
    pub const LENGTH_REFERENCE: usize = 16;
    /// The increment. Octet 42.
    pub const INCREMENT: usize = 17;
    /// The last length. Octets 43 to 46.
    pub const LAST_LENGTH: usize = 18;
    /// The length bits. Octet 47.
    pub const LENGTH_BITS: usize = 19;
    /// The order, in template 5.3. Octet 48.
    pub const ORDER: usize = 20;
    /// The descriptor octets, in template 5.3. Octet 49.
    pub const DESCRIPTOR_OCTETS: usize = 21;
}

/// The size of a field in a lent buffer: four octets, big-endian, whatever its octets in Section 5 are.
pub const FIELD_OCTETS: usize = 4;

/// How many fields a Section 5 of template 5.2 has.
pub const SECTION5_COMPLEX_FIELDS: usize = 20;

/// How many octets a Section 5 of template 5.2 has.
pub const SECTION5_COMPLEX_OCTETS: usize = 47;

/// How many fields a Section 5 of template 5.3 has.
pub const SECTION5_SPATIAL_FIELDS: usize = 22;

/// How many octets a Section 5 of template 5.3 has.
pub const SECTION5_SPATIAL_OCTETS: usize = 49;

impl InOctets for u32 {
    const OCTETS: usize = FIELD_OCTETS;

    #[inline]
    fn from_octets(octets: One) -> u32 {
        u32::from_be_bytes(octets.array())
    }
}

/// The fields of a Section 5, in the octets that [`read_section5_into`] filled. [`field`] names their places.
pub type Fields<'a> = Filled<'a, u32>;

/// The fields of a Section 5: 20 under template 5.2, 22 under 5.3. [`field`] names their places.
///
/// `section5` is a Section 5 from its first octet on; octets behind it are not looked at. The numbers of the template
/// are not judged: unpacking does that.
///
/// # Errors
///
/// [`Refusal::Section5`].
pub fn read_section5(section5: &[u8]) -> Result<Vec<u32>, Refusal> {
    Ok(read_section5_into(section5, &mut [0; MOST_LENT])?.iter().collect())
}

/// Octets that hold the fields of either template.
const MOST_LENT: usize = SECTION5_SPATIAL_FIELDS * FIELD_OCTETS;

/// The fields of a Section 5, in octets that the caller lends.
///
/// On success the fields stand at the front of `lent`, [`FIELD_OCTETS`] each, and the answer is a view over them; the
/// octets past them are unchanged, and so is all of `lent` on a refusal. `section5` is that of [`read_section5`].
///
/// # Errors
///
/// [`Refusal::Section5`] and [`Refusal::Room`], tested in this order.
pub fn read_section5_into<'a>(section5: &[u8], lent: &'a mut [u8]) -> Result<Fields<'a>, Refusal> {
    Refusal::answered(ffi::read_section5(section5, lent))?;
    let fields = Filled::front(lent, SECTION5_COMPLEX_FIELDS);
    match number_at(fields, field::TEMPLATE) {
        3 => Ok(Filled::front(lent, SECTION5_SPATIAL_FIELDS)),
        _ => Ok(fields),
    }
}

fn number_at(fields: Fields, place: usize) -> u32 {
    fields.get(place).expect("both templates have this field")
}

/// The declared points of a Section 5 that [`read_section5`] reads.
pub(crate) fn declared_points(section5: &[u8]) -> Result<u32, Refusal> {
    let mut lent = [0; MOST_LENT];
    read_section5_into(section5, &mut lent).map(|fields| number_at(fields, field::DECLARED))
}

/// The octets of the Section 5 that has these fields: 47 under template 5.2, 49 under 5.3.
///
/// `fields` has 20 or 22 numbers, as [`read_section5`] answers them; more than the template has are not looked at.
/// Length and section number are fields like the others, and must be right. Reading gives back every field.
///
/// # Errors
///
/// [`Refusal::Section5`], for too few numbers too, and [`Refusal::Numbers`] for a number that its octets do not hold,
/// tested in this order.
pub fn write_section5(fields: &[u32]) -> Result<Vec<u8>, Refusal> {
    // Those behind the fields of either template are not looked at.
    let fields = &fields[..fields.len().min(SECTION5_SPATIAL_FIELDS)];
    write_section5_into(&numbers_as_octets(fields), &mut [0; SECTION5_SPATIAL_OCTETS]).map(<[u8]>::to_vec)
}

/// The octets of the Section 5 that has these fields, in octets that the caller lends.
///
/// `fields` has [`FIELD_OCTETS`] for each field ([`numbers_as_octets`] makes them); spare octets that are short of a
/// whole field are not used. On success the section stands at the front of `lent`, and is the answer; the octets past it
/// are unchanged, and so is all of `lent` on a refusal.
///
/// # Errors
///
/// [`Refusal::Section5`], for too few numbers too, [`Refusal::Numbers`] for a number that its octets do not hold, and
/// [`Refusal::Room`], tested in this order.
pub fn write_section5_into<'a>(fields: &[u8], lent: &'a mut [u8]) -> Result<&'a [u8], Refusal> {
    Refusal::answered(ffi::write_section5(fields, lent))?;
    // The section begins with its length, whose four octets are those of a field.
    let length = number_at(Filled::front(lent, 1), field::SECTION_LENGTH);
    Ok(&lent[..length as usize])
}
