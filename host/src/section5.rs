//! Section 5 of a message: the declared count and the template numbers, as they stand there.
//!
//! Nothing is judged here but that the octets are one whole Section 5 of a template that is known. Its numbers are
//! handed over as they are; unpacking judges them. Messages and grids stay outside.

use crate::section::{headed, whole, NotSection};
use crate::{
    field, read_section5, write_section5, Differences, Packing, Template, SECTION5_COMPLEX_FIELDS,
    SECTION5_COMPLEX_OCTETS, SECTION5_SPATIAL_OCTETS,
};

/// A Section 5, read.
#[derive(Clone, Copy, Debug, PartialEq, Eq)]
pub struct Section5 {
    /// The declared count of points, missing ones too. Octets 6 to 9.
    pub declared: u32,
    /// What its template says.
    pub numbers: TemplateNumbers,
}

/// The numbers of a template.
#[derive(Clone, Copy, Debug, PartialEq, Eq)]
#[non_exhaustive]
pub enum TemplateNumbers {
    /// Template 5.2, or template 5.3 where there are differences.
    Groups {
        /// The numbers that both have, at the same places.
        template: Template,
        /// The two that 5.3 has besides.
        differences: Option<Differences>,
        /// What becomes of the numbers outside Section 7.
        physical: Physical,
    },
    /// Template 5.200. What its levels stand for is not read.
    RunLength {
        /// The bits of a code. Octet 12.
        bits: u8,
        /// The greatest level. Octets 13 and 14.
        max_level: u16,
    },
}

/// How numbers become physical values. The documents leave that outside, so it is carried from one Section 5 to another
/// as bits. The default has none of them set: numbers are then physical values as they are.
#[derive(Clone, Copy, Debug, Default, PartialEq, Eq)]
pub struct Physical {
    /// Reference value. Octets 12 to 15.
    pub reference: u32,
    /// Binary scale. Octets 16 and 17.
    pub binary_scale: u16,
    /// Decimal scale. Octets 18 and 19.
    pub decimal_scale: u16,
    /// Original field type. Octet 21.
    pub field_type: u8,
}

impl Section5 {
    /// Reads a Section 5, from its first octet to its last.
    ///
    /// # Errors
    ///
    /// [`NotSection`] where the octets are not one whole Section 5 of template 5.2, 5.3 or 5.200, and nothing else.
    pub fn from_octets(octets: &[u8]) -> Result<Section5, NotSection> {
        match read_section5(octets) {
            Ok(fields) => {
                whole(5, fields[field::SECTION_LENGTH], octets)?;
                Ok(Section5::of_fields(&fields))
            }
            Err(_) => Section5::of_no_fields(octets),
        }
    }

    /// What the fields of template 5.2 or 5.3 say.
    fn of_fields(fields: &[u32]) -> Section5 {
        let one = |place: usize| u8::try_from(fields[place]).expect("a field of one octet");
        let two = |place: usize| u16::try_from(fields[place]).expect("a field of two octets");
        let template = Template {
            number_width: one(field::NUMBER_WIDTH),
            splitting: one(field::SPLITTING),
            missing: one(field::MISSING),
            groups: fields[field::GROUPS],
            width_reference: one(field::WIDTH_REFERENCE),
            width_bits: one(field::WIDTH_BITS),
            length_reference: fields[field::LENGTH_REFERENCE],
            length_increment: one(field::INCREMENT),
            last_length: fields[field::LAST_LENGTH],
            length_bits: one(field::LENGTH_BITS),
        };
        let differences = (fields.len() > SECTION5_COMPLEX_FIELDS)
            .then(|| Differences { order: one(field::ORDER), descriptor_octets: one(field::DESCRIPTOR_OCTETS) });
        let physical = Physical {
            reference: fields[field::REFERENCE],
            binary_scale: two(field::BINARY_SCALE),
            decimal_scale: two(field::DECIMAL_SCALE),
            field_type: one(field::FIELD_TYPE),
        };
        let numbers = TemplateNumbers::Groups { template, differences, physical };
        Section5 { declared: fields[field::DECLARED], numbers }
    }

    /// A Section 5 that [`read_section5`] refuses: one of template 5.200, which no call reads, or why it is none.
    fn of_no_fields(octets: &[u8]) -> Result<Section5, NotSection> {
        let (length, rest) = headed(5, octets)?;
        let mut rest = Rest(rest);
        let (Some(declared), Some(template)) = (rest.four(), rest.two()) else {
            return Err(NotSection::Short { section: 5, count: octets.len() });
        };
        let size = NotSection::Size { template, length };
        match (template, length as usize) {
            (200, _) => {
                whole(5, length, octets)?;
                Ok(Section5 { declared, numbers: rest.run_length().ok_or(size)? })
            }
            // Of these the call refuses only one that was cut off.
            (2, SECTION5_COMPLEX_OCTETS) | (3, SECTION5_SPATIAL_OCTETS) => {
                Err(NotSection::Length { section: 5, length, count: octets.len() })
            }
            (2 | 3, _) => Err(size),
            _ => Err(NotSection::Template { template }),
        }
    }

    /// The octets of the Section 5 of a packing, which is under template 5.2 and has both missing values of
    /// [`Packing`].
    pub fn of_packing(declared: u32, template: &Template, physical: &Physical) -> Vec<u8> {
        let mut fields = [0; SECTION5_COMPLEX_FIELDS];
        fields[field::SECTION_LENGTH] = SECTION5_COMPLEX_OCTETS as u32;
        fields[field::SECTION_NUMBER] = 5;
        fields[field::DECLARED] = declared;
        fields[field::TEMPLATE] = 2;
        fields[field::REFERENCE] = physical.reference;
        fields[field::BINARY_SCALE] = physical.binary_scale.into();
        fields[field::DECIMAL_SCALE] = physical.decimal_scale.into();
        fields[field::NUMBER_WIDTH] = template.number_width.into();
        fields[field::FIELD_TYPE] = physical.field_type.into();
        fields[field::SPLITTING] = template.splitting.into();
        fields[field::MISSING] = template.missing.into();
        fields[field::PRIMARY_MISSING] = Packing::MISSING_VALUE;
        fields[field::SECONDARY_MISSING] = Packing::MISSING_VALUE;
        fields[field::GROUPS] = template.groups;
        fields[field::WIDTH_REFERENCE] = template.width_reference.into();
        fields[field::WIDTH_BITS] = template.width_bits.into();
        fields[field::LENGTH_REFERENCE] = template.length_reference;
        fields[field::INCREMENT] = template.length_increment.into();
        fields[field::LAST_LENGTH] = template.last_length;
        fields[field::LENGTH_BITS] = template.length_bits.into();
        write_section5(&fields).expect("each number has as many octets as its field")
    }

    /// How many octets of a Section 5 of template 5.200 stand before those that say what its levels stand for.
    pub const BEFORE_LEVEL_VALUES: usize = 14;

    /// The octets of a Section 5 of template 5.200. `values` are those from octet 15 on, which say what its levels stand
    /// for: the count of the levels' values in two octets, their scale in one, and two for each value. They are taken as
    /// they are. None where four octets do not hold the length.
    pub fn of_levels(declared: u32, bits: u8, max_level: u16, values: &[u8]) -> Option<Vec<u8>> {
        let length = u32::try_from(values.len().checked_add(Section5::BEFORE_LEVEL_VALUES)?).ok()?;
        let (length, declared, max_level) = (length.to_be_bytes(), declared.to_be_bytes(), max_level.to_be_bytes());
        Some([&length, &[5][..], &declared, &[0, 200, bits], &max_level, values].concat())
    }

    /// 2, 3 or 200. Octets 10 and 11.
    pub fn template_number(&self) -> u16 {
        match self.numbers {
            TemplateNumbers::Groups { differences: None, .. } => 2,
            TemplateNumbers::Groups { differences: Some(_), .. } => 3,
            TemplateNumbers::RunLength { .. } => 200,
        }
    }
}

/// What is left to read of a section. Fields are read in the order in which they stand.
struct Rest<'a>(&'a [u8]);

impl Rest<'_> {
    fn octets<const COUNT: usize>(&mut self) -> Option<[u8; COUNT]> {
        let (front, rest) = self.0.split_first_chunk()?;
        self.0 = rest;
        Some(*front)
    }

    fn one(&mut self) -> Option<u8> {
        self.octets().map(u8::from_be_bytes)
    }

    fn two(&mut self) -> Option<u16> {
        self.octets().map(u16::from_be_bytes)
    }

    fn four(&mut self) -> Option<u32> {
        self.octets().map(u32::from_be_bytes)
    }

    fn run_length(&mut self) -> Option<TemplateNumbers> {
        let (bits, max_level) = (self.one()?, self.two()?);
        // The count of the levels' values and their scale. The values follow.
        let _values: [u8; 3] = self.octets()?;
        Some(TemplateNumbers::RunLength { bits, max_level })
    }
}
