//! What Sections 5 and 7 share: a header of five octets.

use std::error::Error;
use std::fmt;

/// The length that a section says in its first four octets, and what follows its number.
pub(crate) fn headed(section: u8, octets: &[u8]) -> Result<(u32, &[u8]), NotSection> {
    match octets.split_first_chunk::<5>() {
        None => Err(NotSection::Short { section, count: octets.len() }),
        Some(([length @ .., number], rest)) if *number == section => Ok((u32::from_be_bytes(*length), rest)),
        Some(([.., number], _)) => Err(NotSection::Number { section, number: *number }),
    }
}

/// Whether these octets are as many as their section says.
pub(crate) fn whole(section: u8, length: u32, octets: &[u8]) -> Result<(), NotSection> {
    let count = octets.len();
    if usize::try_from(length) == Ok(count) {
        Ok(())
    } else {
        Err(NotSection::Length { section, length, count })
    }
}

/// Why octets are not the section that is looked for, whole and alone. `Display` has a sentence for the log.
///
/// Of a Section 5 under template 5.2 or 5.3, [`read_section5`](crate::read_section5) answers
/// [`Refusal::Section5`](crate::Refusal::Section5) for all of these but one: it does not look at octets behind the
/// section.
#[derive(Clone, Copy, Debug, PartialEq, Eq)]
#[non_exhaustive]
pub enum NotSection {
    /// They are too few for one.
    Short {
        /// The section that is looked for.
        section: u8,
        /// How many octets there are.
        count: usize,
    },
    /// They are another section.
    Number {
        /// The section that is looked for.
        section: u8,
        /// The number that they say.
        number: u8,
    },
    /// The section says another length than it has: it was cut off, or octets stand behind it.
    Length {
        /// The section that is looked for.
        section: u8,
        /// What it says.
        length: u32,
        /// How many octets there are.
        count: usize,
    },
    /// A Section 5 whose template is not known here.
    Template {
        /// The template's number.
        template: u16,
    },
    /// A Section 5 that says a length which is not its template's.
    Size {
        /// The template's number.
        template: u16,
        /// What it says.
        length: u32,
    },
}

impl fmt::Display for NotSection {
    fn fmt(&self, f: &mut fmt::Formatter<'_>) -> fmt::Result {
        match self {
            NotSection::Short { section, count } => write!(f, "too few octets for a Section {section}: {count}"),
            NotSection::Number { section, number } => write!(f, "the section number is {number}, and not {section}"),
            NotSection::Length { section, length, count } if u64::from(*length) < *count as u64 => {
                write!(f, "octets stand behind Section {section}: it says that it has {length}, and {count} are there")
            }
            NotSection::Length { section, length, count } => {
                write!(f, "Section {section} says that it has {length} octets, and {count} are there")
            }
            NotSection::Template { template } => {
                write!(f, "Section 5 is of template 5.{template}, whose numbers are not read here")
            }
            NotSection::Size { template, length } => {
                write!(
                    f,
                    "Section 5 says that it has {length} octets, which is not the length of template 5.{template}"
                )
            }
        }
    }
}

impl Error for NotSection {}
