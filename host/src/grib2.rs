//! GRIB2 files: where in a file the fields of its messages are, and what grid their points stand in.
//!
//! Messages, grids and bitmaps are outside document 01. What is read of them here is a convenience for hosts, run by
//! tests and without a promise: the sections of a field as they stand in the file, to be handed to
//! [`unpack`](crate::unpack), the second by way of [`payload_of`](crate::payload_of).
//!
//! No length in a file is trusted. A message whose lengths, order of sections or end are not those of a whole one makes
//! the file one that is not read, since the fields behind it could be counted wrongly. Reading goes through the octets
//! once.

use std::error::Error;
use std::fmt;

/// The fields of a file.
#[derive(Clone, Debug, PartialEq, Eq)]
pub struct Contents<'a> {
    /// The fields of its messages of edition 2, in their order.
    pub fields: Vec<Field<'a>>,
    /// How many messages of edition 1 stand among them, whole or cut. They are not read.
    pub edition_1: usize,
    /// How many octets belong to no message, such as the headings of bulletins.
    pub other_octets: usize,
}

/// A field: one map of a message.
#[derive(Clone, Copy, Debug, PartialEq, Eq)]
pub struct Field<'a> {
    /// Which message of edition 2 it is in. The first is 1.
    pub message: usize,
    /// The octet of the file that this message begins with. The first is 1.
    pub at: usize,
    discipline: u8,
    section3: &'a [u8],
    section4: &'a [u8],
    section5: &'a [u8],
    section6: &'a [u8],
    section7: &'a [u8],
}

impl<'a> Field<'a> {
    /// What it is a map of.
    pub fn parameter(&self) -> Parameter {
        Parameter { discipline: self.discipline, category: self.section4[9], number: self.section4[10] }
    }

    /// How many points Section 5 declares.
    pub fn points(&self) -> u32 {
        four(self.section5, 6)
    }

    /// The number of its data template: 2 for 5.2.
    pub fn template(&self) -> u16 {
        two(self.section5, 10)
    }

    /// Section 5 and Section 7, each whole.
    ///
    /// # Errors
    ///
    /// [`HasBitmap`]: the two alone would be taken for a map whose points are the places of its grid.
    pub fn sections(&self) -> Result<[&'a [u8]; 2], HasBitmap> {
        match self.section6[5] {
            255 => Ok([self.section5, self.section7]),
            indicator => Err(HasBitmap { indicator }),
        }
    }

    /// The grid of its points.
    ///
    /// # Errors
    ///
    /// [`NoGrid`] where Section 3 has none that is read here.
    pub fn grid(&self) -> Result<Grid, NoGrid> {
        let section = self.section3;
        let (source, template) = (section[5], two(section, 13));
        if source != 0 {
            return Err(NoGrid::Unknown { source });
        }
        // The octet of the scanning mode, and how many there are; columns and rows stand at the same octets in all.
        let (scanning, octets) = match template {
            0 => (72, 72),
            10 => (60, 72),
            20 => (65, 65),
            30 => (65, 81),
            _ => return Err(NoGrid::Template { template }),
        };
        if section.len() < octets {
            return Err(NoGrid::Short { template, count: section.len() });
        }
        let grid =
            Grid { template, columns: four(section, 31), rows: four(section, 35), scanning: section[scanning - 1] };
        // A list of the rows' own lengths, or columns that are not said, is a grid whose rows differ.
        if section[10] != 0 || grid.columns == u32::MAX || grid.rows == u32::MAX {
            return Err(NoGrid::Reduced);
        }
        if grid.scanning & !(Grid::UPWARD | Grid::ALTERNATE) != 0 {
            return Err(NoGrid::Scanning { scanning: grid.scanning });
        }
        if grid.columns == 0 || grid.rows == 0 {
            return Err(NoGrid::Empty { columns: grid.columns, rows: grid.rows });
        }
        let points = u64::from(grid.columns) * u64::from(grid.rows);
        for (section, said) in [(3, four(section, 7)), (5, self.points())] {
            if points != u64::from(said) {
                return Err(NoGrid::Points { columns: grid.columns, rows: grid.rows, section, said });
            }
        }
        Ok(grid)
    }
}

/// What a field is a map of, by WMO's tables. `Display` has the three numbers with their names.
#[derive(Clone, Copy, Debug, PartialEq, Eq)]
pub struct Parameter {
    /// Octet 7 of Section 0.
    pub discipline: u8,
    /// Octet 10 of Section 4.
    pub category: u8,
    /// Octet 11 of Section 4.
    pub number: u8,
}

impl fmt::Display for Parameter {
    fn fmt(&self, f: &mut fmt::Formatter<'_>) -> fmt::Result {
        let Parameter { discipline, category, number } = self;
        write!(f, "discipline {discipline}, category {category}, parameter {number}")
    }
}

/// A grid whose points go row by row, as Section 3 says it.
#[derive(Clone, Copy, Debug, PartialEq, Eq)]
pub struct Grid {
    /// The number of its template: 0, 10, 20 or 30.
    pub template: u16,
    /// Octets 31 to 34.
    pub columns: u32,
    /// Octets 35 to 38.
    pub rows: u32,
    /// The scanning mode, which has no bits but the two below.
    pub scanning: u8,
}

impl Grid {
    /// The bit of the scanning mode that says: rows go upward, from the south in a grid of latitudes.
    pub const UPWARD: u8 = 0x40;

    /// The bit of the scanning mode that says: every second row goes from the last column to the first.
    pub const ALTERNATE: u8 = 0x10;
}

/// Why the grid of a field is not read. `Display` has a sentence for the log.
#[derive(Clone, Copy, Debug, PartialEq, Eq)]
#[non_exhaustive]
pub enum NoGrid {
    /// The message does not define its grid by a template.
    Unknown {
        /// Octet 6 of Section 3, which says where it is defined.
        source: u8,
    },
    /// Its template is none of 3.0, 3.10, 3.20 and 3.30.
    Template {
        /// The template's number.
        template: u16,
    },
    /// Section 3 has fewer octets than its template.
    Short {
        /// The template's number.
        template: u16,
        /// How many octets there are.
        count: usize,
    },
    /// Its rows or columns are not all of one length.
    Reduced,
    /// Its scanning mode has bits that are not read here.
    Scanning {
        /// The scanning mode.
        scanning: u8,
    },
    /// It has no columns or no rows, and so no points, however many of the others it says.
    Empty {
        /// How many columns Section 3 says.
        columns: u32,
        /// How many rows.
        rows: u32,
    },
    /// Columns times rows are not as many as the points.
    Points {
        /// How many columns Section 3 says.
        columns: u32,
        /// How many rows.
        rows: u32,
        /// The section that says otherwise, 3 or 5.
        section: u8,
        /// How many points it says.
        said: u32,
    },
}

impl fmt::Display for NoGrid {
    fn fmt(&self, f: &mut fmt::Formatter<'_>) -> fmt::Result {
        match self {
            NoGrid::Unknown { source } => write!(f, "Section 3 does not define the grid: its octet 6 is {source}"),
            NoGrid::Template { template } => {
                write!(f, "the grid is of template 3.{template}, whose columns and rows are not read here")
            }
            NoGrid::Short { template, count } => {
                write!(f, "Section 3 has {count} octets, too few for its template 3.{template}")
            }
            NoGrid::Reduced => write!(f, "the rows or columns of the grid are not all of one length"),
            NoGrid::Scanning { scanning } => {
                let bits = [
                    (0x80, "rows begin at the last column"),
                    (0x20, "points go column by column"),
                    (0x0F, "rows or columns are shifted"),
                ];
                let said: Vec<&str> = bits.iter().filter(|bit| scanning & bit.0 != 0).map(|bit| bit.1).collect();
                write!(f, "the scanning mode is {scanning:#04x} ({}), which is not read here", said.join(", "))
            }
            NoGrid::Empty { columns, rows } => write!(f, "the grid is {columns} x {rows}, which has no points"),
            NoGrid::Points { columns, rows, section, said } => {
                let points = u64::from(*columns) * u64::from(*rows);
                write!(f, "the grid is {columns} x {rows}, which is {points} points, and Section {section} says {said}")
            }
        }
    }
}

impl Error for NoGrid {}

/// A field's points are those of a bitmap, and so no places of its grid. `Display` has a sentence for the log.
#[derive(Clone, Copy, Debug, PartialEq, Eq)]
pub struct HasBitmap {
    /// Octet 6 of Section 6, which is 255 where there is no bitmap.
    pub indicator: u8,
}

impl fmt::Display for HasBitmap {
    fn fmt(&self, f: &mut fmt::Formatter<'_>) -> fmt::Result {
        let indicator = self.indicator;
        write!(
            f,
            "the field has a bitmap (octet 6 of Section 6 is {indicator}), so its points are no places of the grid"
        )
    }
}

impl Error for HasBitmap {}

/// Why octets are not a GRIB2 file. `Display` has a sentence for the log.
#[derive(Clone, Debug, PartialEq, Eq)]
#[non_exhaustive]
pub enum NotGrib2 {
    /// No message of edition 2 begins in them.
    NoMessage {
        /// How many octets there are.
        count: usize,
        /// How many messages of edition 1 they have.
        edition_1: usize,
    },
    /// A message is not whole.
    Damaged {
        /// The octet that it begins with. The first is 1.
        at: usize,
        /// What is wrong, in words.
        how: String,
    },
}

impl fmt::Display for NotGrib2 {
    fn fmt(&self, f: &mut fmt::Formatter<'_>) -> fmt::Result {
        match self {
            NotGrib2::NoMessage { count: 0, .. } => write!(f, "the file is empty"),
            NotGrib2::NoMessage { edition_1: 0, .. } => write!(f, "no GRIB2 message begins in the file"),
            NotGrib2::NoMessage { .. } => write!(f, "the file has messages of edition 1 only, which are not read here"),
            NotGrib2::Damaged { at, how } => write!(f, "the message at octet {at} is damaged: {how}"),
        }
    }
}

impl Error for NotGrib2 {}

/// The octets that a message begins with, and those that it ends with.
const BEGIN: &[u8] = b"GRIB";
const END: &[u8] = b"7777";

/// Section 0: `GRIB`, two octets that say nothing, the discipline, the edition, and in edition 2 the message's length
/// in eight octets.
const SECTION_0: usize = 16;

/// The fields of a file, from its octets.
///
/// # Errors
///
/// [`NotGrib2`] where no message of edition 2 begins in it, or one of them is not whole.
pub fn contents(file: &[u8]) -> Result<Contents<'_>, NotGrib2> {
    let mut contents = Contents { fields: Vec::new(), edition_1: 0, other_octets: 0 };
    let (mut messages, mut place) = (0, 0);
    while let Some(found) = next_begin(file, place) {
        let (octets, at) = (&file[found..], found + 1);
        let damaged = |how| NotGrib2::Damaged { at, how };
        // A file that ends here was cut.
        let edition = *octets.get(7).ok_or_else(|| damaged(too_few(octets)))?;
        let length = match edition {
            2 => {
                messages += 1;
                let message = message(octets).map_err(damaged)?;
                fields(message, messages, at, &mut contents.fields).map_err(damaged)?;
                message.len()
            }
            // Whole but for its edition. One of edition 1 has Section 1 there, which is no length of a file.
            _ if message(octets).is_ok() => return Err(damaged(format!("its edition is {edition}"))),
            1 => {
                contents.edition_1 += 1;
                length_of_edition_1(octets)
            }
            // Four letters that begin no message.
            _ => {
                contents.other_octets += BEGIN.len();
                BEGIN.len()
            }
        };
        contents.other_octets += found - place;
        place = found + length;
    }
    contents.other_octets += file.len() - place;
    match messages {
        0 => Err(NotGrib2::NoMessage { count: file.len(), edition_1: contents.edition_1 }),
        _ => Ok(contents),
    }
}

/// Where the next four letters stand that may begin a message.
fn next_begin(file: &[u8], place: usize) -> Option<usize> {
    Some(place + file[place..].windows(BEGIN.len()).position(|octets| octets == BEGIN)?)
}

fn too_few(octets: &[u8]) -> String {
    format!("it has {} octets, too few for a message", octets.len())
}

/// A message of edition 1 says its length in three octets. Where it does not end there, its first eight are passed
/// over, and those after them belong to no message.
fn length_of_edition_1(octets: &[u8]) -> usize {
    let length = four(octets, 4) as usize & 0x00FF_FFFF;
    if octets.get(..length).is_some_and(|message| message.len() >= 8 && message.ends_with(END)) {
        length
    } else {
        8
    }
}

/// The octets of a message of edition 2, which they begin with: as many as it says, if it ends there.
fn message(octets: &[u8]) -> Result<&[u8], String> {
    let Some(length) = octets.get(8..SECTION_0) else {
        return Err(too_few(octets));
    };
    let length = u64::from_be_bytes(length.try_into().expect("eight octets"));
    let message = usize::try_from(length)
        .ok()
        .and_then(|length| octets.get(..length))
        .ok_or_else(|| format!("it says that it has {length} octets, and {} are left", octets.len()))?;
    if message.len() < SECTION_0 + END.len() {
        return Err(format!("it says that it has {length} octets, too few for a message"));
    }
    if !message.ends_with(END) {
        return Err(format!("it does not end with 7777 after the {length} octets that it says it has"));
    }
    Ok(message)
}

/// Which sections may follow one. Sections 2 to 7 may come again for another field of the message, from 2, 3 or 4 on;
/// what does not come again holds on. A Section 7 never comes without a Section 5 of its own.
fn may_follow(section: u8, next: u8) -> bool {
    match section {
        0 => next == 1,
        1 => next == 2 || next == 3,
        5 => next == 6 || next == 7,
        7 => (2..=4).contains(&next),
        _ => next == section + 1,
    }
}

/// Adds the fields of a whole message.
fn fields<'a>(message: &'a [u8], number: usize, at: usize, fields: &mut Vec<Field<'a>>) -> Result<(), String> {
    let mut rest = &message[SECTION_0..message.len() - END.len()];
    // The sections that hold now, by their numbers.
    let mut held: [&[u8]; 7] = [&[]; 7];
    let mut last = 0;
    while !rest.is_empty() {
        let (next, section) = next_section(last, rest)?;
        rest = &rest[section.len()..];
        held[usize::from(next) - 1] = section;
        last = next;
        if last == 7 {
            let [_, _, section3, section4, section5, section6, section7] = held;
            if section6.is_empty() {
                return Err("it has no Section 6".into());
            }
            let discipline = message[6];
            fields.push(Field { message: number, at, discipline, section3, section4, section5, section6, section7 });
        }
    }
    match last {
        7 => Ok(()),
        _ => Err(format!("it ends after Section {last}")),
    }
}

/// The next section of a message after this one, and its number.
fn next_section(last: u8, rest: &[u8]) -> Result<(u8, &[u8]), String> {
    let Some(([length @ .., next], _)) = rest.split_first_chunk::<5>() else {
        return Err(format!("{} octets before its end are no section", rest.len()));
    };
    if !may_follow(last, *next) {
        return Err(match next {
            1..=7 => format!("Section {next} follows Section {last}"),
            _ => format!("what follows Section {last} is no section"),
        });
    }
    let length = u32::from_be_bytes(*length);
    let section = usize::try_from(length)
        .ok()
        .and_then(|length| rest.get(..length))
        .ok_or_else(|| format!("Section {next} says that it has {length} octets, and {} are left", rest.len()))?;
    // As far as what every template of it has: grid template, parameter, data template, bitmap indicator.
    let least = [5, 5, 14, 11, 11, 6, 5][usize::from(*next) - 1];
    if section.len() < least {
        return Err(format!("Section {next} says that it has {length} octets, too few for one"));
    }
    Ok((*next, section))
}

/// The number in two octets of a section from this one on. The first is 1.
fn two(section: &[u8], octet: usize) -> u16 {
    u16::from_be_bytes([section[octet - 1], section[octet]])
}

/// The number in four octets.
fn four(section: &[u8], octet: usize) -> u32 {
    u32::from(two(section, octet)) << 16 | u32::from(two(section, octet + 2))
}
