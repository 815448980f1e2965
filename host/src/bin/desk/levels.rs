//! `desk levels`: the levels of a map under template 5.200 as a text, and a map of such a text. They are no numbers of a
//! map: what a level stands for is not read here, and it may be a missing point.

use crate::commands::{line, note, write};
use crate::files::read;
use crate::map::{payload, section5};
use crate::progress::{printing, step};
use crate::shown;
use crate::source::{octets_of, whole_number, Sections};
use crate::trouble::Trouble;
use cleatmow::{run_length, section7_of, write_run_length, Refusal, Section5, TemplateNumbers};
use std::fmt;
use std::io::Write;
use std::path::Path;

/// The most octets that a text is read of: that of as many levels as are written has less than a quarter of them.
const MOST_OF_A_TEXT: u64 = 1 << 28;

/// What stands before the octets of Section 5 that a text carries.
const VALUES: &str = "# Section 5 from octet 15 on: ";

/// Those octets where a text has none: the count of the levels' values and their scale, both 0.
const NO_VALUES: [u8; 3] = [0; 3];

/// The first line of a text: all that reading and writing ask for besides the levels.
struct Head {
    bits: u8,
    max_level: u16,
    points: u32,
}

impl fmt::Display for Head {
    fn fmt(&self, f: &mut fmt::Formatter<'_>) -> fmt::Result {
        let Head { bits, max_level, points } = self;
        write!(f, "# levels, not gusts: bits {bits}, greatest level {max_level}, points {points}")
    }
}

impl Head {
    fn from_line(line: &str) -> Option<Head> {
        let (bits, rest) = line.strip_prefix("# levels, not gusts: bits ")?.split_once(", greatest level ")?;
        let (max_level, points) = rest.split_once(", points ")?;
        let (bits, max_level) = (whole_number(bits)?, whole_number(max_level)?);
        Some(Head { bits, max_level, points: whole_number(points)? })
    }

    /// What a call found when it refused the levels or the payload, where that can be said.
    fn found(&self, refusal: Refusal, levels: &[u16]) -> String {
        let Head { bits, max_level, points } = *self;
        let above = levels.iter().position(|level| *level > max_level);
        match (refusal, above) {
            (Refusal::Width, _) => format!("bits are {bits}, and the greatest level is {max_level}"),
            (Refusal::Points, _) => format!("{} declared", shown::many(points, "point")),
            (Refusal::Numbers, Some(place)) => {
                format!("level {} at point {}", levels[place], shown::count(place as u64 + 1))
            }
            (Refusal::Numbers, None) => shown::many(levels.len(), "level"),
            _ => String::new(),
        }
    }

    fn refused(&self, name: &str, refusal: Refusal, levels: &[u16]) -> Trouble {
        Trouble::Refused { what: name.into(), refusal, found: self.found(refusal, levels) }
    }
}

/// Prints the levels of a map.
pub fn show(map: &Path, out: &mut impl Write) -> Result<(), Trouble> {
    let Sections { name, place, names, octets: sections, .. } = Sections::named(map)?;
    let read = section5(&names[0], &sections[0])?;
    let TemplateNumbers::RunLength { bits, max_level } = read.numbers else {
        let template = read.template_number();
        return Trouble::host(format!(
            "{name} is under template 5.{template}: it has no levels, and desk unpack shows it"
        ));
    };
    let payload = payload(&names[1], &sections[1])?;
    let head = Head { bits, max_level, points: read.declared };
    let doing = || format!("reading {} of {name}", shown::many(head.points, "level"));
    let levels = step(doing, || run_length(bits, max_level, head.points, payload))
        .map_err(|refusal| head.refused(&name, refusal, &[]))?;
    note(&format!("{name}{place}, template 5.200, {} octets", shown::count(octets_of(&sections))));
    note("what a level stands for is not read here, and it may be a missing point");
    writeln!(out, "{head}")?;
    writeln!(out, "{VALUES}{}", in_digits(&sections[0][Section5::BEFORE_LEVEL_VALUES..]))?;
    printing(out, "level", levels.iter(), |out, level| writeln!(out, "{level}"))?;
    Ok(())
}

/// Writes a map of a text.
pub fn write_text(text: &Path, to: &Path, out: &mut impl Write) -> Result<(), Trouble> {
    let name = shown::path(text);
    let octets = read(text, MOST_OF_A_TEXT)?;
    let Text { head, values, levels } = Text::read(&name, &String::from_utf8_lossy(&octets))?;
    let Head { bits, max_level, points } = head;
    let doing = || format!("writing {}", shown::many(points, "level"));
    let payload = step(doing, || write_run_length(bits, max_level, &levels))
        .map_err(|refusal| head.refused(&name, refusal, &levels))?;
    let (Some(section5), Some(section7)) =
        (Section5::of_levels(points, bits, max_level, &values), section7_of(&payload))
    else {
        return Trouble::host(format!("{name} is too long for a section"));
    };
    let sections = [section5, section7];
    let files = write(to, &sections)?;
    let mut print = || -> Result<(), Trouble> {
        let levels = shown::many(points, "level");
        line(out, "text", &format!("{name}: {levels}, bits {bits}, greatest level {max_level}"))?;
        let said = match values == NO_VALUES {
            true => "it is said of no level what it stands for",
            false => "what the levels stand for is as the text has it, and is not read here",
        };
        line(out, "values", said)?;
        line(out, "packed", &format!("{} octets", shown::count(octets_of(&sections))))?;
        line(out, "written", &files)?;
        out.flush()?;
        Ok(())
    };
    print().map_err(|trouble| trouble.after(&files))
}

/// A text, read.
struct Text {
    head: Head,
    /// Section 5 from octet 15 on.
    values: Vec<u8>,
    levels: Vec<u16>,
}

impl Text {
    /// A text that was cut off, or that has anything but levels below its head, is none.
    fn read(name: &str, text: &str) -> Result<Text, Trouble> {
        let mut lines = (1..).zip(text.lines()).peekable();
        let Some(head) = lines.next().and_then(|(_, line)| Head::from_line(line)) else {
            let example = Head { bits: 4, max_level: 9, points: 10 };
            return Trouble::host(format!("{name} is no text of levels: its first line is not like '{example}'"));
        };
        let wrong = |line: u64, why: &str| Trouble::host(format!("{name}, line {}: {why}", shown::count(line)));
        let values = match lines.next_if(|(_, line)| line.starts_with('#')) {
            None => NO_VALUES.to_vec(),
            Some((place, line)) => match line.strip_prefix(VALUES).and_then(octets_in) {
                Some(values) if values.len() >= NO_VALUES.len() => values,
                _ => return wrong(place, &format!("not like '{VALUES}{}'", in_digits(&NO_VALUES))),
            },
        };
        let mut levels = Vec::new();
        for (place, line) in lines {
            match whole_number(line) {
                Some(level) => levels.push(level),
                None => {
                    let said = shown::on_one_line(&line.chars().take(30).collect::<String>());
                    return wrong(place, &format!("'{said}' is no level, a whole number from 0 to 65,535"));
                }
            }
        }
        match usize::try_from(head.points) == Ok(levels.len()) {
            true => Ok(Text { head, values, levels }),
            false => {
                let (said, found) = (shown::many(head.points, "point"), shown::many(levels.len(), "level"));
                Trouble::host(format!("{name} says that it has {said}, and it has {found}"))
            }
        }
    }
}

/// Octets in hexadecimal digits, and back.
fn in_digits(octets: &[u8]) -> String {
    octets.iter().map(|octet| format!("{octet:02x}")).collect()
}

fn octets_in(digits: &str) -> Option<Vec<u8>> {
    let digits: Option<Vec<u8>> = digits.chars().map(|digit| Some(digit.to_digit(16)? as u8)).collect();
    digits
        .filter(|digits| digits.len() % 2 == 0)
        .map(|digits| digits.chunks(2).map(|two| two[0] << 4 | two[1]).collect())
}
