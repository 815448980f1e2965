//! `desk list` and `desk info`: what a file or a map has.

use crate::commands::{line, sections_are};
use crate::map::Map;
use crate::shown;
use crate::source::Grib2File;
use crate::trouble::Trouble;
use cleatmow::grib2::{Contents, Field};
use cleatmow::{Differences, Section5, Template, TemplateNumbers};
use std::fmt;
use std::io::Write;
use std::path::Path;

/// The fields of a GRIB2 file.
pub fn list(file: &Path, out: &mut impl Write) -> Result<(), Trouble> {
    let file = Grib2File::read(file)?;
    let Contents { fields, edition_1, other_octets } = file.contents()?;
    writeln!(out, "{}: {}", file.name, shown::many(fields.len(), "field"))?;
    for (place, field) in fields.iter().enumerate() {
        let number = format!("{:>6}  ", place + 1);
        writeln!(out, "{}", shown::after(&number, &described(field)))?;
    }
    if edition_1 > 0 {
        writeln!(out, "{} of edition 1 besides, not read here", shown::many(edition_1, "message"))?;
    }
    if other_octets > 0 {
        writeln!(out, "{} that belong to no message", shown::many(other_octets, "octet"))?;
    }
    Ok(())
}

fn described(field: &Field) -> String {
    let (message, at) = (field.message, shown::count(field.at as u64));
    let mut parts = vec![
        format!("message {message} at octet {at}: {}", field.parameter()),
        format!("template 5.{}, {}", field.template(), shown::many(field.points(), "point")),
    ];
    parts.push(match field.grid() {
        Ok(grid) => format!(
            "{} x {} (grid template 3.{}), scanning mode {:#04x}",
            shown::many(grid.columns, "column"),
            shown::many(grid.rows, "row"),
            grid.template,
            grid.scanning
        ),
        Err(why) => why.to_string(),
    });
    match field.sections().map(|[section5, _]| Section5::from_octets(section5)) {
        Err(why) => parts.push(format!("not read: {why}")),
        Ok(Err(why)) => parts.push(format!("not read: {why}")),
        Ok(Ok(Section5 { numbers: TemplateNumbers::Groups { .. }, .. })) => {}
        Ok(Ok(_)) => parts.push("desk levels shows its levels".into()),
    }
    parts.join("; ")
}

/// What a map has, and each of its own groups where they are asked for.
pub fn info(map: &Path, groups: bool, out: &mut impl Write) -> Result<(), Trouble> {
    let (map, mut lent) = (Map::named(map)?, Vec::new());
    let points = map.points(&mut lent)?;
    line(out, "map", &map.in_full())?;
    line(out, "template", &template_numbers(&map))?;
    line(out, "scale", &map.scale())?;
    if let Some(grid) = map.grid_in_words() {
        line(out, "grid", &grid)?;
    }
    line(out, "pair", &sections_are(&map, None))?;
    line(out, "points", &shown::count(points.len() as u64))?;
    let marked = |mark: u8| shown::many(points.iter().filter(|point| point.mark() == mark).count(), "point");
    let missing = format!("management {}; missing 1: {}; missing 2: {}", map.template.missing, marked(1), marked(2));
    line(out, "missing", &missing)?;
    let mut numbers = Ends::default();
    points.iter().filter_map(|point| point.number()).for_each(|number| numbers.take(number));
    let numbers = numbers.0.map_or("none".into(), |(least, greatest)| format!("least {least}, greatest {greatest}"));
    line(out, "numbers", &numbers)?;
    let [mut widths, mut lengths, mut references] = [Ends::default(); 3];
    for group in map.groups() {
        widths.take(group.width);
        lengths.take(group.length);
        references.take(group.reference);
    }
    let count = shown::count(map.template.groups);
    line(out, "groups", &format!("{count}; widths {widths}; lengths {lengths}; references {references}"))?;
    if groups {
        for group in map.groups() {
            writeln!(out, "{:>8}  {group}", shown::count(u64::from(group.which) + 1))?;
        }
    }
    Ok(())
}

/// The template numbers, in the order of document 01's cases.
fn template_numbers(map: &Map) -> String {
    let Template { number_width, splitting, width_reference, width_bits, .. } = map.template;
    let Template { length_reference, length_increment, last_length, length_bits, .. } = map.template;
    let differences = map.differences.map_or_else(String::new, |Differences { order, descriptor_octets }| {
        format!(", order {order}, {} a descriptor", shown::many(descriptor_octets, "octet"))
    });
    format!(
        "{}{differences}; splitting method {splitting}; number width {number_width}; width reference \
         {width_reference}, bits {width_bits}; length reference {}, increment {length_increment}, last {}, bits {length_bits}",
        map.template_number(),
        shown::count(length_reference),
        shown::count(last_length),
    )
}

/// The least and the greatest of numbers.
#[derive(Clone, Copy)]
struct Ends<T>(Option<(T, T)>);

impl<T> Default for Ends<T> {
    fn default() -> Ends<T> {
        Ends(None)
    }
}

impl<T: Ord + Copy> Ends<T> {
    fn take(&mut self, number: T) {
        let (least, greatest) = self.0.unwrap_or((number, number));
        self.0 = Some((least.min(number), greatest.max(number)));
    }
}

impl<T: fmt::Display> fmt::Display for Ends<T> {
    fn fmt(&self, f: &mut fmt::Formatter<'_>) -> fmt::Result {
        match &self.0 {
            Some((least, greatest)) => write!(f, "{least} to {greatest}"),
            None => write!(f, "none"),
        }
    }
}
