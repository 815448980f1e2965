//! A map under template 5.2 or 5.3, of two whole sections.

use crate::grid::{Grid, Laid, Place, Typed};
use crate::own_groups::{own_groups, OwnGroup};
use crate::progress::step;
use crate::shown;
use crate::source::{octets_of, Sections};
use crate::trouble::{Trouble, Why};
use cleatmow::grib2::{self, NoGrid};
use cleatmow::{
    lent_points, payload_of, point, read_section5, unpack_into, Differences, Physical, Point, Points, Refusal,
    Section5, Template, TemplateNumbers,
};
use std::path::Path;

pub struct Map {
    /// What sentences call it.
    pub name: String,
    /// Where in its file it stands; empty where it has files of its own.
    place: String,
    pub sections: [Vec<u8>; 2],
    declared: u32,
    pub template: Template,
    /// Without them it is under template 5.2, with them under 5.3.
    pub differences: Option<Differences>,
    pub physical: Physical,
    grid: Option<Result<grib2::Grid, NoGrid>>,
}

/// Reads a whole Section 5, and nothing else.
pub fn section5(name: &str, octets: &[u8]) -> Result<Section5, Trouble> {
    Section5::from_octets(octets).map_err(|why| not_section5(name, octets, why.to_string()))
}

/// What the call for Section 5 refuses has its refusal's status. It reads a section that octets stand behind: that they
/// are no file of a map is the desk's own.
fn not_section5(name: &str, octets: &[u8], why: String) -> Trouble {
    match read_section5(octets) {
        Err(refusal) => Trouble::Refused { what: name.into(), refusal, found: why },
        Ok(_) => Trouble::Own(Why::Host, format!("{name}: {why}")),
    }
}

/// The payload of a whole Section 7, and nothing else.
pub fn payload<'a>(name: &str, octets: &'a [u8]) -> Result<&'a [u8], Trouble> {
    payload_of(octets).map_err(|why| Trouble::Own(Why::Host, format!("{name}: {why}")))
}

impl Map {
    /// The map that a command is asked for.
    pub fn named(name: &Path) -> Result<Map, Trouble> {
        Map::of(Sections::named(name)?)
    }

    pub fn of(Sections { name, place, names, octets, grid }: Sections) -> Result<Map, Trouble> {
        let read = section5(&names[0], &octets[0])?;
        let TemplateNumbers::Groups { template, differences, physical } = read.numbers else {
            // A level may stand for a missing point, so it must not be shown as a number.
            let levels = "what its levels stand for is not read here, and desk levels alone shows them";
            let why = format!("Section 5 is of template 5.{}: {levels}", read.template_number());
            return Err(not_section5(&names[0], &octets[0], why));
        };
        payload(&names[1], &octets[1])?;
        let declared = read.declared;
        Ok(Map { name, place, sections: octets, declared, template, differences, physical, grid })
    }

    /// Whether both sections stand in one message.
    pub fn is_of_one_message(&self) -> bool {
        self.grid.is_some()
    }

    /// Its name, its place, its template and its size.
    pub fn in_full(&self) -> String {
        let Map { name, place, .. } = self;
        format!("{name}{place}, template {}, {} octets", self.template_number(), shown::count(self.octets()))
    }

    pub fn template_number(&self) -> &'static str {
        match self.differences {
            None => "5.2",
            Some(_) => "5.3",
        }
    }

    /// The octets of both sections.
    pub fn octets(&self) -> u64 {
        octets_of(&self.sections)
    }

    fn payload(&self) -> &[u8] {
        payload_of(&self.sections[1]).expect("it was read with its map")
    }

    /// The grid of its points: what its message says, and else what the words say.
    pub fn grid(&self, typed: Typed) -> Result<Grid, Trouble> {
        match self.grid {
            None => typed.grid(&self.name),
            Some(Ok(grid)) => typed.held_to(grid, &self.name),
            // What it says may contradict the words, so none is believed.
            Some(Err(why)) => Trouble::host(format!("{}: {why}", self.name)),
        }
    }

    /// What its message says of its grid, or why that is not read. Two files have no message.
    pub fn grid_in_words(&self) -> Option<String> {
        let grid = self.is_of_one_message().then(|| self.grid(Typed::default()))?;
        Some(grid.map_or_else(|why| why.sentence().unwrap_or_default(), Grid::in_full))
    }

    /// Its points, in octets of this list.
    pub fn points<'a>(&self, lent: &'a mut Vec<u8>) -> Result<Points<'a>, Trouble> {
        *lent = lent_points(self.declared);
        let doing = || format!("unpacking {} points of {}", shown::count(self.declared), self.name);
        step(doing, || unpack_into(&self.sections[0], self.payload(), lent)).map_err(|refusal| self.refused(refusal))
    }

    fn refused(&self, refusal: Refusal) -> Trouble {
        Trouble::Refused { what: self.name.clone(), refusal, found: self.found(refusal) }
    }

    /// The grid of its points, and where the point at a place of it stands in the list.
    pub fn find(&self, typed: Typed, place: Place) -> Result<(Grid, u32), Trouble> {
        let grid = self.grid(typed)?.of(self.declared.into())?;
        // The declared count has four octets, and this is below it.
        Ok((grid, grid.find(place)? as u32))
    }

    /// The point that stands there in the list, if there is one. Under 5.2 it is read by itself. Under 5.3 a number is
    /// made of those before it, so the map is unpacked.
    pub fn point(&self, index: u32) -> Result<Option<Point>, Trouble> {
        if self.differences.is_some() {
            return Ok(self.points(&mut Vec::new())?.get(index as usize));
        }
        let doing = || format!("reading one point of {}", self.name);
        match step(doing, || point(&self.sections[0], self.payload(), index)) {
            Ok(point) => Ok(Some(point)),
            Err(Refusal::Place) => Ok(None),
            Err(refusal) => Err(self.refused(refusal)),
        }
    }

    /// The same, held to the map's points. Where it is not one of them the program is at fault, and nothing is shown.
    pub fn point_among(&self, points: Points, index: u32) -> Result<Option<Point>, Trouble> {
        let point = self.point(index)?;
        if point == points.get(index as usize) {
            return Ok(point);
        }
        let place = shown::count(u64::from(index) + 1);
        Trouble::host(format!(
            "{}: point {place}, read by itself, is not what it is in the unpacked map: an internal error of the \
             desk's, and no number is shown",
            self.name
        ))
    }

    /// Its points in their grid.
    pub fn laid<'a>(&self, typed: Typed, lent: &'a mut Vec<u8>) -> Result<Laid<'a>, Trouble> {
        let points = self.points(lent)?;
        Laid::new(self.grid(typed)?, points)
    }

    /// Its own groups, where no call refuses it before it has looked at them.
    pub fn groups(&self) -> impl Iterator<Item = OwnGroup> + '_ {
        own_groups(&self.template, self.differences, self.payload())
    }

    /// The group that has the point at this place of the list, and which of the groups it is. Under 5.3 its reference and
    /// width are those of differences.
    pub fn group_of(&self, index: u64) -> String {
        let has = |group: &OwnGroup| (group.start..group.start + group.length).contains(&index);
        let groups = shown::count(self.template.groups);
        let of = if self.differences.is_some() { ", of differences" } else { "" };
        self.groups().find(has).map_or_else(
            || format!("none of {groups}"),
            |group| format!("{} of {groups}: {group}{of}", shown::count(u64::from(group.which) + 1)),
        )
    }

    /// How Section 5 says that numbers become physical values. The desk leaves them as they were packed.
    pub fn scale(&self) -> String {
        let Physical { reference, binary_scale, decimal_scale, .. } = self.physical;
        // A sign bit and a magnitude.
        let signed = |bits: u16| {
            let number = i32::from(bits);
            if number < 0x8000 {
                number
            } else {
                0x8000 - number
            }
        };
        let (binary, decimal) = (signed(binary_scale), signed(decimal_scale));
        format!("not applied: ({} + number x 2^{binary}) / 10^{decimal}", f32::from_bits(reference))
    }

    /// What a call found in this map when it refused it, where that can be said.
    fn found(&self, refusal: Refusal) -> String {
        let template = &self.template;
        match (refusal, self.differences) {
            (Refusal::Splitting, _) => format!("splitting method is {}", template.splitting),
            (Refusal::Management, _) => format!("missing management is {}", template.missing),
            (Refusal::Order, Some(differences)) => format!("order is {}", differences.order),
            (Refusal::Descriptors, Some(Differences { descriptor_octets, .. })) => {
                format!("descriptor octets are {descriptor_octets}")
            }
            (Refusal::Width, _) => {
                let Template { number_width, width_bits, length_bits, .. } = template;
                format!("number width is {number_width}, width bits are {width_bits}, length bits are {length_bits}")
            }
            (Refusal::GroupCount, _) => format!("group count is {}", shown::count(template.groups)),
            (Refusal::Short, _) => format!("the payload has {}", shown::many(self.payload().len(), "octet")),
            (Refusal::GroupSize, _) => {
                let too_large = |group: &OwnGroup| group.width > 31 || group.length > u64::from(u32::MAX);
                self.groups().find(too_large).map_or_else(String::new, |OwnGroup { which, width, length, .. }| {
                    let (group, length) = (shown::count(u64::from(which) + 1), shown::count(length));
                    format!("group {group} has width {width} and length {length}")
                })
            }
            (Refusal::Points, _) => {
                let points = shown::many(self.groups().map(|group| group.length).sum::<u64>(), "point");
                format!("the groups have {points}, and {} are declared", shown::count(self.declared))
            }
            _ => String::new(),
        }
    }
}

#[cfg(test)]
mod tests {
    use super::*;
    use cleatmow::{pack, section7_of};

    fn map(numbers: &[u32]) -> Map {
        let packing = pack(numbers, 4).unwrap();
        let section5 = Section5::of_packing(numbers.len() as u32, &packing.template, &Physical::default());
        let octets = [section5, section7_of(&packing.payload).unwrap()];
        let [name, place] = ["map", ""].map(String::from);
        Map::of(Sections { names: [name.clone(), name.clone()], name, place, octets, grid: None }).unwrap()
    }

    /// Nothing but a fault in the calls comes to that, so another map's points stand in for one.
    #[test]
    fn a_point_that_is_another_in_the_unpacked_map() {
        let (map, other, mut lent) = (map(&[5, 6, 5, 7]), map(&[5, 6, 4]), Vec::new());
        let points = other.points(&mut lent).unwrap();
        for (index, number) in [(0, 5), (1, 6)] {
            assert_eq!(map.point_among(points, index).unwrap(), Some(Point::Number(number)));
        }
        assert_eq!(map.point_among(points, 4).unwrap(), None);
        for (index, place) in [(2, 3), (3, 4)] {
            let trouble = map.point_among(points, index).unwrap_err();
            assert_eq!(trouble.status(), Why::Host as u8);
            let sentence = trouble.sentence().unwrap();
            assert!(sentence.starts_with(&format!("map: point {place}, read by itself, is not ")), "{sentence}");
        }
    }
}
