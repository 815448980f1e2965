//! Unpacking under 5.2 and 5.3.

use crate::damage::{self, Chance, DECLARED};
use crate::support::maps::{gust_differences, gusts, ComplexMap, Numbers};
use crate::support::model::{self, good, payload, read_back, template, Input as Map, Written};
use crate::support::others;
use crate::{Block, Class, Input, Operation};
use cleatmow::{Differences, Section5, Template, POINT_OCTETS};
use std::fmt::Debug;

/// Template 5.2.
pub struct Complex(Maps);

/// Template 5.3.
pub struct Spatial(Maps);

impl Complex {
    pub fn new() -> Complex {
        Complex(Maps { short: short_maps(false), long: Vec::new() })
    }
}

impl Spatial {
    pub fn new() -> Spatial {
        Spatial(Maps { short: short_maps(true), long: [false, true].map(long_map).to_vec() })
    }
}

impl Operation for Complex {
    type Input = Unpacking;

    const NAME: &'static str = "unpacking, 5.2";

    const REFUSALS: &'static [Class] =
        &[(1, ""), (2, ""), (6, ""), (5, ""), (7, GROUP_FIELDS), (8, ""), (7, VALUES), (9, ""), (10, "")];

    fn damaged(&self, chance: &mut Chance) -> Unpacking {
        self.0.damaged(chance)
    }
}

impl Operation for Spatial {
    type Input = Unpacking;

    const NAME: &'static str = "unpacking, 5.3";

    const REFUSALS: &'static [Class] = BY_SECTION5.split_at(1).1;

    fn damaged(&self, chance: &mut Chance) -> Unpacking {
        self.0.damaged(chance)
    }
}

/// Those of 5.3, after the one for a Section 5 that is none. Those of 5.2 are among them.
pub const BY_SECTION5: &[Class] = &[
    (14, ""),
    (3, ""),
    (1, ""),
    (2, ""),
    (4, ""),
    (7, DESCRIPTORS),
    (6, ""),
    (5, ""),
    (7, GROUP_FIELDS),
    (8, ""),
    (7, VALUES),
    (9, ""),
    (10, ""),
    (12, ""),
];

const DESCRIPTORS: &str = "descriptors";
pub const GROUP_FIELDS: &str = "group fields";
pub const VALUES: &str = "values";

/// Good maps, each with its own count declared.
struct Maps {
    short: Vec<Map>,
    /// Long enough that one point more is beyond 2^60, which no short map comes near to. One input in a hundred is a
    /// copy of these.
    long: Vec<Map>,
}

#[derive(Debug, PartialEq)]
pub struct Unpacking {
    pub map: Map,
    /// The octets that are lent for the points.
    pub room: usize,
}

impl Maps {
    fn damaged(&self, chance: &mut Chance) -> Unpacking {
        let is_long = !self.long.is_empty() && chance.once_in(100);
        let map = chance.one_of(if is_long { &self.long } else { &self.short });
        let most = if is_long { 70_000 } else { damage::most_points(chance) };
        let good = Unpacking { room: map.declared as usize * POINT_OCTETS, map };
        loop {
            let mut map = good.map.clone();
            if is_long && chance.once_in(2) {
                let most = chance.one_of(&[1, 40, 4_000]);
                map.template.last_length += 1 + chance.below(most) as u32;
            } else {
                for _ in 0..chance.one_of(&[1, 1, 1, 2, 2, 3, 4]) {
                    damage(chance, &mut map);
                }
            }
            // Most are declared anew, so that the points of a map that has other points are looked at too.
            let count = model::count(&map).unwrap_or(0);
            if count <= most && !chance.once_in(4) {
                map.declared = count as u32;
            }
            // More is not lent: 9 comes before 10.
            let declared = if u128::from(map.declared) <= most { map.declared } else { good.map.declared };
            let room = damage::room(chance, declared as usize * POINT_OCTETS);
            let copy = Unpacking { map, room };
            if copy != good {
                return copy;
            }
        }
    }
}

fn damage(chance: &mut Chance, map: &mut Map) {
    let template = &mut map.template;
    match (chance.below(26), &mut map.differences) {
        (0..=9, _) => damage::octets(chance, &mut map.payload),
        (10, _) => damage::octet(chance, &mut template.number_width, &[0, 1, 30, 31, 32, 33, 255]),
        (11, _) => damage::octet(chance, &mut template.splitting, &[0, 2, 255]),
        (12, _) => damage::octet(chance, &mut template.missing, &[0, 1, 2, 3, 255]),
        (13, _) => damage::long(chance, &mut template.groups, &[0, 0, 1, 2, 3, 4_194_304, 4_194_305, u32::MAX]),
        (14, _) => damage::octet(chance, &mut template.width_reference, &[0, 1, 30, 31, 32, 255]),
        (15, _) => damage::octet(chance, &mut template.width_bits, &[0, 1, 31, 32, 33, 255]),
        (16, _) => damage::long(chance, &mut template.length_reference, &[0, 1, 4_194_304, u32::MAX - 254, u32::MAX]),
        (17, _) => damage::octet(chance, &mut template.length_increment, &[0, 1, 2, 255]),
        (18, _) => damage::long(chance, &mut template.last_length, &[0, 1, 4_194_304, 4_194_305, u32::MAX]),
        (19, _) => damage::octet(chance, &mut template.length_bits, &[0, 1, 31, 32, 33, 255]),
        (20, Some(differences)) => damage::octet(chance, &mut differences.order, &[0, 1, 2, 3, 255]),
        (21, Some(differences)) => damage::octet(chance, &mut differences.descriptor_octets, &[0, 1, 2, 3, 4, 5, 255]),
        // A map with more points at its end, or fewer.
        (22 | 23, _) => {
            let last = &mut template.last_length;
            *last = if chance.once_in(2) { last.wrapping_add(1 + chance.below(40) as u32) } else { *last / 2 };
        }
        _ => damage::long(chance, &mut map.declared, &DECLARED),
    }
}

impl Input for Unpacking {
    fn read(&self) -> Vec<&[u8]> {
        vec![&self.map.payload]
    }

    fn lent(&self) -> Vec<usize> {
        vec![self.room]
    }

    fn call(&self, read: &mut [Block], lent: &mut [Block]) -> u32 {
        self.map.call_on(read[0].octets(), lent[0].octets())
    }

    fn right(&self, lent: &mut [Block]) -> Class {
        let lent = lent[0].octets();
        let (number, left) = model::answer(&self.map, lent);
        lent.copy_from_slice(&left);
        class(number, &self.map)
    }
}

/// What an answer is for: of 7, what of the payload is not all there.
pub fn class(number: u32, map: &Map) -> Class {
    let Map { template, differences, payload, .. } = map;
    let octets = payload.len() as u64;
    let descriptors = differences.map_or(0, |said| (u64::from(said.order) + 1) * u64::from(said.descriptor_octets));
    let field = |width: u8| (u64::from(template.groups) * u64::from(width)).div_ceil(8);
    let fields = field(template.number_width) + field(template.width_bits) + field(template.length_bits);
    let what_is_short = match octets {
        _ if octets < descriptors => DESCRIPTORS,
        _ if octets < descriptors + fields => GROUP_FIELDS,
        _ => VALUES,
    };
    (number, if number == 7 { what_is_short } else { "" })
}

/// Document 01's cases, parts of the real maps, small maps by other writers, and made ones.
pub fn short_maps(spatial: bool) -> Vec<Map> {
    let mut chance = Chance(Numbers::new(if spatial { 53 } else { 52 }));
    let mut maps = cases();
    for real in real_maps().iter().filter(|map| map.differences.is_some() == spatial) {
        let (descriptors, groups) = read_back(real).expect("a good map");
        maps.extend((0..150).map(|_| part(&mut chance, real, &descriptors, &groups)));
    }
    let is_small = |map: &others::Map| map.template != 200 && map.refusal.is_none() && map.payload.len() <= 100;
    let others = others::maps().into_iter().filter(is_small).map(|map| Map::of_map(&map.section5, &map.payload));
    maps.extend(others.filter(|map| map.declared <= 1_000));
    for points in 1..=40 {
        let made = [gusts(points), gust_differences(1, points), gust_differences(2, points)];
        maps.extend(made.map(|ComplexMap { template, differences, declared, payload, .. }| Map {
            template,
            differences,
            declared,
            payload,
        }));
    }
    maps.extend((0..400).map(|_| good(&mut chance.0)));
    maps.retain(|map| map.differences.is_some() == spatial);
    for map in &mut maps {
        map.declared = model::count(map).expect("a good map") as u32;
    }
    maps
}

/// The cases of document 01 that are accepted, with any missing management.
fn cases() -> Vec<Map> {
    let map = |template, differences: Option<(u8, u8)>, payload: &[u8]| Map {
        template,
        differences: differences.map(|(order, descriptor_octets)| Differences { order, descriptor_octets }),
        declared: 0,
        payload: payload.to_vec(),
    };
    let cases = [
        map(template(4, 2, (0, 0), (4, 0, 3, 0)), None, &[0x08]),
        map(template(3, 4, (0, 0), (1, 0, 1, 0)), None, &[0xBA, 0xF0]),
        map(template(3, 2, (0, 1), (3, 0, 1, 0)), None, &[0xBC, 0x80, 0x40]),
        map(template(0, 1, (0, 0), (0, 0, 3, 0)), None, &[]),
        map(template(4, 3, (0, 0), (10, 150, 5, 2)), None, &[0x08, 0x00, 0x20]),
        map(template(31, 1, (1, 0), (0, 0, 1, 0)), None, &[0xFF, 0xFF, 0xFF, 0xFE, 0x80]),
        map(template(0, 1, (3, 0), (0, 0, 4, 0)), Some((1, 1)), &[0x0A, 0x82, 0x0C, 0x50]),
        map(template(0, 1, (2, 0), (0, 0, 4, 0)), Some((2, 1)), &[0x0A, 0x0C, 0x81, 0x09]),
    ];
    let managed = |case: &Map, missing| Map { template: Template { missing, ..case.template }, ..case.clone() };
    cases.iter().flat_map(|case| (0..3).map(move |missing| managed(case, missing))).collect()
}

/// The three maps of samples/, whole.
pub fn real_maps() -> [Map; 3] {
    let map = |section5: &[u8], section7: &[u8]| {
        Map::of_map(&Section5::from_octets(section5).expect("a whole Section 5"), &section7[5..])
    };
    [
        map(
            include_bytes!("../../../samples/gfs-gust-144x73.s5"),
            include_bytes!("../../../samples/gfs-gust-144x73.s7"),
        ),
        map(
            include_bytes!("../../../samples/ndfd-puerto-rico-339x224.s5"),
            include_bytes!("../../../samples/ndfd-puerto-rico-339x224.s7"),
        ),
        map(
            include_bytes!("../../../samples/ndfd-conus-1073x689.s5"),
            include_bytes!("../../../samples/ndfd-conus-1073x689.s7"),
        ),
    ]
}

/// Some groups of a map that follow one another, up to a hundred points, with the map's descriptors before them.
fn part(chance: &mut Chance, whole: &Map, descriptors: &[u64], groups: &[Written]) -> Map {
    let first = chance.below(groups.len());
    let mut left = 100;
    let mut part: Vec<Written> = Vec::new();
    for group in groups[first..].iter().take(1 + chance.below(6)) {
        // A group that is cut is the last, whose length is the template's own number.
        let mut group = group.clone();
        group.values.truncate(left);
        left -= group.values.len();
        part.push(group);
        if left == 0 {
            break;
        }
    }
    let last_length = part[part.len() - 1].values.len() as u32;
    let template = Template { groups: part.len() as u32, last_length, ..whole.template };
    let payload = payload(&template, whole.differences.as_ref(), descriptors, &part, 0);
    Map { template, payload, ..*whole }
}

/// Second order: first values 0 and 2^32 - 1 and the minimum 2^31 - 1, or the same downwards; two groups of width 0, whose
/// references are 0 and 1. With one point more, the last is beyond 2^60.
fn long_map(down: bool) -> Map {
    let differences = Differences { order: 2, descriptor_octets: 4 };
    let (length, last) = (32_000, 767);
    let template = template(1, 2, (0, 0), (length, 0, last, 0));
    let great = u32::MAX.into();
    let descriptors = if down { [great, 0, great] } else { [0, great, 0x7FFF_FFFF] };
    let group = |reference| Written { reference, width_code: 0, length_code: 0, values: Vec::new() };
    let payload = payload(&template, Some(&differences), &descriptors, &[group(0), group(1)], 0);
    Map { template, differences: Some(differences), declared: length + last, payload }
}

#[test]
fn long_maps_end_just_before_the_bound() {
    for mut map in [false, true].map(long_map) {
        assert_eq!(model::answer(&map, &vec![0; 300_000]).0, 0);
        map.template.last_length += 1;
        map.declared += 1;
        assert_eq!(model::answer(&map, &vec![0; 300_000]).0, 12);
    }
}
