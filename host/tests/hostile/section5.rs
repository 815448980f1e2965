//! Section 5, read and written; and unpacking by it.

use crate::damage::{self, Chance};
use crate::support::grib2::put;
use crate::support::maps::Numbers;
use crate::support::model::section5::{self, lent_fields, of_map};
use crate::unpacking::{short_maps, Complex, Spatial, Unpacking, BY_SECTION5};
use crate::{Block, Class, Input, Operation};

/// Good sections.
pub struct Read(Vec<Vec<u8>>);

/// Good lists of fields.
pub struct Write(Vec<Vec<u8>>);

/// Good maps of either template.
pub struct Unpack {
    complex: Complex,
    spatial: Spatial,
}

impl Read {
    pub fn new() -> Read {
        Read(sections())
    }
}

impl Write {
    pub fn new() -> Write {
        let fields = |section5: &Vec<u8>| lent_fields(&section5::fields(section5).expect("a good section"));
        Write(sections().iter().map(fields).collect())
    }
}

impl Unpack {
    pub fn new() -> Unpack {
        Unpack { complex: Complex::new(), spatial: Spatial::new() }
    }
}

/// Those of the good maps, of both templates.
fn sections() -> Vec<Vec<u8>> {
    let mut chance = Numbers::new(14);
    [false, true].map(short_maps).concat().iter().map(|map| of_map(map, &mut chance)).collect()
}

impl Operation for Read {
    type Input = OneWay;

    const NAME: &'static str = "reading Section 5";

    const REFUSALS: &'static [Class] = &[(14, ""), (10, "")];

    fn damaged(&self, chance: &mut Chance) -> OneWay {
        let good = chance.one_of(&self.0);
        let enough = if good.len() == 49 { 22 } else { 20 } * 4;
        OneWay::damaged(chance, Way::Read, &good, enough)
    }
}

impl Operation for Write {
    type Input = OneWay;

    const NAME: &'static str = "writing Section 5";

    const REFUSALS: &'static [Class] = &[(14, ""), (13, ""), (10, "")];

    fn damaged(&self, chance: &mut Chance) -> OneWay {
        let good = chance.one_of(&self.0);
        let enough = if good.len() == 22 * 4 { 49 } else { 47 };
        OneWay::damaged(chance, Way::Write, &good, enough)
    }
}

impl Operation for Unpack {
    type Input = Sections;

    const NAME: &'static str = "unpacking by Section 5";

    const REFUSALS: &'static [Class] = BY_SECTION5;

    /// A damaged map, and often its section damaged besides.
    fn damaged(&self, chance: &mut Chance) -> Sections {
        let Unpacking { map, room } =
            if chance.once_in(3) { self.complex.damaged(chance) } else { self.spatial.damaged(chance) };
        let mut section5 = of_map(&map, &mut chance.0);
        for _ in 0..chance.one_of(&[0, 0, 0, 1, 1, 2]) {
            damage_section(chance, &mut section5);
        }
        Sections { section5, payload: map.payload, room }
    }
}

#[derive(Clone, Copy, Debug)]
enum Way {
    Read,
    Write,
}

/// What reading or writing is given.
#[derive(Debug)]
pub struct OneWay {
    way: Way,
    /// The section, or the fields.
    octets: Vec<u8>,
    /// The octets that are lent for the other.
    room: usize,
}

impl OneWay {
    fn damaged(chance: &mut Chance, way: Way, good: &[u8], enough: usize) -> OneWay {
        let damage = match way {
            Way::Read => damage_section,
            Way::Write => damage_fields,
        };
        loop {
            let mut octets = good.to_vec();
            for _ in 0..chance.one_of(&[1, 1, 1, 2, 2, 3]) {
                damage(chance, &mut octets);
            }
            let room = damage::room(chance, enough);
            if octets != good || room != enough {
                return OneWay { way, octets, room };
            }
        }
    }
}

/// Another length, section number or template, the two of the other template, or any octets.
pub fn damage_section(chance: &mut Chance, section5: &mut Vec<u8>) {
    match chance.below(16) {
        0 if section5.len() >= 5 => damage::octet(chance, &mut section5[3], &[0, 5, 11, 46, 47, 48, 49, 50]),
        1 if section5.len() >= 5 => damage::octet(chance, &mut section5[4], &[0, 4, 6, 7]),
        2 if section5.len() >= 11 => damage::octet(chance, &mut section5[10], &[0, 2, 3, 4, 40, 200]),
        3 | 4 if section5.len() >= 11 => {
            let (length, template) = chance.one_of(&[(47, 2), (49, 3)]);
            put(section5, 4, &[length]);
            put(section5, 11, &[template]);
        }
        // An octet that is carried through, or that unpacking judges.
        5..=9 if section5.len() >= 47 => {
            let place = 11 + chance.below(section5.len() - 11);
            damage::octet(chance, &mut section5[place], &[0, 1, 2, 31, 32, 33, 127, 128, 255]);
        }
        _ => damage::octets(chance, section5),
    }
}

/// A number at a limit of one octet or two, the length and number of the other template, a list cut short, or any
/// octets.
fn damage_fields(chance: &mut Chance, fields: &mut Vec<u8>) {
    let count = fields.len() / 4;
    match chance.below(16) {
        0..=9 if count > 0 => {
            let place = 4 * chance.below(count);
            let number = fields[place..place + 4].iter().fold(0, |number, octet| number << 8 | u32::from(*octet));
            let limits = [0, 1, 3, 5, 47, 49, 254, 255, 256, 65_535, 65_536, u32::MAX];
            let bits = chance.one_of(&[8, 8, 8, 9, 16, 17, 32]);
            let number = damage::number(chance, number, bits, &limits);
            fields[place..place + 4].copy_from_slice(&number.to_be_bytes());
        }
        10 if count > 3 => {
            let (length, template) = chance.one_of(&[(47, 2), (49, 3)]);
            put(fields, 4, &[length]);
            put(fields, 16, &[template]);
        }
        11 | 12 => fields.truncate(fields.len().saturating_sub(chance.below(12))),
        _ => damage::octets(chance, fields),
    }
}

impl Input for OneWay {
    fn read(&self) -> Vec<&[u8]> {
        vec![&self.octets]
    }

    fn lent(&self) -> Vec<usize> {
        vec![self.room]
    }

    fn call(&self, read: &mut [Block], lent: &mut [Block]) -> u32 {
        let (read, lent) = (read[0].octets(), lent[0].octets());
        match self.way {
            Way::Read => section5::call_read(read, lent),
            Way::Write => section5::call_write(read, lent),
        }
    }

    fn right(&self, lent: &mut [Block]) -> Class {
        let lent = lent[0].octets();
        let (number, left) = match self.way {
            Way::Read => section5::read(&self.octets, lent),
            Way::Write => section5::write(&self.octets, lent),
        };
        lent.copy_from_slice(&left);
        (number, "")
    }
}

/// What unpacking is given.
#[derive(Debug)]
pub struct Sections {
    section5: Vec<u8>,
    payload: Vec<u8>,
    /// The octets that are lent for the points.
    room: usize,
}

impl Input for Sections {
    fn read(&self) -> Vec<&[u8]> {
        vec![&self.section5, &self.payload]
    }

    fn lent(&self) -> Vec<usize> {
        vec![self.room]
    }

    fn call(&self, read: &mut [Block], lent: &mut [Block]) -> u32 {
        let [section5, payload] = read else { panic!("two buffers are read") };
        section5::call_unpack(section5.octets(), payload.octets(), lent[0].octets())
    }

    /// As with the numbers that the section has, where it is one.
    fn right(&self, lent: &mut [Block]) -> Class {
        match section5::input(&self.section5, &self.payload) {
            Ok(map) => Unpacking { map, room: self.room }.right(lent),
            Err(number) => (number, ""),
        }
    }
}
