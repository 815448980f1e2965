//! Document 01's unpacking under 5.2 and 5.3, written plainly for the programs here: it has to be known how many points
//! an input has before the Rust is let at them, and whether the Rust can judge it at all. Sums over points are in 128 bits,
//! so that none can overflow.
//!
//! `host/tests/support/model.rs` says the same. The two are written apart on purpose, each from document 01 and neither
//! from the other, as two witnesses: a slip of one should not be a slip of both.

use crate::dice::Dice;
use crate::runs::MOST_POINTS;
use crate::{Differences, Point, Template};

/// Above this document 01 refuses every group count.
pub const MOST_GROUPS: u32 = 4_194_304;

/// All that a call is given.
#[derive(Clone, Debug)]
pub struct Input {
    pub template: Template,
    /// None under 5.2.
    pub differences: Option<Differences>,
    pub declared: u32,
    pub payload: Vec<u8>,
    /// The octets that are lent for the points.
    pub room: usize,
}

/// Template numbers as document 01 lists them: number width; groups; width reference, width bits; length reference,
/// increment, last, bits. Splitting method is 1 and missing management 0.
pub fn template(numbers: [u32; 8]) -> Template {
    let octet = |number: u32| u8::try_from(number).expect("a number of one octet");
    Template {
        number_width: octet(numbers[0]),
        splitting: 1,
        missing: 0,
        groups: numbers[1],
        width_reference: octet(numbers[2]),
        width_bits: octet(numbers[3]),
        length_reference: numbers[4],
        length_increment: octet(numbers[5]),
        last_length: numbers[6],
        length_bits: octet(numbers[7]),
    }
}

/// What document 01 says of an input.
pub struct Reading {
    /// All points, or the number of the refusal.
    pub answer: Result<Vec<Point>, u32>,
    /// How many points the map has, where the refusals as far as 7 for the values are behind it.
    pub count: Option<i128>,
    /// Why document 01 does not ask the two to meet in the map's points, if it does not. Looked at where the points are
    /// not more than document 01 allows.
    pub apart: Option<&'static str>,
}

/// What a payload says, once the refusals as far as 7 for the values are behind it.
struct Map {
    first_values: Vec<i64>,
    minimum: i64,
    groups: Vec<Group>,
    /// The payload from the first value on.
    values: Vec<u8>,
}

struct Group {
    reference: i64,
    width: usize,
    length: i64,
}

/// A point before differences are restored.
#[derive(Clone, Copy, PartialEq, Eq)]
enum Packed {
    /// Value + reference.
    Number(i64),
    Missing1,
    Missing2,
}

impl Input {
    pub fn read(&self) -> Reading {
        let map = match self.map() {
            Ok(map) => map,
            Err(number) => return Reading { answer: Err(number), count: None, apart: None },
        };
        let count = map.count();
        if count > MOST_POINTS.into() {
            return Reading { answer: Err(9), count: Some(count), apart: None };
        }
        let packed = map.packed(&self.template);
        let answer = if count != i128::from(self.declared) {
            Err(9)
        } else if self.room / cleatmow::POINT_OCTETS < self.declared as usize {
            Err(10)
        } else {
            map.restored(&packed)
        };
        Reading { answer, count: Some(count), apart: map.apart(&packed) }
    }

    /// How many points the map has, as far as that can be declared; 0 where there is no map.
    pub fn count(&self) -> u32 {
        let count = self.map().map_or(0, |map| map.count());
        u32::try_from(count).unwrap_or(u32::MAX)
    }

    /// The map, or the first of the refusals as far as 7 for the values: 1, 2, 6, 5, 7, 8, 7 under 5.2 and 3, 1, 2, 4,
    /// 7, 6, 5, 7, 8, 7 under 5.3.
    fn map(&self) -> Result<Map, u32> {
        let Template { number_width, groups, width_bits, length_bits, .. } = self.template;
        let differences = self.differences;
        if differences.is_some_and(|said| said.order != 1 && said.order != 2) {
            return Err(3);
        }
        if self.template.splitting != 1 {
            return Err(1);
        }
        if self.template.missing > 2 {
            return Err(2);
        }
        let (mut first_values, mut minimum, mut start) = (Vec::new(), 0, 0);
        if let Some(Differences { order, descriptor_octets }) = differences {
            if !(1..=4).contains(&descriptor_octets) {
                return Err(4);
            }
            let (order, size) = (usize::from(order), usize::from(descriptor_octets));
            start = (order + 1) * size;
            if self.payload.len() < start {
                return Err(7);
            }
            let mut numbers: Vec<i64> =
                self.payload[..start].chunks(size).map(|octets| number(octets, 0, 8 * size)).collect();
            let sign = 1 << (8 * size - 1);
            let coded = numbers.pop().unwrap_or(0);
            minimum = if coded >= sign { sign - coded } else { coded };
            first_values = numbers;
        }
        if groups == 0 || groups > MOST_GROUPS {
            return Err(6);
        }
        if number_width > 31 || width_bits > 32 || length_bits > 32 {
            return Err(5);
        }
        let mut fields = Vec::new();
        for width in [number_width, width_bits, length_bits] {
            let octets = (u64::from(groups) * u64::from(width)).div_ceil(8) as usize;
            fields.push((start, usize::from(width)));
            start += octets;
        }
        if self.payload.len() < start {
            return Err(7);
        }
        let coded = |field: usize, group: u32| {
            let (octet, width): (usize, usize) = fields[field];
            number(&self.payload[octet..], group as usize * width, width)
        };
        let groups: Vec<Group> = (0..groups)
            .map(|group| Group {
                reference: coded(0, group),
                width: coded(1, group) as usize + usize::from(self.template.width_reference),
                length: if group == groups - 1 {
                    i64::from(self.template.last_length)
                } else {
                    coded(2, group) * i64::from(self.template.length_increment)
                        + i64::from(self.template.length_reference)
                },
            })
            .collect();
        if groups.iter().any(|group| group.width > 31 || group.length > 4_294_967_295) {
            return Err(8);
        }
        let bits: i128 = groups.iter().map(|group| group.width as i128 * i128::from(group.length)).sum();
        let values = self.payload[start..].to_vec();
        if bits > 8 * values.len() as i128 {
            return Err(7);
        }
        Ok(Map { first_values, minimum, groups, values })
    }
}

impl Map {
    fn count(&self) -> i128 {
        self.groups.iter().map(|group| i128::from(group.length)).sum()
    }

    fn packed(&self, template: &Template) -> Vec<Packed> {
        let mut points = Vec::new();
        let mut place = 0;
        for Group { reference, width, length } in &self.groups {
            for _ in 0..*length {
                let value = number(&self.values, place, *width);
                place += width;
                // In a group of width 0 the reference is tested, at the number width.
                let (tested, at) =
                    if *width > 0 { (value, *width) } else { (*reference, template.number_width.into()) };
                points.push(if template.missing > 0 && tested == (1 << at) - 1 {
                    Packed::Missing1
                } else if template.missing == 2 && tested == (1 << at) - 2 {
                    Packed::Missing2
                } else {
                    Packed::Number(value + reference)
                });
            }
        }
        points
    }

    fn restored(&self, packed: &[Packed]) -> Result<Vec<Point>, u32> {
        let order = self.first_values.len();
        let mut numbers: Vec<i128> = Vec::new();
        let mut points = Vec::new();
        for packed in packed {
            let sum = match packed {
                Packed::Missing1 => {
                    points.push(Point::Missing1);
                    continue;
                }
                Packed::Missing2 => {
                    points.push(Point::Missing2);
                    continue;
                }
                Packed::Number(sum) => i128::from(sum + self.minimum),
            };
            let before = |back: usize| numbers[numbers.len() - back];
            let number = match order {
                0 => sum,
                _ if numbers.len() < order => self.first_values[numbers.len()].into(),
                1 => sum + before(1),
                _ => sum + 2 * before(1) - before(2),
            };
            if number.abs() > 1 << 60 {
                return Err(12);
            }
            numbers.push(number);
            points.push(Point::Number(number as i64));
        }
        Ok(points)
    }

    /// Unpacking meets on inputs "for which each value + reference is below 2^31, the sum with the minimum and each first
    /// value fit i32, and the Rust neither overflows nor panics"; the last of the reasons is where it does.
    fn apart(&self, packed: &[Packed]) -> Option<&'static str> {
        let fits = |number: i64| i32::try_from(number).is_ok();
        let empty = |group: &Group| group.width == 0 && group.length == 0;
        let number = |point: &Packed| match point {
            Packed::Number(sum) => Some(*sum),
            Packed::Missing1 | Packed::Missing2 => None,
        };
        let sums: Vec<i64> = packed.iter().filter_map(number).collect();
        if sums.iter().any(|sum| *sum >= 1 << 31) {
            Some("a value + reference of 2^31 or more")
        } else if sums.iter().any(|sum| !fits(sum + self.minimum)) {
            Some("a sum with the minimum beyond i32")
        } else if self.first_values.iter().any(|first| !fits(*first)) {
            Some("a first value of 2^31 or more")
        } else if self.groups.iter().any(|group| empty(group) && !fits(group.reference + self.minimum)) {
            Some("an empty group of width 0 whose sum is beyond i32")
        } else {
            None
        }
    }
}

/// The number of this width, up to 32, that begins at this bit; 0 for width 0.
fn number(octets: &[u8], place: usize, width: usize) -> i64 {
    if width == 0 {
        return 0;
    }
    let (first, last) = (place / 8, (place + width - 1) / 8);
    let gathered = octets[first..=last].iter().fold(0, |number, octet| number << 8 | i64::from(*octet));
    (gathered >> (8 * (last + 1) - (place + width))) & ((1 << width) - 1)
}

/// The octets of points as the C calls leave them: the mark, then the number.
pub fn octets_of(points: &[Point]) -> Vec<u8> {
    let octets = |point: &Point| {
        let (mark, number): (u8, i64) = match *point {
            Point::Number(number) => (0, number),
            Point::Missing1 => (1, 0),
            Point::Missing2 => (2, 0),
        };
        let mut octets = [mark; cleatmow::POINT_OCTETS];
        octets[1..].copy_from_slice(&number.to_be_bytes());
        octets
    };
    points.iter().flat_map(octets).collect()
}

/// The refusals of document 01 that what the Rust says can stand for; none where it says something else.
pub fn refusals_for(said: &str) -> &'static [u32] {
    if said == "LengthMismatch" {
        &[5, 6, 7, 8]
    } else if said.starts_with("NotSupported(\"GRIB2 code table 5.4") {
        &[1]
    } else if said.starts_with("NotSupported(\"GRIB2 code table 5.5") {
        &[2]
    } else if said.starts_with("NotSupported(\"GRIB2 code table 5.6") {
        &[3]
    } else if said.contains("to specify extra descriptors needed for spatial differencing") {
        &[4]
    } else {
        &[]
    }
}

/// How large the numbers of a made map are.
#[derive(Clone, Copy)]
pub struct Size {
    pub groups: u64,
    /// Of a group but the last, and of the last.
    pub length: u64,
    /// Number width and group widths.
    pub width: u64,
}

impl Input {
    /// A good map: some groups, empty ones among them, whose references and values are all ones, all zeros or random;
    /// pads and the last length code are random, and octets may follow the last value.
    pub fn some(dice: &mut Dice, spatial: bool, size: Size) -> Self {
        let groups = 1 + dice.below(size.groups);
        let number_width = dice.below(size.width + 1);
        let width_bits = dice.one_of(&[0, 1, 2, 3, 5, 8, 32]);
        let width_reference = dice.below(size.width + 1);
        let length_bits = dice.one_of(&[0, 0, 1, 2, 3, 8, 32]);
        let length_increment = dice.one_of(&[0, 1, 1, 2, 3, 255]);
        let length_reference = dice.below(size.length + 1);
        let last_length = dice.below(size.length + 1);

        let mut field = Field::default();
        let differences =
            spatial.then(|| Differences { order: dice.one_of(&[1, 2]), descriptor_octets: dice.one_of(&[1, 2, 3, 4]) });
        if let Some(Differences { order, descriptor_octets }) = differences {
            for _ in 0..=order {
                let width = 8 * u64::from(descriptor_octets);
                // Half of them small, so that they stay in the meeting.
                let descriptor = if dice.once_in(2) { dice.below(1 << 7) } else { extreme(dice, width) };
                let sign = dice.below(2) << (width - 1);
                field.add(if dice.once_in(2) { descriptor } else { (descriptor % (1 << (width - 1))) | sign }, width);
            }
        }
        for _ in 0..groups {
            let reference = extreme(dice, number_width);
            field.add(reference, number_width);
        }
        field.pad(dice);
        let mut widths = Vec::new();
        for _ in 0..groups {
            let code = dice.below(((1 << width_bits) - 1).min(size.width - width_reference) + 1);
            field.add(code, width_bits);
            widths.push(code + width_reference);
        }
        field.pad(dice);
        let mut lengths = Vec::new();
        for group in 1..=groups {
            let most = (size.length - length_reference) / length_increment.max(1);
            let code = dice.below(most.min((1 << length_bits) - 1) + 1);
            if group == groups {
                field.add(extreme(dice, length_bits), length_bits);
                lengths.push(last_length);
            } else {
                field.add(code, length_bits);
                lengths.push(code * length_increment + length_reference);
            }
        }
        field.pad(dice);
        for (width, length) in widths.iter().zip(&lengths) {
            for _ in 0..*length {
                let value = extreme(dice, *width);
                field.add(value, *width);
            }
        }
        field.pad(dice);
        let mut payload = field.octets;
        if dice.once_in(4) {
            payload.extend(dice.octets(2));
        }

        let template = Template {
            number_width: number_width as u8,
            splitting: 1,
            missing: dice.below(3) as u8,
            groups: groups as u32,
            width_reference: width_reference as u8,
            width_bits: width_bits as u8,
            length_reference: length_reference as u32,
            length_increment: length_increment as u8,
            last_length: last_length as u32,
            length_bits: length_bits as u8,
        };
        Self::with_its_count(template, differences, payload)
    }

    /// The declared count is the map's own, as far as it can be declared, and the room is just enough.
    pub fn with_its_count(template: Template, differences: Option<Differences>, payload: Vec<u8>) -> Self {
        let mut input = Self { template, differences, declared: 0, payload, room: 0 };
        input.declare(input.count());
        input
    }

    /// Changes the declared count. The room is just enough for it, and none where it is above what can be accepted: 9
    /// comes before 10.
    pub fn declare(&mut self, declared: u32) {
        let points = if declared > MOST_POINTS { 0 } else { declared as usize };
        self.declared = declared;
        self.room = points * cleatmow::POINT_OCTETS;
    }
}

impl Input {
    /// Another octet of the payload, a payload cut short or made longer, or another template number. What is declared
    /// stays.
    pub fn damage(&mut self, dice: &mut Dice) {
        let place = dice.below(self.payload.len() as u64 + 1) as usize;
        match (dice.below(5), self.payload.get_mut(place)) {
            (0 | 1, Some(octet)) => *octet ^= 1 << dice.below(8),
            (2, Some(octet)) => *octet = dice.number() as u8,
            (3, _) if dice.once_in(2) => self.payload.truncate(place),
            (3, _) => self.payload.extend(dice.octets(2)),
            _ => self.damage_number(dice),
        }
    }

    fn damage_number(&mut self, dice: &mut Dice) {
        let octet = |dice: &mut Dice, number: &mut u8| {
            let any = dice.number() as u8;
            *number = dice.one_of(&[number.wrapping_add(1), number.wrapping_sub(1), 31, 32, 33, any % 34, any]);
        };
        let long = |dice: &mut Dice, number: &mut u32| {
            let any = dice.number() as u32;
            let twice = number.wrapping_mul(2);
            *number = dice.one_of(&[number.wrapping_add(1), number.wrapping_sub(1), twice, any % 8, any, u32::MAX]);
        };
        let template = &mut self.template;
        match (dice.below(12), &mut self.differences) {
            (0, _) => octet(dice, &mut template.number_width),
            (1, _) => octet(dice, &mut template.splitting),
            (2, _) => octet(dice, &mut template.missing),
            (3, _) => long(dice, &mut template.groups),
            (4, _) => octet(dice, &mut template.width_reference),
            (5, _) => octet(dice, &mut template.width_bits),
            (6, _) => long(dice, &mut template.length_reference),
            (7, _) => octet(dice, &mut template.length_increment),
            (8, _) => long(dice, &mut template.last_length),
            (10, Some(differences)) => differences.order = dice.below(5) as u8,
            (11, Some(differences)) => differences.descriptor_octets = dice.below(7) as u8,
            _ => octet(dice, &mut template.length_bits),
        }
    }
}

/// A number of this width: all ones or one less half of the time, and zeros at times.
fn extreme(dice: &mut Dice, width: u64) -> u64 {
    let greatest = (1_u64 << width) - 1;
    match dice.below(8) {
        0 | 1 => greatest,
        2 | 3 => greatest.max(1) - 1,
        4 => 0,
        _ => dice.below(greatest + 1),
    }
}

/// Numbers end to end, most significant bit first.
#[derive(Default)]
pub struct Field {
    pub octets: Vec<u8>,
    bits: usize,
}

impl Field {
    pub fn add(&mut self, number: u64, width: u64) {
        for bit in (0..width).rev() {
            if self.bits.is_multiple_of(8) {
                self.octets.push(0);
            }
            let last = self.octets.len() - 1;
            self.octets[last] |= ((number >> bit & 1) as u8) << (7 - self.bits % 8);
            self.bits += 1;
        }
    }

    /// Goes on to the next octet, over random bits.
    fn pad(&mut self, dice: &mut Dice) {
        while !self.bits.is_multiple_of(8) {
            self.add(dice.below(2), 1);
        }
    }
}
