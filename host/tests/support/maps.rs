//! Sample maps and lists for tests, and for the benchmarks and comparisons of oracle/, which takes this file from here.
//! They are the same at every run and on every machine.

// Only what the formatters of both editions put in one order.
use cleatmow::{Differences, Point, Template};

/// A run-length map: what a call is given, and the levels that it must answer.
pub struct RunLengthMap {
    /// The bits of a code.
    pub bits: u8,
    /// The greatest level.
    pub max_level: u16,
    /// The declared count of points.
    pub declared: u32,
    /// Section 7 after its five-octet header.
    pub payload: Vec<u8>,
    /// The levels of the map.
    pub levels: Vec<u16>,
}

/// Every payload of one octet or none, and every one of two octets whose first is one of these.
pub fn short_payloads(firsts: impl Iterator<Item = u8>) -> impl Iterator<Item = Vec<u8>> {
    let one = (0..=255).map(|octet| vec![octet]);
    let two = firsts.flat_map(|first| (0..=255).map(move |second| vec![first, second]));
    [vec![]].into_iter().chain(one).chain(two)
}

/// A map like a rain radar's, with codes of 8 bits and levels up to 200: dry stretches of up to 4,096 points by turns
/// with showers, whose level changes from run to run. More than half of the runs are of one point; the longest take
/// three repeat codes.
pub fn rain(points: u32) -> RunLengthMap {
    const MAX_LEVEL: u16 = 200;
    let mut numbers = Numbers::new(7_200);
    let mut map =
        RunLengthMap { bits: 8, max_level: MAX_LEVEL, declared: points, payload: Vec::new(), levels: Vec::new() };
    while map.levels.len() < points as usize {
        let longest = 2 << numbers.below(12);
        map.add(0, 1 + numbers.below(longest));
        let mut level = 1 + numbers.below(u64::from(MAX_LEVEL)) as u16;
        for _ in 0..1 + numbers.below(200) {
            let run = match numbers.below(10) {
                0..=5 => 1,
                6 | 7 => 2,
                8 => 3 + numbers.below(4),
                _ => 7 + numbers.below(64),
            };
            map.add(level, run);
            let step = 1 + numbers.below(6) as u16;
            let down = level > step && (numbers.below(2) == 0 || level + step > MAX_LEVEL);
            level = if down { level - step } else { level + step };
        }
    }
    map
}

impl RunLengthMap {
    /// Adds a run of a level other than the last, as far as the declared count goes. A code of 8 bits is an octet.
    fn add(&mut self, level: u16, run: u64) {
        let run = run.min(u64::from(self.declared) - self.levels.len() as u64);
        if run == 0 {
            return;
        }
        self.levels.resize(self.levels.len() + run as usize, level);
        self.payload.push(level as u8);
        let base = u64::from((1 << self.bits) - 1 - self.max_level);
        let mut more = run - 1;
        while more > 0 {
            self.payload.push((u64::from(self.max_level) + 1 + more % base) as u8);
            more /= base;
        }
    }
}

/// A map under 5.2, or 5.3 where it has differences: what a call is given, and the points that it must answer.
pub struct ComplexMap {
    /// The template numbers.
    pub template: Template,
    /// The two that 5.3 has besides; none under 5.2.
    pub differences: Option<Differences>,
    /// The declared count of points.
    pub declared: u32,
    /// Section 7 after its five-octet header.
    pub payload: Vec<u8>,
    /// The points of the map.
    pub points: Vec<Point>,
}

/// A map of gusts under 5.2.
pub fn gusts(points: u32) -> ComplexMap {
    let numbers = gust_numbers(points);
    ComplexMap::packed(&numbers, &numbers, Vec::new(), None)
}

/// The same gusts under 5.3, order 1 or 2, with descriptors of two octets.
pub fn gust_differences(order: u8, points: u32) -> ComplexMap {
    let numbers = gust_numbers(points);
    let place = |number: usize| i64::from(numbers[number]);
    let first = usize::from(order).min(numbers.len());
    let differences: Vec<i64> = (first..numbers.len())
        .map(|number| match order {
            1 => place(number) - place(number - 1),
            _ => place(number) - 2 * place(number - 1) + place(number - 2),
        })
        .collect();
    let least = differences.iter().copied().min().unwrap_or(0);
    let sign = if least < 0 { 0x8000 } else { 0 };
    let mut descriptors: Vec<u16> =
        (0..usize::from(order)).map(|first| *numbers.get(first).unwrap_or(&0) as u16).collect();
    descriptors.push(sign | least.unsigned_abs() as u16);
    // What stands at the first points is not used: 0.
    let mut packed = vec![0; first];
    packed.extend(differences.iter().map(|difference| (difference - least) as u32));
    let descriptors = descriptors.into_iter().flat_map(u16::to_be_bytes).collect();
    ComplexMap::packed(&numbers, &packed, descriptors, Some(Differences { order, descriptor_octets: 2 }))
}

/// The numbers of the gusts: they walk up and down to 16,383. How far a step goes changes every few dozen points: calm
/// stretches do not change at all, the roughest change by up to 512.
pub fn gust_numbers(points: u32) -> Vec<u32> {
    const GREATEST: i64 = 16_383;
    let mut chance = Numbers::new(5_200);
    let (mut number, mut rough) = (GREATEST / 4, 4);
    let mut numbers = Vec::new();
    while numbers.len() < points as usize {
        rough = match chance.below(8) {
            0 => 0,
            1..=3 => (rough + 1).min(10),
            4..=6 => rough.max(2) - 1,
            _ => 1 + chance.below(6),
        };
        for _ in 0..1 + chance.below(120) {
            let farthest = (1 << rough) / 2;
            let step = chance.below(2 * farthest + 1) as i64 - farthest as i64;
            number = (number + step).clamp(0, GREATEST);
            numbers.push(number as u32);
        }
    }
    numbers.truncate(points as usize);
    numbers
}

/// A list to pack, hard to group: each number is one more than the last.
pub fn rising(numbers: u32) -> Vec<u32> {
    (0..numbers).collect()
}

/// A list to pack, hard to group: it rises to 999 and falls back to 0.
pub fn sawtooth(numbers: u32) -> Vec<u32> {
    (0..numbers).map(|place| place % 1_000).collect()
}

/// A list to pack, hard to group: flat patches of up to 131,072 numbers, most of them much shorter.
pub fn patches(numbers: u32) -> Vec<u32> {
    let mut chance = Numbers::new(17);
    let mut list = Vec::new();
    while list.len() < numbers as usize {
        let longest = 2 << chance.below(17);
        let (level, length) = (chance.below(256) as u32, 1 + chance.below(longest) as usize);
        list.resize(list.len() + length, level);
    }
    list.truncate(numbers as usize);
    list
}

/// A list to pack, hard to group: 0 and the greatest number by turns.
pub fn alternating(numbers: u32) -> Vec<u32> {
    (0..numbers).map(|place| place % 2 * cleatmow::GREATEST_NUMBER).collect()
}

/// A list to pack, hard to group: each power of two, from 1 to 2^30, over and over.
pub fn doubling(numbers: u32) -> Vec<u32> {
    (0..numbers).map(|place| 1 << (place % 31)).collect()
}

/// A list to pack, hard to group: one number in fifty, by chance, is any, and all others are 5.
pub fn spikes(numbers: u32) -> Vec<u32> {
    let mut chance = Numbers::new(50);
    (0..numbers).map(|_| if chance.below(50) == 0 { chance.below(1 << 31) as u32 } else { 5 }).collect()
}

/// A list to pack, hard to group at lookahead 29: the greatest number at every 29th place, and 0 and 1 by turns
/// between. In a group of width 31 a look-ahead of 29 numbers is dear enough only with two bits each, so at every place
/// it is looked ahead as far as the next greatest number.
pub fn comb(numbers: u32) -> Vec<u32> {
    (0..numbers).map(|place| if place % 29 == 0 { cleatmow::GREATEST_NUMBER } else { place % 2 }).collect()
}

impl ComplexMap {
    /// These packed numbers, at least one, in groups. A group has the width of its first eight numbers, and ends before
    /// the first that does not fit it; the lengths of all but the last take five bits.
    fn packed(numbers: &[u32], packed: &[u32], descriptors: Vec<u8>, differences: Option<Differences>) -> ComplexMap {
        const MOST: usize = 32;
        let mut groups = Vec::new();
        let mut left = packed;
        while !left.is_empty() {
            let most = left.len().min(MOST);
            let mut length = most.min(8);
            let width = width_of(&left[..length]);
            while length < most && width_of(&left[..length + 1]) == width {
                length += 1;
            }
            let (group, rest) = left.split_at(length);
            groups.push((group, least_of(group), width));
            left = rest;
        }
        let number_width = bits(groups.iter().map(|group| group.1).max().unwrap_or(0));
        let least_width = groups.iter().map(|group| group.2).min().unwrap_or(0);
        let greatest_width = groups.iter().map(|group| group.2).max().unwrap_or(0);
        let template = Template {
            number_width,
            splitting: 1,
            missing: 0,
            groups: groups.len() as u32,
            width_reference: least_width,
            width_bits: bits(u32::from(greatest_width - least_width)),
            length_reference: 1,
            length_increment: 1,
            last_length: groups.last().map_or(0, |group| group.0.len()) as u32,
            length_bits: 5,
        };
        let mut field = Field::after(descriptors);
        for (_, reference, _) in &groups {
            field.add(*reference, number_width);
        }
        let mut field = Field::after(field.octets);
        for (_, _, width) in &groups {
            field.add(u32::from(width - least_width), template.width_bits);
        }
        let mut field = Field::after(field.octets);
        for (group, _, _) in &groups {
            field.add(group.len() as u32 - 1, template.length_bits);
        }
        let mut field = Field::after(field.octets);
        for (group, reference, width) in &groups {
            for number in *group {
                field.add(number - reference, *width);
            }
        }
        ComplexMap {
            template,
            differences,
            declared: numbers.len() as u32,
            payload: field.octets,
            points: numbers.iter().map(|&number| Point::Number(number.into())).collect(),
        }
    }
}

/// The count of binary digits, 0 for 0.
fn bits(number: u32) -> u8 {
    (u32::BITS - number.leading_zeros()) as u8
}

fn least_of(group: &[u32]) -> u32 {
    group.iter().copied().min().unwrap_or(0)
}

fn width_of(group: &[u32]) -> u8 {
    bits(group.iter().copied().max().unwrap_or(0) - least_of(group))
}

/// Numbers end to end, most significant bit first, from an octet on.
struct Field {
    octets: Vec<u8>,
    /// The bits of the last octet that are not used yet.
    spare: u8,
}

impl Field {
    fn after(octets: Vec<u8>) -> Field {
        Field { octets, spare: 0 }
    }

    fn add(&mut self, number: u32, width: u8) {
        for bit in (0..width).rev() {
            if self.spare == 0 {
                self.octets.push(0);
                self.spare = 8;
            }
            self.spare -= 1;
            if let Some(last) = self.octets.last_mut() {
                *last |= ((number >> bit & 1) as u8) << self.spare;
            }
        }
    }
}

/// A stream of numbers that look like chance and are fixed by their seed (splitmix64).
pub struct Numbers(u64);

impl Numbers {
    /// The stream of a seed.
    pub fn new(seed: u64) -> Numbers {
        Numbers(seed)
    }

    /// The next number, any of 64 bits.
    pub fn any(&mut self) -> u64 {
        self.0 = self.0.wrapping_add(0x9E37_79B9_7F4A_7C15);
        let mixed = (self.0 ^ (self.0 >> 30)).wrapping_mul(0xBF58_476D_1CE4_E5B9);
        let mixed = (mixed ^ (mixed >> 27)).wrapping_mul(0x94D0_49BB_1331_11EB);
        mixed ^ (mixed >> 31)
    }

    /// The next number, from 0 to below the bound, which is above 0.
    pub fn below(&mut self, bound: u64) -> u64 {
        self.any() % bound
    }
}
