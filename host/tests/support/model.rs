//! Unpacking under 5.2 and 5.3 as document 01 says it, written plainly: numbers of 128 bits, read one bit at a time,
//! without care for speed. And what makes inputs for it.
//!
//! `oracle/src/unpacking.rs` says the same. The two are written apart on purpose, each from document 01 and neither from
//! the other, as two witnesses: a slip of one should not be a slip of both.

pub mod packing;
pub mod point;
pub mod run_length;
pub mod section5;

use super::guarded;
use super::maps::Numbers;
use cleatmow::{Differences, Point, Points, Refusal, Section5, Template, TemplateNumbers};

/// What a call is given beside the lent buffer. Without differences it is template 5.2, with them 5.3.
#[derive(Clone, Debug, PartialEq)]
pub struct Input {
    pub template: Template,
    pub differences: Option<Differences>,
    pub declared: u32,
    pub payload: Vec<u8>,
}

impl Input {
    /// A map under 5.2 or 5.3.
    pub fn of_map(section5: &Section5, payload: &[u8]) -> Input {
        let TemplateNumbers::Groups { template, differences, .. } = section5.numbers else {
            panic!("a map of levels: {section5:?}");
        };
        Input { template, differences, declared: section5.declared, payload: payload.to_vec() }
    }

    /// The view that the call answers over the octets, or its refusal.
    pub fn view<'a>(&self, points: &'a mut [u8]) -> Result<Points<'a>, Refusal> {
        self.view_of(&self.payload, points)
    }

    /// What the call answers, and leaves in the octets.
    pub fn call(&self, points: &mut [u8]) -> u32 {
        self.call_on(&self.payload, points)
    }

    /// The same on a payload that stands elsewhere. Where a view is answered, it is of the declared points at the front
    /// of the octets, and of nothing past them.
    pub fn call_on(&self, payload: &[u8], points: &mut [u8]) -> u32 {
        let front = points.as_ptr();
        match self.view_of(payload, points) {
            Ok(view) => {
                guarded::hold_view(view, front, self.declared as usize);
                0
            }
            Err(refusal) => refusal.number(),
        }
    }

    fn view_of<'a>(&self, payload: &[u8], points: &'a mut [u8]) -> Result<Points<'a>, Refusal> {
        match &self.differences {
            None => cleatmow::unpack_complex_into(&self.template, self.declared, payload, points),
            Some(differences) => {
                cleatmow::unpack_spatial_into(&self.template, differences, self.declared, payload, points)
            }
        }
    }

    /// The points that the call answers, or its refusal.
    pub fn points(&self) -> Result<Vec<Point>, Refusal> {
        match &self.differences {
            None => cleatmow::unpack_complex(&self.template, self.declared, &self.payload),
            Some(differences) => cleatmow::unpack_spatial(&self.template, differences, self.declared, &self.payload),
        }
    }
}

/// A point of the model: its mark (0 number, 1, 2) and its number, 0 where it is missing.
type Exact = (u8, i128);

/// A group: reference, width, length.
struct Group {
    reference: u128,
    width: u128,
    length: u128,
}

/// The payload of an input that is not refused as far as 7 for the values.
struct Read<'a> {
    input: &'a Input,
    /// The first octets of the references, the width codes, the length codes and the values.
    starts: [u128; 4],
}

/// The number in so many bits from a place in bits.
fn number(payload: &[u8], place: u128, width: u128) -> u128 {
    (place..place + width).fold(0, |number, bit| {
        let octet = payload[(bit / 8) as usize];
        2 * number + u128::from(octet >> (7 - bit % 8) & 1)
    })
}

/// The refusals as far as 7 for the values, in their order.
fn read(input: &Input) -> Result<Read<'_>, u32> {
    let (template, len) = (&input.template, input.payload.len() as u128);
    if input.differences.is_some_and(|differences| differences.order != 1 && differences.order != 2) {
        return Err(3);
    }
    if template.splitting != 1 {
        return Err(1);
    }
    if template.missing > 2 {
        return Err(2);
    }
    let mut start = 0;
    if let Some(Differences { order, descriptor_octets }) = input.differences {
        if !(1..=4).contains(&descriptor_octets) {
            return Err(4);
        }
        start = (u128::from(order) + 1) * u128::from(descriptor_octets);
        if len < start {
            return Err(7);
        }
    }
    if template.groups == 0 || template.groups > 4_194_304 {
        return Err(6);
    }
    if template.number_width > 31 || template.width_bits > 32 || template.length_bits > 32 {
        return Err(5);
    }
    // "each starting on an octet", and "Each group field has room for all groups."
    let mut starts = [start; 4];
    for (field, width) in [template.number_width, template.width_bits, template.length_bits].into_iter().enumerate() {
        starts[field + 1] = starts[field] + (u128::from(template.groups) * u128::from(width)).div_ceil(8);
    }
    if len < starts[3] {
        return Err(7);
    }
    let read = Read { input, starts };
    for place in 0..template.groups {
        let group = read.group(place);
        if group.width > 31 || (place != template.groups - 1 && group.length > 4_294_967_295) {
            return Err(8);
        }
    }
    let bits: u128 = read.groups().map(|group| group.length * group.width).sum();
    if len < starts[3] + bits.div_ceil(8) {
        return Err(7);
    }
    Ok(read)
}

impl Read<'_> {
    /// What a group has in a group field: reference, width code, length code.
    fn codes(&self, place: u32) -> [u128; 3] {
        let Template { number_width, width_bits, length_bits, .. } = self.input.template;
        let code = |field: usize, width: u8| {
            let width = u128::from(width);
            number(&self.input.payload, 8 * self.starts[field] + u128::from(place) * width, width)
        };
        [code(0, number_width), code(1, width_bits), code(2, length_bits)]
    }

    fn group(&self, place: u32) -> Group {
        let template = &self.input.template;
        let [reference, width_code, length_code] = self.codes(place);
        Group {
            reference,
            width: width_code + u128::from(template.width_reference),
            length: if place == template.groups - 1 {
                u128::from(template.last_length)
            } else {
                length_code * u128::from(template.length_increment) + u128::from(template.length_reference)
            },
        }
    }

    fn groups(&self) -> impl Iterator<Item = Group> + '_ {
        (0..self.input.template.groups).map(|place| self.group(place))
    }

    fn count(&self) -> u128 {
        self.groups().map(|group| group.length).sum()
    }

    /// The packed numbers, before the minimum is added.
    fn packed(&self) -> Vec<Exact> {
        let Template { missing, number_width, .. } = self.input.template;
        let mut points = Vec::new();
        let mut place = 8 * self.starts[3];
        for group in self.groups() {
            for _ in 0..group.length {
                let value = number(&self.input.payload, place, group.width);
                place += group.width;
                let (tested, width) =
                    if group.width > 0 { (value, group.width) } else { (group.reference, u128::from(number_width)) };
                points.push(if missing > 0 && tested == (1 << width) - 1 {
                    (1, 0)
                } else if missing == 2 && tested + 2 == 1 << width {
                    (2, 0)
                } else {
                    (0, (value + group.reference) as i128)
                });
            }
        }
        points
    }

    /// The points, restored under 5.3, however large they become.
    fn points(&self) -> Vec<Exact> {
        let mut points = self.packed();
        let Some(Differences { order, descriptor_octets }) = self.input.differences else {
            return points;
        };
        let bits = 8 * u128::from(descriptor_octets);
        let descriptor = |place: u8| number(&self.input.payload, u128::from(place) * bits, bits) as i128;
        // "a leading sign bit and magnitude"
        let (minimum, sign) = (descriptor(order), 1 << (bits - 1));
        let minimum = if minimum < sign { minimum } else { sign - minimum };
        let mut restored: Vec<i128> = Vec::new();
        for (mark, number) in &mut points {
            // "Missing points do not advance this."
            if *mark != 0 {
                continue;
            }
            let packed = *number + minimum;
            let so_far = restored.len();
            *number = if so_far < usize::from(order) {
                descriptor(so_far as u8)
            } else if order == 1 {
                packed + restored[so_far - 1]
            } else {
                packed + 2 * restored[so_far - 1] - restored[so_far - 2]
            };
            restored.push(*number);
        }
        points
    }
}

/// The descriptors and the groups of an input, as they are written, or the refusal as far as 7 for the values.
pub fn read_back(input: &Input) -> Result<(Vec<u64>, Vec<Written>), u32> {
    let read = read(input)?;
    let Differences { order, descriptor_octets } =
        input.differences.unwrap_or(Differences { order: 0, descriptor_octets: 0 });
    let bits = 8 * u128::from(descriptor_octets);
    let descriptors = (0..=u128::from(order)).map(|place| number(&input.payload, place * bits, bits) as u64).collect();
    let mut place = 8 * read.starts[3];
    let groups = (0..input.template.groups).map(|group| {
        let [reference, width_code, length_code] = read.codes(group).map(|code| code as u64);
        let Group { width, length, .. } = read.group(group);
        let values = (0..length).map(|value| number(&input.payload, place + value * width, width) as u64).collect();
        place += length * width;
        Written { reference, width_code, length_code, values }
    });
    Ok((descriptors, groups.collect()))
}

/// How many points the payload has, or the refusal as far as 7 for the values.
pub fn count(input: &Input) -> Result<u128, u32> {
    Ok(read(input)?.count())
}

/// The points with their exact numbers, or the refusal as far as 9.
pub fn points(input: &Input) -> Result<Vec<Exact>, u32> {
    let read = read(input)?;
    if read.count() != u128::from(input.declared) || input.declared > 4_194_304 {
        return Err(9);
    }
    Ok(read.points())
}

/// The answer, and the buffer as it is left.
pub fn answer(input: &Input, lent: &[u8]) -> (u32, Vec<u8>) {
    let mut left = lent.to_vec();
    let points = match points(input) {
        Ok(points) => points,
        Err(number) => return (number, left),
    };
    if lent.len() / 9 < points.len() {
        return (10, left);
    }
    if points.iter().any(|(_, number)| number.abs() > 1 << 60) {
        left[..9 * points.len()].fill(0);
        return (12, left);
    }
    for (place, (mark, number)) in left.chunks_exact_mut(9).zip(points) {
        place[0] = mark;
        place[1..].copy_from_slice(&(number as i64).to_be_bytes());
    }
    (0, left)
}

/// Points as they stand in octets: "a point there is nine octets, the mark and then the number, big-endian two's
/// complement", and "a missing point holds number 0".
pub fn octets_of(points: &[Point]) -> Vec<u8> {
    let mut octets = Vec::with_capacity(9 * points.len());
    for point in points {
        let (mark, number) = match point {
            Point::Number(number) => (0, *number),
            Point::Missing1 => (1, 0),
            Point::Missing2 => (2, 0),
        };
        octets.push(mark);
        octets.extend(number.to_be_bytes());
    }
    octets
}

/// Template numbers as the cases list them: number width; groups; width reference and bits; length reference,
/// increment, last and bits. The splitting method is 1 and missing management 0.
pub fn template(number_width: u8, groups: u32, width: (u8, u8), length: (u32, u8, u32, u8)) -> Template {
    Template {
        number_width,
        splitting: 1,
        missing: 0,
        groups,
        width_reference: width.0,
        width_bits: width.1,
        length_reference: length.0,
        length_increment: length.1,
        last_length: length.2,
        length_bits: length.3,
    }
}

/// A field: numbers, each of so many bits, end to end, and the pad bit to the end of the last octet.
pub fn field(pad: u8, numbers: impl IntoIterator<Item = (u64, u64)>) -> Vec<u8> {
    let mut bits = Vec::new();
    for (width, number) in numbers {
        assert!(width >= 64 || number >> width == 0, "{number} has more than {width} bits");
        bits.extend((0..width).rev().map(|place| (number >> place & 1) as u8));
    }
    bits.resize(bits.len().next_multiple_of(8), pad);
    bits.chunks(8).map(|octet| octet.iter().fold(0, |octet, bit| 2 * octet + bit)).collect()
}

/// A group as it is written.
#[derive(Clone, Debug)]
pub struct Written {
    pub reference: u64,
    pub width_code: u64,
    pub length_code: u64,
    pub values: Vec<u64>,
}

/// A payload. Descriptors are written under 5.3 alone.
pub fn payload(
    template: &Template,
    differences: Option<&Differences>,
    descriptors: &[u64],
    groups: &[Written],
    pad: u8,
) -> Vec<u8> {
    let at = |width: u8, number: u64| (u64::from(width), number);
    let mut payload = Vec::new();
    if let Some(differences) = differences {
        let bits = 8 * differences.descriptor_octets;
        payload.extend(field(pad, descriptors.iter().map(|number| at(bits, *number))));
    }
    payload.extend(field(pad, groups.iter().map(|group| at(template.number_width, group.reference))));
    payload.extend(field(pad, groups.iter().map(|group| at(template.width_bits, group.width_code))));
    payload.extend(field(pad, groups.iter().map(|group| at(template.length_bits, group.length_code))));
    let values = groups.iter().flat_map(|group| {
        let width = group.width_code + u64::from(template.width_reference);
        group.values.iter().map(move |value| (width, *value))
    });
    payload.extend(field(pad, values));
    payload
}

/// A number of so many bits: any, or close to either end, where missing points are.
pub fn number_of(chance: &mut Numbers, bits: u64) -> u64 {
    let greatest = (1 << bits) - 1;
    match chance.below(8) {
        0 => greatest,
        1 => greatest.saturating_sub(1),
        2 => 0,
        _ => chance.below(greatest + 1),
    }
}

/// A map of a few groups that is well packed, under either template.
pub fn good(chance: &mut Numbers) -> Input {
    let count = 1 + chance.below(7);
    let number_width = chance.below(32);
    // Groups of up to 31 bits: of one width, of a few, or of any.
    let width_reference = chance.below(32);
    let width_bits = [0, 1, 2, 3, 5, 32][chance.below(6) as usize];
    let most_code = ((1 << width_bits) - 1).min(31 - width_reference);
    let (length_reference, increment) = (chance.below(5), [0, 1, 2, 3, 7, 255][chance.below(6) as usize]);
    let length_bits = [0, 1, 2, 4, 11, 32][chance.below(6) as usize];
    let last = chance.below(12);
    let differences = (chance.below(2) == 0)
        .then(|| Differences { order: 1 + chance.below(2) as u8, descriptor_octets: 1 + chance.below(4) as u8 });
    let lengths = (length_reference as u32, increment as u8, last as u32, length_bits as u8);
    let template = Template {
        missing: chance.below(3) as u8,
        ..template(number_width as u8, count as u32, (width_reference as u8, width_bits as u8), lengths)
    };
    let groups: Vec<Written> = (1..=count)
        .map(|place| {
            let width_code = chance.below(most_code + 1);
            // Where the code counts, so that there are up to 12 points more; where it does not, any.
            let counts = place < count && increment > 0;
            let most = if counts { 12 / increment } else { u64::MAX }.min((1 << length_bits) - 1);
            let length_code = chance.below(most + 1);
            let length = if place < count { length_code * increment + length_reference } else { last };
            let width = width_code + width_reference;
            let values = (0..length).map(|_| number_of(chance, width)).collect();
            Written { reference: number_of(chance, number_width), width_code, length_code, values }
        })
        .collect();
    let mut descriptors = Vec::new();
    if let Some(Differences { order, descriptor_octets }) = differences {
        let bits = 8 * u64::from(descriptor_octets);
        descriptors.extend((0..order).map(|_| number_of(chance, bits)));
        let sign = chance.below(2) << (bits - 1);
        descriptors.push(sign | number_of(chance, bits - 1));
    }
    let pad = chance.below(2) as u8;
    let payload = payload(&template, differences.as_ref(), &descriptors, &groups, pad);
    Input { template, differences, declared: 0, payload }
}
