//! One map, one packing, through the C calls. Two packings under 5.2, whoever wrote them, are unpacked and packed again
//! with one lookahead: the new template numbers and payload octets are equal exactly when the two held the same numbers
//! in the same order. What is asked of the two: at least one point, no missing point, no number above 2,147,483,647.

mod support;

use cleatmow::{
    numbers_as_octets, numbers_of_points, pack_into, Group, NoNumber, Point, Refusal, Section5, Template,
    GREATEST_LOOKAHEAD, GREATEST_NUMBER, GROUP_OCTETS, POINT_OCTETS, SUMMARY_OCTETS,
};
use std::collections::HashMap;
use support::maps::{self, Numbers};
use support::model::{octets_of, template, Input};
use support::others;
use writer::Choices;

/// A writer of packings under 5.2 that knows no grouping rule: whatever unpacking leaves to a writer is chosen by
/// chance, and none of it changes a point.
mod writer {
    use super::*;
    use std::ops::RangeInclusive;
    use support::model::field;

    /// "Let bits(x) be the count of binary digits of x, 0 for 0."
    fn bits(x: u64) -> u64 {
        u64::from(u64::BITS - x.leading_zeros())
    }

    /// Either end, or any number from one to the other.
    fn one_of(chance: &mut Numbers, numbers: RangeInclusive<u64>) -> u64 {
        let (first, last) = numbers.into_inner();
        match chance.below(3) {
            0 => first,
            1 => last,
            _ => first + chance.below(last - first + 1),
        }
    }

    /// A field, and these pad bits to the end of its last octet.
    fn padded(pads: u8, mut numbers: Vec<(u64, u64)>) -> Vec<u8> {
        let bits: u64 = numbers.iter().map(|(width, _)| width).sum();
        let rest = bits.next_multiple_of(8) - bits;
        numbers.push((rest, u64::from(pads) % (1 << rest)));
        field(0, numbers)
    }

    #[derive(Clone, Debug, Default)]
    pub struct Group {
        pub length: u64,
        pub reference: u64,
        pub width: u64,
        pub length_code: u64,
    }

    /// What a writer may choose for a map.
    #[derive(Clone, Debug, Default)]
    pub struct Choices {
        pub missing: u64,
        pub groups: Vec<Group>,
        pub number_width: u64,
        pub width_reference: u64,
        pub width_bits: u64,
        pub length_reference: u64,
        pub increment: u64,
        pub length_bits: u64,
        /// Of the references, the width codes, the length codes and the values.
        pub pads: [u8; 4],
        /// Octets after the last value.
        pub spare: Vec<u8>,
    }

    /// Makes a choice again, and those that follow from it.
    type Choose = fn(&mut Choices, &mut Numbers, &[u32]);

    impl Choices {
        /// Each choice by its name.
        pub const EACH: [(&'static str, Choose); 9] = [
            ("where the groups are cut", Choices::cut),
            ("references and widths", Choices::refer),
            ("number width", |choices, chance, _| choices.set_number_width(chance)),
            ("width reference and bits", |choices, chance, _| choices.set_widths(chance)),
            ("length reference, increment and bits", |choices, chance, _| choices.set_lengths(chance)),
            ("last length code", |choices, chance, _| choices.set_last_code(chance)),
            // Where no point is missing under more management, none is under less.
            ("missing management", |choices, chance, _| choices.missing = chance.below(choices.missing + 1)),
            ("pad bits", |choices, chance, _| choices.set_pads(chance)),
            ("octets after the last value", |choices, chance, _| choices.set_spare(chance)),
        ];

        pub fn by_chance(chance: &mut Numbers, numbers: &[u32]) -> Choices {
            let mut choices = Choices { missing: chance.below(3), ..Choices::default() };
            choices.cut(chance, numbers);
            choices.set_pads(chance);
            choices.set_spare(chance);
            choices
        }

        /// The numbers of each group.
        fn grouped<'a>(&self, mut numbers: &'a [u32]) -> Vec<&'a [u32]> {
            let mut next = |group: &Group| {
                let (group, rest) = numbers.split_at(group.length as usize);
                numbers = rest;
                group
            };
            self.groups.iter().map(&mut next).collect()
        }

        /// Lengths of a least one and some steps, while there are numbers; the last group has the rest. Groups without
        /// numbers are among them.
        fn cut(&mut self, chance: &mut Numbers, numbers: &[u32]) {
            let mut left = numbers.len() as u64;
            let least = [0, 1, 2, left / 3][chance.below(4) as usize];
            let within: Vec<u64> = [0, 1, 2, 7, 255, 300].into_iter().filter(|step| *step <= left).collect();
            let step = within[chance.below(within.len() as u64) as usize];
            let steps = [1, 2, 5][chance.below(3) as usize];
            let go_on = [2, 9, 4 * left][chance.below(3) as usize];
            let to_the_end = chance.below(2);
            let mut lengths = Vec::new();
            while chance.below(go_on) > 0 {
                let length = least + step * chance.below(steps);
                if length >= left + to_the_end {
                    break;
                }
                lengths.push(length);
                left -= length;
            }
            lengths.push(left);
            self.cut_at(chance, numbers, &lengths);
        }

        pub fn cut_at(&mut self, chance: &mut Numbers, numbers: &[u32], lengths: &[u64]) {
            self.groups = lengths.iter().map(|&length| Group { length, ..Group::default() }).collect();
            self.refer(chance, numbers);
            self.set_lengths(chance);
        }

        /// A group's reference is its least number or less, and its width holds all values and, above them, the missing
        /// codes. "In a group of width 0 [..] the number is the reference."
        fn refer(&mut self, chance: &mut Numbers, numbers: &[u32]) {
            // How many there are in a group of width 31.
            const VALUES: u64 = 1 << 31;
            let ends = |group: &[u32]| {
                let (least, greatest) = (*group.iter().min()?, *group.iter().max()?);
                Some((u64::from(least), u64::from(greatest)))
            };
            let ends: Vec<_> = self.grouped(numbers).into_iter().map(ends).collect();
            let farthest = ends.iter().flatten().map(|(least, greatest)| greatest - least).max().unwrap_or(0);
            // Numbers as far apart as that leave no room for missing codes.
            self.missing = self.missing.min(VALUES - 1 - farthest);
            for (group, ends) in self.groups.iter_mut().zip(ends) {
                (group.reference, group.width) = match ends {
                    // Without a number a group may say anything.
                    None => (one_of(chance, 0..=VALUES - 1), one_of(chance, 0..=31)),
                    Some((number, greatest))
                        if number == greatest && number + self.missing < VALUES && chance.below(2) == 0 =>
                    {
                        (number, 0)
                    }
                    Some((least, greatest)) => {
                        let lowest = (greatest + self.missing + 1).saturating_sub(VALUES);
                        let reference = one_of(chance, lowest..=least);
                        (reference, one_of(chance, bits(greatest - reference + self.missing).max(1)..=31))
                    }
                };
            }
            self.set_number_width(chance);
            self.set_widths(chance);
        }

        /// "In a group of width 0 the same tests apply to the reference at the number width", so there is room for the
        /// missing codes above it.
        fn set_number_width(&mut self, chance: &mut Numbers) {
            let tested = |group: &Group| group.width == 0 && group.length > 0;
            let room = |group: &Group| group.reference + if tested(group) { self.missing } else { 0 };
            let greatest = self.groups.iter().map(room).max().unwrap_or(0);
            self.number_width = one_of(chance, bits(greatest)..=31);
        }

        /// "Width = width code + width reference."
        fn set_widths(&mut self, chance: &mut Numbers) {
            let widths = || self.groups.iter().map(|group| group.width);
            let (least, greatest) = (widths().min().unwrap_or(0), widths().max().unwrap_or(0));
            self.width_reference = one_of(chance, 0..=least);
            self.width_bits = one_of(chance, bits(greatest - self.width_reference)..=32);
        }

        fn set_lengths(&mut self, chance: &mut Numbers) {
            let others = &self.groups[..self.groups.len() - 1];
            let least = others.iter().map(|group| group.length).min().unwrap_or(u32::MAX.into());
            let reference = one_of(chance, 0..=least);
            let increments: Vec<u64> = (0..=255).filter(|increment| self.reaches(reference, *increment)).collect();
            let increment = increments[one_of(chance, 0..=increments.len() as u64 - 1) as usize];
            self.set_length_codes(chance, reference, increment);
        }

        /// "Length = length code × increment + length reference, except that the last group's length is the template's
        /// own number": whether there is a code for each length.
        pub fn reaches(&self, reference: u64, increment: u64) -> bool {
            self.groups[..self.groups.len() - 1].iter().all(|group| match group.length.checked_sub(reference) {
                Some(difference) if increment > 0 => difference % increment == 0,
                difference => difference == Some(0),
            })
        }

        /// With increment 0 a code may be anything.
        pub fn set_length_codes(&mut self, chance: &mut Numbers, reference: u64, increment: u64) {
            (self.length_reference, self.increment) = (reference, increment);
            let last = self.groups.len() - 1;
            for group in &mut self.groups[..last] {
                group.length_code = match increment {
                    0 => chance.below(1 << 32) >> chance.below(33),
                    _ => (group.length - reference) / increment,
                };
            }
            let greatest = self.groups[..last].iter().map(|group| group.length_code).max().unwrap_or(0);
            self.length_bits = one_of(chance, bits(greatest)..=32);
            self.set_last_code(chance);
        }

        /// "its length code is ignored"
        fn set_last_code(&mut self, chance: &mut Numbers) {
            let last = self.groups.len() - 1;
            self.groups[last].length_code = one_of(chance, 0..=(1 << self.length_bits) - 1);
        }

        /// "Pad bits and octets after the last value are ignored."
        fn set_pads(&mut self, chance: &mut Numbers) {
            self.pads = match chance.below(3) {
                0 => [0; 4],
                1 => [0xFF; 4],
                _ => std::array::from_fn(|_| chance.any() as u8),
            };
        }

        fn set_spare(&mut self, chance: &mut Numbers) {
            self.spare = (0..chance.below(6)).map(|_| chance.any() as u8).collect();
        }

        /// "group references at the number width, width codes, length codes, values", "each starting on an octet".
        pub fn write(&self, numbers: &[u32]) -> Input {
            let groups = || self.groups.iter();
            let references = groups().map(|group| (self.number_width, group.reference)).collect();
            let width_codes = groups().map(|group| (self.width_bits, group.width - self.width_reference)).collect();
            let length_codes = groups().map(|group| (self.length_bits, group.length_code)).collect();
            let values = groups().zip(self.grouped(numbers)).flat_map(|(group, numbers)| {
                numbers.iter().map(move |number| (group.width, u64::from(*number) - group.reference))
            });
            let fields = [references, width_codes, length_codes, values.collect()].into_iter().zip(self.pads);
            let fields = fields.flat_map(|(field, pads)| padded(pads, field));
            let widths = (self.width_reference as u8, self.width_bits as u8);
            let last = self.groups[self.groups.len() - 1].length as u32;
            let lengths = (self.length_reference as u32, self.increment as u8, last, self.length_bits as u8);
            let template = template(self.number_width as u8, self.groups.len() as u32, widths, lengths);
            Input {
                template: Template { missing: self.missing as u8, ..template },
                differences: None,
                declared: numbers.len() as u32,
                payload: fields.chain(self.spare.iter().copied()).collect(),
            }
        }
    }
}

/// A packing of these numbers by the writer.
fn written(chance: &mut Numbers, numbers: &[u32]) -> Input {
    Choices::by_chance(chance, numbers).write(numbers)
}

/// The points of a packing, from the view over lent octets. All octets are those of the points; and turned into
/// numbers, the view and the list are the same.
fn unpacked(input: &Input) -> Vec<Point> {
    let mut lent = vec![0xEE; input.declared as usize * POINT_OCTETS];
    let view = input.view(&mut lent).unwrap_or_else(|refusal| panic!("{refusal}, {input:02X?}"));
    let points: Vec<Point> = view.iter().collect();
    assert_eq!(numbers_of_points(view), numbers_of_points(&points), "{input:02X?}");
    assert!(lent == octets_of(&points), "{input:02X?}");
    points
}

/// What packing left in lent octets.
#[derive(Clone, Debug, PartialEq, Eq)]
struct Packed {
    template: Template,
    groups: Vec<Group>,
    /// The eight template numbers, as they stand in the summary, and the payload octets.
    sent: ([u8; 32], Vec<u8>),
}

impl Packed {
    /// To be unpacked, with as many points declared as the list had.
    fn input(&self, declared: usize) -> Input {
        let (_, payload) = self.sent.clone();
        Input { template: self.template, differences: None, declared: declared as u32, payload }
    }
}

/// Packs numbers in lent octets.
fn packed_numbers(numbers: &[u32], lookahead: u32) -> Result<Packed, Refusal> {
    let count = numbers.len();
    let (mut groups, mut payload) = (vec![0xEE; count * GROUP_OCTETS], vec![0xEE; 10 * count + 4]);
    let mut summary = [0xEE; SUMMARY_OCTETS];
    let packed = pack_into(lookahead, &numbers_as_octets(numbers), &mut groups, &mut payload, &mut summary)?;
    let sent = (summary[..32].try_into().expect("eight numbers"), packed.payload.to_vec());
    Ok(Packed { template: packed.template, groups: packed.groups.iter().collect(), sent })
}

/// Turns points into numbers and packs them.
fn packed(points: &[Point], lookahead: u32) -> Packed {
    packed_numbers(&numbers_of(points), lookahead).expect("a map to pack")
}

/// The points of these numbers.
fn points_of(numbers: &[u32]) -> Vec<Point> {
    numbers.iter().map(|number| Point::Number((*number).into())).collect()
}

/// The numbers of points.
fn numbers_of(points: &[Point]) -> Vec<u32> {
    numbers_of_points(points).expect("a map without missing points")
}

/// The claim, on two packings that hold these numbers: both are accepted and have those points; packed again with one
/// lookahead, they have equal template numbers and payload octets exactly when the numbers are the same in the same
/// order; what was packed unpacks to them; and unpacking and packing again changes no template number and no octet.
fn hold(numbers: [&[u32]; 2], inputs: [&Input; 2], lookahead: u32) {
    let points = inputs.map(unpacked);
    for place in 0..2 {
        assert!(points[place] == points_of(numbers[place]), "{:?}, {:02X?}", numbers[place], inputs[place]);
    }
    let again = [packed(&points[0], lookahead), packed(&points[1], lookahead)];
    let same = numbers[0] == numbers[1];
    assert_eq!(again[0].sent == again[1].sent, same, "k {lookahead}, {numbers:?}, {inputs:02X?}");
    assert!(again[0].groups == again[1].groups || !same, "k {lookahead}, {numbers:?}, {inputs:02X?}");
    for place in 0..2 {
        let once_more = unpacked(&again[place].input(numbers[place].len()));
        assert!(once_more == points[place], "k {lookahead}, {:?}", numbers[place]);
        assert!(packed(&once_more, lookahead) == again[place], "k {lookahead}, {:?}", numbers[place]);
    }
}

const LOOKAHEADS: [u32; 6] = [1, 2, 3, 8, 64, GREATEST_LOOKAHEAD];

/// "Pack ten 0, 310 times 8, five 0, k 1": a step of 300.
fn step_of_300() -> Vec<u32> {
    [vec![0; 10], vec![8; 310], vec![0; 5]].concat()
}

/// Constant, rising, falling, in steps, noisy, with the least and the greatest numbers; most of them small.
fn maps_of_every_kind() -> Vec<Vec<u32>> {
    let mut chance = Numbers::new(70);
    let mut noise = |bits: u32, count: u32| (0..count).map(|_| chance.below(1 << bits) as u32).collect();
    let greatest = GREATEST_NUMBER;
    vec![
        vec![0],
        vec![1],
        vec![5],
        vec![greatest - 1],
        vec![greatest],
        vec![0; 9],
        vec![5; 40],
        vec![greatest; 7],
        vec![0, greatest],
        vec![5, 6, 5, 7],
        vec![0, 0, 0, 0, 8, 8, 8],
        vec![greatest, greatest - 1, greatest - 2, greatest - 3, 0, 1, 2, 3],
        step_of_300(),
        noise(1, 50),
        noise(3, 90),
        noise(12, 40),
        noise(31, 30),
        maps::rising(70),
        (0..70).rev().collect(),
        maps::sawtooth(1_100),
        (0..120).map(|place| place / 17 * 1_000).collect(),
        maps::alternating(31),
        maps::doubling(64),
        maps::spikes(200),
        maps::comb(60),
        maps::patches(300),
        maps::gust_numbers(300),
    ]
}

#[test]
fn packings_of_one_map() {
    let mut chance = Numbers::new(71);
    let mut pairs = 0;
    for map in maps_of_every_kind() {
        for pair in 0..48 {
            let (one, other) = (written(&mut chance, &map), written(&mut chance, &map));
            hold([&map, &map], [&one, &other], LOOKAHEADS[pair % LOOKAHEADS.len()]);
            pairs += 1;
        }
    }
    println!("{pairs} pairs");
}

/// Two packings that differ in one choice and in what follows from it.
#[test]
fn one_choice_of_the_writer() {
    let mut chance = Numbers::new(72);
    for (name, choose) in Choices::EACH {
        let (mut pairs, mut other_octets) = (0, 0);
        for map in maps_of_every_kind() {
            for pair in 0..12 {
                let one = Choices::by_chance(&mut chance, &map);
                let mut other = one.clone();
                choose(&mut other, &mut chance, &map);
                let (one, other) = (one.write(&map), other.write(&map));
                hold([&map, &map], [&one, &other], LOOKAHEADS[pair % LOOKAHEADS.len()]);
                pairs += 1;
                other_octets += u32::from((one.template, one.payload) != (other.template, other.payload));
            }
        }
        println!("{name}: {pairs} pairs, {other_octets} of different packings");
        assert!(other_octets > pairs / 5, "{name}: too few pairs of different packings: {other_octets}");
    }
}

/// One cut, with every reference and increment that reach its lengths: steps of 255, which is an increment, and of 300,
/// which is none.
#[test]
fn lengths_written_in_every_way() {
    let mut chance = Numbers::new(79);
    for (step, ways) in [(7, 7), (255, 15), (300, 27)] {
        let lengths = [5, 5 + step, 5, 5 + 3 * step, 5 + 2 * step, 3];
        let map = maps::gust_numbers(lengths.iter().sum::<u64>() as u32);
        let mut choices = Choices::by_chance(&mut chance, &map);
        choices.cut_at(&mut chance, &map, &lengths);
        let mut before = choices.write(&map);
        let mut seen = 0;
        for reference in 0..=5 {
            for increment in (0..=255).filter(|increment| choices.reaches(reference, *increment)).collect::<Vec<_>>() {
                choices.set_length_codes(&mut chance, reference, increment);
                let now = choices.write(&map);
                hold([&map, &map], [&before, &now], 8);
                before = now;
                seen += 1;
            }
        }
        assert_eq!(seen, ways, "step {step}");
    }
}

/// A piece of one of the lists, moved up by chance.
fn by_chance(chance: &mut Numbers, lists: &[Vec<u32>]) -> Vec<u32> {
    let list = &lists[chance.below(lists.len() as u64) as usize];
    let most = [3, 12, 60][chance.below(3) as usize];
    let count = 1 + chance.below(most).min(list.len() as u64 - 1);
    let start = chance.below(list.len() as u64 - count + 1) as usize;
    let piece = &list[start..start + count as usize];
    let room = GREATEST_NUMBER - piece.iter().max().expect("a number");
    let farthest = [1, 9, 1 << 31][chance.below(3) as usize];
    let up = chance.below(farthest).min(room.into()) as u32;
    piece.iter().map(|number| number + up).collect()
}

#[test]
fn packings_of_one_map_by_chance() {
    const PAIRS: usize = 3_000;
    let mut chance = Numbers::new(73);
    let lists = maps_of_every_kind();
    let (mut other_cuts, mut other_management) = (0, 0);
    for pair in 0..PAIRS {
        let map = by_chance(&mut chance, &lists);
        let (one, other) = (written(&mut chance, &map), written(&mut chance, &map));
        hold([&map, &map], [&one, &other], LOOKAHEADS[pair % LOOKAHEADS.len()]);
        other_cuts += usize::from(one.template.groups != other.template.groups);
        other_management += usize::from(one.template.missing != other.template.missing);
    }
    println!("{PAIRS} pairs, {other_cuts} of other group counts, {other_management} of other managements");
    assert!(other_cuts > PAIRS / 2 && other_management > PAIRS / 2, "{other_cuts}, {other_management}");
}

/// Thousands of points: gusts of a weather service (samples/README.md), which come under 5.3 and are written under 5.2
/// here, and those of the benchmark.
#[test]
fn packings_of_long_maps() {
    let section5 = Section5::from_octets(include_bytes!("../../samples/gfs-gust-144x73.s5")).expect("a Section 5");
    let service = Input::of_map(&section5, &include_bytes!("../../samples/gfs-gust-144x73.s7")[5..]);
    let mut chance = Numbers::new(74);
    for map in [numbers_of(&unpacked(&service)), maps::gust_numbers(5_000)] {
        assert!(map.len() >= 5_000);
        let packings = [(); 4].map(|()| written(&mut chance, &map));
        for (pair, lookahead) in packings.windows(2).zip([1, 8, GREATEST_LOOKAHEAD]) {
            hold([&map, &map], [&pair[0], &pair[1]], lookahead);
        }
        // One number among thousands, and one point less.
        for place in [0, map.len() / 2, map.len() - 1] {
            let mut other = map.clone();
            other[place] ^= 1;
            hold([&map, &other], [&packings[0], &written(&mut chance, &other)], 8);
            other.clone_from(&map);
            other.remove(place);
            hold([&map, &other], [&packings[0], &written(&mut chance, &other)], 8);
        }
    }
}

/// The maps that are not this one by one number, by one point or by the order of two numbers.
fn close_to(map: &[u32]) -> Vec<Vec<u32>> {
    let mut close = Vec::new();
    let mut changed = |change: &dyn Fn(&mut Vec<u32>)| {
        let mut other = map.to_vec();
        change(&mut other);
        if !other.is_empty() && other != map {
            close.push(other);
        }
    };
    let (first, middle, last) = (0, map.len() / 2, map.len() - 1);
    for place in [first, middle, last] {
        changed(&|map| map[place] = (map[place] + 1).min(GREATEST_NUMBER));
        changed(&|map| map[place] = map[place].saturating_sub(1));
        changed(&|map| map[place] ^= 1 << 30);
        changed(&|map| {
            map.remove(place);
        });
        for number in [map[place], 0, GREATEST_NUMBER] {
            changed(&|map| map.insert(place, number));
        }
        changed(&|map| map.swap(first, place));
        changed(&|map| map.swap(place, last));
        changed(&|map| map.swap(place, (place + 1).min(last)));
    }
    changed(&|map| map.push(map[last]));
    changed(&|map| map.push(0));
    changed(&|map| map.reverse());
    close
}

#[test]
fn packings_of_two_maps() {
    let mut chance = Numbers::new(75);
    let mut lists = maps_of_every_kind();
    lists.extend((0..60).map(|_| by_chance(&mut chance, &lists)).collect::<Vec<_>>());
    let mut pairs = 0;
    for map in lists {
        let one = written(&mut chance, &map);
        for other in close_to(&map) {
            hold([&map, &other], [&one, &written(&mut chance, &other)], LOOKAHEADS[pairs % LOOKAHEADS.len()]);
            pairs += 1;
        }
    }
    println!("{pairs} pairs");
    assert!(pairs > 1_000, "too few pairs: {pairs}");
}

/// All lists of up to five of four numbers: no two have one packing, though each comes in two.
#[test]
fn small_maps_in_full() {
    let mut chance = Numbers::new(76);
    for (values, lookahead) in
        [([0, 1, 2, 3], 1), ([0, 1, 7, 8], 2), ([0, 5, 6, 7], 5), ([4, 5, 1_000, GREATEST_NUMBER], 3)]
    {
        let mut lists = HashMap::new();
        for count in 1..=5 {
            for list in 0..4_usize.pow(count) {
                let numbers: Vec<u32> = (0..count).map(|place| values[list >> (2 * place) & 3]).collect();
                let [one, other] = [(); 2].map(|()| packed(&unpacked(&written(&mut chance, &numbers)), lookahead));
                assert_eq!(one, other, "k {lookahead}, {numbers:?}");
                let before = lists.insert(one.sent, numbers.clone());
                assert_eq!(before, None, "k {lookahead}, {numbers:?}: one packing for two maps");
            }
        }
        assert_eq!(lists.len(), 4 + 16 + 64 + 256 + 1_024);
    }
}

/// Packings by other writers (samples/others.txt), each beside each. Those that the claim is not of are not packed.
#[test]
fn packings_by_other_writers() {
    let accepted = others::maps().into_iter().filter(|map| map.template == 2 && map.refusal.is_none());
    let (mut held, mut too_great, mut missing) = (Vec::new(), 0, 0);
    for map in accepted {
        let input = Input::of_map(&map.section5, &map.payload);
        let points = unpacked(&input);
        if let Some(place) = points.iter().position(|point| !matches!(point, Point::Number(_))) {
            let point = points[place];
            assert_eq!(numbers_of_points(&points), Err(NoNumber { place, point }), "{}", map.id);
            missing += 1;
        } else if numbers_of(&points).into_iter().any(|number| number > GREATEST_NUMBER) {
            assert_eq!(packed_numbers(&numbers_of(&points), 1), Err(Refusal::Numbers), "{}", map.id);
            too_great += 1;
        } else {
            held.push((numbers_of(&points), input));
        }
    }
    assert_eq!((held.len(), too_great, missing), (25, 2, 13));
    for lookahead in [1, 8, GREATEST_LOOKAHEAD] {
        for (one, input) in &held {
            for (other, other_input) in &held {
                hold([one, other], [input, other_input], lookahead);
            }
        }
    }
}

/// What came in another packing, our own with another lookahead among them, becomes what packing the list makes of it.
#[test]
fn packings_with_another_lookahead() {
    let mut chance = Numbers::new(77);
    for map in maps_of_every_kind() {
        let direct = LOOKAHEADS.map(|lookahead| packed_numbers(&map, lookahead).expect("a list to pack"));
        let own = direct.iter().map(|packing| packing.input(map.len()));
        for input in own.chain([written(&mut chance, &map)]) {
            let points = unpacked(&input);
            assert!(points == points_of(&map), "{map:?}, {input:02X?}");
            for (lookahead, direct) in LOOKAHEADS.into_iter().zip(&direct) {
                assert_eq!(packed(&points, lookahead), *direct, "k {lookahead}, {map:?}");
            }
        }
    }
}

/// A writer that chose little would hold little.
#[test]
fn the_writer_chooses_freely() {
    let mut chance = Numbers::new(78);
    let lists = maps_of_every_kind();
    let pieces: Vec<_> = (0..2_000).map(|_| by_chance(&mut chance, &lists)).collect();
    let maps = pieces.iter().chain((0..20).flat_map(|_| &lists));
    let packings: Vec<Choices> = maps.map(|map| Choices::by_chance(&mut chance, map)).collect();
    let seen = |name: &str, test: &dyn Fn(&Choices) -> bool| {
        let count = packings.iter().filter(|choices| test(choices)).count();
        println!("{name}: {count}");
        assert!(count >= 10, "too few of {name}: {count}");
    };
    for missing in 0..=2 {
        let managed = move |choices: &Choices| choices.missing == missing;
        seen(&format!("management {missing}"), &managed);
        seen("width 0 with numbers", &|choices| {
            managed(choices) && choices.groups.iter().any(|group| group.width == 0 && group.length > 0)
        });
        seen("group width 31", &|choices| {
            managed(choices) && choices.groups.iter().any(|group| group.width == 31 && group.length > 0)
        });
        // No missing point: in a group of width above 0 the reference is not tested.
        seen("a reference of all ones beside values", &|choices| {
            let ones = (1 << choices.number_width) - 1;
            let beside = |group: &writer::Group| group.width > 0 && group.length > 0 && group.reference == ones;
            managed(choices) && choices.groups.iter().any(beside)
        });
    }
    let others = |choices: &Choices| choices.groups.split_last().map_or(Vec::new(), |(_, others)| others.to_vec());
    seen("one group", &|choices| choices.groups.len() == 1);
    seen("groups of one number", &|choices| choices.groups.iter().filter(|group| group.length == 1).count() > 4);
    seen("a group without numbers", &|choices| others(choices).iter().any(|group| group.length == 0));
    seen("a last group without numbers", &|choices| choices.groups.last().is_some_and(|group| group.length == 0));
    seen("number width 0", &|choices| choices.number_width == 0);
    seen("number width 31", &|choices| choices.number_width == 31);
    seen("width bits 0", &|choices| choices.width_bits == 0);
    seen("width bits 32", &|choices| choices.width_bits == 32);
    seen("a width reference", &|choices| choices.width_reference > 0 && choices.width_bits > 0);
    seen("length bits 0 of several groups", &|choices| choices.length_bits == 0 && choices.groups.len() > 1);
    seen("length bits 32 of several groups", &|choices| choices.length_bits == 32 && choices.groups.len() > 1);
    for increment in [0, 1, 2, 7] {
        seen(&format!("increment {increment} with codes"), &|choices| {
            choices.increment == increment && others(choices).iter().any(|group| group.length_code > 0)
        });
    }
    seen("a last length code", &|choices| choices.groups.last().is_some_and(|group| group.length_code > 0));
    seen("pads of ones", &|choices| choices.pads == [0xFF; 4]);
    seen("pads of zeros", &|choices| choices.pads == [0; 4]);
    seen("octets after the last value", &|choices| !choices.spare.is_empty());
}

/// The numbers of points, which are the same whatever list the points come in.
fn turned<const COUNT: usize>(points: [Point; COUNT]) -> Result<Vec<u32>, NoNumber> {
    let numbers = numbers_of_points(points);
    let (array, list) = (&points, &points.to_vec());
    assert_eq!((numbers_of_points(array), numbers_of_points(list)), (numbers.clone(), numbers.clone()));
    assert_eq!((numbers_of_points(&list[..]), numbers_of_points(list.clone())), (numbers.clone(), numbers.clone()));
    numbers
}

/// Points become numbers to pack, and no missing point becomes wind. This is the host's own: it is run here, and not
/// proved.
#[test]
fn points_turned_into_numbers() {
    use Point::{Missing1, Missing2, Number};
    assert_eq!(turned([]), Ok(vec![]));
    let numbers = [0, 1, 0x0102_0304, GREATEST_NUMBER, GREATEST_NUMBER + 1, u32::MAX];
    assert_eq!(turned(numbers.map(|number| Number(number.into()))), Ok(numbers.to_vec()));
    let octets = turned([Number(0x0102_0304), Number(7)]).map(|numbers| numbers_as_octets(&numbers));
    assert_eq!(octets, Ok(vec![1, 2, 3, 4, 0, 0, 0, 7]));

    let not =
        [Missing1, Missing2, Number(-1), Number(1 << 32), Number((1 << 32) + 7), Number(i64::MAX), Number(i64::MIN)];
    for point in not {
        for place in 0..4 {
            let mut points = [5, 6, 5, 7].map(Number);
            points[place] = point;
            assert_eq!(turned(points), Err(NoNumber { place, point }));
            // The first is told.
            points[3] = Missing2;
            let point = points[place];
            assert_eq!(turned(points), Err(NoNumber { place, point }));
        }
    }

    let sentence = |point| NoNumber { place: 17, point }.to_string();
    assert_eq!(sentence(Missing1), "the point at place 17 is missing: it has no number");
    assert_eq!(sentence(Missing2), sentence(Missing1));
    assert_eq!(
        sentence(Number(-1)),
        "the point at place 17 holds -1, which is not 0 to 4,294,967,295: no number to pack"
    );
}

/// The claim is of one lookahead from 1 to 65,535: two of them make two packings of one map, any other none.
#[test]
fn two_lookaheads_make_two_packings() {
    let map = [5, 6, 5, 7];
    let [singles, pairs] = [1, 4].map(|lookahead| packed_numbers(&map, lookahead).expect("a list to pack"));
    assert_eq!((singles.template, &singles.sent.1[..]), (template(3, 4, (0, 0), (1, 0, 1, 0)), &[0xBA, 0xF0][..]));
    assert_eq!((pairs.template, &pairs.sent.1[..]), (template(3, 2, (0, 1), (3, 0, 1, 0)), &[0xBC, 0x80, 0x40][..]));
    for packing in [&singles, &pairs] {
        let points = unpacked(&packing.input(4));
        assert_eq!(points, points_of(&map));
        assert_eq!((&packed(&points, 1), &packed(&points, 4)), (&singles, &pairs));
    }
    assert_ne!(singles.sent, pairs.sent);
    for lookahead in [0, GREATEST_LOOKAHEAD + 1] {
        assert_eq!(packed_numbers(&map, lookahead), Err(Refusal::Numbers));
    }
}

/// The claim is of numbers that can be packed: an accepted packing may hold a greater one.
#[test]
fn a_number_above_the_greatest_is_not_packed() {
    let holding = |value| Input {
        template: template(31, 1, (1, 0), (0, 0, 1, 0)),
        differences: None,
        declared: 1,
        payload: vec![0xFF, 0xFF, 0xFF, 0xFE, value],
    };
    assert_eq!(holding(0x80).points(), Ok(vec![Point::Number(2_147_483_648)]));
    let numbers = numbers_of_points(unpacked(&holding(0x80))).expect("four octets hold it");
    assert_eq!(numbers, [2_147_483_648]);
    assert_eq!(packed_numbers(&numbers, 1), Err(Refusal::Numbers));
    // The number below it is packed.
    hold([&[GREATEST_NUMBER]; 2], [&holding(0x00), &holding(0x7F)], 1);
}

/// The claim is of maps without missing points: one with them is no list of numbers.
#[test]
fn a_missing_point_is_not_packed() {
    let managed = |missing| Input {
        template: Template { missing, ..template(3, 2, (0, 1), (3, 0, 1, 0)) },
        differences: None,
        declared: 4,
        payload: vec![0xBC, 0x80, 0x40],
    };
    let turned = |missing| numbers_of_points(unpacked(&managed(missing)));
    assert_eq!(turned(0), Ok(vec![5, 6, 5, 7]));
    assert_eq!(turned(1), Err(NoNumber { place: 1, point: Point::Missing1 }));
    assert_eq!(turned(2), Err(NoNumber { place: 0, point: Point::Missing2 }));
    // "a missing point holds number 0": but for the marks these are the points of another map, and who turned their
    // octets without a look at the marks would make one packing of both.
    let mut octets = octets_of(&unpacked(&managed(1)));
    octets.iter_mut().step_by(POINT_OCTETS).for_each(|mark| *mark = 0);
    assert_eq!(octets, octets_of(&points_of(&[5, 0, 5, 0])));
}

/// The claim is of maps with a point: one without is unpacked, and there is nothing to pack.
#[test]
fn a_map_without_points_is_not_packed() {
    let nothing =
        Input { template: template(0, 1, (0, 0), (0, 0, 0, 0)), differences: None, declared: 0, payload: vec![] };
    let several = Input { template: template(7, 5, (3, 2), (0, 9, 0, 0)), payload: vec![0xFF; 7], ..nothing.clone() };
    for input in [nothing, several] {
        assert_eq!(input.points(), Ok(vec![]));
        let numbers = numbers_of_points(unpacked(&input)).expect("no point is missing");
        assert_eq!(numbers, []);
        assert_eq!(packed_numbers(&numbers, 1), Err(Refusal::Numbers));
    }
}
