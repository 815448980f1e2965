//! Document 01's grouping and packing, written plainly for the programs here: where the Rust is no judge, ours is held
//! to this. And what makes lists.
//!
//! `host/tests/support/model/packing.rs` says the same. The two are written apart on purpose, each from document 01 and
//! neither from the other, as two witnesses: a slip of one should not be a slip of both.

use cleatmow::Packing;

use crate::dice::Dice;
use crate::unpacking::{Field, template};
use crate::{Group, Template};

pub const MOST_NUMBERS: usize = 4_194_304;
pub const GREATEST_NUMBER: u32 = 2_147_483_647;
pub const GREATEST_LOOKAHEAD: u32 = 65_535;

/// Whether document 01 refuses to pack this: 13.
pub fn is_refused(numbers: &[u32], lookahead: u32) -> bool {
    let count = 1..=MOST_NUMBERS;
    let greatest = numbers.iter().any(|number| *number > GREATEST_NUMBER);
    !count.contains(&numbers.len()) || greatest || !(1..=GREATEST_LOOKAHEAD).contains(&lookahead)
}

/// What document 01 makes of a list that it does not refuse.
pub struct Coded {
    pub packing: Packing,
    /// The greatest common divisor of the lengths' differences from the least, the last length left out; 0 where there
    /// is no difference.
    pub step: u32,
}

pub fn coded(numbers: &[u32], lookahead: u32) -> Coded {
    let groups = groups_of(numbers, lookahead as usize);
    let all_but_last = &groups[..groups.len() - 1];
    let last = groups[groups.len() - 1];

    let number_width = bits(*numbers.iter().max().expect("a number"));
    let width_reference = groups.iter().map(|group| group.width).min().expect("a group");
    let greatest_width = groups.iter().map(|group| group.width).max().expect("a group");
    let width_bits = bits(greatest_width - width_reference);

    let length_reference = all_but_last.iter().map(|group| group.length).min().unwrap_or(0);
    let differences = || all_but_last.iter().map(|group| group.length - length_reference);
    let step = differences().fold(0, common_divisor);
    let increment = match step {
        0..=255 => step,
        _ => (1..=255).filter(|divisor| step.is_multiple_of(*divisor)).max().expect("1 divides"),
    };
    let code = |difference: u32| difference.checked_div(increment).unwrap_or(0);
    let length_bits = bits(code(differences().max().unwrap_or(0)));

    let codes: Vec<u32> = differences().map(code).chain([0]).collect();
    let mut payload = Vec::new();
    payload.extend(field(groups.iter().map(|group| (group.least, number_width))));
    payload.extend(field(groups.iter().map(|group| (group.width - width_reference, width_bits))));
    payload.extend(field(codes.into_iter().map(|code| (code, length_bits))));
    payload.extend(field(groups.iter().flat_map(|group| {
        let start = group.start as usize;
        let numbers = &numbers[start..start + group.length as usize];
        numbers.iter().map(|number| (number - group.least, group.width))
    })));

    let widths = [number_width, groups.len() as u32, width_reference, width_bits];
    let lengths = [length_reference, increment, last.length, length_bits];
    let template: Template = template([widths, lengths].concat().try_into().expect("eight numbers"));
    Coded { packing: Packing { template, groups, payload }, step }
}

fn groups_of(numbers: &[u32], lookahead: usize) -> Vec<Group> {
    let mut groups: Vec<Group> = Vec::new();
    let mut start = 0;
    while start < numbers.len() {
        let mut end = start + 1;
        let mut window = Window::default().with(numbers[start]);
        while end < numbers.len() {
            let wider = window.with(numbers[end]);
            let ahead = numbers[end..].iter().take(lookahead);
            let cost = ahead.len() as u64 * ahead.fold(Window::default(), |ahead, number| ahead.with(*number)).width();
            let len = (end - start) as u64;
            if len * window.width() + cost < (len + 1) * wider.width() {
                break;
            }
            window = wider;
            end += 1;
        }
        let (least, width) = (window.0.map_or(0, |(least, _)| least), window.width() as u32);
        groups.push(Group { start: start as u32, length: (end - start) as u32, least, width });
        start = end;
    }
    groups
}

/// The least and the greatest of some numbers.
#[derive(Clone, Copy, Default)]
struct Window(Option<(u32, u32)>);

impl Window {
    fn with(self, number: u32) -> Self {
        let (least, greatest) = self.0.unwrap_or((number, number));
        Self(Some((least.min(number), greatest.max(number))))
    }

    fn width(self) -> u64 {
        self.0.map_or(0, |(least, greatest)| bits(greatest - least).into())
    }
}

/// The count of binary digits, 0 for 0.
fn bits(number: u32) -> u32 {
    u32::BITS - number.leading_zeros()
}

fn common_divisor(a: u32, b: u32) -> u32 {
    if b == 0 { a } else { common_divisor(b, a % b) }
}

fn field(numbers: impl Iterator<Item = (u32, u32)>) -> Vec<u8> {
    let mut field = Field::default();
    for (number, width) in numbers {
        field.add(number.into(), width.into());
    }
    field.octets
}

/// A group as the C call leaves it in the group list: start, length, least number, width.
pub fn group_octets(group: &Group) -> Vec<u8> {
    [group.start, group.length, group.least, group.width].map(u32::to_be_bytes).concat()
}

/// A packing's ten numbers as the C call leaves them in the summary.
pub fn summary_octets(template: &Template, group_count: usize, payload_length: usize) -> Vec<u8> {
    let Template { number_width, groups, width_reference, width_bits, .. } = *template;
    let Template { length_reference, length_increment, last_length, length_bits, .. } = *template;
    let widths = [number_width.into(), groups, width_reference.into(), width_bits.into()];
    let lengths = [length_reference, length_increment.into(), last_length, length_bits.into()];
    let counts = [group_count as u32, payload_length as u32];
    [&widths[..], &lengths, &counts].concat().into_iter().flat_map(u32::to_be_bytes).collect()
}

/// The shapes of made lists.
#[derive(Clone, Copy, Debug, PartialEq, Eq)]
pub enum Shape {
    /// Any numbers of a range.
    Range,
    /// A walk up and down.
    Walk,
    /// Flat patches, many of them long.
    Patches,
    /// Patches of few bits about different levels.
    Levels,
    /// Rising and falling back, over and over.
    Sawtooth,
    /// Powers of two, in their order or not.
    Powers,
    /// All equal, or all but a few.
    Equal,
    /// Far apart by turns.
    Alternating,
}

impl Shape {
    pub const ALL: [Self; 8] = [
        Self::Range,
        Self::Walk,
        Self::Patches,
        Self::Levels,
        Self::Sawtooth,
        Self::Powers,
        Self::Equal,
        Self::Alternating,
    ];

    /// So many numbers, at least one, the greatest of them up to 2^31 − 1. A flat patch is at most so long.
    pub fn list(self, dice: &mut Dice, count: usize, longest: u64) -> Vec<u32> {
        let bits = dice.one_of(&[1, 2, 3, 5, 8, 12, 20, 30, 31]);
        let range = 1_u64 << bits;
        // At the very front, at the very end, or somewhere between.
        let last = (1 << 31) - range;
        let base = match dice.below(4) {
            0 => 0,
            1 => last,
            _ => dice.below(last + 1),
        };
        let period = 2 + dice.below(30);
        let mut numbers = Vec::new();
        let mut here = dice.below(range);
        while numbers.len() < count {
            let place = numbers.len() as u64;
            let mut times = 1;
            let number = match self {
                Self::Range => dice.below(range),
                Self::Walk => {
                    let far = 1 << dice.below(bits.min(6) + 1);
                    here = (here + dice.below(2 * far + 1)).saturating_sub(far).min(range - 1);
                    here
                }
                Self::Patches => {
                    times = 1 + dice.below(longest);
                    dice.below(range)
                }
                Self::Levels => {
                    if place.is_multiple_of(period) {
                        here = dice.below(range);
                    }
                    (here + dice.below(4)).min(range - 1)
                }
                Self::Sawtooth => place % period * (range / period + 1) % range,
                Self::Powers if period.is_multiple_of(2) => (1 << (place % bits)) % range,
                Self::Powers => (1 << dice.below(bits)) % range,
                Self::Equal if period < 8 && dice.once_in(period) => dice.below(range),
                Self::Equal => here,
                Self::Alternating => place % 2 * (range - 1),
            };
            numbers.resize(numbers.len() + times as usize, (base + number) as u32);
        }
        numbers.truncate(count);
        numbers
    }
}

/// With lookahead 1 each flat patch is a group: a list whose groups have these lengths.
pub fn patches(lengths: &[u64]) -> Vec<u32> {
    let patch = |(place, length): (usize, &u64)| vec![place as u32 % 2 * 8; *length as usize];
    lengths.iter().enumerate().flat_map(patch).collect()
}
