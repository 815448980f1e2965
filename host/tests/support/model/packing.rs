//! Grouping and packing as document 01 says it, written as it reads, without care for speed. And what makes lists.
//!
//! `oracle/src/packing.rs` says the same. The two are written apart on purpose, each from document 01 and neither from
//! the other, as two witnesses: a slip of one should not be a slip of both.

use super::{field, template};
use crate::support::guarded;
use crate::support::maps::Numbers;
use cleatmow::{Group, Packing, Template};

/// "Let bits(x) be the count of binary digits of x, 0 for 0."
fn bits(x: u64) -> u64 {
    u64::from(u64::BITS - x.leading_zeros())
}

/// "bits(their max − min)"
fn width(numbers: &[u64]) -> u64 {
    let (greatest, least) = (numbers.iter().max(), numbers.iter().min());
    greatest.zip(least).map_or(0, |(greatest, least)| bits(greatest - least))
}

/// "A group starts with one number." "If len·w + that cost is less than (len + 1)·w', the group ends before it;
/// otherwise it is taken in."
fn length(numbers: &[u64], k: usize) -> usize {
    let (mut least, mut greatest) = (numbers[0], numbers[0]);
    for (len, next) in numbers.iter().enumerate().skip(1) {
        let w = bits(greatest - least);
        (least, greatest) = (least.min(*next), greatest.max(*next));
        let new_width = bits(greatest - least);
        let ahead = &numbers[len..numbers.len().min(len + k)];
        let cost = ahead.len() as u64 * width(ahead);
        if len as u64 * w + cost < (len as u64 + 1) * new_width {
            return len;
        }
    }
    numbers.len()
}

fn groups(numbers: &[u64], k: usize) -> Vec<Group> {
    let mut groups = Vec::new();
    let mut start = 0;
    while start < numbers.len() {
        let length = length(&numbers[start..], k);
        let group = &numbers[start..start + length];
        groups.push(Group {
            start: start as u32,
            length: length as u32,
            least: *group.iter().min().unwrap() as u32,
            width: width(group) as u32,
        });
        start += length;
    }
    groups
}

/// Length reference, increment and length bits: "With one group, length reference, increment and length bits are 0.
/// Otherwise take all lengths but the last".
fn lengths(lengths: &[u64]) -> (u64, u64, u64) {
    let Some((_, lengths)) = lengths.split_last().filter(|(_, rest)| !rest.is_empty()) else {
        return (0, 0, 0);
    };
    let reference = *lengths.iter().min().unwrap();
    let differences: Vec<u64> = lengths.iter().map(|length| length - reference).collect();
    let greatest = *differences.iter().max().unwrap();
    let divides_all = |divisor: &u64| differences.iter().all(|difference| difference % divisor == 0);
    let Some(step) = (1..=greatest).rev().find(divides_all) else {
        return (reference, 0, 0);
    };
    let increment = (1..=255).rev().find(|divisor| step % divisor == 0).unwrap();
    (reference, increment, bits(greatest / increment))
}

pub fn packing(numbers: &[u32], lookahead: u32) -> Packing {
    let numbers: Vec<u64> = numbers.iter().map(|number| u64::from(*number)).collect();
    let groups = groups(&numbers, lookahead as usize);
    let number_width = bits(*numbers.iter().max().unwrap());
    let widths = || groups.iter().map(|group| u64::from(group.width));
    let least = widths().min().unwrap();
    let width_bits = bits(widths().max().unwrap() - least);
    let group_lengths: Vec<u64> = groups.iter().map(|group| u64::from(group.length)).collect();
    let (reference, increment, length_bits) = lengths(&group_lengths);
    let last = groups.last().unwrap().length;

    let references = groups.iter().map(|group| (number_width, u64::from(group.least)));
    let width_codes = widths().map(|width| (width_bits, width - least));
    // "The last length code is written 0."
    let codes = groups[..groups.len() - 1].iter().map(|group| (u64::from(group.length) - reference) / increment.max(1));
    let length_codes = codes.chain([0]).map(|code| (length_bits, if length_bits == 0 { 0 } else { code }));
    let values = groups.iter().flat_map(|group| {
        let start = group.start as usize;
        let numbers = &numbers[start..start + group.length as usize];
        numbers.iter().map(|number| (u64::from(group.width), number - u64::from(group.least)))
    });
    let payload = [field(0, references), field(0, width_codes), field(0, length_codes), field(0, values)].concat();
    let length = (reference as u32, increment as u8, last, length_bits as u8);
    let template = template(number_width as u8, groups.len() as u32, (least as u8, width_bits as u8), length);
    Packing { template, groups, payload }
}

/// 13: "list empty or above 4,194,304 numbers, a number above 2,147,483,647, lookahead outside 1 to 65,535".
pub fn is_refused(numbers: &[u32], lookahead: u32) -> bool {
    numbers.is_empty()
        || numbers.len() > 4_194_304
        || numbers.iter().any(|number| *number > 2_147_483_647)
        || !(1..=65_535).contains(&lookahead)
}

/// What a call leaves in the group list, the payload and the summary.
pub struct Left {
    pub groups: Vec<u8>,
    pub payload: Vec<u8>,
    pub summary: Vec<u8>,
}

/// The answer, and what is left of these. The packing is that of the numbers, where they are not refused.
pub fn answer(packing: Option<&Packing>, mut left: Left) -> (u32, Left) {
    let Some(packing) = packing else {
        return (13, left);
    };
    if left.summary.len() < 40 {
        return (10, left);
    }
    // "10 for the group list leaves the first groups in all lent slots"
    for (slot, group) in left.groups.chunks_exact_mut(16).zip(&packing.groups) {
        slot.copy_from_slice(&[group.start, group.length, group.least, group.width].map(u32::to_be_bytes).concat());
    }
    if left.groups.len() / 16 < packing.groups.len() || left.payload.len() < packing.payload.len() {
        return (10, left);
    }
    left.payload[..packing.payload.len()].copy_from_slice(&packing.payload);
    left.summary[..40].copy_from_slice(&summary(packing));
    (0, left)
}

/// What the call answers, and leaves in the lent group list, payload and summary. Where views are answered, they are of
/// the packing's groups and payload at the front of what was lent for them, and of nothing past them.
pub fn call(lookahead: u32, numbers: &[u8], lent: [&mut [u8]; 3], right: Option<&Packing>) -> u32 {
    let [groups, payload, summary] = lent;
    let (groups_front, payload_front) = (groups.as_ptr(), payload.as_ptr());
    match cleatmow::pack_into(lookahead, numbers, groups, payload, summary) {
        Ok(packed) => {
            let right = right.expect("numbers that are not refused");
            guarded::hold_view(packed.groups, groups_front, right.groups.len());
            assert!(packed.groups.iter().eq(right.groups.iter().copied()));
            assert_eq!((packed.payload.as_ptr(), packed.payload), (payload_front, &right.payload[..]));
            assert_eq!(packed.template, right.template);
            0
        }
        Err(refusal) => refusal.number(),
    }
}

/// "Packing's eight template numbers, in the order of the cases, the group count and the payload length"
pub fn summary(packing: &Packing) -> Vec<u8> {
    let Template { number_width, groups, width_reference, width_bits, .. } = packing.template;
    let Template { length_reference, length_increment, last_length, length_bits, .. } = packing.template;
    let widths = [number_width.into(), groups, width_reference.into(), width_bits.into()];
    let lengths = [length_reference, length_increment.into(), last_length, length_bits.into()];
    let counts = [packing.groups.len() as u32, packing.payload.len() as u32];
    [&widths[..], &lengths, &counts].concat().into_iter().flat_map(u32::to_be_bytes).collect()
}

/// A list of one of the shapes that grouping may stumble over.
pub fn list_by_chance(chance: &mut Numbers, count: u64) -> Vec<u32> {
    let bits = chance.below(32);
    let bound = 1 << bits;
    let base = chance.below((1 << 31) - bound + 1);
    let period = 1 + chance.below(12);
    let mut walk = chance.below(bound);
    let mut patch = (0, 0);
    let shape = chance.below(12);
    let number = |place: u64, chance: &mut Numbers| match shape {
        0 => chance.below(bound),
        1 => place % bound,
        2 => (bound - 1).saturating_sub(place),
        3 => place % period % bound,
        4 => place % 2 * (bound - 1),
        5 => (1 << (place % 31)) % bound,
        6 => bound - 1,
        // Equal, but for one number in a few.
        7 if chance.below(period) == 0 => chance.below(bound),
        7 => 0,
        // A walk.
        8 | 9 => {
            let far = 1 << chance.below(6);
            walk = (walk + chance.below(2 * far + 1)).saturating_sub(far).min(bound - 1);
            walk
        }
        // Patches, flat or of few bits.
        _ => {
            if chance.below(period) == 0 {
                let range = 1 << chance.below(bits + 1);
                patch = (chance.below(bound - range + 1), if shape == 10 { 1 } else { range });
            }
            patch.0 + chance.below(patch.1.max(1))
        }
    };
    let mut number = number;
    (0..count).map(|place| (base + number(place, chance)) as u32).collect()
}
