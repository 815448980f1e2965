//! Run-length, template 7.200.

use crate::damage::{self, Chance, DECLARED};
use crate::support::maps::{rain, Numbers};
use crate::support::model::run_length::{answer, call, coded, codes_of, good, padding_codes, points, runs};
use crate::support::{model, others};
use crate::unpacking::real_maps;
use crate::{Block, Class, Input, Operation, ACCEPTED};
use cleatmow::{TemplateNumbers, LEVEL_OCTETS};

/// Accepted by document 02, No. 4: the declared count is reached, and what is left is padding.
const BEFORE_PADDING: Class = (0, "before padding");

/// Good maps, each with its own count declared.
pub struct RunLength(pub Vec<Map>);

#[derive(Clone, Debug, PartialEq)]
pub struct Map {
    bits: u8,
    max_level: u16,
    declared: u32,
    payload: Vec<u8>,
}

#[derive(Debug, PartialEq)]
pub struct Reading {
    map: Map,
    /// The octets that are lent for the levels.
    room: usize,
}

impl Operation for RunLength {
    type Input = Reading;

    const NAME: &'static str = "run-length";

    const ACCEPTED: &'static [Class] = &[ACCEPTED, BEFORE_PADDING];

    const REFUSALS: &'static [Class] = &[(5, ""), (11, ""), (9, ""), (10, "")];

    fn damaged(&self, chance: &mut Chance) -> Reading {
        let map = chance.one_of(&self.0);
        let most = damage::most_points(chance);
        let good = Reading { room: map.declared as usize * LEVEL_OCTETS, map };
        loop {
            let mut map = good.map.clone();
            for _ in 0..chance.one_of(&[1, 1, 1, 2, 2, 3, 4]) {
                damage(chance, &mut map);
            }
            let count = map.count();
            if count <= most && !chance.once_in(3) {
                map.declared = count as u32;
                let padding = map.padding();
                if padding > 0 && !chance.once_in(3) {
                    // Only padding is left then, or one code more than that.
                    map.declared = map.declared.saturating_sub(1 + chance.below(padding + 1) as u32);
                }
            }
            // More is not lent: 9 comes before 10.
            let declared = if u128::from(map.declared) <= most { map.declared } else { good.map.declared };
            let room = damage::room(chance, declared as usize * LEVEL_OCTETS);
            let copy = Reading { map, room };
            if copy != good {
                return copy;
            }
        }
    }
}

fn damage(chance: &mut Chance, map: &mut Map) {
    match chance.below(18) {
        0..=9 => damage::octets(chance, &mut map.payload),
        10 => damage_bits(chance, &mut map.bits),
        11 => damage_max_level(chance, map.bits, &mut map.max_level),
        12 | 13 => damage::long(chance, &mut map.declared, &DECLARED),
        _ => {
            // Zero bits at the end, as far as they can be padding.
            let zeros = 1 + chance.below(7);
            if let Some(last) = map.payload.last_mut() {
                *last = *last >> zeros << zeros;
            }
        }
    }
}

pub fn damage_bits(chance: &mut Chance, bits: &mut u8) {
    damage::octet(chance, bits, &[0, 1, 2, 15, 16, 17, 255]);
}

pub fn damage_max_level(chance: &mut Chance, bits: u8, max_level: &mut u16) {
    let beyond = 1 << (bits % 16);
    let limits = [0, 1, beyond - 1, beyond, beyond.max(2) - 2, u16::MAX.into()];
    *max_level = damage::number(chance, (*max_level).into(), 16, &limits) as u16;
}

impl Map {
    /// The points that it has; 0 where it is refused before they are counted.
    fn count(&self) -> u128 {
        runs(self.bits, self.max_level, &self.payload).map_or(0, |runs| points(&runs))
    }

    /// b, M and its levels.
    pub fn levels(&self) -> (u8, u16, Vec<u16>) {
        let runs = runs(self.bits, self.max_level, &self.payload).expect("a good map");
        let levels = runs.into_iter().flat_map(|(level, length)| vec![level; length as usize]);
        (self.bits, self.max_level, levels.collect())
    }

    /// The codes at its end that may be left unread; 0 where it is refused before they are counted.
    fn padding(&self) -> usize {
        runs(self.bits, self.max_level, &self.payload).map_or(0, |_| padding_codes(self.bits, &self.payload) as usize)
    }
}

impl Input for Reading {
    fn read(&self) -> Vec<&[u8]> {
        vec![&self.map.payload]
    }

    fn lent(&self) -> Vec<usize> {
        vec![self.room]
    }

    fn call(&self, read: &mut [Block], lent: &mut [Block]) -> u32 {
        let Map { bits, max_level, declared, .. } = self.map;
        call((bits, max_level, declared, read[0].octets()), lent[0].octets())
    }

    fn right(&self, lent: &mut [Block]) -> Class {
        let Map { bits, max_level, declared, payload } = &self.map;
        let lent = lent[0].octets();
        let (number, left) = answer((*bits, *max_level, *declared, payload), lent);
        lent.copy_from_slice(&left);
        if number == 0 && self.map.count() > u128::from(*declared) {
            BEFORE_PADDING
        } else {
            (number, "")
        }
    }
}

impl RunLength {
    /// The documents' cases, parts of the real maps with their numbers for levels, small maps by other writers, and made
    /// ones.
    pub fn new() -> RunLength {
        let mut chance = Chance(Numbers::new(200));
        let map = |bits, max_level, payload: &[u8]| Map { bits, max_level, declared: 0, payload: payload.to_vec() };
        let mut maps = vec![map(4, 9, &[0x3C, 0xB5]), map(4, 9, &[0x3C, 0x50])];
        for real in real_maps() {
            let numbers = model::points(&real).expect("a good map");
            let levels: Vec<u16> = numbers.iter().map(|(_, number)| *number as u16).collect();
            maps.extend((0..100).map(|_| part(&mut chance, &levels)));
        }
        for other in others::maps().iter().filter(|other| other.template == 200 && other.refusal.is_none()) {
            let TemplateNumbers::RunLength { bits, max_level } = other.section5.numbers else {
                panic!("a map of levels: {:?}", other.section5);
            };
            maps.push(map(bits, max_level, &other.payload));
        }
        for points in [1, 2, 5, 30, 100, 1_000, 3_000] {
            maps.push(map(8, 200, &rain(points).payload));
        }
        // Up to b 7 a code can be padding.
        for bits in (1..=15).chain(1..=7).chain(1..=7).cycle().take(870) {
            let greatest = (1 << bits) - 1;
            let any = chance.below(greatest + 1);
            let max_level = chance.one_of(&[0, 1, greatest / 2, greatest - 1, greatest, any, any]) as u16;
            let payload = good(&mut chance.0, bits, max_level);
            maps.push(map(bits, max_level, &payload));
        }
        for map in &mut maps {
            map.declared = map.count() as u32;
        }
        // A long one takes as much time as a thousand others.
        maps.retain(|map| map.declared <= 3_000);
        RunLength(maps)
    }
}

/// Up to sixty levels that follow one another, with codes of any bits that hold them and a digit.
fn part(chance: &mut Chance, levels: &[u16]) -> Map {
    let first = chance.below(levels.len());
    let levels: Vec<u16> = levels[first..].iter().take(1 + chance.below(60)).copied().collect();
    let greatest = levels.iter().copied().max().unwrap_or(0);
    // The base is at least 2.
    let least_bits = (u16::BITS - (greatest + 2).leading_zeros()) as usize;
    let bits = least_bits + chance.below(16 - least_bits);
    let max_level = usize::from(greatest) + chance.below((1 << bits) - 2 - usize::from(greatest));
    let (bits, max_level) = (bits as u8, max_level as u16);
    Map { bits, max_level, declared: 0, payload: coded(bits, &codes_of(bits, max_level, &levels)) }
}
