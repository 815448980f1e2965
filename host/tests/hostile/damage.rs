//! Chance, and what it does to octets and numbers.

use crate::support::maps::Numbers;

/// Chance that is the same in every run.
pub struct Chance(pub Numbers);

impl Chance {
    pub fn any(&mut self) -> u64 {
        self.0.any()
    }

    /// From 0 to below the bound.
    pub fn below(&mut self, bound: usize) -> usize {
        self.0.below(bound as u64) as usize
    }

    pub fn once_in(&mut self, times: usize) -> bool {
        self.below(times) == 0
    }

    pub fn one_of<T: Clone>(&mut self, choices: &[T]) -> T {
        choices[self.below(choices.len())].clone()
    }
}

/// Bits turned over, octets changed, the end cut off, octets added or taken out.
pub fn octets(chance: &mut Chance, octets: &mut Vec<u8>) {
    let len = octets.len();
    let place = chance.below(len.max(1));
    let some = 1 + chance.below(8);
    let fill = chance.any() as u8;
    let fill = chance.one_of(&[0, 0xFF, fill]);
    match chance.below(12) {
        0..=2 if len > 0 => octets[place] ^= 1 << chance.below(8),
        3 if len > 0 => {
            for _ in 0..some {
                octets[chance.below(len)] ^= 1 << chance.below(8);
            }
        }
        4 if len > 0 => octets[place] = chance.any() as u8,
        5 if len > 0 => octets[place..len.min(place + some)].fill(fill),
        6 => octets.truncate(place),
        7 => octets.truncate(len.saturating_sub(some)),
        8 if len > 0 => drop(octets.remove(place)),
        9 => octets.insert(place, chance.any() as u8),
        10 => octets.extend((0..some).map(|_| chance.any() as u8)),
        _ => octets.resize(len + some, fill),
    }
}

/// Another number of so many bits: at a limit, close by, with a bit turned over, or any.
pub fn number(chance: &mut Chance, number: u32, bits: u32, limits: &[u32]) -> u32 {
    let other = match chance.below(6) {
        0 | 1 => chance.one_of(limits),
        2 => number.wrapping_add(1),
        3 => number.wrapping_sub(1),
        4 => number ^ 1 << chance.below(bits as usize),
        _ => chance.any() as u32,
    };
    other & (u32::MAX >> (u32::BITS - bits))
}

/// The same for a number of one octet.
pub fn octet(chance: &mut Chance, octet: &mut u8, limits: &[u32]) {
    *octet = number(chance, (*octet).into(), 8, limits) as u8;
}

/// The same for a number of four octets.
pub fn long(chance: &mut Chance, long: &mut u32, limits: &[u32]) {
    *long = number(chance, *long, 32, limits);
}

/// How many octets to lend where so many are enough: most often just those, and else fewer or more.
pub fn room(chance: &mut Chance, enough: usize) -> usize {
    match chance.below(12) {
        0 => chance.below(enough + 1),
        1 => enough.saturating_sub(1),
        2 => enough.saturating_sub(1 + chance.below(16)),
        3 => 0,
        4..=6 => enough + 1 + chance.below(40),
        _ => enough,
    }
}

/// The greatest count that a damaged map is declared anew with: a few thousand, and now and then far more.
pub fn most_points(chance: &mut Chance) -> u128 {
    if chance.once_in(50_000) {
        4_194_304
    } else if chance.once_in(1_000) {
        100_000
    } else {
        3_000
    }
}

/// The limits of a declared count.
pub const DECLARED: [u32; 6] = [0, 1, 4_194_303, 4_194_304, 4_194_305, u32::MAX];
