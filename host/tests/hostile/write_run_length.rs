//! Writing run-length, template 7.200.

use crate::damage::{self, Chance};
use crate::run_length::{damage_bits, damage_max_level, RunLength};
use crate::support::model::run_length::{answer_written, call_write, written};
use crate::{value, Block, Class, Input, Operation};
use cleatmow::{levels_as_octets, LEVEL_OCTETS, MOST_POINTS};

/// Good lists, each with b and M.
pub struct WriteRunLength(Vec<(u8, u16, Vec<u16>)>);

#[derive(Clone, PartialEq)]
pub struct List {
    bits: u8,
    max_level: u16,
    /// The levels, and a spare octet.
    octets: Vec<u8>,
    /// The octets that are lent for the payload.
    room: usize,
}

/// With as much of the list as can be read.
impl std::fmt::Debug for List {
    fn fmt(&self, f: &mut std::fmt::Formatter) -> std::fmt::Result {
        let List { bits, max_level, octets, room } = self;
        let shown = &octets[..octets.len().min(2_000)];
        write!(f, "b {bits}, M {max_level}, {} octets of levels {shown:02X?}, lent {room}", octets.len())
    }
}

impl Operation for WriteRunLength {
    type Input = List;

    const NAME: &'static str = "writing run-length";

    const REFUSALS: &'static [Class] = &[(5, ""), (13, ""), (10, "")];

    fn damaged(&self, chance: &mut Chance) -> List {
        let (bits, max_level, levels) = chance.one_of(&self.0);
        let octets = levels_as_octets(&levels);
        let right = written((bits, max_level, &octets)).expect("a good list");
        let good = List { bits, max_level, octets, room: right.len() };
        loop {
            let mut list = good.clone();
            for _ in 0..chance.one_of(&[1, 1, 1, 2, 2, 3]) {
                list.damage(chance);
            }
            let enough = list.written().map_or(good.room, |payload| payload.len());
            list.room = damage::room(chance, enough);
            if list != good {
                return list;
            }
        }
    }
}

impl List {
    fn written(&self) -> Result<Vec<u8>, u32> {
        written((self.bits, self.max_level, &self.octets))
    }

    fn damage(&mut self, chance: &mut Chance) {
        let count = self.octets.len() / LEVEL_OCTETS;
        let place = chance.below(count.max(1)) * LEVEL_OCTETS;
        let mut level = |level: u16| self.octets[place..place + LEVEL_OCTETS].copy_from_slice(&level.to_be_bytes());
        let within = chance.below(usize::from(self.max_level) + 1) as u16;
        match chance.below(20) {
            0 => damage_bits(chance, &mut self.bits),
            1 => damage_max_level(chance, self.bits, &mut self.max_level),
            // Levels at and about the greatest; and any that is none too great, so that it stays a good list.
            2 if count > 0 => level(chance.one_of(&[self.max_level, self.max_level.saturating_add(1), u16::MAX])),
            3..=6 if count > 0 => level(within),
            // A longer run.
            7..=9 if count > 0 => {
                let powers = if chance.once_in(1_000) { 17 } else { 9 };
                let longest = 1 << chance.below(powers);
                let one = [self.octets[place], self.octets[place + 1]];
                drop(self.octets.splice(place..place, one.repeat(1 + chance.below(longest))));
            }
            // A stretch of the list once more, or left out.
            10 | 11 if count > 0 => {
                self.octets.extend_from_within(place..);
                self.octets.truncate(6_000);
            }
            12 if count > 0 => drop(self.octets.drain(..place)),
            // As many levels as there may be, and more.
            13 if chance.once_in(5_000) => {
                let most = MOST_POINTS as usize + chance.below(3) - 1;
                self.octets.resize(most * LEVEL_OCTETS, 0);
            }
            13 | 14 => self.octets.truncate(chance.below(self.octets.len() + 1)),
            15 => self.octets.push(chance.any() as u8),
            _ => damage::octets(chance, &mut self.octets),
        }
    }
}

impl Input for List {
    fn lent_at(buffer: usize) -> usize {
        [1, align_of::<u32>()][buffer]
    }

    fn read(&self) -> Vec<&[u8]> {
        vec![&self.octets]
    }

    /// The payload, and the count as the machine has it.
    fn lent(&self) -> Vec<usize> {
        vec![self.room, size_of::<u32>()]
    }

    fn call(&self, read: &mut [Block], lent: &mut [Block]) -> u32 {
        let [payload, count] = lent else { panic!("two are lent") };
        call_write((self.bits, self.max_level, read[0].octets()), payload.octets(), value(count.octets()))
    }

    fn right(&self, lent: &mut [Block]) -> Class {
        let [payload, count] = lent else { panic!("two are lent") };
        let (payload, count) = (payload.octets(), value(count.octets()));
        let (number, left, octets) = answer_written(&self.written(), payload, *count);
        payload.copy_from_slice(&left);
        *count = octets;
        (number, "")
    }
}

impl WriteRunLength {
    /// The levels of the good maps that reading has; and none at all.
    pub fn new() -> WriteRunLength {
        let maps = RunLength::new().0;
        WriteRunLength(maps.iter().map(|map| map.levels()).chain([(4, 9, Vec::new())]).collect())
    }
}
