//! Grouping and packing.

use crate::damage::{self, Chance};
use crate::support::maps::{self, Numbers};
use crate::support::model::packing::{answer, call, is_refused, list_by_chance, packing, Left};
use crate::support::{model, others};
use crate::unpacking::real_maps;
use crate::{Block, Class, Input, Operation};
use cleatmow::{
    numbers_as_octets, Packing, GREATEST_LOOKAHEAD, GREATEST_NUMBER, GROUP_OCTETS, MOST_NUMBERS, NUMBER_OCTETS,
    SUMMARY_OCTETS,
};

/// Good lists.
pub struct Pack(Vec<Vec<u32>>);

pub struct List {
    lookahead: u32,
    /// The numbers, and spare octets short of one.
    octets: Vec<u8>,
    /// The octets that are lent for the group list, the payload and the summary.
    lent: [usize; 3],
    /// What document 01 makes of it, where it does not refuse it with 13.
    right: Option<Packing>,
}

/// Without what it becomes.
impl std::fmt::Debug for List {
    fn fmt(&self, f: &mut std::fmt::Formatter) -> std::fmt::Result {
        let List { lookahead, octets, lent, .. } = self;
        let shown = &octets[..octets.len().min(2_000)];
        write!(f, "lookahead {lookahead}, {} octets of numbers {shown:02X?}, lent {lent:?}", octets.len())
    }
}

const SUMMARY: &str = "summary";
const GROUP_LIST: &str = "group list";
const PAYLOAD: &str = "payload";

impl Operation for Pack {
    type Input = List;

    const NAME: &'static str = "packing";

    const REFUSALS: &'static [Class] = &[(13, ""), (10, SUMMARY), (10, GROUP_LIST), (10, PAYLOAD)];

    fn damaged(&self, chance: &mut Chance) -> List {
        let good = numbers_as_octets(&chance.one_of(&self.0));
        let lookahead = match chance.below(4) {
            0 => chance.one_of(&[64, 1_024, GREATEST_LOOKAHEAD]),
            _ => 1 + chance.below(20) as u32,
        };
        loop {
            let mut list = List { lookahead, octets: good.clone(), lent: [0; 3], right: None };
            for _ in 0..chance.one_of(&[1, 1, 1, 2, 2, 3]) {
                list.damage(chance);
            }
            let numbers: Vec<u32> = list
                .octets
                .chunks_exact(NUMBER_OCTETS)
                .map(|number| u32::from_be_bytes(number.try_into().expect("four octets")))
                .collect();
            list.right = (!is_refused(&numbers, list.lookahead)).then(|| packing(&numbers, list.lookahead));
            let enough = match &list.right {
                Some(right) => [right.groups.len() * GROUP_OCTETS, right.payload.len(), SUMMARY_OCTETS],
                None => [64, 64, SUMMARY_OCTETS],
            };
            list.lent = if chance.once_in(2) { enough } else { enough.map(|octets| damage::room(chance, octets)) };
            if list.octets != good || list.lookahead != lookahead || list.lent != enough {
                return list;
            }
        }
    }
}

impl List {
    fn damage(&mut self, chance: &mut Chance) {
        let count = self.octets.len() / NUMBER_OCTETS;
        match chance.below(16) {
            0 => damage::long(chance, &mut self.lookahead, &[0, 1, 65_535, 65_536, 65_537, 1 << 31, u32::MAX]),
            1 if count > 0 => {
                let limits = [0, 1, GREATEST_NUMBER - 1, GREATEST_NUMBER, GREATEST_NUMBER + 1, u32::MAX];
                let number = chance.one_of(&limits).to_be_bytes();
                let place = chance.below(count) * NUMBER_OCTETS;
                self.octets[place..place + NUMBER_OCTETS].copy_from_slice(&number);
            }
            // A stretch of the list once more, so that it stays one of good numbers.
            2 | 3 if count > 0 => {
                let first = chance.below(count) * NUMBER_OCTETS;
                self.octets.extend_from_within(first..);
                self.octets.truncate(800);
            }
            // A bit of a number: seldom the upper one, which makes it too great.
            4..=6 if count > 0 => {
                let place = chance.below(count) * NUMBER_OCTETS;
                let bits = chance.one_of(&[31, 31, 31, 32]);
                let bit = 1_u32 << chance.below(bits);
                for (octet, bit) in self.octets[place..].iter_mut().zip(bit.to_be_bytes()) {
                    *octet ^= bit;
                }
            }
            7 if chance.once_in(10_000) => self.octets.resize((MOST_NUMBERS as usize + 1) * NUMBER_OCTETS, 0),
            7 | 8 => self.octets.truncate(chance.below(self.octets.len() + 1)),
            _ => damage::octets(chance, &mut self.octets),
        }
    }
}

impl Input for List {
    fn read(&self) -> Vec<&[u8]> {
        vec![&self.octets]
    }

    fn lent(&self) -> Vec<usize> {
        self.lent.to_vec()
    }

    fn call(&self, read: &mut [Block], lent: &mut [Block]) -> u32 {
        let [groups, payload, summary] = lent else { panic!("three buffers are lent") };
        let lent = [groups.octets(), payload.octets(), summary.octets()];
        call(self.lookahead, read[0].octets(), lent, self.right.as_ref())
    }

    fn right(&self, lent: &mut [Block]) -> Class {
        let [groups, payload, summary] = lent else { panic!("three buffers are lent") };
        let buffers = [groups.octets(), payload.octets(), summary.octets()];
        let [groups, payload, summary] = [0, 1, 2].map(|buffer: usize| buffers[buffer].to_vec());
        let (number, left) = answer(self.right.as_ref(), Left { groups, payload, summary });
        for (buffer, left) in buffers.into_iter().zip([left.groups, left.payload, left.summary]) {
            buffer.copy_from_slice(&left);
        }
        (number, if number == 10 { self.what_is_short() } else { "" })
    }
}

impl List {
    /// The first buffer that is too small, where one is.
    fn what_is_short(&self) -> &'static str {
        let [groups, _, summary] = self.lent;
        if summary < SUMMARY_OCTETS {
            SUMMARY
        } else if self.right.as_ref().is_some_and(|right| groups / GROUP_OCTETS < right.groups.len()) {
            GROUP_LIST
        } else {
            PAYLOAD
        }
    }
}

impl Pack {
    /// Document 01's cases, parts of the real maps, small maps by other writers, and made lists.
    pub fn new() -> Pack {
        let mut chance = Chance(Numbers::new(13));
        let mut lists = vec![
            vec![0, 0, 0, 0, 8, 8, 8],
            vec![5, 6, 5, 7],
            [vec![0; 10], vec![8; 310], vec![0; 5]].concat(),
            vec![GREATEST_NUMBER],
        ];
        for real in real_maps() {
            let numbers = numbers_of(&real);
            lists.extend((0..150).map(|_| {
                let first = chance.below(numbers.len());
                numbers[first..].iter().take(1 + chance.below(60)).copied().collect()
            }));
        }
        let is_small = |map: &others::Map| map.template != 200 && map.refusal.is_none();
        let others =
            others::maps().into_iter().filter(is_small).map(|map| model::Input::of_map(&map.section5, &map.payload));
        lists.extend(others.filter(|map| map.declared <= 1_000).map(|map| {
            let mut numbers = numbers_of(&map);
            numbers.truncate(60);
            numbers
        }));
        let made: [fn(u32) -> Vec<u32>; 8] = [
            maps::gust_numbers,
            maps::rising,
            maps::sawtooth,
            maps::patches,
            maps::alternating,
            maps::doubling,
            maps::spikes,
            maps::comb,
        ];
        lists.extend(made.iter().flat_map(|made| [1, 2, 10, 33, 60].map(made)));
        lists.extend((0..400).map(|_| {
            let count = 1 + chance.below(60) as u64;
            list_by_chance(&mut chance.0, count)
        }));
        lists.retain(|list| !is_refused(list, 1));
        Pack(lists)
    }
}

/// The numbers of a map, without its missing points.
fn numbers_of(map: &model::Input) -> Vec<u32> {
    let points = model::points(map).expect("a good map");
    points.into_iter().filter(|(mark, _)| *mark == 0).filter_map(|(_, number)| number.try_into().ok()).collect()
}
