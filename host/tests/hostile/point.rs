//! One point of a map under 5.2.

use crate::damage::{self, Chance};
use crate::section5::damage_section;
use crate::support::model::point::{at, call, map};
use crate::support::model::section5::{input, of_map};
use crate::unpacking::{class, Complex, Spatial, Unpacking, GROUP_FIELDS, VALUES};
use crate::{value, Block, Class, Input, Operation};
use cleatmow::{point, Refusal};

/// Good maps. Those under 5.3 are none to this call.
pub struct OnePoint {
    complex: Complex,
    spatial: Spatial,
}

impl OnePoint {
    pub fn new() -> OnePoint {
        OnePoint { complex: Complex::new(), spatial: Spatial::new() }
    }
}

impl Operation for OnePoint {
    type Input = Asked;

    const NAME: &'static str = "one point";

    const REFUSALS: &'static [Class] =
        &[(14, ""), (1, ""), (2, ""), (6, ""), (5, ""), (7, GROUP_FIELDS), (8, ""), (7, VALUES), (9, ""), (15, "")];

    /// A damaged map, its section damaged besides now and then, and any of its places or one that it does not have.
    fn damaged(&self, chance: &mut Chance) -> Asked {
        let Unpacking { map, .. } =
            if chance.once_in(20) { self.spatial.damaged(chance) } else { self.complex.damaged(chance) };
        let mut section5 = of_map(&map, &mut chance.0);
        for _ in 0..chance.one_of(&[0, 0, 0, 0, 1, 2]) {
            damage_section(chance, &mut section5);
        }
        let declared = map.declared;
        let place = match chance.below(4) {
            0 => damage::number(chance, declared, 32, &[0, declared, declared.wrapping_add(1), u32::MAX]),
            _ => chance.below(declared.max(1) as usize) as u32,
        };
        Asked { place, section5, payload: map.payload }
    }
}

/// What the call is given.
#[derive(Debug)]
pub struct Asked {
    place: u32,
    section5: Vec<u8>,
    payload: Vec<u8>,
}

impl Input for Asked {
    fn lent_at(buffer: usize) -> usize {
        [1, align_of::<i64>()][buffer]
    }

    fn read(&self) -> Vec<&[u8]> {
        vec![&self.section5, &self.payload]
    }

    /// The mark, and the number as the machine has it.
    fn lent(&self) -> Vec<usize> {
        vec![1, size_of::<i64>()]
    }

    fn call(&self, read: &mut [Block], lent: &mut [Block]) -> u32 {
        let ([section5, payload], [mark, number]) = (read, lent) else { panic!("two are read, and two are lent") };
        let (section5, payload) = (section5.octets(), payload.octets());
        let (mark, number) = (&mut mark.octets()[0], value(number.octets()));
        let answer = call(self.place, section5, payload, mark, number);
        // The wrapper answers the same.
        match point(section5, payload, self.place) {
            Ok(point) => assert_eq!((0, *mark, *number), (answer, point.mark(), point.number().unwrap_or(0))),
            Err(refusal) => assert_eq!(refusal, Refusal::from_number(answer).expect("a refusal")),
        }
        answer
    }

    fn right(&self, lent: &mut [Block]) -> Class {
        let Asked { place, section5, payload } = self;
        match at(&map(section5, payload), *place) {
            Ok((mark, number)) => {
                lent[0].octets().copy_from_slice(&[mark]);
                lent[1].octets().copy_from_slice(&number.to_ne_bytes());
                (0, "")
            }
            Err(number) => input(section5, payload).map_or((number, ""), |map| class(number, &map)),
        }
    }
}
