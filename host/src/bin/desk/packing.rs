//! From points to the two sections that go to the site, and back: whether a map is what is packed of its own numbers.

use crate::grid::CutOut;
use crate::map::Map;
use crate::progress::step;
use crate::shown::{self, NO_FORECAST};
use crate::trouble::{Trouble, Why};
use cleatmow::{
    numbers_of_points, pack, section7_of, NoNumber, Physical, Points, Section5, GREATEST_LOOKAHEAD, GREATEST_NUMBER,
};

/// Points, packed.
pub struct Packed {
    pub sections: [Vec<u8>; 2],
    pub groups: usize,
}

impl Packed {
    /// Packs a cut-out. Packing has no number for a missing point, whose number 0 would be wind on site; so where a
    /// point is no number to pack, nothing is packed.
    pub fn of(cut_out: &CutOut, physical: &Physical, lookahead: u32) -> Result<Packed, Trouble> {
        let numbers = numbers_of_points(&cut_out.points).map_err(|found| not_packed(cut_out, found))?;
        if let Some(place) = numbers.iter().position(|number| *number > GREATEST_NUMBER) {
            return Err(not_packed(cut_out, NoNumber { place, point: cut_out.points[place] }));
        }
        Packed::of_numbers(&numbers, physical, lookahead, || format!("the cut-out of {}", cut_out.rectangle))
    }

    /// What becomes of the numbers outside Section 7 is said as in the map that they are of.
    fn of_numbers(
        numbers: &[u32],
        physical: &Physical,
        lookahead: u32,
        name: impl Fn() -> String,
    ) -> Result<Packed, Trouble> {
        let packing = step(|| format!("packing {}", shown::many(numbers.len(), "point")), || pack(numbers, lookahead))
            .map_err(|refusal| Trouble::Refused { what: name(), refusal, found: String::new() })?;
        let section5 = Section5::of_packing(numbers.len() as u32, &packing.template, physical);
        match section7_of(&packing.payload) {
            Some(section7) => Ok(Packed { sections: [section5, section7], groups: packing.groups.len() }),
            None => Trouble::host(format!("{} is too long for a Section 7", name())),
        }
    }
}

/// Why a cut-out is not packed, with the first point that has no number to pack.
fn not_packed(cut_out: &CutOut, NoNumber { place, point }: NoNumber) -> Trouble {
    let (why, has) = match point.number() {
        None => (Why::NoForecast, "no forecast, and so no number to pack".into()),
        Some(number) => {
            let most = shown::count(GREATEST_NUMBER);
            (Why::NoNumber, format!("number {number}, which is not 0 to {most}"))
        }
    };
    Trouble::Own(why, format!("{} has {has}: the cut-out is not packed", cut_out.named(place)))
}

/// Whether a map is what the desk packs of the map's own numbers with this lookahead, octet by octet: of one that the desk
/// packed so it is, since packing again changes no octet. `desk help check` says what that shows, and what it does not.
pub fn check(map: &Map, points: Points, lookahead: u32) -> Result<(), Trouble> {
    let other = |why: String| {
        let so = "it is no cut-out that the desk packed so, or its Section 5 and its Section 7 do not belong together";
        Err(Trouble::Own(Why::OtherPacking, format!("{} {why}: {so}", map.name)))
    };
    let numbers = match numbers_of_points(points) {
        Ok(numbers) if numbers.is_empty() => return other("has no points".into()),
        Ok(numbers) => numbers,
        Err(NoNumber { place, point }) => {
            let place = shown::count(place as u64 + 1);
            let has = point.number().map_or(NO_FORECAST.into(), |number| format!("number {number}"));
            return other(format!("has {has} at point {place}, which the desk does not pack"));
        }
    };
    let again = match Packed::of_numbers(&numbers, &map.physical, lookahead, || map.name.clone()) {
        Ok(Packed { sections, .. }) => [0, 1].map(|section| sections[section] == map.sections[section]),
        Err(Trouble::Refused { .. }) => return other(format!("has a number above {}", shown::count(GREATEST_NUMBER))),
        Err(trouble) => return Err(trouble),
    };
    let others = match again {
        [true, true] => return Ok(()),
        [true, false] => "another Section 7",
        [false, true] => "another Section 5",
        [false, false] => "two other sections",
    };
    other(format!("has {others} when it is packed again with lookahead {lookahead}"))
}

/// The lookahead that packing takes. Its own refusal of any other comes before a file is read.
pub fn lookahead_of(lookahead: u32) -> Result<u32, Trouble> {
    match lookahead {
        1..=GREATEST_LOOKAHEAD => Ok(lookahead),
        _ => Err(Trouble::Refused {
            what: format!("--lookahead {lookahead}"),
            refusal: cleatmow::Refusal::Numbers,
            found: String::new(),
        }),
    }
}
