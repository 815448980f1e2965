//! A point of a map, and the points that unpacking leaves in lent octets.

use crate::filled::One;
use crate::{Filled, InOctets};
use std::error::Error;
use std::fmt;

/// A point of a map.
#[derive(Clone, Copy, Debug, PartialEq, Eq)]
pub enum Point {
    /// The number at this point, up to 2^60 either way.
    Number(i64),
    /// Missing 1.
    Missing1,
    /// Missing 2.
    Missing2,
}

impl Point {
    /// The number at this point. A missing point has none.
    pub fn number(self) -> Option<i64> {
        match self {
            Point::Number(number) => Some(number),
            Point::Missing1 | Point::Missing2 => None,
        }
    }

    /// Its mark: 0 number, 1 and 2 missing.
    pub fn mark(self) -> u8 {
        match self {
            Point::Number(_) => 0,
            Point::Missing1 => 1,
            Point::Missing2 => 2,
        }
    }

    /// Whether it is a point without a number.
    pub fn is_missing(self) -> bool {
        self.mark() != 0
    }

    /// The point that a call has left as a mark and a number. Where the mark is 1 or 2, the number is not looked at. No
    /// call leaves another mark, and it is not shown as a point.
    #[inline]
    pub(crate) fn left(mark: u8, number: i64) -> Point {
        match mark {
            0 => Point::Number(number),
            1 => Point::Missing1,
            2 => Point::Missing2,
            _ => panic!("a point with mark {mark}: libcleatmow.a and this crate are of different versions"),
        }
    }
}

/// The size of a point in a lent buffer: nine octets, the mark (0 number, 1, 2) and then the number, big-endian two's
/// complement. A missing point holds number 0.
pub const POINT_OCTETS: usize = 9;

impl InOctets for Point {
    const OCTETS: usize = POINT_OCTETS;

    #[inline]
    fn from_octets(octets: One) -> Point {
        let [mark, number @ ..] = octets.array::<POINT_OCTETS>();
        Point::left(mark, i64::from_be_bytes(number))
    }
}

/// The points of a map, in the octets that unpacking filled.
pub type Points<'a> = Filled<'a, Point>;

impl<'a> Filled<'a, Point> {
    /// The numbers of a map without missing points, in their order. Nothing is left out: where a point is missing there
    /// is no number at all, since those behind it would move up.
    ///
    /// # Errors
    ///
    /// [`NoNumber`] for the first missing point.
    pub fn numbers(self) -> Result<impl ExactSizeIterator<Item = i64> + 'a, NoNumber> {
        match self.iter().enumerate().find(|(_, point)| point.is_missing()) {
            Some((place, point)) => Err(NoNumber { place, point }),
            None => Ok(self.iter().map(|point| point.number().expect("no point is missing"))),
        }
    }
}

/// A point that has not the number that is asked for, and where it stands. `Display` has a sentence for the log.
#[derive(Clone, Copy, Debug, PartialEq, Eq)]
pub struct NoNumber {
    /// The place of the first such point. The first place is 0.
    pub place: usize,
    /// The point: a missing one; or, where numbers to pack are asked for, one that four octets do not hold.
    pub point: Point,
}

impl fmt::Display for NoNumber {
    fn fmt(&self, f: &mut fmt::Formatter<'_>) -> fmt::Result {
        write!(f, "the point at place {} ", self.place)?;
        match self.point {
            Point::Number(number) => write!(f, "holds {number}, which is not 0 to 4,294,967,295: no number to pack"),
            Point::Missing1 | Point::Missing2 => write!(f, "is missing: it has no number"),
        }
    }
}

impl Error for NoNumber {}
