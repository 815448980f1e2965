//! Views over lent octets that a call has filled.

use std::fmt;
use std::marker::PhantomData;
use std::slice::ChunksExact;

/// What stands in lent octets, each of one size: a point, a level, a group, a field.
pub trait InOctets: Sized {
    /// How many octets one takes.
    const OCTETS: usize;

    /// The one that stands in these octets.
    #[doc(hidden)]
    fn from_octets(octets: One<'_>) -> Self;
}

/// The octets of one, as many as it takes, that a call has filled. Nothing outside this crate can make it.
#[doc(hidden)]
pub struct One<'a>(pub(crate) &'a [u8]);

impl One<'_> {
    pub(crate) fn array<const COUNT: usize>(&self) -> [u8; COUNT] {
        self.0.try_into().expect("as many octets as one takes")
    }
}

/// What a call has left at the front of the octets that it was lent: [`Points`](crate::Points),
/// [`Levels`](crate::Levels), [`Groups`](crate::Groups) or [`Fields`](crate::Fields). A view has as many places as the
/// answer, and none past it, however much was lent. Nothing is copied: each is read from its octets when it is asked
/// for.
///
/// Only a call that was not refused makes one. Octets that no call has filled cannot be taken for an answer:
///
/// ```compile_fail
/// let kept = [0_u8; 900];
/// let points = cleatmow::Points { octets: &kept };
/// ```
///
/// While the view is in use, nobody writes to the octets:
///
/// ```compile_fail
/// # let template = cleatmow::pack(&[5, 6], 4).unwrap().template;
/// let mut kept = [0; 900];
/// let points = cleatmow::unpack_complex_into(&template, 2, &[0xA8], &mut kept).unwrap();
/// kept[1] = 9;
/// println!("{:?}", points.get(0));
/// ```
pub struct Filled<'a, T> {
    octets: &'a [u8],
    kind: PhantomData<T>,
}

impl<'a, T: InOctets> Filled<'a, T> {
    /// The front of the lent octets, with so many of these. The call has answered that they are there.
    pub(crate) fn front(lent: &'a [u8], count: usize) -> Filled<'a, T> {
        Filled { octets: &lent[..count * T::OCTETS], kind: PhantomData }
    }

    /// How many there are.
    pub fn len(self) -> usize {
        self.octets.len() / T::OCTETS
    }

    /// Whether there is none.
    pub fn is_empty(self) -> bool {
        self.octets.is_empty()
    }

    /// The one at a place. The first place is 0.
    pub fn get(self, place: usize) -> Option<T> {
        self.octets.chunks_exact(T::OCTETS).nth(place).map(|octets| T::from_octets(One(octets)))
    }

    /// All of them, in their order.
    pub fn iter(self) -> FilledIter<'a, T> {
        FilledIter { octets: self.octets.chunks_exact(T::OCTETS), kind: PhantomData }
    }

    /// The octets that they stand in, and no others.
    pub fn octets(self) -> &'a [u8] {
        self.octets
    }
}

impl<T> Clone for Filled<'_, T> {
    fn clone(&self) -> Self {
        *self
    }
}

impl<T> Copy for Filled<'_, T> {}

impl<T> PartialEq for Filled<'_, T> {
    fn eq(&self, other: &Self) -> bool {
        self.octets == other.octets
    }
}

impl<T> Eq for Filled<'_, T> {}

impl<T: InOctets + fmt::Debug> fmt::Debug for Filled<'_, T> {
    fn fmt(&self, f: &mut fmt::Formatter<'_>) -> fmt::Result {
        f.debug_list().entries(self.iter()).finish()
    }
}

impl<'a, T: InOctets> IntoIterator for Filled<'a, T> {
    type Item = T;
    type IntoIter = FilledIter<'a, T>;

    fn into_iter(self) -> FilledIter<'a, T> {
        self.iter()
    }
}

/// What [`Filled::iter`] answers.
#[derive(Clone, Debug)]
pub struct FilledIter<'a, T> {
    octets: ChunksExact<'a, u8>,
    kind: PhantomData<T>,
}

impl<T: InOctets> Iterator for FilledIter<'_, T> {
    type Item = T;

    fn next(&mut self) -> Option<T> {
        self.octets.next().map(|octets| T::from_octets(One(octets)))
    }

    fn nth(&mut self, places: usize) -> Option<T> {
        self.octets.nth(places).map(|octets| T::from_octets(One(octets)))
    }

    fn size_hint(&self) -> (usize, Option<usize>) {
        self.octets.size_hint()
    }
}

impl<T: InOctets> ExactSizeIterator for FilledIter<'_, T> {}

#[cfg(test)]
mod tests {
    use super::{InOctets, One};
    use crate::{Group, Point, FIELD_OCTETS, GROUP_OCTETS, LEVEL_OCTETS, POINT_OCTETS};

    fn point(mark: u8, number: i64) -> Point {
        Point::from_octets(One(&[&[mark], &number.to_be_bytes()[..]].concat()))
    }

    /// Octets are read as the documents have them.
    #[test]
    fn what_stands_in_octets() {
        assert_eq!((Point::OCTETS, u16::OCTETS, Group::OCTETS), (POINT_OCTETS, LEVEL_OCTETS, GROUP_OCTETS));
        assert_eq!(Point::from_octets(One(&[0, 0, 0, 0, 0, 0, 0, 1, 2])), Point::Number(258));
        for number in [0, 1, -1, 256, 1 << 60, -1 << 60] {
            assert_eq!(point(0, number), Point::Number(number));
            // The mark decides: whatever stands beside 1 or 2 is no number.
            assert_eq!((point(1, number), point(2, number)), (Point::Missing1, Point::Missing2));
        }
        let octets: Vec<u8> = (0..16).collect();
        let group = Group { start: 0x0001_0203, length: 0x0405_0607, least: 0x0809_0A0B, width: 0x0C0D_0E0F };
        assert_eq!(Group::from_octets(One(&octets)), group);
        assert_eq!(u16::from_octets(One(&[0x12, 0x34])), 0x1234);
        assert_eq!((u32::from_octets(One(&[0x12, 0x34, 0x56, 0x78])), u32::OCTETS), (0x1234_5678, FIELD_OCTETS));
    }

    #[test]
    #[should_panic(expected = "a point with mark 3")]
    fn octets_of_another_mark() {
        point(3, 5);
    }
}
