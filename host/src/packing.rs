//! Grouping and packing: a list of numbers becomes the payload of template 5.2.

use crate::filled::One;
use crate::{ffi, in_octets, up_to, Filled, InOctets, NoNumber, Point, Refusal, Template};
use std::borrow::Borrow;

/// The greatest count of numbers that a list to pack has.
pub const MOST_NUMBERS: u32 = 4_194_304;

/// The greatest number that is packed.
pub const GREATEST_NUMBER: u32 = 2_147_483_647;

/// The greatest lookahead. The least is 1.
pub const GREATEST_LOOKAHEAD: u32 = 65_535;

/// The size of a number to pack in the octets that [`pack_into`] is given: four octets, big-endian.
pub const NUMBER_OCTETS: usize = 4;

/// The size of a group in a lent buffer: start, length, least number and width, four octets each, big-endian.
pub const GROUP_OCTETS: usize = 16;

/// The size of the summary in a lent buffer: ten numbers of four octets each, big-endian. They are the eight template
/// numbers in the order of [`Template`] without the two that are the same in every packing, the group count, and the
/// payload length.
pub const SUMMARY_OCTETS: usize = 40;

/// A list of numbers, packed.
#[derive(Clone, Debug, PartialEq, Eq)]
pub struct Packing {
    /// The template numbers. With them [`unpack_complex`](crate::unpack_complex) reads the list back from the payload.
    pub template: Template,
    /// The groups, in the order of the list.
    pub groups: Vec<Group>,
    /// The octets of Section 7 after its five-octet header.
    pub payload: Vec<u8>,
}

impl Packing {
    /// The splitting method of every packing. Octet 22 of Section 5.
    pub const SPLITTING: u8 = 1;

    /// Missing management of every packing: no point is missing. Octet 23.
    pub const MISSING: u8 = 0;

    /// Both missing values of every packing. No point stands for them, and Section 5 has them all the same: octets 24
    /// to 27, and 28 to 31.
    pub const MISSING_VALUE: u32 = 0xffff_ffff;
}

/// A group of numbers, which are packed at one width.
#[derive(Clone, Copy, Debug, PartialEq, Eq)]
pub struct Group {
    /// The place of its first number in the list. The first place is 0.
    pub start: u32,
    /// How many numbers it has: at least 1.
    pub length: u32,
    /// Its least number, which is its reference.
    pub least: u32,
    /// The bits of each of its values: up to 31.
    pub width: u32,
}

impl InOctets for Group {
    const OCTETS: usize = GROUP_OCTETS;

    #[inline]
    fn from_octets(octets: One) -> Group {
        let mut numbers = numbers_in(octets.0);
        let mut next = || numbers.next().expect("four numbers");
        Group { start: next(), length: next(), least: next(), width: next() }
    }
}

/// The groups of a packing, in the octets that [`pack_into`] filled.
pub type Groups<'a> = Filled<'a, Group>;

/// A list of numbers, packed in octets that the caller lent.
#[derive(Clone, Copy, Debug, PartialEq, Eq)]
pub struct Packed<'a> {
    /// The template numbers, those that are the same in every packing too.
    pub template: Template,
    /// The groups, in the order of the list.
    pub groups: Groups<'a>,
    /// The octets of Section 7 after its five-octet header.
    pub payload: &'a [u8],
}

impl<'a> Packed<'a> {
    /// What the summary says of the two other lent buffers.
    fn new(summary: &[u8], groups: &'a [u8], payload: &'a [u8]) -> Packed<'a> {
        let mut numbers = numbers_in(summary);
        let mut next = || numbers.next().expect("ten numbers");
        let octet = |number| u8::try_from(number).expect("a template number of one octet");
        let template = Template {
            number_width: octet(next()),
            splitting: Packing::SPLITTING,
            missing: Packing::MISSING,
            groups: next(),
            width_reference: octet(next()),
            width_bits: octet(next()),
            length_reference: next(),
            length_increment: octet(next()),
            last_length: next(),
            length_bits: octet(next()),
        };
        let groups = Filled::front(groups, next() as usize);
        Packed { template, groups, payload: &payload[..next() as usize] }
    }
}

/// Groups a list of numbers and packs it.
///
/// The list has 1 to [`MOST_NUMBERS`] numbers of up to [`GREATEST_NUMBER`]. `lookahead` is how many numbers are looked
/// at before a group is ended, 1 to [`GREATEST_LOOKAHEAD`]; a greater one takes hardly longer.
///
/// # Errors
///
/// [`Refusal::Numbers`].
pub fn pack(numbers: &[u32], lookahead: u32) -> Result<Packing, Refusal> {
    let (numbers, count) = up_to(MOST_NUMBERS, numbers);
    // Each group has a number at least.
    let mut groups = vec![0; count * GROUP_OCTETS];
    let mut payload = vec![0; most_payload(count)];
    let mut summary = [0; SUMMARY_OCTETS];
    let numbers = numbers_as_octets(numbers);
    let packed = pack_into(lookahead, &numbers, &mut groups, &mut payload, &mut summary)?;
    Ok(Packing { template: packed.template, groups: packed.groups.iter().collect(), payload: packed.payload.to_vec() })
}

/// Octets that hold the payload of so many numbers, whatever they are. It takes, in bits a number, at most:
///
/// - references and values, 46.5: a group of one number has a reference of 31 at the most, and width 0; one of more
///   numbers has a reference of 31 and values of 31 each, which is 46.5 a number where it has two, and less where it
///   has more.
/// - width codes, 5: widths are up to 31, and so are their differences.
/// - length codes, 22: lengths are up to 2^22, and of two groups neither has them all.
///
/// That is 73.5 bits, which ten octets hold; and each of the four fields may end within an octet.
fn most_payload(numbers: usize) -> usize {
    10 * numbers + 4
}

/// Groups a list of numbers and packs it, all in octets that the caller has and lends.
///
/// `numbers` has [`NUMBER_OCTETS`] for each number ([`numbers_as_octets`] makes them). On success the groups stand at
/// the front of `groups`, [`GROUP_OCTETS`] each, the payload at the front of `payload`, and the summary in the first
/// [`SUMMARY_OCTETS`] of `summary`; all octets past them are unchanged. The answer has what the summary says, and views
/// of the groups and of the payload that end where these do. A list of n numbers has at most n groups. Spare octets of
/// `numbers` and `groups` that are short of a whole number or group are not used.
///
/// A refusal changes nothing, but for two: [`Refusal::Room`] for the group list leaves the first groups in all lent
/// places, and [`Refusal::Room`] for the payload leaves all groups. The summary changes only on success. The other
/// arguments are those of [`pack`].
///
/// # Errors
///
/// [`Refusal::Numbers`], and [`Refusal::Room`] for the summary, for the group list and for the payload, tested in this
/// order.
pub fn pack_into<'a>(
    lookahead: u32,
    numbers: &[u8],
    groups: &'a mut [u8],
    payload: &'a mut [u8],
    summary: &mut [u8],
) -> Result<Packed<'a>, Refusal> {
    Refusal::answered(ffi::pack(lookahead, numbers, groups, payload, summary))?;
    Ok(Packed::new(summary, groups, payload))
}

/// A list of numbers as [`pack_into`] is given it, [`NUMBER_OCTETS`] each.
pub fn numbers_as_octets(numbers: &[u32]) -> Vec<u8> {
    in_octets(numbers, u32::to_be_bytes)
}

/// The numbers of points as packing takes them, in the same order. The points are a list, or the view of a call on lent
/// octets.
///
/// No point is left out and none is changed: where one has no number that four octets hold, there is no list at all. A
/// number above [`GREATEST_NUMBER`] that four octets do hold is turned, and packing refuses it.
///
/// ```
/// use cleatmow::{numbers_of_points, NoNumber, Point};
///
/// assert_eq!(numbers_of_points(&[Point::Number(5), Point::Number(6)]), Ok(vec![5, 6]));
/// let gap = NoNumber { place: 1, point: Point::Missing1 };
/// assert_eq!(numbers_of_points(&[Point::Number(5), Point::Missing1, Point::Number(6)]), Err(gap));
/// ```
///
/// # Errors
///
/// [`NoNumber`] for the first point that is missing, negative, or above 4,294,967,295.
pub fn numbers_of_points(points: impl IntoIterator<Item = impl Borrow<Point>>) -> Result<Vec<u32>, NoNumber> {
    let number = |(place, point): (usize, Point)| {
        // A missing point has none: the 0 in its octets would be wind.
        let number = point.number().and_then(|number| u32::try_from(number).ok());
        number.ok_or(NoNumber { place, point })
    };
    points.into_iter().map(|point| *point.borrow()).enumerate().map(number).collect()
}

/// Numbers of four octets each, big-endian.
fn numbers_in(octets: &[u8]) -> impl Iterator<Item = u32> + '_ {
    octets.chunks_exact(4).map(|octets| u32::from_be_bytes(octets.try_into().expect("four octets")))
}
