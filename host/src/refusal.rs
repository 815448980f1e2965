//! "What each number says"

use std::error::Error;
use std::fmt;

/// Why a call refuses its input. It carries its number and nothing else. `Display` has a sentence for the log.
#[derive(Clone, Copy, Debug, PartialEq, Eq, Hash)]
#[non_exhaustive]
#[repr(u32)]
pub enum Refusal {
    /// Splitting method not 1.
    Splitting = 1,
    /// Missing management above 2.
    Management = 2,
    /// Differencing order not 1 or 2.
    Order = 3,
    /// Descriptor octets not 1 to 4.
    Descriptors = 4,
    /// Number width above 31, width or length bits above 32; run-length b not 1 to 15 or M above 2^b − 1.
    Width = 5,
    /// Group count 0 or above 4,194,304.
    GroupCount = 6,
    /// Payload too short.
    Short = 7,
    /// A group width above 31, or a length other than the last above 4,294,967,295.
    GroupSize = 8,
    /// Points do not equal the declared count, or that count is above 4,194,304. Where run-length reading stops before
    /// padding, the points are those before it.
    Points = 9,
    /// A lent buffer is too small.
    Room = 10,
    /// The first run-length code is a repeat.
    Repeat = 11,
    /// A restored number is beyond 2^60 either way.
    Beyond = 12,
    /// Packing: list empty or above 4,194,304 numbers, a number above 2,147,483,647, lookahead outside 1 to 65,535.
    /// Writing Section 5: a number that its octets do not hold. Writing run-length: a level above M, or more than
    /// 4,194,304 levels.
    Numbers = 13,
    /// Section 5: fewer octets or fields than its template has (fewer than eleven octets name none), a length that is
    /// not its template's, a section number other than 5, or a template other than 5.2 and 5.3; for one point, other
    /// than 5.2.
    Section5 = 14,
    /// One point: its place is not below the declared count.
    Place = 15,
}

impl Refusal {
    /// All of them, by their numbers.
    pub const ALL: &[Refusal] = &[
        Refusal::Splitting,
        Refusal::Management,
        Refusal::Order,
        Refusal::Descriptors,
        Refusal::Width,
        Refusal::GroupCount,
        Refusal::Short,
        Refusal::GroupSize,
        Refusal::Points,
        Refusal::Room,
        Refusal::Repeat,
        Refusal::Beyond,
        Refusal::Numbers,
        Refusal::Section5,
        Refusal::Place,
    ];

    /// The number that document 01 or document 02 gives it.
    pub fn number(self) -> u32 {
        self as u32
    }

    /// The refusal that has this number. 0, which is success, and numbers that are not in the table have none.
    pub fn from_number(number: u32) -> Option<Refusal> {
        Refusal::ALL.iter().copied().find(|refusal| refusal.number() == number)
    }

    /// What the number that a C call answers means.
    pub(crate) fn answered(number: u32) -> Result<(), Refusal> {
        match number {
            0 => Ok(()),
            _ => Err(Refusal::from_number(number).unwrap_or_else(|| {
                panic!("libcleatmow.a answers {number}, which this crate does not know: they are of different versions")
            })),
        }
    }

    /// What is wrong, and what that means at the desk. `Display` puts the number before it.
    pub fn sentence(self) -> &'static str {
        match self {
            Refusal::Splitting => "the map splits its groups by a method other than 1, the only one that is read here",
            Refusal::Management => "missing management is above 2, so missing points cannot be told from numbers",
            Refusal::Order => "the differencing order is not 1 or 2, so numbers cannot be restored from differences",
            Refusal::Descriptors => {
                "the descriptors are not of 1 to 4 octets each, so the first values and the minimum cannot be read"
            }
            Refusal::Width => {
                "a width in the template is outside its range, or the greatest level does not fit the bits of a code: \
                 the template numbers are damaged, or of a map that is not read here"
            }
            Refusal::GroupCount => {
                "the group count is 0 or above 4,194,304: the template numbers are damaged, or the map is too large"
            }
            Refusal::Short => {
                "the payload is too short for what the template numbers say: \
                 it was cut off, or they belong to another map"
            }
            Refusal::GroupSize => {
                "a group's width is above 31 or its length above 4,294,967,295: \
                 the payload or the template numbers are damaged"
            }
            Refusal::Points => {
                "the map does not have as many points as declared, or more than 4,194,304 are declared: \
                 the payload is damaged, the declared count is another map's, or the map is too large"
            }
            Refusal::Room => {
                "a lent buffer is too small for the answer: \
                 the program that called must lend more, and the map is not at fault"
            }
            Refusal::Repeat => {
                "the first run-length code repeats a level before there is one: \
                 the payload is damaged, or does not begin where it should"
            }
            Refusal::Beyond => {
                "a restored number is beyond 2^60 either way: \
                 the payload is damaged, and its points, which were set to 0, must not be used"
            }
            Refusal::Numbers => {
                "the numbers cannot be packed: there are none or more than 4,194,304 of them, \
                 one is above 2,147,483,647, or the lookahead is not 1 to 65,535; \
                 or a number does not fit its octets of Section 5; \
                 or levels cannot be written: there are more than 4,194,304 of them, or one is above the greatest"
            }
            Refusal::Section5 => {
                "there is no whole Section 5 of template 5.2 or 5.3, or for one point of 5.2: \
                 octets or fields are too few, or the length, the section number or the template is another"
            }
            Refusal::Place => {
                "the place is not below the declared count, so the map has no such point: \
                 the program that called must name another, and the map is not at fault"
            }
        }
    }
}

impl fmt::Display for Refusal {
    fn fmt(&self, f: &mut fmt::Formatter<'_>) -> fmt::Result {
        write!(f, "refusal {}: {}", self.number(), self.sentence())
    }
}

impl Error for Refusal {}
