//! Safe calls to Cleatmow, the integer part of GRIB2's Section 7, which is written and proved in Rattle. What a call
//! answers is decided by document 01, "Scope and rules", and document 02, "Requests"; this crate lends the buffers and
//! names the refusals.
//!
//! A Rust host depends on this folder and calls:
//!
//! ```toml
//! [dependencies]
//! cleatmow = { path = "../cleatmow/host" }
//! ```
//!
//! A map comes as its Section 5 and its Section 7, and is unpacked from their octets. Nobody types a template number:
//!
//! ```
//! use cleatmow::{payload_of, unpack, Point};
//!
//! let section5 = [
//!     0, 0, 0, 47, 5, 0, 0, 0, 4, 0, 2, 0, 0, 0, 0, 0, 0, 0, 0, 3, 0, 1, 0, 255, 255, 255, 255, 255, 255, 255, 255, 0,
//!     0, 0, 2, 0, 1, 0, 0, 0, 3, 0, 0, 0, 0, 1, 0,
//! ];
//! let section7 = [0, 0, 0, 8, 7, 0xBC, 0x80, 0x40];
//! assert_eq!(unpack(&section5, payload_of(&section7)?)?, [5, 6, 5, 7].map(Point::Number));
//! # Ok::<(), Box<dyn std::error::Error>>(())
//! ```
//!
//! One point of a map under template 5.2 is read from its place in the list, and the map is not unpacked:
//!
//! ```
//! use cleatmow::{point, Point, Refusal};
//!
//! # let section5 = [
//! #     0, 0, 0, 47, 5, 0, 0, 0, 4, 0, 2, 0, 0, 0, 0, 0, 0, 0, 0, 3, 0, 1, 0, 255, 255, 255, 255, 255, 255, 255, 255,
//! #     0, 0, 0, 2, 0, 1, 0, 0, 0, 3, 0, 0, 0, 0, 1, 0,
//! # ];
//! assert_eq!(point(&section5, &[0xBC, 0x80, 0x40], 1), Ok(Point::Number(6)));
//! assert_eq!(point(&section5, &[0xBC, 0x80, 0x40], 4), Err(Refusal::Place));
//! ```
//!
//! Packing goes the other way, from a list of numbers to a payload and the template numbers that read it; of these
//! Section 5 is written:
//!
//! ```
//! use cleatmow::{pack, unpack, Physical, Point, Section5};
//!
//! let numbers = [0, 0, 0, 0, 8, 8, 8];
//! let packing = pack(&numbers, 2)?;
//! assert_eq!(packing.payload, [0x08]);
//! assert_eq!(packing.groups.len(), 2);
//! let section5 = Section5::of_packing(7, &packing.template, &Physical::default());
//! let points = unpack(&section5, &packing.payload)?;
//! assert_eq!(points, numbers.map(|number| Point::Number(number.into())));
//! # Ok::<(), cleatmow::Refusal>(())
//! ```
//!
//! A call that ends with `_into` fills octets that its caller keeps, and answers a view over what it filled. No list is
//! made, and nothing past the answer can be taken for a part of it:
//!
//! ```
//! use cleatmow::{numbers_of_points, pack, unpack_into, Physical, Point, Section5, POINT_OCTETS};
//!
//! let mut kept = vec![0; 1_000 * POINT_OCTETS];
//! let packing = pack(&[5, 6, 5, 7], 4)?;
//! let section5 = Section5::of_packing(4, &packing.template, &Physical::default());
//! let points = unpack_into(&section5, &packing.payload, &mut kept)?;
//! assert_eq!((points.len(), points.get(3), points.get(4)), (4, Some(Point::Number(7)), None));
//! // To pack them again, or to reckon with them, is to be told of a missing point: none is left out, none becomes 0.
//! assert_eq!(numbers_of_points(points)?, [5, 6, 5, 7]);
//! assert_eq!(points.numbers()?.sum::<i64>(), 23);
//! # Ok::<(), Box<dyn std::error::Error>>(())
//! ```
//!
//! A host that has the template numbers and no Section 5 hands them over by name:
//!
//! ```
//! use cleatmow::{unpack_complex, unpack_spatial, Differences, Point, Template};
//!
//! let template = Template {
//!     number_width: 3,
//!     splitting: 1,
//!     missing: 0,
//!     groups: 2,
//!     width_reference: 0,
//!     width_bits: 1,
//!     length_reference: 3,
//!     length_increment: 0,
//!     last_length: 1,
//!     length_bits: 0,
//! };
//! let points = unpack_complex(&template, 4, &[0xBC, 0x80, 0x40])?;
//! assert_eq!(points, [5, 6, 5, 7].map(Point::Number));
//!
//! // The same octets under missing management 1: a point without a forecast is never a number.
//! let points = unpack_complex(&Template { missing: 1, ..template }, 4, &[0xBC, 0x80, 0x40])?;
//! assert_eq!(points, [Point::Number(5), Point::Missing1, Point::Number(5), Point::Missing1]);
//!
//! // Differences of the first order: the first value 10 and the minimum −2 stand before the group fields.
//! let template = Template {
//!     number_width: 0,
//!     groups: 1,
//!     width_reference: 3,
//!     width_bits: 0,
//!     length_reference: 0,
//!     last_length: 4,
//!     ..template
//! };
//! let differences = Differences { order: 1, descriptor_octets: 1 };
//! let points = unpack_spatial(&template, &differences, 4, &[0x0A, 0x82, 0x0C, 0x50])?;
//! assert_eq!(points, [10, 11, 9, 12].map(Point::Number));
//! # Ok::<(), cleatmow::Refusal>(())
//! ```
//!
//! Run-length maps take the numbers of template 5.200; zero bits that pad the last octet are not read as points beyond
//! the declared ones:
//!
//! ```
//! let levels = cleatmow::run_length(4, 9, 10, &[0x3C, 0xB5])?;
//! assert_eq!(levels, [3, 3, 3, 3, 3, 3, 3, 3, 3, 5]);
//! // And back: the longest runs, as codes.
//! assert_eq!(cleatmow::write_run_length(4, 9, &levels)?, [0x3C, 0xB5]);
//! # Ok::<(), cleatmow::Refusal>(())
//! ```
//!
//! [`read_section5`] and [`write_section5`] turn Section 5 into its fields and back, and judge none of the template's
//! numbers; [`Section5`] has them by name, and reads template 5.200 too. [`payload_of`] takes the header off a
//! Section 7, and [`grib2`] finds both sections in a GRIB2 file. `desk`, the command of this crate, works on such files
//! and sections; `desk --help` says how.
//!
//! The build of this crate runs `rt lib` in `crates/cleatmow_c` of the folder above and links the archive; `rt`, the
//! Rattle toolchain, must be on the PATH. `CLEATMOW_ARCHIVE_DIR` names a folder that has `libcleatmow.a` already, and
//! nothing is made then. A host in another language links `target/staticlib/libcleatmow.a`, which `make archive` makes,
//! and includes `include/cleatmow.h`.

#![deny(missing_docs, unsafe_code)]

#[allow(unsafe_code)]
mod ffi;
mod fields;
mod filled;
pub mod grib2;
mod packing;
mod points;
mod refusal;
mod run_length;
mod section;
mod section5;
mod section7;
mod unpacking;

pub use fields::{
    field, read_section5, read_section5_into, write_section5, write_section5_into, Fields, FIELD_OCTETS,
    SECTION5_COMPLEX_FIELDS, SECTION5_COMPLEX_OCTETS, SECTION5_SPATIAL_FIELDS, SECTION5_SPATIAL_OCTETS,
};
pub use filled::{Filled, FilledIter, InOctets};
pub use packing::{
    numbers_as_octets, numbers_of_points, pack, pack_into, Group, Groups, Packed, Packing, GREATEST_LOOKAHEAD,
    GREATEST_NUMBER, GROUP_OCTETS, MOST_NUMBERS, NUMBER_OCTETS, SUMMARY_OCTETS,
};
pub use points::{NoNumber, Point, Points, POINT_OCTETS};
pub use refusal::Refusal;
pub use run_length::{
    levels_as_octets, run_length, run_length_into, write_run_length, write_run_length_into, Levels, LEVEL_OCTETS,
};
pub use section::NotSection;
pub use section5::{Physical, Section5, TemplateNumbers};
pub use section7::{payload_of, section7_of};
pub use unpacking::{
    lent_points, point, unpack, unpack_complex, unpack_complex_into, unpack_into, unpack_spatial, unpack_spatial_into,
    Differences, Template,
};

/// The README's program in Rust is a documentation test.
#[cfg(doctest)]
#[doc = include_str!("../../README.md")]
struct Readme;

/// The greatest declared count. No call needs a buffer with room for more.
pub const MOST_POINTS: u32 = 4_194_304;

/// How many places to lend for a declared count. One above [`MOST_POINTS`] gets none: the refusal for the count (9)
/// comes before the one for the room (10), so nothing is lost by it.
fn lent(declared: u32) -> usize {
    if declared > MOST_POINTS {
        0
    } else {
        declared as usize
    }
}

/// As much of a list as shows whether it is above the limit, and for how many to lend: none above it, since the refusal
/// for the list (13) comes before the one for the room (10).
fn up_to<T>(most: u32, list: &[T]) -> (&[T], usize) {
    let most = most as usize;
    match list.get(..most + 1) {
        Some(above) => (above, 0),
        None => (list, list.len()),
    }
}

/// A list in octets, as a call is given it.
fn in_octets<T: Copy, const OCTETS: usize>(list: &[T], octets_of: impl Fn(T) -> [u8; OCTETS]) -> Vec<u8> {
    let mut octets = vec![0; list.len() * OCTETS];
    for (place, one) in octets.chunks_exact_mut(OCTETS).zip(list) {
        place.copy_from_slice(&octets_of(*one));
    }
    octets
}
