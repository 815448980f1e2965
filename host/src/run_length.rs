//! Run-length, template 7.200.

use crate::filled::One;
use crate::{ffi, in_octets, lent, up_to, Filled, InOctets, Refusal, MOST_POINTS};

/// The size of a level in a lent buffer: two octets, big-endian.
pub const LEVEL_OCTETS: usize = 2;

impl InOctets for u16 {
    const OCTETS: usize = LEVEL_OCTETS;

    #[inline]
    fn from_octets(octets: One) -> u16 {
        u16::from_be_bytes(octets.array())
    }
}

/// The levels of a map, in the octets that [`run_length_into`] filled.
pub type Levels<'a> = Filled<'a, u16>;

/// The levels of a run-length map.
///
/// `bits` are those of a code, 1 to 15; `max_level` is the greatest level, up to 2^bits − 1; `declared` is how many
/// points the map is declared to have; `payload` is Section 7 after its five-octet header.
///
/// Once the declared count is reached, reading stops before any code where fewer than 8 bits are left, all zero: they are
/// padding. Else it goes on, to the last whole code:
///
/// ```
/// use cleatmow::{run_length, Refusal};
///
/// assert_eq!(run_length(4, 9, 4, &[0x3C, 0x50]), Ok(vec![3, 3, 3, 5]));
/// assert_eq!(run_length(4, 9, 5, &[0x3C, 0x50]), Ok(vec![3, 3, 3, 5, 0]));
/// assert_eq!(run_length(4, 9, 3, &[0x3C, 0x50]), Err(Refusal::Points));
/// ```
///
/// # Errors
///
/// [`Refusal::Width`], [`Refusal::Repeat`] and [`Refusal::Points`], tested in this order.
pub fn run_length(bits: u8, max_level: u16, declared: u32, payload: &[u8]) -> Result<Vec<u16>, Refusal> {
    let mut levels = vec![0; lent(declared)];
    run_length_into(bits, max_level, declared, payload, ffi::octets_of(&mut levels))?;
    // The list itself was lent, so each level stands in it as its two octets.
    for level in &mut levels {
        *level = u16::from_be(*level);
    }
    Ok(levels)
}

/// The levels of a run-length map, in octets that the caller lends.
///
/// On success the levels stand at the front of `lent`, [`LEVEL_OCTETS`] each, and the answer is a view over them; the
/// octets past them are unchanged, and so is all of `lent` on a refusal. The other arguments are those of
/// [`run_length`].
///
/// # Errors
///
/// [`Refusal::Width`], [`Refusal::Repeat`], [`Refusal::Points`] and [`Refusal::Room`], tested in this order.
pub fn run_length_into<'a>(
    bits: u8,
    max_level: u16,
    declared: u32,
    payload: &[u8],
    lent: &'a mut [u8],
) -> Result<Levels<'a>, Refusal> {
    Refusal::answered(ffi::run_length(bits, max_level, declared, payload, lent))?;
    Ok(Filled::front(lent, declared as usize))
}

/// Writes the levels of a run-length map: the octets of Section 7 after its five-octet header.
///
/// `bits` and `max_level` are those of [`run_length`], which reads the levels back with as many declared. There are up to
/// [`MOST_POINTS`] levels of up to `max_level`; an empty list has a payload of no octets.
///
/// Each longest run is its level and then the run length less one in digits of the base, 2^bits − 1 − `max_level`, least
/// first, no leading zero digit at the top, none at all for a run of one. Where the base is below 2, a run repeats its
/// level instead. The last octet is padded with zero bits:
///
/// ```
/// use cleatmow::{run_length, write_run_length, Refusal};
///
/// assert_eq!(write_run_length(4, 9, &[3, 3, 3, 5]), Ok(vec![0x3C, 0x50]));
/// assert_eq!(run_length(4, 9, 4, &[0x3C, 0x50]), Ok(vec![3, 3, 3, 5]));
/// assert_eq!(write_run_length(4, 14, &[3, 3, 3, 5]), Ok(vec![0x33, 0x35]));
/// assert_eq!(write_run_length(4, 9, &[3, 10]), Err(Refusal::Numbers));
/// ```
///
/// # Errors
///
/// [`Refusal::Width`] and [`Refusal::Numbers`], tested in this order.
pub fn write_run_length(bits: u8, max_level: u16, levels: &[u16]) -> Result<Vec<u8>, Refusal> {
    let (levels, count) = up_to(MOST_POINTS, levels);
    // Never more codes than levels. Other bits are refused before the room is looked at.
    let bits_of_a_code = if bits > 15 { 0 } else { usize::from(bits) };
    let mut lent = vec![0; (count * bits_of_a_code).div_ceil(8)];
    write_run_length_into(bits, max_level, &levels_as_octets(levels), &mut lent).map(<[u8]>::to_vec)
}

/// Writes the levels of a run-length map in octets that the caller lends.
///
/// `levels` has [`LEVEL_OCTETS`] for each level ([`levels_as_octets`] makes them); a spare octet is not used. On success
/// the payload stands at the front of `lent`, and is the answer; the octets past it are unchanged, and so is all of `lent`
/// on a refusal. Never more codes are written than there are levels, so (levels × bits + 7) / 8 octets are always enough.
/// The other arguments are those of [`write_run_length`].
///
/// # Errors
///
/// [`Refusal::Width`], [`Refusal::Numbers`] and [`Refusal::Room`], tested in this order.
pub fn write_run_length_into<'a>(
    bits: u8,
    max_level: u16,
    levels: &[u8],
    lent: &'a mut [u8],
) -> Result<&'a [u8], Refusal> {
    let mut octets = 0;
    Refusal::answered(ffi::write_run_length(bits, max_level, levels, lent, &mut octets))?;
    Ok(&lent[..octets as usize])
}

/// A list of levels as [`write_run_length_into`] is given it, [`LEVEL_OCTETS`] each.
pub fn levels_as_octets(levels: &[u16]) -> Vec<u8> {
    in_octets(levels, u16::to_be_bytes)
}
