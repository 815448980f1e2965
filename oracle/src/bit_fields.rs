//! Document 01's bit fields, written plainly for the tests here: ours have no C call.

/// So many numbers, or the refusal: 5, 7. The list that is lent is long enough, so 10 does not come up.
pub fn read(octets: &[u8], start: usize, width: usize, count: usize) -> Result<Vec<u32>, u32> {
    if width > 32 || start > 7 {
        return Err(5);
    }
    if octets.len() < span(start, width, count) {
        return Err(7);
    }
    let bit = |place: usize| u32::from(octets[place / 8] >> (7 - place % 8) & 1);
    let number = |first: usize| (first..first + width).fold(0, |number, place| number << 1 | bit(place));
    Ok((0..count).map(|place| number(start + place * width)).collect())
}

/// The span, or the refusal: 5, 13, 10.
pub fn write(numbers: &[u32], start: usize, width: usize, octets: &mut [u8]) -> Result<usize, u32> {
    if !(1..=32).contains(&width) || start > 7 {
        return Err(5);
    }
    if numbers.iter().any(|number| u64::from(*number) >> width > 0) {
        return Err(13);
    }
    let span = span(start, width, numbers.len());
    if octets.len() < span {
        return Err(10);
    }
    for place in 0..8 * span {
        // The bits before the start are kept, and those after the last number are zero.
        let Some(place_in_field) = place.checked_sub(start) else { continue };
        let number = numbers.get(place_in_field / width).map_or(0, |number| u64::from(*number));
        let bit = (number >> (width - 1 - place_in_field % width) & 1) as u8;
        let mask = 0x80 >> (place % 8);
        octets[place / 8] = if bit == 1 { octets[place / 8] | mask } else { octets[place / 8] & !mask };
    }
    Ok(span)
}

/// "(s + n·w) / 8 octets, rounded up (an empty list or width 0: none)"
fn span(start: usize, width: usize, count: usize) -> usize {
    if count == 0 || width == 0 { 0 } else { (start + count * width).div_ceil(8) }
}
