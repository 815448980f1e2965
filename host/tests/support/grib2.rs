//! GRIB2 messages for tests, built out of their sections.

use cleatmow::{section7_of, Physical, Section5, Template};

/// The grid templates that are read: the number, how many octets Section 3 has, and which of them is the scanning mode.
pub const GRIDS: [(u16, usize, usize); 4] = [(0, 72, 72), (10, 72, 60), (20, 65, 65), (30, 81, 65)];

/// A message of edition 2 with these sections between its Section 0 and its end.
pub fn message(sections: &[Vec<u8>]) -> Vec<u8> {
    let sections = sections.concat();
    let length = 16 + sections.len() as u64 + 4;
    [b"GRIB\0\0\0\x02", &length.to_be_bytes()[..], &sections, b"7777"].concat()
}

/// A message of edition 1: its length stands in three octets before its edition.
pub fn edition_1(said: &[u8]) -> Vec<u8> {
    let length = 8 + said.len() as u32 + 4;
    [b"GRIB", &length.to_be_bytes()[1..], &[1], said, b"7777"].concat()
}

/// A section: its length in four octets, its number, and what it says.
pub fn section(number: u8, said: &[u8]) -> Vec<u8> {
    let length = 5 + said.len() as u32;
    [&length.to_be_bytes(), &[number][..], said].concat()
}

/// Other octets from this one of a section on. Its first is 1.
pub fn put(section: &mut [u8], octet: usize, octets: &[u8]) {
    section[octet - 1..][..octets.len()].copy_from_slice(octets);
}

/// What is not read here of Sections 1 and 4 is 0.
pub fn section1() -> Vec<u8> {
    section(1, &[0; 16])
}

pub fn section2() -> Vec<u8> {
    section(2, b"local use")
}

/// A Section 3 of one of [`GRIDS`]. An octet that is not read says its own place, so that none is taken for another.
pub fn section3(template: u16, columns: u32, rows: u32, scanning: u8) -> Vec<u8> {
    let &(_, octets, place) = GRIDS.iter().find(|grid| grid.0 == template).expect("a grid template that is read");
    let said: Vec<u8> = (6..=octets as u8).collect();
    let mut section = section(3, &said);
    put(&mut section, 6, &[0]);
    put(&mut section, 7, &columns.wrapping_mul(rows).to_be_bytes());
    put(&mut section, 11, &[0, 0]);
    put(&mut section, 13, &template.to_be_bytes());
    put(&mut section, 31, &columns.to_be_bytes());
    put(&mut section, 35, &rows.to_be_bytes());
    put(&mut section, place, &[scanning]);
    section
}

pub fn section4() -> Vec<u8> {
    section(4, &[0; 29])
}

/// A Section 6 with this bitmap indicator and no bitmap.
pub fn section6(indicator: u8) -> Vec<u8> {
    section(6, &[indicator])
}

/// Section 5 and Section 7 of a map of four points, whose reference value and last octet say its number. Those of even
/// number are under template 5.2 with points 5, 6, 5, 7, the others under 5.3 with 10, 11, 9, 12.
pub fn map(number: u8) -> [Vec<u8>; 2] {
    let spatial = number % 2 == 1;
    let template = Template {
        number_width: if spatial { 0 } else { 3 },
        splitting: 1,
        missing: 0,
        groups: if spatial { 1 } else { 2 },
        width_reference: if spatial { 3 } else { 0 },
        width_bits: if spatial { 0 } else { 1 },
        length_reference: if spatial { 0 } else { 3 },
        length_increment: 0,
        last_length: if spatial { 4 } else { 1 },
        length_bits: 0,
    };
    let reference = u32::from_be_bytes([number, 0, 0, 0]);
    let physical = Physical { reference, binary_scale: 0, decimal_scale: 0, field_type: 0 };
    let mut section5 = Section5::of_packing(4, &template, &physical);
    if spatial {
        section5.extend([1, 1]);
        put(&mut section5, 1, &49_u32.to_be_bytes());
        put(&mut section5, 10, &3_u16.to_be_bytes());
    }
    let payload: &[u8] = if spatial { &[0x0A, 0x82, 0x0C, 0x50, number] } else { &[0xBC, 0x80, 0x40, number] };
    [section5, section7_of(payload).expect("a short payload")]
}

/// Sections 4 to 7 of the map of this number, without a bitmap.
pub fn field(number: u8) -> Vec<Vec<u8>> {
    let [section5, section7] = map(number);
    vec![section4(), section5, section6(255), section7]
}

/// A message with the map of this number alone, on a grid of two columns and two rows.
pub fn message_of(number: u8) -> Vec<u8> {
    message(&[vec![section1(), section3(0, 2, 2, 0)], field(number)].concat())
}
