//! Section 5 from its own octets through the C calls, against document 02, No. 1: its refusals and their order, lent
//! buffers of every size, what is carried there and back, and a plain model.

mod support;

use cleatmow::{Point, Refusal, POINT_OCTETS};
use support::grib2::put;
use support::guarded;
use support::maps::Numbers;
use support::model::octets_of;
use support::model::section5::{self as model, fields, lent_fields, octets, whole_fields};
use support::others;

/// Document 01's "Unpack that payload with management 1", octet by octet. What is carried through as bits is any.
const COMPLEX: [u8; 47] = [
    0, 0, 0, 47, // section length
    5,  // section number
    0, 0, 0, 4, // declared points
    0, 2, // template
    0x42, 0xC8, 0x13, 0x01, // reference value
    0x80, 0x03, // binary scale
    0x00, 0x02, // decimal scale
    3,    // number width
    0xA1, // original field type
    1,    // splitting method
    1,    // missing management
    0xFE, 0xDC, 0xBA, 0x98, // missing value 1
    0x76, 0x54, 0x32, 0x10, // missing value 2
    0, 0, 0, 2, // groups
    0, // width reference
    1, // width bits
    0, 0, 0, 3, // length reference
    0, // increment
    0, 0, 0, 1, // last length
    0, // length bits
];

/// Document 01's "Order 1, one octet".
const SPATIAL: [u8; 49] = [
    0, 0, 0, 49, // section length
    5,  // section number
    0, 0, 0, 4, // declared points
    0, 3, // template
    0x00, 0x00, 0x00, 0x00, // reference value
    0x00, 0x00, // binary scale
    0x80, 0x01, // decimal scale
    0,    // number width
    0,    // original field type
    1,    // splitting method
    0,    // missing management
    0xFF, 0xFF, 0xFF, 0xFF, // missing value 1
    0xFF, 0xFF, 0xFF, 0xFF, // missing value 2
    0, 0, 0, 1, // groups
    3, // width reference
    0, // width bits
    0, 0, 0, 0, // length reference
    0, // increment
    0, 0, 0, 4, // last length
    0, // length bits
    1, // order
    1, // descriptor octets
];

#[test]
fn cases_of_document_01() {
    use Point::{Missing1, Number};
    let points = cleatmow::unpack(&COMPLEX, &[0xBC, 0x80, 0x40]);
    assert_eq!(points, Ok(vec![Number(5), Missing1, Number(5), Missing1]));
    let points = cleatmow::unpack(&SPATIAL, &[0x0A, 0x82, 0x0C, 0x50]);
    assert_eq!(points, Ok(vec![Number(10), Number(11), Number(9), Number(12)]));

    let complex = [47, 5, 4, 2, 0x42C8_1301, 0x8003, 2, 3, 0xA1, 1, 1, 0xFEDC_BA98, 0x7654_3210, 2, 0, 1, 3, 0, 1, 0];
    let spatial = [49, 5, 4, 3, 0, 0, 0x8001, 0, 0, 1, 0, u32::MAX, u32::MAX, 1, 3, 0, 0, 0, 4, 0, 1, 1];
    assert_eq!(cleatmow::read_section5(&COMPLEX), Ok(complex.to_vec()));
    assert_eq!(cleatmow::read_section5(&SPATIAL), Ok(spatial.to_vec()));
    assert_eq!(cleatmow::write_section5(&complex), Ok(COMPLEX.to_vec()));
    assert_eq!(cleatmow::write_section5(&spatial), Ok(SPATIAL.to_vec()));
}

/// A Section 5 and its payload.
struct Map {
    section5: Vec<u8>,
    payload: Vec<u8>,
}

/// One under each template, of the same two groups. There are more octets after them, so that not all that a damaged
/// section asks for is absent.
fn maps() -> [Map; 2] {
    let more = [0x5A; 16];
    let complex = Map { section5: COMPLEX.to_vec(), payload: [&[0xBC, 0x80, 0x40], &more[..]].concat() };
    let mut section5 = [&COMPLEX[..], &[1, 1]].concat();
    put(&mut section5, 1, &[0, 0, 0, 49]);
    put(&mut section5, 10, &[0, 3]);
    let spatial = Map { section5, payload: [&[0x0A, 0x82, 0xBC, 0x80, 0x40], &more[..]].concat() };
    [complex, spatial]
}

impl Map {
    /// The fields, as they are lent.
    fn fields(&self) -> Vec<u8> {
        lent_fields(&fields(&self.section5).unwrap())
    }
}

/// The section with other octets from this one on.
fn with(section5: &[u8], octet: usize, octets: &[u8]) -> Vec<u8> {
    let mut section5 = section5.to_vec();
    put(&mut section5, octet, octets);
    section5
}

/// The section with each thing wrong that 14 is for: its length, its number, its template, its last octet.
fn no_sections(section5: &[u8]) -> [Vec<u8>; 4] {
    let cut = section5[..section5.len() - 1].to_vec();
    [with(section5, 4, &[48]), with(section5, 5, &[7]), with(section5, 11, &[200]), cut]
}

/// The places of the fields that reading and writing judge: section length, section number, template.
const JUDGED: [usize; 3] = [0, 1, 3];

/// The octets between two buffers.
const BETWEEN: usize = 16;

/// Makes a call that reads these buffers on so many lent octets, all between guards. Holds its answer to the model's,
/// and every octet: read, lent, before, between and after. Answers both, the octets those that are lent.
fn compare<const READ: usize>(
    read: [&[u8]; READ],
    len: usize,
    right: impl Fn(&[u8]) -> (u32, Vec<u8>),
    call: impl Fn([&[u8]; READ], &mut [u8]) -> u32,
) -> (u32, Vec<u8>) {
    let mut end = 0;
    let places = read.map(|octets| {
        let place = end..end + octets.len();
        end = place.end + BETWEEN;
        place
    });
    let lay = |all: &mut [u8]| {
        for (place, octets) in places.iter().zip(read) {
            all[place.clone()].copy_from_slice(octets);
        }
    };
    let all_right = |all: &[u8]| {
        let mut all = all.to_vec();
        lay(&mut all);
        let (number, left) = right(&all[end..]);
        all[end..].copy_from_slice(&left);
        (number, all)
    };
    let call_within = |all: &mut [u8]| {
        lay(all);
        let (front, lent) = all.split_at_mut(end);
        call(places.clone().map(|place| &front[place]), lent)
    };
    let (number, all) = guarded::compare(format_args!("{read:02X?}"), end + len, all_right, call_within);
    (number, all[end..].to_vec())
}

/// Holds reading on so many lent octets to the model, and the call that lends for itself, where 10 does not arise. That
/// one is given the caller's own slice, with whatever stands behind it.
fn compare_read(section5: &[u8], len: usize) -> u32 {
    let right = |lent: &[u8]| model::read(section5, lent);
    let (answer, _) = compare([section5], len, right, |[section5], lent| model::call_read(section5, lent));
    let read = cleatmow::read_section5(section5).map_err(Refusal::number);
    assert_eq!(read, fields(section5), "{section5:02X?}");
    answer
}

/// The same for writing.
fn compare_write(lent_fields: &[u8], len: usize) -> u32 {
    let right = |lent: &[u8]| model::write(lent_fields, lent);
    let (answer, _) = compare([lent_fields], len, right, |[fields], lent| model::call_write(fields, lent));
    let numbers = whole_fields(lent_fields);
    let written = cleatmow::write_section5(&numbers).map_err(Refusal::number);
    assert_eq!(written, octets(&numbers), "{numbers:X?}");
    answer
}

/// The same for unpacking.
fn compare_unpack(section5: &[u8], payload: &[u8], len: usize) -> u32 {
    let right = |lent: &[u8]| model::unpack(section5, payload, lent);
    let call = |[section5, payload]: [&[u8]; 2], lent: &mut [u8]| model::call_unpack(section5, payload, lent);
    let (answer, left) = compare([section5, payload], len, right, call);
    match cleatmow::unpack(section5, payload) {
        Ok(points) if answer == 0 => assert!(left.starts_with(&octets_of(&points)), "{section5:02X?} {payload:02X?}"),
        // Room for the declared count is there, so 10 is not its answer, and what comes after 10 may be.
        points => {
            let number = points.map_or_else(Refusal::number, |_| 0);
            let right = if answer == 10 { matches!(number, 0 | 12) } else { number == answer };
            assert!(right, "{answer} and {number}: {section5:02X?} {payload:02X?}");
        }
    }
    answer
}

/// A field list that is long enough for either template, a section that is, and room for the points of a map.
const FIELDS: usize = 22 * 4;
const SECTION: usize = 49;
const POINTS: usize = 4 * POINT_OCTETS;

/// "writing what was read gives back the octets"
fn hold_there_and_back(section5: &[u8]) {
    assert_eq!(compare_read(section5, FIELDS), 0, "{section5:02X?}");
    let fields = cleatmow::read_section5(section5).unwrap();
    assert_eq!(compare_write(&lent_fields(&fields), SECTION), 0, "{section5:02X?}");
    assert_eq!(cleatmow::write_section5(&fields).as_deref(), Ok(section5));
}

/// Reading judges the length, the section number and the template alone, and what was read is written as it was.
#[test]
fn every_octet_at_every_value() {
    let mut answers = [[0_u32; 15]; 2];
    for (template, map) in maps().iter().enumerate() {
        for octet in 1..=map.section5.len() {
            for value in 0..=255 {
                let section5 = with(&map.section5, octet, &[value]);
                let judged = matches!(octet, 1..=5 | 10 | 11) && section5 != map.section5;
                if judged {
                    assert_eq!(compare_read(&section5, FIELDS), 14, "octet {octet} is {value}");
                } else {
                    hold_there_and_back(&section5);
                }
                let answer = compare_unpack(&section5, &map.payload, POINTS);
                assert_eq!(answer == 14, judged, "octet {octet} is {value}");
                answers[template][answer as usize] += 1;
            }
        }
    }
    println!("answers of unpacking by number, under 5.2 and 5.3: {answers:?}");
    let reached = answers.map(|answers| (0..15).filter(|number| answers[*number] > 0).collect::<Vec<_>>());
    assert_eq!(reached, [vec![0, 1, 2, 5, 6, 7, 8, 9, 14], vec![0, 1, 2, 3, 4, 5, 6, 7, 8, 9, 14]]);
}

/// In a field list an upper octet other than 0 is 13 where the field's own octets do not reach it, and 14 in the
/// length, the section number and the template.
#[test]
fn every_octet_of_the_fields_at_every_value() {
    for map in maps() {
        let good = map.fields();
        for place in 0..good.len() {
            let (field, octet) = (place / 4, place % 4);
            // How many octets a field has: by what is read where all of them are 255.
            let is_own = greatest(&map.section5)[field].to_be_bytes()[octet] == 255;
            for value in 0..=255 {
                let mut fields = good.clone();
                fields[place] = value;
                let expected = match field {
                    _ if fields == good => 0,
                    _ if JUDGED.contains(&field) => 14,
                    _ if is_own => 0,
                    _ => 13,
                };
                assert_eq!(compare_write(&fields, SECTION), expected, "octet {octet} of field {field} is {value}");
            }
        }
    }
}

/// What is read where every octet that is not judged is 255: the greatest number of each field, but for the judged
/// three.
fn greatest(section5: &[u8]) -> Vec<u32> {
    let mut all = with(section5, 6, &[255; 4]);
    all[11..].fill(255);
    cleatmow::read_section5(&all).unwrap()
}

/// A number that its octets do not hold is 13: the greatest that they hold is written, one more is refused.
#[test]
fn fields_have_limits() {
    for (map, refused) in maps().iter().zip([10, 12]) {
        let good = fields(&map.section5).unwrap();
        let greatest = greatest(&map.section5);
        assert_eq!(compare_write(&lent_fields(&greatest), SECTION), 0);
        let mut above_limit = 0;
        for place in (0..good.len()).filter(|place| !JUDGED.contains(place)) {
            assert!([255, 65_535, u32::MAX].contains(&greatest[place]), "field {place}");
            for number in [0, 1, greatest[place] - 1, greatest[place]] {
                let mut fields = good.clone();
                fields[place] = number;
                assert_eq!(compare_write(&lent_fields(&fields), SECTION), 0, "field {place} is {number}");
            }
            let Some(above) = greatest[place].checked_add(1) else { continue };
            for number in [above, above + good[place], 1 << 24, 1 << 31, u32::MAX] {
                let mut fields = good.clone();
                fields[place] = number;
                assert_eq!(compare_write(&lent_fields(&fields), SECTION), 13, "field {place} is {number}");
            }
            above_limit += 1;
        }
        assert_eq!(above_limit, refused, "fields of fewer than four octets");
        // A length, a section number or a template that its octets do not hold is not the right one.
        for (place, bits) in [(1, 8), (3, 16)] {
            let mut fields = good.clone();
            fields[place] += 1 << bits;
            assert_eq!(compare_write(&lent_fields(&fields), SECTION), 14, "field {place}");
        }
    }
}

/// Every length, section number and template, right or not, on sections of either size and about them.
#[test]
fn headers_in_full() {
    let whole = [&maps()[1].section5[..], &[7; 3]].concat();
    let mut accepted = 0;
    for length in [0, 2, 3, 5, 11, 46, 47, 48, 49, 50, 47 << 8, 49 << 8, 47 << 24, 49 << 24, 0x0101_002F, u32::MAX] {
        for number in [0, 4, 5, 6, 7, 255] {
            for template in [0, 1, 2, 3, 4, 40, 50, 200, 0x0200, 0x0300, 0x0102, 0x0103, u16::MAX] {
                let mut section5 = with(&whole, 1, &u32::to_be_bytes(length));
                put(&mut section5, 5, &[number]);
                put(&mut section5, 10, &u16::to_be_bytes(template));
                for len in [11, 46, 47, 48, 49, 50] {
                    let right = number == 5
                        && (template == 2 && length == 47 && len >= 47 || template == 3 && length == 49 && len >= 49);
                    let expected = if right { 0 } else { 14 };
                    assert_eq!(compare_read(&section5[..len], FIELDS), expected, "{length} {number} {template} {len}");
                    let answer = compare_unpack(&section5[..len], &maps()[1].payload, POINTS);
                    assert_eq!(answer == 14, !right, "{length} {number} {template} {len}");
                    accepted += u32::from(right);
                }
                // The same in fields, with as many as either template has or one fewer.
                let mut numbers = fields(&maps()[1].section5).unwrap();
                (numbers[0], numbers[1], numbers[3]) = (length, number.into(), template.into());
                for count in [4, 19, 20, 21, 22] {
                    let right = number == 5
                        && (template == 2 && length == 47 && count >= 20
                            || template == 3 && length == 49 && count == 22);
                    let expected = if right { 0 } else { 14 };
                    let answer = compare_write(&lent_fields(&numbers[..count]), SECTION);
                    assert_eq!(answer, expected, "{length} {number} {template} {count}");
                    accepted += u32::from(right);
                }
            }
        }
    }
    assert_eq!(accepted, (4 + 2) + (3 + 1));
}

/// Fewer octets than the template has are 14, more are not looked at. What stands behind is the section's own rest,
/// which must not be read, or garbage.
#[test]
fn sections_of_every_length() {
    for Map { section5, payload } in maps() {
        for behind in [0, 0xFF, 0x5A] {
            let mut longer = section5.clone();
            longer.resize(60, behind);
            for len in 0..=60 {
                let expected = if len < section5.len() { 14 } else { 0 };
                let lent = &longer[..len];
                assert_eq!(compare_read(lent, FIELDS), expected, "{len} octets");
                assert_eq!(compare_unpack(lent, &payload, POINTS), expected, "{len} octets");
            }
        }
    }
}

/// Fewer numbers than the template has fields are 14, and spare octets short of a number are none; more are not looked
/// at.
#[test]
fn field_lists_of_every_length() {
    for map in maps() {
        let good = map.fields();
        for behind in [0, 0xFF, 0x5A] {
            let mut longer = good.clone();
            longer.resize(120, behind);
            for len in 0..=120 {
                let expected = if len < good.len() { 14 } else { 0 };
                assert_eq!(compare_write(&longer[..len], SECTION), expected, "{len} octets");
            }
        }
    }
}

/// "A lent output that is too small is 10", after 14 and 13. What is lent past the answer stays as it was.
#[test]
fn lent_buffers_of_every_size() {
    for map in maps() {
        let (section5, payload, fields) = (&map.section5, &map.payload, map.fields());
        // Another section number, and a number width of 256.
        let other_fields = with(&fields, 8, &[7]);
        let large = with(&fields, 4 * 7 + 1, &256_u32.to_be_bytes());
        for len in 0..=120 {
            let room = |right: usize| if len < right { 10 } else { 0 };
            assert_eq!(compare_read(section5, len), room(fields.len()), "{len} octets");
            assert_eq!(compare_write(&fields, len), room(section5.len()), "{len} octets");
            assert_eq!(compare_unpack(section5, payload, len), room(POINTS), "{len} octets");
            assert_eq!(compare_write(&large, len), 13, "{len} octets");
            assert_eq!(compare_write(&other_fields, len), 14, "{len} octets");
            for other in no_sections(section5) {
                assert_eq!(compare_read(&other, len), 14, "{len} octets");
                assert_eq!(compare_unpack(&other, payload, len), 14, "{len} octets");
            }
        }
    }
}

/// Each set of faults at once gives the first of 14, 13 and 10, whichever field is too large.
#[test]
fn refusals_of_writing_come_in_their_order() {
    for map in maps() {
        let good = fields(&map.section5).unwrap();
        let greatest = greatest(&map.section5);
        let too_large = (0..good.len()).filter(|place| !JUDGED.contains(place) && greatest[*place] < u32::MAX);
        for large in [None].into_iter().chain(too_large.map(Some)) {
            for faults in 0..1 << 5 {
                let [length, number, template, fewer, room] = std::array::from_fn(|fault| faults >> fault & 1 == 1);
                let mut fields = good.clone();
                if let Some(place) = large {
                    fields[place] = greatest[place] + 1;
                }
                if length {
                    fields[0] -= 1;
                }
                if number {
                    fields[1] = 7;
                }
                if template {
                    fields[3] = 200;
                }
                if fewer {
                    fields.pop();
                }
                let len = map.section5.len() - usize::from(room);
                let rows = [(length || number || template || fewer, 14), (large.is_some(), 13), (room, 10)];
                let expected = rows.iter().find(|row| row.0).map_or(0, |row| row.1);
                assert_eq!(compare_write(&lent_fields(&fields), len), expected, "{faults:05b} {large:?}");
            }
        }
    }
}

/// What mends a fault of a map.
#[derive(Clone, Copy)]
enum Mend {
    /// These octets of the section, from this one on.
    Octets(usize, &'static [u8]),
    /// So many octets of the payload, after its descriptors.
    Payload(usize),
    /// The last octet of room, and some to spare.
    Room,
}

/// From a map with every fault, one after another is mended: each answer comes in its turn, and 14 "comes before all
/// others" at each.
fn hold_order(mut section5: Vec<u8>, descriptors: &[u8], mends: &[(u32, Mend)]) {
    let payload = [descriptors, &FIELDS_AND_VALUE].concat();
    let (mut there, mut room) = (0, 40_000 * POINT_OCTETS - 1);
    let hold = |section5: &[u8], there: usize, room: usize, expected: u32| {
        for other in no_sections(section5) {
            assert_eq!(compare_unpack(&other, &payload[..there], room), 14, "in place of {expected}");
        }
        assert_eq!(compare_unpack(section5, &payload[..there], room), expected);
    };
    for (expected, mend) in mends {
        hold(&section5, there, room, *expected);
        match *mend {
            Mend::Octets(octet, octets) => put(&mut section5, octet, octets),
            Mend::Payload(octets) => there = descriptors.len() + octets,
            Mend::Room => room += 20,
        }
    }
    hold(&section5, there, room, 0);
}

/// Two groups: one point of width 8, then 39,999 of width 0. Under order 2 they grow by differences of 2^31 − 16,
/// beyond 2^60.
const FIELDS_AND_VALUE: [u8; 10] = [0x00, 0x00, 0x00, 0x0F, 0xFF, 0xFF, 0xFF, 0xC0, 0x80, 0xFF];

#[test]
fn refusals_of_unpacking_come_in_their_order() {
    use Mend::{Octets, Payload, Room};
    // Every fault. Right are width bits 4, length reference 1, increment 0 and last length 39,999.
    let mut complex = COMPLEX.to_vec();
    put(&mut complex, 6, &[0x00, 0x40, 0x00, 0x01]);
    put(&mut complex, 20, &[32]);
    put(&mut complex, 22, &[0, 3]);
    put(&mut complex, 32, &[0, 0, 0, 0, 32, 4, 0, 0, 0, 1, 0, 0x00, 0x00, 0x9C, 0x3F, 0]);
    let mut spatial = [&complex[..], &[3, 5]].concat();
    put(&mut spatial, 1, &[0, 0, 0, 49]);
    put(&mut spatial, 10, &[0, 3]);

    let (splitting, management) = ((1, Octets(22, &[1])), (2, Octets(23, &[0])));
    let from_6_on = [
        (6, Octets(32, &[0, 0, 0, 2])),
        (5, Octets(20, &[31])),
        (7, Payload(9)),
        (8, Octets(36, &[0])),
        (7, Payload(10)),
        (9, Octets(6, &[0x00, 0x00, 0x9C, 0x40])),
        (10, Room),
    ];
    hold_order(complex, &[], &[&[splitting, management], &from_6_on[..]].concat());

    let before_6 = [(3, Octets(48, &[2])), splitting, management, (4, Octets(49, &[4])), (7, Payload(0))];
    // Not as many differences, so that they do not come to 2^60.
    let last = [(12, Octets(43, &[0, 0, 0, 4])), (9, Octets(6, &[0, 0, 0, 5]))];
    hold_order(spatial, &[0, 0, 0, 5, 0, 0, 0, 6, 0, 0, 0, 0], &[&before_6, &from_6_on[..], &last].concat());
}

/// "Reading what was written gives back every field, and writing what was read gives back the octets".
#[test]
fn there_and_back() {
    let mut chance = Numbers::new(5);
    for map in maps().iter().cycle().take(4_000) {
        // Any octets where none is judged, and any behind.
        let mut section5 = map.section5.clone();
        for octet in (6..=9).chain(12..=section5.len()) {
            put(&mut section5, octet, &[chance.any() as u8]);
        }
        let more: Vec<u8> = (0..chance.below(12)).map(|_| chance.any() as u8).collect();
        let behind = [&section5[..], &more].concat();
        let spare = chance.below(12) as usize;
        assert_eq!(compare_read(&behind, map.fields().len() + spare), 0);
        let fields = cleatmow::read_section5(&behind).unwrap();
        let lent = [&lent_fields(&fields)[..], &more].concat();
        assert_eq!(compare_write(&lent, section5.len() + spare), 0);
        let written = cleatmow::write_section5(&whole_fields(&lent)).unwrap();
        assert_eq!(written, section5);
        assert_eq!(cleatmow::read_section5(&written), Ok(fields));
    }
}

/// Up to three fields are any numbers, which their octets hold or do not: what is written is read back.
#[test]
fn fields_by_chance() {
    let mut chance = Numbers::new(14);
    let mut answers = [0_u32; 15];
    for map in maps().iter().cycle().take(20_000) {
        let mut numbers = fields(&map.section5).unwrap();
        for _ in 0..chance.below(4) {
            let place = chance.below(numbers.len() as u64) as usize;
            let bits = [7, 8, 9, 16, 17, 31, 32][chance.below(7) as usize];
            numbers[place] = chance.below(1 << bits) as u32;
        }
        let len = map.section5.len() - usize::from(chance.below(8) == 0);
        let answer = compare_write(&lent_fields(&numbers), len);
        if answer == 0 {
            let written = cleatmow::write_section5(&numbers).unwrap();
            assert_eq!(cleatmow::read_section5(&written), Ok(numbers));
        }
        answers[answer as usize] += 1;
    }
    println!("answers by number: {answers:?}");
    assert!([0, 10, 13, 14].iter().all(|number| answers[*number] > 1_000), "{answers:?}");
}

/// Between guards. `others.rs` holds their points to those of other readers, and `real.rs` has the real maps.
#[test]
fn maps_by_other_writers() {
    let mut run = [0; 2];
    for map in others::maps().iter().filter(|map| map.template != 200) {
        hold_there_and_back(&map.section5_octets);
        let room = (map.section5.declared as usize + 2) * POINT_OCTETS;
        let expected = map.refusal.map_or(0, Refusal::number);
        assert_eq!(compare_unpack(&map.section5_octets, &map.payload, room), expected, "{}", map.id);
        run[usize::from(map.template) - 2] += 1;
    }
    assert_eq!(run, [49, 49], "maps under 5.2 and 5.3");
}
