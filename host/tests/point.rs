//! One point through the C call, against document 02, No. 3: every place of maps beside their full unpacking, the
//! refusals and their order, the two values that are lent, what the answer depends on, and a plain model.

mod support;

use cleatmow::{point, unpack, Point, Refusal, Template};
use std::ops::Range;
use support::grib2::put;
use support::maps::{gusts, ComplexMap, Numbers};
use support::model::point::{self as model, Lent};
use support::model::{good, payload, read_back, section5, template, Input, Written};
use support::others;

/// A map by its two sections, and all its points, or its refusal, as the model has them.
struct Map {
    section5: Vec<u8>,
    payload: Vec<u8>,
    right: Result<Vec<(u8, i64)>, u32>,
}

impl Map {
    /// "With room enough for the map, the answer equals that place in the full unpacking, and refusals 1 to 9 are the
    /// same": so the full unpacking through the host is held to the model here, and one point below.
    fn new(section5: &[u8], payload: &[u8]) -> Map {
        let right = model::map(section5, payload);
        // Under 5.3 a map is unpacked, and no point of it is read by itself.
        let is_spatial = section5::fields(section5).is_ok_and(|fields| fields.len() == 22);
        let unpacked = unpack(section5, payload).map_err(Refusal::number);
        let unpacked = unpacked.map(|points| points.into_iter().map(as_lent).collect());
        assert!(is_spatial || unpacked == right, "{section5:02X?}, {payload:02X?}");
        Map { section5: section5.to_vec(), payload: payload.to_vec(), right }
    }

    /// What its Section 5 carries through is any.
    fn of(input: &Input) -> Map {
        Map::new(&section5::of_map(input, &mut Numbers::new(3)), &input.payload)
    }

    /// Its refusal as far as 9, or 0.
    fn refusal(&self) -> u32 {
        self.right.as_ref().map_or_else(|number| *number, |_| 0)
    }

    /// The declared count.
    fn declared(&self) -> u32 {
        section5::fields(&self.section5).map_or(0, |fields| fields[2])
    }

    /// Makes the call for each of these places, on both sections between guards, over a pattern and over its
    /// complement. Holds its answers and all octets, read, lent and about them, to the model's, and the wrapper to the
    /// same. Answers the numbers that were answered.
    fn hold(&self, places: &[u32]) -> Vec<u32> {
        let Map { section5, payload, right } = self;
        let shown = |place: u32| format!("place {place} of {section5:02X?}, {payload:02X?}");
        let [answers, _] = [0x5A, 0xA5].map(|octet| {
            let guard = [octet; 17];
            let all = [&guard[..], section5, &guard, payload, &guard].concat();
            let section5 = guard.len()..guard.len() + section5.len();
            let payload = section5.end + guard.len()..section5.end + guard.len() + payload.len();
            let called = all.clone();
            let answers = places.iter().map(|&place| {
                let mut lent = Lent::new(octet);
                let (number, left) = lent.left(model::at(right, place));
                let answer = lent.call(place, &called[section5.clone()], &called[payload.clone()]);
                assert!((answer, lent) == (number, left), "{answer} for {number}, {lent:?}: {}", shown(place));
                answer
            });
            let answers: Vec<u32> = answers.collect();
            assert!(called == all, "what is read is changed, at one of {places:?}: {}", shown(0));
            answers
        });
        for &place in places {
            let read = point(section5, payload, place).map(as_lent).map_err(Refusal::number);
            assert_eq!(read, model::at(right, place), "{}", shown(place));
        }
        answers
    }

    /// The same for every place, for those about the end, and for some far behind it.
    fn hold_all(&self) -> Vec<u32> {
        let places = self.right.as_ref().map_or(0, |points| points.len() as u32);
        let end = self.declared();
        let ends = [end.saturating_sub(1), end, end.saturating_add(1), end.saturating_add(256), 1 << 31, u32::MAX];
        self.hold(&(0..places).chain(ends).collect::<Vec<_>>())
    }
}

fn as_lent(point: Point) -> (u8, i64) {
    (point.mark(), point.number().unwrap_or(0))
}

/// An input under 5.2.
fn complex(template: Template, declared: u32, payload: &[u8]) -> Input {
    Input { template, differences: None, declared, payload: payload.to_vec() }
}

/// "5 6 5 7, k 4": two groups of widths 1 and 0.
fn two_groups() -> Input {
    complex(template(3, 2, (0, 1), (3, 0, 1, 0)), 4, &[0xBC, 0x80, 0x40])
}

/// An input with some of its template numbers changed.
fn with(input: &Input, change: impl Fn(&mut Template)) -> Input {
    let mut input = input.clone();
    change(&mut input.template);
    input
}

fn written(reference: u64, width_code: u64, length_code: u64, values: &[u64]) -> Written {
    Written { reference, width_code, length_code, values: values.to_vec() }
}

#[test]
fn cases_of_document_01() {
    use Point::{Missing1, Missing2, Number};
    let hold = |input: Input, points: &[Point]| {
        let map = Map::of(&input);
        map.hold_all();
        let read: Vec<_> = (0..).zip(points).map(|(place, _)| point(&map.section5, &map.payload, place)).collect();
        assert_eq!(read, points.iter().copied().map(Ok).collect::<Vec<_>>());
        let end = points.len() as u32;
        assert_eq!(point(&map.section5, &map.payload, end), Err(Refusal::Place));
        assert_eq!(point(&map.section5, &map.payload, u32::MAX), Err(Refusal::Place));
    };
    let eights = complex(template(4, 2, (0, 0), (4, 0, 3, 0)), 7, &[0x08]);
    hold(eights, &[0, 0, 0, 0, 8, 8, 8].map(Number));
    let singles = complex(template(3, 4, (0, 0), (1, 0, 1, 0)), 4, &[0xBA, 0xF0]);
    hold(singles, &[5, 6, 5, 7].map(Number));
    hold(two_groups(), &[5, 6, 5, 7].map(Number));
    hold(with(&two_groups(), |template| template.missing = 1), &[Number(5), Missing1, Number(5), Missing1]);
    hold(with(&two_groups(), |template| template.missing = 2), &[Missing2, Missing1, Missing2, Missing1]);
    let nothing = complex(template(0, 1, (0, 0), (0, 0, 3, 0)), 3, &[]);
    hold(with(&nothing, |template| template.missing = 1), &[Missing1; 3]);
    hold(nothing, &[0; 3].map(Number));
    let step = complex(template(4, 3, (0, 0), (10, 150, 5, 2)), 325, &[0x08, 0x00, 0x20]);
    let eight = |place: usize| i64::from((10..320).contains(&place)) * 8;
    hold(step, &(0..325).map(|place| Number(eight(place))).collect::<Vec<_>>());
    let above = complex(template(31, 1, (1, 0), (0, 0, 1, 0)), 1, &[0xFF, 0xFF, 0xFF, 0xFE, 0x80]);
    hold(above, &[Number(2_147_483_648)]);
}

/// Every place of the maps of samples/others.txt, and the refusals that it lists; those under 5.3 are 14.
#[test]
fn maps_by_other_writers() {
    let (mut run, mut answers) = ([0; 2], [0; 16]);
    for map in others::maps().iter().filter(|map| map.template != 200) {
        let refusal = map.refusal.map_or(0, Refusal::number);
        let expected = if map.template == 3 { 14 } else { refusal };
        let read = Map::new(&map.section5_octets, &map.payload);
        assert_eq!(read.refusal(), expected, "{}", map.id);
        for answer in read.hold_all() {
            answers[answer as usize] += 1;
        }
        run[usize::from(map.template) - 2] += 1;
    }
    println!("answers by number: {answers:?}");
    assert_eq!(run, [49, 49], "maps under 5.2 and 5.3");
    assert!(answers[0] > 3_000 && [1, 5, 6, 8, 14, 15].iter().all(|number| answers[*number] > 0), "{answers:?}");
}

/// A map of samples/, by its name.
macro_rules! real {
    ($name:literal) => {
        Map::new(
            include_bytes!(concat!("../../samples/", $name, ".s5")),
            &include_bytes!(concat!("../../samples/", $name, ".s7"))[5..],
        )
    };
}

/// The continental United States, 739,297 points in 22,011 groups: the first place and the last, both sides of every
/// 33rd boundary between groups, and places by chance. The other two are under 5.3.
#[test]
fn real_maps() {
    let map = real!("ndfd-conus-1073x689");
    let (_, groups) = read_back(&section5::input(&map.section5, &map.payload).unwrap()).unwrap();
    let mut start = 0;
    let starts: Vec<u32> = groups
        .iter()
        .map(|group| {
            start += group.values.len() as u32;
            start - group.values.len() as u32
        })
        .collect();
    assert_eq!((starts.len(), start), (22_011, 739_297));
    let sides = starts.iter().skip(1).step_by(33).flat_map(|start| [start - 1, *start]);
    let mut chance = Numbers::new(22_011);
    let by_chance = (0..300).map(|_| chance.below(739_297) as u32);
    let places: Vec<u32> = [0, 739_296].into_iter().chain(sides).chain(by_chance).collect();
    assert_eq!((places.len(), map.hold(&places)), (2 + 2 * 667 + 300, vec![0; places.len()]));
    // Of both kinds, or nothing would be shown of one of them.
    let points = map.right.as_ref().unwrap();
    let missing = places.iter().filter(|place| points[**place as usize].0 == 1).count();
    assert!(missing > 100 && missing < places.len() - 100, "{missing} of {}", places.len());
    assert_eq!(map.hold(&[739_297, 739_298, u32::MAX]), [15; 3]);

    assert_eq!(real!("gfs-gust-144x73").hold(&[0, 10_511, 10_512]), [14; 3]);
    assert_eq!(real!("ndfd-puerto-rico-339x224").hold(&[0, 75_935, 75_936]), [14; 3]);
}

/// Every place of the continental United States beside its full unpacking.
#[test]
#[ignore = "takes minutes: make hostile"]
fn every_place_of_the_real_map() {
    let map = real!("ndfd-conus-1073x689");
    let points = unpack(&map.section5, &map.payload).unwrap();
    assert_eq!(points.len(), 739_297);
    for (place, unpacked) in (0..).zip(points) {
        assert_eq!(point(&map.section5, &map.payload, place), Ok(unpacked), "place {place}");
    }
}

/// Groups of no points are passed over, wherever they stand and whatever their width is: four groups of lengths 0, 1
/// and 3 and widths 0 and 3, under each missing management, with references and without. The last length code is
/// another length's.
#[test]
fn groups_of_no_points() {
    let mut chance = Numbers::new(40);
    let (mut maps, mut empty) = (0, 0);
    for shape in 0..81 * 16 {
        let lengths: [usize; 4] = std::array::from_fn(|group| [0, 1, 3][shape / 16 / 3_usize.pow(group as u32) % 3]);
        let widths: [u64; 4] = std::array::from_fn(|group| 3 * (shape >> group & 1) as u64);
        for number_width in [0, 4] {
            let template = template(number_width, 4, (0, 2), (0, 1, lengths[3] as u32, 2));
            let groups = [0, 1, 2, 3].map(|group| {
                let length_code = if group < 3 { lengths[group] as u64 } else { 2 };
                let values: Vec<u64> = (0..lengths[group]).map(|_| chance.below(1 << widths[group])).collect();
                written(chance.below(1 << number_width), widths[group], length_code, &values)
            });
            let payload = payload(&template, None, &[], &groups, chance.below(2) as u8);
            let declared = lengths.iter().sum::<usize>() as u32;
            for missing in 0..3 {
                let answers = Map::of(&complex(Template { missing, ..template }, declared, &payload)).hold_all();
                // Every place, and the last again; those behind it.
                let accepted = declared as usize + usize::from(declared > 0);
                assert_eq!(answers.iter().position(|answer| *answer == 15), Some(accepted), "{lengths:?} {widths:?}");
                maps += 1;
                empty += usize::from(declared == 0);
            }
        }
    }
    assert_eq!((maps, empty), (81 * 16 * 2 * 3, 16 * 2 * 3));
}

/// A width of 32 is 8 at every place, in whichever of three groups it is, though that one or any other has no points.
#[test]
fn widths_of_every_group() {
    for (wide, shape) in (0..3).flat_map(|wide| (0..8).map(move |shape| (wide, shape))) {
        for (width, expected) in [(31, 0), (32, 8)] {
            let lengths: [usize; 3] = std::array::from_fn(|group| shape >> group & 1);
            let groups = [0, 1, 2].map(|group| {
                let width_code = if group == wide { width } else { 3 };
                written(5, width_code, lengths[group] as u64, &vec![6; lengths[group]])
            });
            let template = template(4, 3, (0, 6), (0, 1, lengths[2] as u32, 1));
            let payload = payload(&template, None, &[], &groups, 0);
            let map = Map::of(&complex(template, lengths.iter().sum::<usize>() as u32, &payload));
            assert_eq!(map.refusal(), expected, "group {wide} of {lengths:?}");
            map.hold_all();
        }
    }
}

/// Maps of a few groups by chance, each declared as it is, one more and one fewer; and made ones of up to 200 points.
#[test]
fn maps_by_chance() {
    let mut chance = Numbers::new(15);
    let mut answers = [0; 16];
    let mut hold = |input: &Input| {
        for answer in Map::of(input).hold_all() {
            answers[answer as usize] += 1;
        }
    };
    let inputs = std::iter::repeat_with(|| good(&mut chance)).filter(|input| input.differences.is_none());
    for mut input in inputs.take(2_000) {
        let declared = support::model::count(&input).unwrap() as u32;
        for declared in [Some(declared), declared.checked_add(1), declared.checked_sub(1)].into_iter().flatten() {
            input.declared = declared;
            hold(&input);
        }
    }
    for points in [1, 2, 7, 8, 9, 31, 32, 33, 64, 200] {
        let ComplexMap { template, declared, payload, .. } = gusts(points);
        hold(&complex(template, declared, &payload));
    }
    println!("answers by number: {answers:?}");
    assert!([0, 9, 15].iter().all(|number| answers[*number] > 5_000), "{answers:?}");
}

/// As many groups as there may be, of one point each, whose references are the octets of the payload; and as many
/// points as there may be, in one group of one bit each.
#[test]
fn limits() {
    const MOST: u32 = 4_194_304;
    let mut chance = Numbers::new(6);
    let mut octets = |count: u32| -> Vec<u8> { (0..count).map(|_| chance.any() as u8).collect() };
    let places = [0, 1, 65_535, 65_536, MOST / 2, MOST - 2, MOST - 1];
    let ends = [(MOST, Err(Refusal::Place)), (MOST + 1, Err(Refusal::Place)), (u32::MAX, Err(Refusal::Place))];

    let references = octets(MOST + 1);
    let groups = |groups, declared| {
        section5::of_map(&complex(template(8, groups, (0, 0), (1, 0, 1, 0)), declared, &[]), &mut Numbers::new(1))
    };
    let right = |place: u32| Ok(Point::Number(references[place as usize].into()));
    for (place, right) in places.map(|place| (place, right(place))).into_iter().chain(ends) {
        assert_eq!(point(&groups(MOST, MOST), &references, place), right, "{place}");
    }
    for place in [0, MOST, MOST + 1] {
        assert_eq!(point(&groups(MOST + 1, MOST + 1), &references, place), Err(Refusal::GroupCount));
        assert_eq!(point(&groups(MOST, MOST), &references[1..MOST as usize], place), Err(Refusal::Short));
        assert_eq!(point(&groups(MOST, MOST - 1), &references, place), Err(Refusal::Points));
    }

    let values = octets(MOST / 8 + 1);
    let one_group = |last, declared| {
        section5::of_map(&complex(template(0, 1, (1, 0), (0, 0, last, 0)), declared, &[]), &mut Numbers::new(1))
    };
    let right = |place: u32| Ok(Point::Number((values[place as usize / 8] >> (7 - place % 8) & 1).into()));
    for (place, right) in places.map(|place| (place, right(place))).into_iter().chain(ends) {
        assert_eq!(point(&one_group(MOST, MOST), &values, place), right, "{place}");
    }
    for place in [0, MOST, MOST + 1] {
        assert_eq!(point(&one_group(MOST + 1, MOST + 1), &values, place), Err(Refusal::Points));
        assert_eq!(point(&one_group(MOST, MOST), &values[2..], place), Err(Refusal::Short));
        assert_eq!(point(&one_group(u32::MAX, MOST), &values, place), Err(Refusal::Short));
    }
}

/// Sums of points and of bits are exact: 2^32 and a little more does not come round to a little.
#[test]
fn sums_do_not_come_round() {
    let hold = |template: Template, declared, payload: &[u8], expected| {
        let map = Map::of(&complex(template, declared, payload));
        assert_eq!(map.hold(&[0, 1, 2, 3, 1 << 31, u32::MAX]), [expected; 6], "{template:?}");
    };
    // Of width 0, 2^31 + 2^31 + 2 points; and 255 x 2^24 + 2^24 + 2 in the length of one group.
    hold(template(0, 3, (0, 0), (1 << 31, 0, 2, 0)), 2, &[], 9);
    hold(template(0, 2, (0, 0), ((1 << 24) + 2, 255, 0, 25)), 2, &[0x80, 0, 0, 0, 0, 0, 0], 8);
    // The bits of 2^31 points of width 2; and of twice 2^28 points of width 16, and two more.
    hold(template(0, 1, (2, 0), (0, 0, 1 << 31, 0)), 2, &[0xE4], 7);
    hold(template(0, 3, (16, 0), (1 << 28, 0, 2, 0)), 2, &[1, 2, 3, 4], 7);
}

/// Three groups of one point, two and two, of widths 8, 0 and 7. The group fields take seven octets, the values three.
fn three_groups() -> Input {
    let template = template(4, 3, (0, 6), (1, 1, 2, 3));
    let groups = [written(9, 8, 0, &[200]), written(15, 0, 1, &[0, 0]), written(3, 7, 5, &[127, 126])];
    let payload = payload(&template, None, &[], &groups, 1);
    assert_eq!(payload.len(), 10);
    complex(template, 5, &payload)
}

/// What the call is given.
#[derive(Clone)]
struct Given {
    section5: Vec<u8>,
    payload: Vec<u8>,
    place: u32,
}

/// Something wrong with it.
type Fault = fn(&mut Given);

/// Faults of three groups, each with the refusal for it, in the order of the refusals. No two of them mend each other.
const FAULTS: [(u32, Fault); 19] = [
    (14, |given| put(&mut given.section5, 4, &[48])),
    (14, |given| put(&mut given.section5, 5, &[7])),
    (14, |given| put(&mut given.section5, 11, &[200])),
    (14, |given| given.section5.truncate(46)),
    // A whole Section 5 of 5.3.
    (14, |given| {
        put(&mut given.section5, 4, &[49]);
        put(&mut given.section5, 11, &[3]);
        given.section5.resize(49, 1);
    }),
    (1, |given| put(&mut given.section5, 22, &[0])),
    (2, |given| put(&mut given.section5, 23, &[3])),
    (6, |given| put(&mut given.section5, 32, &[0, 0, 0, 0])),
    (6, |given| put(&mut given.section5, 32, &[0, 0x40, 0, 1])),
    (5, |given| put(&mut given.section5, 20, &[32])),
    (5, |given| put(&mut given.section5, 37, &[33])),
    (5, |given| put(&mut given.section5, 47, &[33])),
    (7, |given| given.payload.truncate(6)),
    // The last group is of width 39; the one before it has 2^32 points.
    (8, |given| given.payload[3] |= 8),
    (8, |given| put(&mut given.section5, 38, &[0xFF; 4])),
    (7, |given| given.payload.truncate(9)),
    (9, |given| put(&mut given.section5, 6, &[0, 0, 0, 6])),
    (9, |given| put(&mut given.section5, 6, &[0xFF; 4])),
    (15, |given| given.place += 5),
];

/// "Refusals: 15 when the place is not below the declared count; it comes after 9": of any faults, up to three at once,
/// the first is told, whatever the place is. Those of the last group are told at places before it too.
#[test]
fn refusals_come_in_their_order() {
    let input = three_groups();
    let good = Given { section5: section5::of_map(&input, &mut Numbers::new(1)), payload: input.payload, place: 0 };
    let hold = |faults: &[(u32, Fault)]| {
        let mut given = good.clone();
        // The last of them first: what is cut off is changed before.
        faults.iter().rev().for_each(|(_, fault)| fault(&mut given));
        let expected = faults.first().map_or(0, |(number, _)| *number);
        let places: Vec<u32> = (given.place..given.place + 5).collect();
        assert_eq!(Map::new(&given.section5, &given.payload).hold(&places), [expected; 5]);
    };
    hold(&[]);
    for (first, one) in FAULTS.iter().enumerate() {
        hold(&[*one]);
        for (second, other) in FAULTS.iter().enumerate().skip(first + 1) {
            hold(&[*one, *other]);
            FAULTS[second + 1..].iter().for_each(|third| hold(&[*one, *other, *third]));
        }
    }
}

/// Fewer octets than a Section 5 of 5.2 has are 14, and so is one of 5.3, however long; more are not looked at.
#[test]
fn sections_of_every_length() {
    let complex = section5::of_map(&three_groups(), &mut Numbers::new(1));
    let mut spatial = [&complex[..], &[1, 1]].concat();
    put(&mut spatial, 4, &[49]);
    put(&mut spatial, 11, &[3]);
    for behind in [0, 0xFF, 0x5A] {
        for len in 0..=60 {
            let cut = |section5: &[u8]| {
                let mut section5 = section5.to_vec();
                section5.resize(60, behind);
                section5.truncate(len);
                Map::new(&section5, &three_groups().payload).hold(&[0, 4, 5])
            };
            assert_eq!(cut(&complex), if len < 47 { [14; 3] } else { [0, 0, 15] }, "{len} octets");
            assert_eq!(cut(&spatial), [14; 3], "{len} octets");
        }
    }
}

/// Each length, section number and template, right or not.
#[test]
fn headers_in_full() {
    let whole = section5::of_map(&three_groups(), &mut Numbers::new(1));
    let mut accepted = 0;
    for length in [0, 2, 5, 11, 46, 47, 48, 49, 50, 47 << 8, 47 << 24, 0x0101_002F, u32::MAX] {
        for number in [0, 4, 5, 6, 7, 255] {
            for template in [0, 1, 2, 3, 4, 40, 200, 0x0200, 0x0102, u16::MAX] {
                let mut section5 = [&whole[..], &[1, 1, 1]].concat();
                put(&mut section5, 1, &u32::to_be_bytes(length));
                put(&mut section5, 5, &[number]);
                put(&mut section5, 10, &u16::to_be_bytes(template));
                let right = (length, number, template) == (47, 5, 2);
                let answers = Map::new(&section5, &three_groups().payload).hold(&[0, 4, 5]);
                assert_eq!(answers, if right { [0, 0, 15] } else { [14; 3] }, "{length} {number} {template}");
                accepted += u32::from(right);
            }
        }
    }
    assert_eq!(accepted, 1);
}

/// A payload that is cut anywhere before the last value's octet is too short, at every place; octets behind are not
/// looked at. 8 stands between the refusals for the group fields and for the values, and 9 and 15 behind both.
#[test]
fn payloads_of_every_length() {
    let whole = three_groups();
    for behind in [0, 0xFF] {
        for len in 0..whole.payload.len() + 12 {
            let mut input = whole.clone();
            input.payload.resize(len, behind);
            let hold = |input: &Input, expected: [u32; 6]| {
                assert_eq!(Map::of(input).hold(&[0, 1, 2, 3, 4, 5]), expected, "{len} octets");
            };
            let too_short = |octets: usize, or: [u32; 6]| if len < octets { [7; 6] } else { or };
            hold(&input, too_short(10, [0, 0, 0, 0, 0, 15]));
            hold(&with(&input, |template| template.width_reference = 25), too_short(7, [8; 6]));
            hold(&Input { declared: 4, ..input.clone() }, too_short(10, [9; 6]));
            // The last length code, of which nothing is read, must be there too.
            let one = template(0, 1, (0, 0), (0, 0, 5, 32));
            hold(&Input { template: one, ..input.clone() }, too_short(4, [0, 0, 0, 0, 0, 15]));
        }
    }
}

/// What the bits of a payload are for the point at a place.
struct Bits {
    /// Those of its own value.
    own: Range<usize>,
    /// Those of its group's reference.
    reference: Range<usize>,
    /// All others but width codes and length codes. The last length code, which nothing reads, is among them, and so
    /// are pad bits and octets behind the last value.
    free: Vec<usize>,
}

impl Bits {
    /// A place that no group has is one of no point: all bits but those codes are free.
    fn of(input: &Input, place: u32) -> Bits {
        let Template { groups, number_width, width_bits, length_bits, width_reference, .. } = input.template;
        let [number_width, width_bits, length_bits] = [number_width, width_bits, length_bits].map(usize::from);
        let groups = groups as usize;
        let after = |start: usize, width: usize| start + (groups * width).next_multiple_of(8);
        let widths = after(0, number_width);
        let lengths = after(widths, width_bits);
        let (mut value, mut before) = (after(lengths, length_bits), place as usize);
        let [mut own, mut reference] = [0..0, 0..0];
        for (which, group) in read_back(input).unwrap().1.iter().enumerate() {
            let (length, width) = (group.values.len(), usize::from(width_reference) + group.width_code as usize);
            if before < length {
                own = value + before * width..value + (before + 1) * width;
                reference = which * number_width..(which + 1) * number_width;
                break;
            }
            (value, before) = (value + length * width, before - length);
        }
        let codes = [widths..widths + groups * width_bits, lengths..lengths + (groups - 1) * length_bits];
        let is_free = |bit: &usize| !codes.iter().chain([&own, &reference]).any(|kept| kept.contains(bit));
        Bits { free: (0..8 * input.payload.len()).filter(is_free).collect(), own, reference }
    }
}

/// "the answer depends only on the place, the template numbers, declared count, payload length, width and length codes,
/// the point's group reference and the point's own bits: the other values may change freely." And these do change it:
/// any of its own bits, and any bit of the reference, unless the value is a missing code. A refusal depends on neither.
#[test]
fn other_bits_may_change_freely() {
    let mut chance = Numbers::new(100);
    let (mut maps, mut answers, mut bits) = (0, [0; 16], [0; 3]);
    while maps < 400 {
        let mut input = good(&mut chance);
        if input.differences.is_some() {
            continue;
        }
        maps += 1;
        input.payload.extend((0..chance.below(4)).map(|_| chance.any() as u8));
        let points = support::model::count(&input).unwrap() as u32;
        input.declared = points + u32::from(maps % 8 == 0);
        let section5 = section5::of_map(&input, &mut chance);
        let by_chance = [(); 3].map(|()| chance.below(u64::from(points) + 1) as u32);
        for place in [0, points.saturating_sub(1), points].into_iter().chain(by_chance) {
            let answer = |turned: &[usize]| {
                let mut payload = input.payload.clone();
                turned.iter().for_each(|bit| payload[bit / 8] ^= 0x80 >> (bit % 8));
                point(&section5, &payload, place)
            };
            let before = answer(&[]);
            let Bits { own, reference, free } = Bits::of(&input, if before.is_ok() { place } else { u32::MAX });
            let shown = || format!("place {place} of {input:02X?}");
            assert_eq!(answer(&free), before, "{}", shown());
            for _ in 0..4 {
                let some: Vec<usize> = free.iter().copied().filter(|_| chance.below(2) == 0).collect();
                assert_eq!(answer(&some), before, "{}: {some:?}", shown());
            }
            for bit in own.clone() {
                assert_ne!(answer(&[bit]), before, "{}: {bit}", shown());
            }
            let is_made_of_it = own.is_empty() || before.is_ok_and(|point| !point.is_missing());
            for bit in reference.clone() {
                assert_eq!(answer(&[bit]) != before, is_made_of_it, "{}: {bit}", shown());
            }
            answers[before.map_or_else(Refusal::number, |_| 0) as usize] += 1;
            bits = [bits[0] + own.len(), bits[1] + reference.len(), bits[2] + free.len()];
        }
    }
    println!("answers by number: {answers:?}; bits turned, own, of references and free: {bits:?}");
    assert!([0, 9, 15].iter().all(|number| answers[*number] > 200) && bits.iter().all(|bits| *bits > 10_000));
}
