//! Unpacking under 5.2 and 5.3 through the C calls, against document 01: its cases, its limits, lent buffers, and a
//! plain model.

mod support;

use cleatmow::{Differences, Point, Refusal, Template, MOST_POINTS, POINT_OCTETS};
use support::guarded;
use support::maps::Numbers;
use support::model::{self, field, good, number_of, octets_of, payload, template, Input, Written};

/// An input under 5.2, with its declared count.
fn complex(template: Template, declared: u32, payload: &[u8]) -> Input {
    Input { template, differences: None, declared, payload: payload.to_vec() }
}

/// An input under 5.3: order and descriptor octets first.
fn spatial(order: u8, descriptor_octets: u8, template: Template, declared: u32, payload: &[u8]) -> Input {
    let differences = Some(Differences { order, descriptor_octets });
    Input { template, differences, declared, payload: payload.to_vec() }
}

/// "5 6 5 7, k 4": two groups of widths 1 and 0.
fn two_groups() -> Input {
    complex(template(3, 2, (0, 1), (3, 0, 1, 0)), 4, &[0xBC, 0x80, 0x40])
}

/// The case of the second order: one group of width 2.
fn second_order() -> Input {
    spatial(2, 1, template(0, 1, (2, 0), (0, 0, 4, 0)), 4, &[0x0A, 0x0C, 0x81, 0x09])
}

fn written(reference: u64, width_code: u64, length_code: u64, values: &[u64]) -> Written {
    Written { reference, width_code, length_code, values: values.to_vec() }
}

fn numbers<const N: usize>(numbers: [i64; N]) -> Result<Vec<Point>, Refusal> {
    Ok(numbers.map(Point::Number).to_vec())
}

fn refused(number: u32) -> Result<Vec<Point>, Refusal> {
    Err(Refusal::from_number(number).unwrap())
}

/// The input with some of its template numbers changed.
fn with(input: &Input, change: impl Fn(&mut Template)) -> Input {
    let mut input = input.clone();
    change(&mut input.template);
    input
}

/// Holds the call on `len` lent octets to the model, and then the points of the call that lends for itself to the same.
fn compare(input: &Input, len: usize) -> u32 {
    let shown = format_args!("{input:02X?}");
    let (answer, left) = guarded::compare(shown, len, |lent| model::answer(input, lent), |lent| input.call(lent));
    match input.points() {
        Ok(points) if answer == 0 => {
            assert!(points.len() == input.declared as usize && left.starts_with(&octets_of(&points)), "{input:02X?}");
        }
        // Room for the declared count is there, so 10 is not its answer, and what comes after 10 may be.
        points => assert!(answer == 10 || points.err().map(Refusal::number) == Some(answer), "{input:02X?}"),
    }
    answer
}

/// The same with as many octets lent as the declared count takes, or none where it is above the limit.
fn compare_right(input: &Input) -> u32 {
    let declared = if input.declared > MOST_POINTS { 0 } else { input.declared };
    compare(input, declared as usize * POINT_OCTETS)
}

#[test]
fn cases_of_document_01() {
    let eights = complex(template(4, 2, (0, 0), (4, 0, 3, 0)), 7, &[0x08]);
    assert_eq!(eights.points(), numbers([0, 0, 0, 0, 8, 8, 8]));
    let singles = complex(template(3, 4, (0, 0), (1, 0, 1, 0)), 4, &[0xBA, 0xF0]);
    assert_eq!(singles.points(), numbers([5, 6, 5, 7]));

    use Point::{Missing1, Missing2, Number};
    assert_eq!(two_groups().points(), numbers([5, 6, 5, 7]));
    let managed = |missing| with(&two_groups(), |template| template.missing = missing).points();
    assert_eq!(managed(1), Ok(vec![Number(5), Missing1, Number(5), Missing1]));
    assert_eq!(managed(2), Ok(vec![Missing2, Missing1, Missing2, Missing1]));

    let nothing = complex(template(0, 1, (0, 0), (0, 0, 3, 0)), 3, &[]);
    assert_eq!(nothing.points(), numbers([0, 0, 0]));
    assert_eq!(with(&nothing, |template| template.missing = 1).points(), Ok(vec![Missing1; 3]));

    let first_order = spatial(1, 1, template(0, 1, (3, 0), (0, 0, 4, 0)), 4, &[0x0A, 0x82, 0x0C, 0x50]);
    assert_eq!(first_order.points(), numbers([10, 11, 9, 12]));
    assert_eq!(second_order().points(), numbers([10, 12, 15, 18]));

    let step = complex(template(4, 3, (0, 0), (10, 150, 5, 2)), 325, &[0x08, 0x00, 0x20]);
    let points = step.points().unwrap();
    let eight = |place: usize| i64::from((10..320).contains(&place)) * 8;
    assert!(points.iter().enumerate().all(|(place, point)| *point == Number(eight(place))) && points.len() == 325);

    let above = complex(template(31, 1, (1, 0), (0, 0, 1, 0)), 1, &[0xFF, 0xFF, 0xFF, 0xFE, 0x80]);
    assert_eq!(above.points(), numbers([2_147_483_648]));
}

/// "Number width 31 passes, 32 is 5. Group width 31 passes, 32 is 8. Length bits 32 passes, 33 is 5."
#[test]
fn cases_of_limits() {
    let number_width = |width| complex(template(width, 1, (0, 0), (0, 0, 1, 0)), 1, &[0x80, 0, 0, 0xFE, 0]).points();
    assert_eq!(number_width(31), numbers([0x4000_007F]));
    assert_eq!(number_width(32), refused(5));
    let group_width = |width| complex(template(0, 1, (width, 0), (0, 0, 1, 0)), 1, &[0x80, 0, 0, 0xFE, 0]).points();
    assert_eq!(group_width(31), numbers([0x4000_007F]));
    assert_eq!(group_width(32), refused(8));
    let length_bits = |bits| {
        let codes = field(0, [(u64::from(bits), 2), (u64::from(bits), 5)]);
        complex(template(0, 2, (0, 0), (1, 3, 1, bits)), 8, &codes).points()
    };
    assert_eq!(length_bits(32), numbers([0; 8]));
    assert_eq!(length_bits(33), refused(5));
}

/// Each template number of eight bits, at every value.
#[test]
fn template_numbers_have_limits() {
    let restored = spatial(2, 1, two_groups().template, 4, &[0x0A, 0x0C, 0x81, 0xBC, 0x80, 0x40]);
    // Nothing of these has to be read but what a width of 32 takes.
    let empty = |differences| Input {
        template: template(0, 1, (0, 0), (0, 0, 0, 0)),
        differences,
        declared: 0,
        payload: vec![0; 12 + 3 * 4],
    };
    let differences = Differences { order: 2, descriptor_octets: 4 };
    for value in 0..=255_u8 {
        let answer = |passes: bool, number| if passes { 0 } else { number };
        for input in [&two_groups(), &restored] {
            let splitting = with(input, |template| template.splitting = value);
            assert_eq!(compare_right(&splitting), answer(value == 1, 1), "splitting {value}");
            let missing = with(input, |template| template.missing = value);
            assert_eq!(compare_right(&missing), answer(value <= 2, 2), "management {value}");
        }
        for input in [&empty(None), &empty(Some(differences))] {
            let width = with(input, |template| template.number_width = value);
            assert_eq!(compare_right(&width), answer(value <= 31, 5), "number width {value}");
            let width = with(input, |template| template.width_bits = value);
            assert_eq!(compare_right(&width), answer(value <= 32, 5), "width bits {value}");
            let width = with(input, |template| template.length_bits = value);
            assert_eq!(compare_right(&width), answer(value <= 32, 5), "length bits {value}");
            let width = with(input, |template| template.width_reference = value);
            assert_eq!(compare_right(&width), answer(value <= 31, 8), "group width {value}");
        }
        let order = empty(Some(Differences { order: value, ..differences }));
        assert_eq!(compare_right(&order), answer(value == 1 || value == 2, 3), "order {value}");
        let octets = empty(Some(Differences { descriptor_octets: value, ..differences }));
        assert_eq!(compare_right(&octets), answer((1..=4).contains(&value), 4), "descriptor octets {value}");
    }
}

/// A group width is refused in a group without points too, and in the last; a length in any group but the last.
#[test]
fn groups_have_limits() {
    for differences in [None, Some(Differences { order: 1, descriptor_octets: 2 })] {
        // Three groups without a value, of which one has these codes and the others 0.
        let input = |template: Template, place: usize, width_code, length_code| {
            let mut groups = vec![written(1, 0, 0, &[]); 3];
            groups[place] = written(1, width_code, length_code, &[]);
            let payload = payload(&template, differences.as_ref(), &[1, 0], &groups, 0);
            Input { template, differences, declared: 0, payload }
        };
        for place in 0..3 {
            for (reference, bits) in [(0, 6), (1, 5), (20, 32), (30, 2), (31, 1), (31, 32)] {
                let template = template(4, 3, (reference, bits), (0, 0, 0, 0));
                let width = |width| input(template, place, width - u64::from(reference), 0);
                assert_eq!(compare_right(&width(31)), 0);
                assert_eq!(compare_right(&width(32)), 8);
            }
            // Sums beyond 32 bits, which must not come round to a small width.
            for reference in [1, 2, 30, 31, 255] {
                let template = template(4, 3, (reference, 32), (0, 0, 0, 0));
                assert_eq!(compare_right(&input(template, place, 0xFFFF_FFFF, 0)), 8);
            }
            // 4,294,967,295 is 255 × 16,843,009. A length that passes has too many points here, as each group is of
            // width 0. Lengths of 2^32 and of 2^32 + 2^8 must not come round to 0 and to a small one.
            for (reference, increment, code, passes) in [
                (0, 255, 16_843_009, true),
                (1, 255, 16_843_009, false),
                (0, 255, 16_843_010, false),
                (0, 1, 4_294_967_295, true),
                (1, 1, 4_294_967_295, false),
                (4_294_967_295, 1, 0, true),
                (4_294_967_295, 1, 1, false),
                (4_294_967_295, 255, 4_294_967_295, false),
                (0, 128, 33_554_432, false),
                (0, 128, 33_554_434, false),
                (4_294_967_041, 255, 1, false),
            ] {
                let template = template(4, 3, (0, 0), (reference, increment, 0, 32));
                let expected = match place {
                    2 if reference == 0 => 0,
                    2 => 9,
                    _ if passes => 9,
                    _ => 8,
                };
                assert_eq!(compare_right(&input(template, place, 0, code)), expected, "{reference} {increment} {code}");
            }
        }
    }
}

/// The parts of a payload one after another: cut anywhere before its last octet it is too short, in whichever part that
/// is. Every part has pad bits, the last group a length code.
#[test]
fn payloads_of_every_length() {
    let template = template(5, 3, (1, 3), (1, 2, 2, 3));
    let groups = [written(17, 2, 1, &[1, 0, 5]), written(3, 4, 0, &[30]), written(9, 0, 7, &[1, 0])];
    let differences = Differences { order: 2, descriptor_octets: 3 };
    for (differences, fields) in [(None, 6), (Some(differences), 15)] {
        let whole = payload(&template, differences.as_ref(), &[100, 90, 0x80_0004], &groups, 0);
        assert_eq!(whole.len(), fields + 2);
        for len in 0..whole.len() + 3 {
            let mut cut = whole.clone();
            cut.resize(len, 0xFF);
            let input = Input { template, differences, declared: 6, payload: cut };
            assert_eq!(compare_right(&input), if len < whole.len() { 7 } else { 0 }, "{len}");
            // 8 stands between the two refusals 7 of the group fields and of the values.
            let wide = with(&input, |template| template.width_reference = 28);
            assert_eq!(compare_right(&wide), if len < fields { 7 } else { 8 }, "{len}");
        }
    }
    // "Each group field has room for all groups": the length code of the only group too, though nobody reads it.
    for (len, answer) in [(0, 7), (3, 7), (4, 0), (5, 0)] {
        let one = complex(support::model::template(0, 1, (0, 0), (0, 0, 2, 32)), 2, &vec![0xFF; len]);
        assert_eq!(compare_right(&one), answer);
    }
}

/// "Order for 5.2: 1, 2, 6, 5, 7 for the group fields, 8, 7 for the values, 9, 10.": from an input with every fault, one
/// fault after another is mended.
#[test]
fn refusals_under_5_2_come_in_their_order() {
    let mut input = complex(template(32, MOST_POINTS + 1, (32, 1), (3, 0, 1, 0)), 5, &[]);
    (input.template.splitting, input.template.missing) = (0, 3);
    let mut len = 35;
    let mut answers = vec![compare(&input, len)];
    type Mend = fn(&mut Input, &mut usize);
    let mends: [Mend; 9] = [
        |input, _| input.template.splitting = 1,
        |input, _| input.template.missing = 0,
        |input, _| input.template.groups = 2,
        |input, _| input.template.number_width = 3,
        |input, _| input.payload = vec![0xBC, 0x80],
        |input, _| input.template.width_reference = 0,
        |input, _| input.payload = vec![0xBC, 0x80, 0x40],
        |input, _| input.declared = 4,
        |_, len| *len = 36,
    ];
    for mend in mends {
        mend(&mut input, &mut len);
        answers.push(compare(&input, len));
    }
    assert_eq!(answers, [1, 2, 6, 5, 7, 8, 7, 9, 10, 0]);
}

/// "For 5.3: 3, 1, 2, 4, 7 for descriptors, then from 6 on as for 5.2, 12 last."
#[test]
fn refusals_under_5_3_come_in_their_order() {
    let whole = beyond().payload;
    let mut input = spatial(3, 5, Template { groups: MOST_POINTS + 1, ..beyond().template }, 40_001, &[]);
    (input.template.splitting, input.template.missing) = (2, 3);
    (input.template.number_width, input.template.width_reference) = (32, 32);
    let mut len = 40_000 * POINT_OCTETS - 1;
    let mut answers = vec![compare(&input, len)];
    type Mend = fn(&mut Input, &mut usize, &[u8]);
    let mends: [Mend; 13] = [
        |input, _, _| input.differences.as_mut().unwrap().order = 2,
        |input, _, _| input.template.splitting = 1,
        |input, _, _| input.template.missing = 0,
        |input, _, _| input.differences.as_mut().unwrap().descriptor_octets = 4,
        |input, _, whole| input.payload = whole[..12].to_vec(),
        |input, _, _| input.template.groups = 2,
        |input, _, _| input.template.number_width = 31,
        |input, _, whole| input.payload = whole[..whole.len() - 1].to_vec(),
        |input, _, _| input.template.width_reference = 0,
        |input, _, whole| input.payload = whole.to_vec(),
        |input, _, _| input.declared = 40_000,
        |_, len, _| *len += 1,
        // Not as many differences, so that they do not come to 2^60.
        |input, _, _| (input.template.last_length, input.declared) = (9_999, 10_000),
    ];
    for mend in mends {
        mend(&mut input, &mut len, &whole);
        answers.push(compare(&input, len));
    }
    assert_eq!(answers, [3, 1, 2, 4, 7, 6, 5, 7, 8, 7, 9, 10, 12, 0]);
}

/// Two groups: one point of width 8, which is missing under management, then 39,999 of width 0. They grow by differences
/// of 2^31 − 16, beyond 2^60.
fn beyond() -> Input {
    let template = template(31, 2, (0, 4), (1, 0, 39_999, 0));
    let differences = Differences { order: 2, descriptor_octets: 4 };
    let groups = [written(7, 8, 0, &[255]), written(0x7FFF_FFF0, 0, 0, &[])];
    let payload = payload(&template, Some(&differences), &[5, 6, 0], &groups, 0);
    Input { template, differences: Some(differences), declared: 40_000, payload }
}

/// Each set of faults at once gives the first of them, under both templates.
#[test]
fn sets_of_faults_give_the_first() {
    let whole = beyond();
    let first = |rows: &[(bool, u32)]| rows.iter().find(|row| row.0).map_or(0, |row| row.1);
    let untouched = vec![0xA5; 40_001 * POINT_OCTETS];
    let mut lent = untouched.clone();
    for faults in 0..1 << 10 {
        let [order, splitting, missing, octets, groups, width, size, points, room, far] =
            std::array::from_fn(|fault| faults >> fault & 1 == 1);
        // The payload is whole, or short of its value, of a group field, of a descriptor.
        for (cut, len) in [22, 21, 20, 11].into_iter().enumerate() {
            let mut input = whole.clone();
            let template = &mut input.template;
            if splitting {
                template.splitting = 0;
            }
            if missing {
                template.missing = 3;
            }
            if groups {
                template.groups = MOST_POINTS + 1;
            }
            if width {
                template.number_width = 32;
            }
            if size {
                template.width_reference = 24;
            }
            if !far {
                (template.last_length, input.declared) = (4, 5);
            }
            if points {
                input.declared += 1;
            }
            let right = input.declared as usize * POINT_OCTETS;
            let mut hold = |input: &Input, expected| {
                let answer = input.call(&mut lent[..right - usize::from(room)]);
                assert_eq!(answer, expected, "{faults:010b} {cut} {input:?}");
                if answer == 0 || answer == 12 {
                    lent.copy_from_slice(&untouched);
                }
                assert!(lent == untouched, "{faults:010b} {cut} {input:?}");
            };
            let before_6 = [(order, 3), (splitting, 1), (missing, 2), (octets, 4), (cut == 3, 7)];
            let from_6_on = [(groups, 6), (width, 5), (cut > 1, 7), (size, 8), (cut > 0, 7), (points, 9), (room, 10)];

            input.payload.truncate(len);
            input.differences =
                Some(Differences { order: if order { 3 } else { 2 }, descriptor_octets: if octets { 5 } else { 4 } });
            hold(&input, first(&[&before_6[..], &from_6_on, &[(far, 12)]].concat()));

            // The same without descriptors is under 5.2, where nothing is restored.
            input.payload = whole.payload[12..len.max(12)].to_vec();
            input.differences = None;
            hold(&input, first(&[&before_6[1..3], &from_6_on].concat()));
        }
    }
}

#[test]
fn the_declared_count_is_exact() {
    for input in [two_groups(), second_order()] {
        for declared in (0..=8).chain([MOST_POINTS, MOST_POINTS + 1, MOST_POINTS + 4, 1 << 31, u32::MAX]) {
            let answer = if declared == 4 { 0 } else { 9 };
            assert_eq!(compare(&Input { declared, ..input.clone() }, 100), answer, "{declared}");
        }
    }
}

/// The order is literal: 6 comes before 7 for the group fields, and after 7 for the descriptors.
#[test]
fn an_empty_payload_without_groups() {
    assert_eq!(complex(template(0, 0, (0, 0), (0, 0, 0, 0)), 0, &[]).points(), refused(6));
    assert_eq!(spatial(1, 1, template(0, 0, (0, 0), (0, 0, 0, 0)), 0, &[]).points(), refused(7));
    assert_eq!(spatial(1, 1, template(0, 0, (0, 0), (0, 0, 0, 0)), 0, &[0, 0]).points(), refused(6));
}

#[test]
fn lent_buffers_of_every_size() {
    let short = with(&two_groups(), |template| template.splitting = 3);
    let managed = with(&two_groups(), |template| template.missing = 2);
    let restored = with(&second_order(), |template| template.missing = 1);
    let nothing = complex(template(0, 1, (0, 0), (0, 0, 0, 0)), 0, &[]);
    let cut = Input { payload: vec![0x0A, 0x0C, 0x81], ..second_order() };
    let less = Input { declared: 3, ..second_order() };
    let inputs = [
        (two_groups(), 0),
        (managed, 0),
        (second_order(), 0),
        (restored, 0),
        (nothing, 0),
        (short, 1),
        (cut, 7),
        (less, 9),
    ];
    for (input, answer) in inputs {
        let right = input.declared as usize * POINT_OCTETS;
        for len in 0..=right + 2 * POINT_OCTETS + 1 {
            let expected = if answer == 0 && len < right { 10 } else { answer };
            assert_eq!(compare(&input, len), expected, "{input:?} {len}");
        }
    }
}

/// 12 comes after 10, and leaves number 0 and mark 0 in exactly the declared places.
#[test]
fn what_beyond_leaves() {
    let right = 40_000 * POINT_OCTETS;
    for missing in 0..=2 {
        let input = with(&beyond(), |template| template.missing = missing);
        for len in [0, 9, right / 2, right - 9, right - 1] {
            assert_eq!(compare(&input, len), 10);
        }
        for len in [right, right + 1, right + 8, right + 9, right + 10] {
            assert_eq!(compare(&input, len), 12);
        }
    }
}

/// A payload of order 2 whose groups have width 0 and one packed number each, for so many points. The first values are
/// both `shift`, so each restored number is moved by it.
fn chain(shift: u64, groups: &[(i64, u32)]) -> Input {
    let least = groups.iter().map(|group| group.0).min().unwrap();
    let (last, others) = groups.split_last().unwrap();
    assert!(others.iter().all(|group| group.1 == others[0].1));
    let length = others.first().map_or(0, |group| group.1);
    let template = template(31, groups.len() as u32, (0, 0), (length, 0, last.1, 0));
    let differences = Differences { order: 2, descriptor_octets: 4 };
    let written: Vec<Written> = groups.iter().map(|(packed, _)| written((packed - least) as u64, 0, 0, &[])).collect();
    let minimum = if least < 0 { 1 << 31 | least.unsigned_abs() } else { least as u64 };
    let payload = payload(&template, Some(&differences), &[shift, shift, minimum], &written, 0);
    let declared = groups.iter().map(|group| group.1).sum();
    Input { template, differences: Some(differences), declared, payload }
}

/// The least, the greatest and the last number of a chain, however large they are.
fn exact(input: &Input) -> (i128, i128, i128) {
    let points = model::points(input).unwrap();
    let numbers = || points.iter().map(|(_, number)| *number);
    (numbers().min().unwrap(), numbers().max().unwrap(), numbers().next_back().unwrap())
}

/// "a restored number is beyond 2^60 either way": 2^60 and −2^60 are not beyond, the next numbers are.
#[test]
fn two_to_the_60_on_both_sides() {
    const BOUND: i128 = 1 << 60;
    const POINTS: u32 = 40_000;
    // The last number is the sum of 1, 2, .. times the packed number, and the shift brings it where it is wanted.
    let sum = i64::from(POINTS - 2) * i64::from(POINTS - 1) / 2;
    let up = |past: u64| {
        let packed = (1 << 60) / sum;
        chain(((1 << 60) - packed * sum) as u64 + past, &[(packed, POINTS)])
    };
    let down = |past: u64| {
        let packed = (1 << 60) / sum + 1;
        chain((packed * sum - (1 << 60)) as u64 - past, &[(-packed, POINTS)])
    };
    assert_eq!((exact(&up(0)).2, exact(&up(1)).2), (BOUND, BOUND + 1));
    assert_eq!((exact(&down(0)).2, exact(&down(1)).2), (-BOUND, -BOUND - 1));
    assert_eq!(up(0).points().unwrap().last(), Some(&Point::Number(1 << 60)));
    assert_eq!(down(0).points().unwrap().last(), Some(&Point::Number(-1 << 60)));
    for (at, past) in [(up(0), up(1)), (down(0), down(1))] {
        assert_eq!((compare_right(&at), compare_right(&past)), (0, 12));
        assert_eq!(past.points(), refused(12));
    }
}

/// Numbers that rise, turn and come back, or fall and come back: the one at the turn decides, though the last is small.
#[test]
fn beyond_and_back_is_beyond() {
    const BOUND: i128 = 1 << 60;
    // With the shift 0 and packed number 1, how far it is to the turn; with n it is n times as far.
    let arc = |shift, packed: i64| chain(shift, &[packed, -packed, -packed, packed].map(|packed| (packed, 33_000)));
    let one = exact(&arc(0, 1)).1 as i64;
    let packed = (1 << 60) / one;
    let rising = |past: u64| arc(((1 << 60) - packed * one) as u64 + past, packed);
    let falling = |past: u64| arc(((packed + 1) * one - (1 << 60)) as u64 - past, -packed - 1);
    assert_eq!((exact(&rising(0)).1, exact(&rising(1)).1), (BOUND, BOUND + 1));
    assert_eq!((exact(&falling(0)).0, exact(&falling(1)).0), (-BOUND, -BOUND - 1));
    for (at, past) in [(rising(0), rising(1)), (falling(0), falling(1))] {
        assert!(exact(&past).2.abs() < BOUND / 2);
        assert_eq!((compare_right(&at), compare_right(&past)), (0, 12));
    }
}

/// With differences of the greatest size the first order stays within 2^60 for as many points as there can be.
#[test]
fn the_first_order_is_never_beyond() {
    for (minimum, value, step) in [(0x7FFF_FFFF, 0x7FFF_FFFE, 0x1_7FFF_FFFC_i64), (0xFFFF_FFFF, 0, -0x7FFF_FFFF)] {
        let reference = if value == 0 { 0 } else { 0x7FFF_FFFF };
        let template = template(31, 1, (31, 0), (0, 0, MOST_POINTS, 0));
        let differences = Differences { order: 1, descriptor_octets: 4 };
        let groups = [written(reference, 0, 0, &vec![value; MOST_POINTS as usize])];
        let payload = payload(&template, Some(&differences), &[0xFFFF_FFFF, minimum], &groups, 0);
        let input = Input { template, differences: Some(differences), declared: MOST_POINTS, payload };
        let points = input.points().unwrap();
        let line = (0..).map(|place: i64| Point::Number(0xFFFF_FFFF + place * step));
        assert!(points.iter().copied().eq(line.take(MOST_POINTS as usize)));
    }
}

/// "Missing points do not advance this.", before the first values, between them and after.
#[test]
fn missing_points_do_not_advance_restoring() {
    // Values of width 3: 7 is missing 1, 6 missing 2 under management 2.
    let values = [7, 6, 1, 6, 7, 2, 6, 3, 7, 7, 4, 5, 6, 0, 7];
    let input = |order, missing| {
        let template = Template { missing, ..template(2, 1, (3, 0), (0, 0, 15, 0)) };
        let differences = Differences { order, descriptor_octets: 1 };
        let descriptors = if order == 1 { vec![100, 0x82] } else { vec![100, 110, 0x82] };
        let payload = payload(&template, Some(&differences), &descriptors, &[written(1, 0, 0, &values)], 0);
        Input { template, differences: Some(differences), declared: 15, payload }
    };
    // Packed numbers are value − 1: reference 1, minimum −2.
    let shown = |input: Input| -> Vec<i64> {
        assert_eq!(compare_right(&input), 0);
        let number = |point| match point {
            Point::Number(number) => number,
            Point::Missing1 => -1,
            Point::Missing2 => -2,
        };
        input.points().unwrap().into_iter().map(number).collect()
    };
    assert_eq!(shown(input(1, 2)), [-1, -2, 100, -2, -1, 101, -2, 103, -1, -1, 106, 110, -2, 109, -1]);
    assert_eq!(shown(input(2, 2)), [-1, -2, 100, -2, -1, 110, -2, 122, -1, -1, 137, 156, -2, 174, -1]);
    assert_eq!(shown(input(1, 1)), [-1, 100, 100, 105, -1, 106, 111, 113, -1, -1, 116, 120, 125, 124, -1]);
    assert_eq!(shown(input(1, 0)), [100, 105, 105, 110, 116, 117, 122, 124, 130, 136, 139, 143, 148, 147, 153]);
}

/// In a group of width 0 a missing point is told by the reference at the number width; in any other, by the value at the
/// group's width, whatever the reference is.
#[test]
fn missing_points_by_width() {
    for number_width in 0..=31_u8 {
        let top = (1_u64 << number_width) - 1;
        for width in 0..=31_u64 {
            let highest = (1_u64 << width) - 1;
            let values: Vec<u64> = (0..4).map(|below| highest.saturating_sub(below)).chain([0]).collect();
            let groups: Vec<Written> = (0..4)
                .map(|below| written(top.saturating_sub(below), width, 0, if width > 0 { &values } else { &[] }))
                .collect();
            for missing in 0..=2 {
                let template = Template { missing, ..template(number_width, 4, (0, 5), (5, 0, 5, 0)) };
                let mut input = complex(template, 20, &payload(&template, None, &[], &groups, 1));
                assert_eq!(compare_right(&input), 0);
                let points = input.points().unwrap();
                for (place, point) in points.into_iter().enumerate() {
                    let (reference, value) = (groups[place / 5].reference, values[place % 5]);
                    let (tested, greatest) = if width > 0 { (value, highest) } else { (reference, top) };
                    let expected = if missing >= 1 && tested == greatest {
                        Point::Missing1
                    } else if missing == 2 && tested + 1 == greatest {
                        Point::Missing2
                    } else {
                        Point::Number((reference + if width > 0 { value } else { 0 }) as i64)
                    };
                    assert_eq!(point, expected, "number width {number_width}, width {width}, management {missing}");
                }
                input.payload.insert(0, 0x83);
                input.payload.insert(0, 200);
                input.differences = Some(Differences { order: 1, descriptor_octets: 1 });
                assert_eq!(compare_right(&input), 0);
            }
        }
    }
}

/// First values are unsigned, the minimum has a sign bit and a magnitude, and each takes the stated octets.
#[test]
fn descriptors_of_every_size() {
    let template = template(0, 1, (2, 0), (0, 0, 3, 0));
    let input = |order, descriptor_octets, descriptors: &[u64]| {
        let differences = Differences { order, descriptor_octets };
        let payload = payload(&template, Some(&differences), descriptors, &[written(0, 0, 0, &[1, 2, 3])], 0);
        Input { template, differences: Some(differences), declared: 3, payload }
    };
    for octets in 1..=4 {
        let (sign, greatest) = (1_u64 << (8 * octets - 1), (1_u64 << (8 * octets)) - 1);
        // "minus zero is zero"
        let minus_zero = (sign, 0);
        let most = sign as i64 - 1;
        for (minimum, meant) in [(0, 0), (1, 1), (sign - 1, most), minus_zero, (sign + 1, -1), (greatest, -most)] {
            for first in [0, 1, sign - 1, sign, sign + 1, greatest] {
                let second = greatest - first / 2;
                let one = input(1, octets, &[first, minimum]);
                let two = input(2, octets, &[first, second, minimum]);
                let (first, second) = (first as i64, second as i64);
                assert_eq!(one.points(), numbers([first, first + 2 + meant, first + 5 + 2 * meant]));
                assert_eq!(two.points(), numbers([first, second, 3 + meant + 2 * second - first]));
                assert_eq!((compare_right(&one), compare_right(&two)), (0, 0));
            }
        }
    }
}

/// With fewer numbers than the order says the other first values are read and ignored; they must be there all the same.
#[test]
fn fewer_points_than_the_order() {
    let input = |missing, values: &[u64]| {
        let template = Template { missing, ..template(0, 1, (2, 0), (0, 0, values.len() as u32, 0)) };
        let differences = Differences { order: 2, descriptor_octets: 2 };
        let payload = payload(&template, Some(&differences), &[0xFFF0, 0xFFF1, 0xFFFF], &[written(0, 0, 0, values)], 0);
        Input { template, differences: Some(differences), declared: values.len() as u32, payload }
    };
    use Point::{Missing1, Missing2, Number};
    let cases = [
        (input(0, &[]), vec![]),
        (input(0, &[1]), vec![Number(0xFFF0)]),
        (input(1, &[3, 2, 3]), vec![Missing1, Number(0xFFF0), Missing1]),
        (input(2, &[3, 2, 3]), vec![Missing1, Missing2, Missing1]),
        (input(2, &[2, 1, 3, 0]), vec![Missing2, Number(0xFFF0), Missing1, Number(0xFFF1)]),
    ];
    for (whole, points) in cases {
        assert_eq!(whole.points(), Ok(points));
        assert_eq!(compare_right(&whole), 0);
        for len in 0..6 {
            let cut = Input { payload: whole.payload[..len].to_vec(), ..whole.clone() };
            assert_eq!(compare_right(&cut), 7);
        }
    }
}

/// Zero points, groups without a point at the front, in the middle and at the end, and more groups than points.
#[test]
fn groups_without_points() {
    let nothing = template(7, 5, (3, 2), (0, 0, 0, 0));
    let groups = [9, 8, 7, 6, 5].map(|reference| written(reference, 1, 0, &[]));
    let differences = Differences { order: 1, descriptor_octets: 1 };
    let none = complex(nothing, 0, &payload(&nothing, None, &[], &groups, 0));
    assert_eq!((none.points(), compare_right(&none), compare(&none, 40)), (Ok(vec![]), 0, 0));
    let none = spatial(1, 1, nothing, 0, &payload(&nothing, Some(&differences), &[4, 5], &groups, 0));
    assert_eq!((none.points(), compare_right(&none), compare(&none, 40)), (Ok(vec![]), 0, 0));

    // Seven groups, three points: lengths 0 0 1 0 2 0 0, and the last group's code says 3.
    let some = template(7, 7, (0, 3), (0, 1, 0, 2));
    let groups = [
        written(10, 0, 0, &[]),
        written(11, 1, 0, &[]),
        written(12, 2, 1, &[2]),
        written(13, 3, 0, &[]),
        written(14, 4, 2, &[4, 5]),
        written(15, 5, 0, &[]),
        written(16, 6, 3, &[]),
    ];
    let some = complex(some, 3, &payload(&some, None, &[], &groups, 0));
    assert_eq!(some.points(), numbers([14, 18, 19]));
    assert_eq!(compare_right(&some), 0);
}

/// "the last group's length is the template's own number and its length code is ignored", whatever bits it has.
#[test]
fn the_last_length_code_is_ignored() {
    for bits in [1, 3, 8, 32] {
        for groups in 1..=3 {
            for code in [0, 1, (1_u64 << bits) - 1] {
                let template = template(3, groups, (2, 0), (1, 255, 2, bits as u8));
                let groups: Vec<Written> = (0..u64::from(groups))
                    .map(|place| match place + 1 == u64::from(groups) {
                        false => written(place, 0, 0, &[3]),
                        true => written(place, 0, code, &[1, 2]),
                    })
                    .collect();
                for pad in 0..=1 {
                    let input =
                        complex(template, groups.len() as u32 + 1, &payload(&template, None, &[], &groups, pad));
                    assert_eq!(compare_right(&input), 0);
                    let last = groups.len() as i64 - 1;
                    let mut points: Vec<Point> = (0..last).map(|place| Point::Number(place + 3)).collect();
                    points.extend([last + 1, last + 2].map(Point::Number));
                    assert_eq!(input.points(), Ok(points));
                }
            }
        }
    }
}

/// "Pad bits and octets after the last value are ignored.", and so are the pad bits of each group field.
#[test]
fn pad_bits_and_more_octets_are_ignored() {
    let template = template(5, 3, (1, 3), (1, 2, 2, 3));
    let groups = [written(17, 2, 1, &[1, 0, 5]), written(3, 4, 0, &[30]), written(9, 0, 0, &[1, 0])];
    for differences in [None, Some(Differences { order: 1, descriptor_octets: 3 })] {
        let input = |pad| {
            let payload = payload(&template, differences.as_ref(), &[100, 0x80_0004], &groups, pad);
            Input { template, differences, declared: 6, payload }
        };
        let (zeros, mut ones) = (input(0), input(1));
        assert_ne!(zeros.payload, ones.payload);
        let points = zeros.points();
        assert!(points.is_ok());
        for more in [0, 0xFF, 0x5A] {
            assert_eq!(ones.points(), points);
            assert_eq!(compare_right(&ones), 0);
            ones.payload.push(more);
        }
    }
}

/// 7 for the values comes before 9: there are not enough bits for a huge length, unless its values take none.
#[test]
fn a_huge_last_length() {
    for last in [9, MOST_POINTS, MOST_POINTS + 1, 1 << 29, 1 << 31, u32::MAX] {
        for (width, answer) in [(0, 9), (1, 7), (8, 7), (31, 7)] {
            let template = template(0, 1, (width, 0), (0, 0, last, 0));
            for declared in [0, 8, last - 1, last.wrapping_add(1)] {
                assert_eq!(compare(&complex(template, declared, &[0xFF]), 81), answer);
                assert_eq!(compare(&spatial(1, 1, template, declared, &[5, 6, 0xFF]), 81), answer);
            }
        }
    }
    // Three groups have 2^32 + 4 points together, or as many bits, which must not come round to 4.
    for (width, answer) in [(0, 9), (1, 7)] {
        let template = template(0, 3, (width, 0), (1 << 31, 0, 4, 0));
        assert_eq!(compare(&complex(template, 4, &[0xFF]), 36), answer);
        assert_eq!(compare(&spatial(2, 1, template, 4, &[5, 6, 7, 0xFF]), 36), answer);
    }
}

/// 4,194,304 groups and as many points are read; one more of either is refused, with room for all.
#[test]
fn groups_and_points_have_limits() {
    let most = MOST_POINTS as usize;
    let mut lent = vec![7; (most + 1) * POINT_OCTETS];
    // Groups of one point each, whose references go 0, 1, 0, 1, 1, 0, 1, 0 and so on.
    let references = vec![0x5A; most / 8 + 1];
    let singles = |groups| template(1, groups, (0, 0), (1, 0, 1, 0));
    let octet = [0, 1, 0, 1, 1, 0, 1, 0];
    let points = complex(singles(MOST_POINTS), MOST_POINTS, &references).points().unwrap();
    assert!(points.len() == most && points.chunks(8).all(|points| points == octet.map(Point::Number)));
    // Under 5.3 the first value is 0, the minimum too, and each number is the sum of those so far.
    let differences = [&[0, 0], &references[..]].concat();
    let points = spatial(1, 1, singles(MOST_POINTS), MOST_POINTS, &differences).points().unwrap();
    let sums = (0..most).map(|place| place / 8 * 4 + [0, 1, 1, 2, 3, 3, 4, 4][place % 8]);
    assert!(points.iter().copied().eq(sums.map(|sum| Point::Number(sum as i64))));
    for groups in [0, MOST_POINTS + 1, 1 << 31, u32::MAX] {
        assert_eq!(complex(singles(groups), groups, &references).call(&mut lent), 6);
        assert_eq!(spatial(1, 1, singles(groups), groups, &differences).call(&mut lent), 6);
    }

    // Groups without points but for the last, which has them all.
    let one = |last| template(0, 2, (1, 0), (0, 0, last, 0));
    let values = &references;
    let points = complex(one(MOST_POINTS), MOST_POINTS, values).points().unwrap();
    assert!(points.len() == most && points.chunks(8).all(|points| points == octet.map(Point::Number)));
    for points in [MOST_POINTS + 1, MOST_POINTS + 8] {
        assert_eq!(complex(one(points), points, values).call(&mut lent), 9);
        assert_eq!(complex(one(points), points, values).points(), refused(9));
        assert_eq!(spatial(2, 1, one(points), points, &[&[0, 0, 0], &values[..]].concat()).call(&mut lent), 9);
    }
    assert!(lent.iter().all(|octet| *octet == 7));
    assert_eq!(complex(one(MOST_POINTS), MOST_POINTS, values).call(&mut lent[..most * POINT_OCTETS - 1]), 10);
    assert!(lent.iter().all(|octet| *octet == 7));
    assert_eq!(complex(one(MOST_POINTS), MOST_POINTS, values).call(&mut lent), 0);
    assert!(lent[..most * POINT_OCTETS].chunks_exact(9).all(|point| point[..8] == [0; 8] && point[8] < 2));
    assert_eq!(lent[most * POINT_OCTETS..], [7; POINT_OCTETS]);
}

/// Two real fields that other readers read, by their shapes: docs/DIFFERENCES.md, "Other readers".
#[test]
fn shapes_of_other_fields_that_are_refused() {
    // One value at every point: no payload, though width codes and length codes, or descriptors, ask for octets.
    for (width_bits, length_bits) in [(1, 0), (0, 1), (4, 7)] {
        let template = template(0, 1, (0, width_bits), (0, 1, 10, length_bits));
        assert_eq!(compare_right(&complex(template, 10, &[])), 7);
        assert_eq!(compare_right(&complex(template, 10, &[0, 0])), 0);
        assert_eq!(compare_right(&spatial(2, 2, template, 10, &[])), 7);
        assert_eq!(compare_right(&spatial(2, 2, template, 10, &[0; 8])), 0);
    }
    // As many points as declared, and more than are accepted, with room for all.
    const POINTS: u32 = 4_512_981;
    let template = template(0, 1, (0, 0), (0, 0, POINTS, 0));
    let mut lent = vec![7; POINTS as usize * POINT_OCTETS];
    assert_eq!(complex(template, POINTS, &[]).call(&mut lent), 9);
    assert_eq!(spatial(1, 1, template, POINTS, &[0, 0]).call(&mut lent), 9);
    assert!(lent.iter().all(|octet| *octet == 7));
}

/// Every small template on a payload of every length.
#[test]
fn small_templates_in_full() {
    let mut answers = [0; 14];
    let mut chance = Numbers::new(52);
    let mut payloads = vec![vec![0; 7], vec![0xFF; 7], vec![0x5A, 0xC3, 0x96, 0x1E, 0x69, 0xF0, 0x3C]];
    payloads.extend((0..61).map(|_| (0..7).map(|_| chance.any() as u8).collect()));
    for case in 0..3_u32.pow(10) {
        let digit = |place| case / 3_u32.pow(place) % 3;
        let octet = |place| digit(place) as u8;
        let (width, length) = ((octet(2), octet(3)), (digit(4), octet(5), digit(6), octet(7)));
        let template = Template { missing: octet(8), ..template(octet(0), 1 + digit(1), width, length) };
        let differences = match octet(9) {
            0 => None,
            order => Some(Differences { order, descriptor_octets: 1 }),
        };
        let whole = &payloads[chance.below(payloads.len() as u64) as usize];
        for len in 0..=whole.len() {
            let mut input = Input { template, differences, declared: 0, payload: whole[..len].to_vec() };
            input.declared = model::count(&input).map_or(0, |count| count as u32);
            answers[compare_right(&input) as usize] += 1;
        }
    }
    println!("answers by number: {answers:?}");
    assert!(answers[0] > 100_000 && answers[7] > 100_000, "{answers:?}");
}

/// Changes the payload: flips a bit, cuts the end off, or adds an octet. Or changes a template number.
fn damage(chance: &mut Numbers, input: &mut Input) {
    let len = input.payload.len() as u64;
    let (octet, word) = (chance.any() as u8, chance.any() as u32);
    // Most are close to what they were, so that not all is refused at the first test.
    let octet = if chance.below(2) == 0 { octet } else { octet % 40 };
    let word = if chance.below(2) == 0 { word } else { word % 40 };
    let Template { number_width, splitting, missing, groups, .. } = &mut input.template;
    match chance.below(20) {
        0 => *splitting = octet,
        1 => *missing = octet,
        2 => *number_width = octet,
        3 => *groups = [word, 0, MOST_POINTS + 1][chance.below(3) as usize],
        4 => input.template.width_reference = octet,
        5 => input.template.width_bits = octet,
        6 => input.template.length_reference = word,
        7 => input.template.length_increment = octet,
        8 => input.template.last_length = word,
        9 => input.template.length_bits = octet,
        10 => input.differences = input.differences.map(|old| Differences { order: octet % 5, ..old }),
        11 => input.differences = input.differences.map(|old| Differences { descriptor_octets: octet % 7, ..old }),
        12..=14 if len > 0 => input.payload[chance.below(len) as usize] ^= 1 << chance.below(8),
        15..=17 => input.payload.truncate(chance.below(len + 1) as usize),
        _ => input.payload.push(octet),
    }
}

#[test]
fn equal_to_the_model_on_inputs_by_chance() {
    const INPUTS: u32 = 200_000;
    let mut chance = Numbers::new(53);
    let mut answers = [[0_u32; 14]; 2];
    for _ in 0..INPUTS {
        let mut input = good(&mut chance);
        for _ in 0..chance.below(6).saturating_sub(3) {
            damage(&mut chance, &mut input);
        }
        let count = model::count(&input).map_or(0, |count| if count > 1_000 { 0 } else { count as u32 });
        input.declared = match chance.below(12) {
            0 => count.wrapping_sub(1),
            1 => count + 1,
            2 => chance.any() as u32,
            _ => count,
        };
        let right = if input.declared > 1_000 { 0 } else { u64::from(input.declared) * 9 };
        let len = match chance.below(5) {
            0 => chance.below(right + 20),
            extra => right + extra - 1,
        };
        let template = usize::from(input.differences.is_some());
        answers[template][compare(&input, len as usize) as usize] += 1;
    }
    println!("answers by number, under 5.2 and 5.3: {answers:?}");
    for number in [0, 1, 2, 5, 6, 7, 8, 9, 10] {
        let least = if number == 0 { 30_000 } else { 400 };
        assert!(answers.iter().all(|answers| answers[number] >= least), "too few answers {number}: {answers:?}");
    }
    assert!(answers[1][3] >= 400 && answers[1][4] >= 400, "too few answers 3 and 4: {answers:?}");
}

/// Chains of the second order that are long enough to leave 2^60, and often do.
#[test]
fn equal_to_the_model_on_long_chains_by_chance() {
    let mut chance = Numbers::new(54);
    let mut answers = [0_u32; 14];
    for _ in 0..60 {
        let differences = Differences { order: 2, descriptor_octets: 4 };
        let (count, length, last) = (1 + chance.below(5), chance.below(20_000), chance.below(40_000));
        let template = Template {
            missing: chance.below(3) as u8,
            ..template(31, count as u32, (0, 5), (length as u32, 0, last as u32, 0))
        };
        let groups: Vec<Written> = (1..=count)
            .map(|place| {
                let reference = number_of(&mut chance, 31);
                let width = [0, 1, 2, 31][chance.below(4) as usize];
                let length = if place < count { length } else { last };
                let values = (0..length).map(|_| number_of(&mut chance, width)).collect();
                Written { reference, width_code: width, length_code: 0, values }
            })
            .collect();
        let descriptors: Vec<u64> = (0..3).map(|_| number_of(&mut chance, 32)).collect();
        let payload = payload(&template, Some(&differences), &descriptors, &groups, 0);
        let declared = ((count - 1) * length + last) as u32;
        let input = Input { template, differences: Some(differences), declared, payload };
        answers[compare(&input, declared as usize * POINT_OCTETS + 20) as usize] += 1;
    }
    println!("answers by number: {answers:?}");
    assert!(answers[0] >= 15 && answers[12] >= 15, "too few of either: {answers:?}");
}
