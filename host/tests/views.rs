//! The views over what calls have filled: each ends where the answer does, however much is lent and whatever stood
//! there before, and a refused call gives none.

mod support;

use cleatmow::{
    field, numbers_as_octets, numbers_of_points, pack, pack_into, read_section5, read_section5_into, run_length,
    run_length_into, unpack, unpack_into, write_section5, write_section5_into, Differences, Filled, InOctets, NoNumber,
    Point, Refusal, Template, FIELD_OCTETS, GROUP_OCTETS, LEVEL_OCTETS, POINT_OCTETS, SUMMARY_OCTETS,
};
use std::fmt::Debug;
use support::model::{octets_of, payload, template, Input, Written};

/// A map under 5.2 of one group of width 3 and missing management 2: of its values 6 is missing 2, 7 is missing 1, and
/// the others are numbers.
fn map(values: &[u64]) -> Input {
    let template = Template { missing: 2, ..template(0, 1, (3, 0), (0, 0, values.len() as u32, 0)) };
    let group = Written { reference: 0, width_code: 0, length_code: 0, values: values.to_vec() };
    let payload = payload(&template, None, &[], &[group], 0);
    Input { template, differences: None, declared: values.len() as u32, payload }
}

/// The same under 5.3, of the first order: a first value, then differences, to each of which the minimum is added. That
/// has a leading sign bit.
fn restored(first: u32, minimum: u32, values: &[u64]) -> Input {
    let differences = Some(Differences { order: 1, descriptor_octets: 4 });
    let map = map(values);
    Input { differences, payload: [&first.to_be_bytes(), &minimum.to_be_bytes(), &map.payload[..]].concat(), ..map }
}

/// Holds a view to a list, by every way to read it.
fn hold<T: InOctets + Copy + Debug + PartialEq>(view: Filled<T>, list: &[T]) {
    let count = list.len();
    assert_eq!((view.len(), view.is_empty(), view.octets().len()), (count, count == 0, count * T::OCTETS));
    assert!(view.into_iter().eq(list.iter().copied()));
    assert_eq!(format!("{view:?}"), format!("{list:?}"));
    for (place, one) in list.iter().enumerate() {
        assert_eq!(view.get(place), Some(*one));
    }
    // There is no place past the last; none either whose octet would come round to one of the first.
    let round = usize::MAX / T::OCTETS;
    for place in (count..count + 50).chain([round, round + 1, round + 2, usize::MAX - 1, usize::MAX]) {
        assert_eq!(view.get(place), None, "{place}");
    }
    let mut left = view.iter();
    for taken in 0..=count {
        assert_eq!((left.len(), left.size_hint()), (count - taken, (count - taken, Some(count - taken))));
        assert!(left.clone().eq(list[taken..].iter().copied()));
        assert_eq!(left.next(), list.get(taken).copied());
    }
    assert_eq!((left.next(), left.len()), (None, 0));
}

/// Octets that no point begins with: to read one of them is to panic.
const UNTOUCHED: u8 = 0xEE;

/// One buffer for maps of all lengths. What is left of a longer one are whole points, and no view has them.
#[test]
fn points_end_where_the_map_does() {
    use Point::{Missing1, Number};
    let long = map(&[0, 1, 2, 3, 4, 5, 6, 7, 5, 4, 3, 2, 1, 0, 7, 6]);
    let short = map(&[5, 7, 6, 0]);
    let turns = restored(7, 0x8000_0003, &[5, 0, 1, 7, 2]);
    assert_eq!(turns.points(), Ok(vec![Number(7), Number(4), Number(2), Missing1, Number(1)]));
    for spare in 0..2 * POINT_OCTETS {
        let mut kept = vec![UNTOUCHED; 16 * POINT_OCTETS + spare];
        for input in [&short, &map(&[]), &long, &short, &turns, &map(&[6]), &map(&[]), &long, &turns] {
            let points = input.points().unwrap();
            let end = points.len() * POINT_OCTETS;
            let past = kept[end..].to_vec();
            hold(input.view(&mut kept).unwrap(), &points);
            assert_eq!((&kept[..end], &kept[end..]), (&octets_of(&points)[..], &past[..]));
        }
    }
}

/// The fields of an input's Section 5, and its octets. What unpacking does not look at are numbers of their own.
fn section5_of(input: &Input) -> (Vec<u32>, Vec<u8>) {
    let Input { template, differences, declared, .. } = input;
    let mut fields = vec![47, 5, *declared, 2, 0xBFC0_0000, 0x8003, 1, template.number_width.into(), 9];
    fields.extend([template.splitting, template.missing].map(u32::from));
    fields.extend([0x0102_0304, 0x0506_0708, template.groups]);
    fields.extend([template.width_reference, template.width_bits].map(u32::from));
    fields.extend([template.length_reference, template.length_increment.into(), template.last_length]);
    fields.push(template.length_bits.into());
    if let Some(Differences { order, descriptor_octets }) = *differences {
        fields.extend([order, descriptor_octets].map(u32::from));
        (fields[field::SECTION_LENGTH], fields[field::TEMPLATE]) = (49, 3);
    }
    let octets = write_section5(&fields).unwrap();
    (fields, octets)
}

/// From Section 5 the points are the same, and end where those do that the template numbers give.
#[test]
fn points_from_section_5_end_where_the_map_does() {
    let maps = [map(&[5, 7, 6, 0]), map(&[]), restored(7, 0x8000_0003, &[5, 0, 1, 7, 2]), map(&[6])];
    for spare in 0..2 * POINT_OCTETS {
        let mut kept = vec![UNTOUCHED; 5 * POINT_OCTETS + spare];
        for input in maps.iter().chain(maps.iter().rev()) {
            let ((_, section5), points) = (section5_of(input), input.points().unwrap());
            let past = kept[points.len() * POINT_OCTETS..].to_vec();
            hold(unpack_into(&section5, &input.payload, &mut kept).unwrap(), &points);
            assert_eq!(kept[points.len() * POINT_OCTETS..], past);
            assert_eq!(unpack(&section5, &input.payload), Ok(points));
        }
    }
}

/// A template has its own fields, whatever is left of the other's; and its own octets.
#[test]
fn fields_end_where_the_template_does() {
    let maps = [map(&[5, 7, 6, 0]), restored(7, 0x8000_0003, &[5, 0, 1, 7, 2]), map(&[])];
    for spare in 0..2 * FIELD_OCTETS {
        let (mut kept, mut written) = (vec![UNTOUCHED; 22 * FIELD_OCTETS + spare], vec![UNTOUCHED; 49 + spare]);
        for input in maps.iter().chain(maps.iter().rev()) {
            let (fields, section5) = section5_of(input);
            let end = fields.len() * FIELD_OCTETS;
            let past = kept[end..].to_vec();
            hold(read_section5_into(&section5, &mut kept).unwrap(), &fields);
            assert_eq!((&kept[..end], &kept[end..]), (&numbers_as_octets(&fields)[..], &past[..]));
            assert_eq!(read_section5(&section5), Ok(fields));

            let past = written[section5.len()..].to_vec();
            assert_eq!(write_section5_into(&kept[..end], &mut written), Ok(&section5[..]));
            assert_eq!((&written[..section5.len()], &written[section5.len()..]), (&section5[..], &past[..]));
        }
    }
}

#[test]
fn levels_end_where_the_map_does() {
    let maps: [(u8, u16, u32, &[u8]); 4] =
        [(4, 9, 10, &[0x3C, 0xB5]), (4, 9, 0, &[]), (4, 9, 5, &[0x3C, 0x50]), (15, 32_767, 1, &[0xFF, 0xFE])];
    for spare in 0..2 * LEVEL_OCTETS {
        let mut kept = vec![UNTOUCHED; 10 * LEVEL_OCTETS + spare];
        for (bits, max_level, declared, payload) in maps.iter().chain(maps.iter().rev()).copied() {
            let levels = run_length(bits, max_level, declared, payload).unwrap();
            let end = levels.len() * LEVEL_OCTETS;
            let past = kept[end..].to_vec();
            hold(run_length_into(bits, max_level, declared, payload, &mut kept).unwrap(), &levels);
            assert_eq!(kept[end..], past);
        }
    }
}

#[test]
fn a_packing_ends_where_it_does() {
    let step = [vec![0; 10], vec![8; 310], vec![0; 5]].concat();
    let lists: [(&[u32], u32); 5] =
        [(&[5, 6, 5, 7], 4), (&step, 1), (&[0], 1), (&[1, 1 << 30, 2, 1 << 29, 3, 1 << 28], 1), (&[5, 6, 5, 7], 1)];
    for spare in 0..GROUP_OCTETS + 2 {
        let mut groups = vec![UNTOUCHED; 6 * GROUP_OCTETS + spare];
        let (mut payload, mut summary) = (vec![UNTOUCHED; 40 + spare], vec![UNTOUCHED; SUMMARY_OCTETS + spare]);
        for (list, lookahead) in lists.iter().chain(lists.iter().rev()).copied() {
            let packing = pack(list, lookahead).unwrap();
            let ends = [packing.groups.len() * GROUP_OCTETS, packing.payload.len()];
            let past = [groups[ends[0]..].to_vec(), payload[ends[1]..].to_vec()];
            let numbers = numbers_as_octets(list);
            let packed = pack_into(lookahead, &numbers, &mut groups, &mut payload, &mut summary).unwrap();
            hold(packed.groups, &packing.groups);
            assert_eq!((packed.template, packed.payload), (packing.template, &packing.payload[..]));
            assert_eq!([&groups[ends[0]..], &payload[ends[1]..]], past);
            assert!(summary[SUMMARY_OCTETS..].iter().all(|octet| *octet == UNTOUCHED));
        }
    }
}

#[test]
fn views_of_the_same_are_equal() {
    let mut buffers = [[UNTOUCHED; 40], [0; 40], [1; 40], [2; 40]];
    let [one, same, other, less] = &mut buffers;
    let one = map(&[5, 7, 6]).view(one).unwrap();
    assert_eq!(map(&[5, 7, 6]).view(same), Ok(one));
    assert_ne!(map(&[5, 7, 5]).view(other), Ok(one));
    assert_ne!(map(&[5, 7]).view(less), Ok(one));
}

#[test]
fn what_a_point_says_of_itself() {
    for number in [0, 1, -1, 1 << 60, -1 << 60, i64::MAX, i64::MIN] {
        let point = Point::Number(number);
        assert_eq!((point.number(), point.mark(), point.is_missing()), (Some(number), 0, false));
    }
    for (point, mark) in [(Point::Missing1, 1), (Point::Missing2, 2)] {
        assert_eq!((point.number(), point.mark(), point.is_missing()), (None, mark, true));
    }
    // The mark is the one that stands in lent octets.
    let mut lent = [UNTOUCHED; 3 * POINT_OCTETS];
    let view = map(&[5, 7, 6]).view(&mut lent).unwrap();
    let marks: Vec<u8> = view.iter().map(Point::mark).collect();
    assert!(view.octets().iter().step_by(POINT_OCTETS).eq(&marks) && marks == [0, 1, 2]);
}

/// The numbers of a view, and those that packing takes.
type Numbers = (Result<Vec<i64>, NoNumber>, Result<Vec<u32>, NoNumber>);

/// The numbers of a map, from the view over a buffer with room for more.
fn numbers_of(input: &Input) -> Numbers {
    let mut kept = vec![UNTOUCHED; (input.declared as usize + 3) * POINT_OCTETS + 1];
    let view = input.view(&mut kept).unwrap();
    let numbers = view.numbers().map(|numbers| {
        assert_eq!(numbers.len(), view.len());
        numbers.collect()
    });
    // A list of the points has the same numbers to pack.
    let to_pack = numbers_of_points(view);
    assert_eq!(numbers_of_points(input.points().unwrap()), to_pack);
    (numbers, to_pack)
}

#[test]
fn numbers_of_maps_without_missing_points() {
    assert_eq!(numbers_of(&map(&[])), (Ok(vec![]), Ok(vec![])));
    assert_eq!(numbers_of(&map(&[5, 0, 1, 5])), (Ok(vec![5, 0, 1, 5]), Ok(vec![5, 0, 1, 5])));
    let greatest = restored(4_294_967_292, 0, &[0, 0, 3]);
    let numbers = [4_294_967_292, 4_294_967_292, 4_294_967_295];
    assert_eq!(numbers_of(&greatest), (Ok(numbers.map(i64::from).to_vec()), Ok(numbers.to_vec())));
}

/// The first missing point is told, and no number is given: not those before it either.
#[test]
fn numbers_of_maps_with_missing_points() {
    let missing = [(7, Point::Missing1), (6, Point::Missing2)];
    for place in 0..6 {
        for (value, point) in missing {
            let mut values = [1, 0, 5, 0, 2, 3];
            values[place] = value;
            let told = NoNumber { place, point };
            assert_eq!(numbers_of(&map(&values)), (Err(told), Err(told)));
            assert_eq!(numbers_of(&restored(40, 0, &values)), (Err(told), Err(told)));
            for (other, _) in missing {
                values[place + 1..].fill(other);
                assert_eq!(numbers_of(&map(&values)), (Err(told), Err(told)));
            }
        }
    }
}

/// A view may have numbers that four octets do not hold. They do not become others.
#[test]
fn numbers_that_are_not_packed() {
    let told = |place, number| Err(NoNumber { place, point: Point::Number(number) });
    let below = restored(1, 0x8000_0001, &[0, 0, 0, 5]);
    assert_eq!(numbers_of(&below), (Ok(vec![1, 0, -1, 3]), told(2, -1)));
    let above = restored(u32::MAX, 0, &[0, 0, 1, 5]);
    assert_eq!(numbers_of(&above), (Ok([0, 0, 1, 6].map(|more| 0xFFFF_FFFF + more).to_vec()), told(2, 1 << 32)));
    // The first is told, whatever comes after it.
    let both = restored(1, 0x8000_0001, &[0, 0, 0, 7]);
    let missing = NoNumber { place: 3, point: Point::Missing1 };
    assert_eq!(numbers_of(&both), (Err(missing), told(2, -1)));
}

/// What a good map has left in a buffer is no answer of a refused call, and neither is what that call leaves itself.
#[test]
fn refused_calls_give_no_view() {
    let good = map(&[5, 7, 6, 0]);
    let mut kept = vec![UNTOUCHED; 40_000 * POINT_OCTETS];
    assert_eq!(good.view(&mut kept).map(Filled::len), Ok(4));
    let mut refused = |input: &Input, room: usize, refusal| assert_eq!(input.view(&mut kept[..room]), Err(refusal));
    let with = |change: fn(&mut Input)| {
        let mut input = good.clone();
        change(&mut input);
        input
    };
    refused(&with(|input| input.template.splitting = 0), 36, Refusal::Splitting);
    refused(&with(|input| input.template.missing = 3), 36, Refusal::Management);
    refused(&with(|input| input.template.groups = 0), 36, Refusal::GroupCount);
    refused(&with(|input| input.template.number_width = 32), 36, Refusal::Width);
    refused(&with(|input| input.template.width_reference = 32), 36, Refusal::GroupSize);
    refused(&with(|input| input.payload.truncate(1)), 36, Refusal::Short);
    refused(&with(|input| input.declared = 3), 36, Refusal::Points);
    refused(&good, 35, Refusal::Room);
    let differences = |order, descriptor_octets| Some(Differences { order, descriptor_octets });
    refused(&Input { differences: differences(3, 1), ..good.clone() }, 36, Refusal::Order);
    refused(&Input { differences: differences(1, 5), ..good.clone() }, 36, Refusal::Descriptors);

    // Numbers 0 stand in all declared places afterwards.
    let template = template(31, 1, (0, 0), (0, 0, 40_000, 0));
    let payload = [[0; 4], [0xFF; 4], [0; 4], [0xFF; 4]].concat();
    let beyond = Input { template, differences: differences(2, 4), declared: 40_000, payload };
    refused(&beyond, 40_000 * POINT_OCTETS, Refusal::Beyond);
    assert!(kept.iter().all(|octet| *octet == 0));

    let mut kept = [UNTOUCHED; 20];
    assert_eq!(run_length_into(4, 9, 10, &[0x3C, 0xB5], &mut kept).map(Filled::len), Ok(10));
    assert_eq!(run_length_into(4, 16, 10, &[0x3C, 0xB5], &mut kept), Err(Refusal::Width));
    assert_eq!(run_length_into(4, 9, 10, &[0xC3, 0xB5], &mut kept), Err(Refusal::Repeat));
    assert_eq!(run_length_into(4, 9, 9, &[0x3C, 0xB5], &mut kept), Err(Refusal::Points));
    assert_eq!(run_length_into(4, 9, 10, &[0x3C, 0xB5], &mut kept[1..]), Err(Refusal::Room));

    // From the first calls on, the fields and the octets of a good Section 5 stand there.
    let (mut kept, mut written) = ([UNTOUCHED; 88], [UNTOUCHED; 49]);
    let (fields, section5) = section5_of(&restored(7, 0, &[5]));
    assert_eq!(read_section5_into(&section5, &mut kept).map(Filled::len), Ok(22));
    assert_eq!(read_section5_into(&section5[..48], &mut kept), Err(Refusal::Section5));
    assert_eq!(read_section5_into(&section5, &mut kept[1..]), Err(Refusal::Room));
    assert_eq!(unpack_into(&section5[1..], &[0; 9], &mut kept), Err(Refusal::Section5));
    assert_eq!(write_section5_into(&kept, &mut written).map(<[u8]>::len), Ok(49));
    assert_eq!(write_section5_into(&kept[1..], &mut written), Err(Refusal::Section5));
    assert_eq!(write_section5_into(&kept, &mut written[1..]), Err(Refusal::Room));
    let wide = [&fields[..field::ORDER], &[256, 1]].concat();
    assert_eq!(write_section5_into(&numbers_as_octets(&wide), &mut written), Err(Refusal::Numbers));
    assert_eq!((write_section5(&wide), write_section5(&fields[..21])), (Err(Refusal::Numbers), Err(Refusal::Section5)));

    // From the first call on, the groups and the summary of a good list stand there.
    let (mut groups, mut payload, mut summary) = ([UNTOUCHED; 64], [UNTOUCHED; 8], [UNTOUCHED; SUMMARY_OCTETS]);
    let mut packed = |lookahead, list: &[u32], [slots, room, forty]: [usize; 3]| {
        let numbers = numbers_as_octets(list);
        let (groups, payload) = (&mut groups[..slots], &mut payload[..room]);
        pack_into(lookahead, &numbers, groups, payload, &mut summary[..forty]).map(|packed| packed.groups.len())
    };
    assert_eq!(packed(1, &[5, 6, 5, 7], [64, 8, 40]), Ok(4));
    assert_eq!(packed(0, &[5, 6, 5, 7], [64, 8, 40]), Err(Refusal::Numbers));
    assert_eq!(packed(1, &[], [64, 8, 40]), Err(Refusal::Numbers));
    assert_eq!(packed(1, &[5, 6, 5, 7], [64, 8, 39]), Err(Refusal::Room));
    assert_eq!(packed(1, &[5, 6, 5, 7], [63, 8, 40]), Err(Refusal::Room));
    assert_eq!(packed(1, &[5, 6, 5, 7], [64, 1, 40]), Err(Refusal::Room));
}
