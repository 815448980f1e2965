//! What the wrappers allocate, and that the calls on lent octets do not.

use cleatmow::{
    levels_as_octets, numbers_as_octets, pack, pack_into, point, read_section5, read_section5_into, run_length,
    run_length_into, unpack, unpack_complex, unpack_complex_into, unpack_into, unpack_spatial, unpack_spatial_into,
    write_run_length, write_run_length_into, write_section5, write_section5_into, Differences, Fields, Physical, Point,
    Points, Refusal, Section5, Template, FIELD_OCTETS, GROUP_OCTETS, LEVEL_OCTETS, MOST_NUMBERS, MOST_POINTS,
    NUMBER_OCTETS, POINT_OCTETS, SUMMARY_OCTETS,
};
use std::alloc::{GlobalAlloc, Layout, System};
use std::cell::Cell;

/// The system's allocator, which notes for each thread how often it is asked, and the largest request.
struct Watched;

thread_local! {
    static REQUESTS: Cell<usize> = const { Cell::new(0) };
    static LARGEST: Cell<usize> = const { Cell::new(0) };
}

#[global_allocator]
static ALLOCATOR: Watched = Watched;

fn note(size: usize) {
    REQUESTS.set(REQUESTS.get() + 1);
    LARGEST.set(LARGEST.get().max(size));
}

// SAFETY: every request goes to the system's allocator as it is.
unsafe impl GlobalAlloc for Watched {
    unsafe fn alloc(&self, layout: Layout) -> *mut u8 {
        note(layout.size());
        System.alloc(layout)
    }
    unsafe fn alloc_zeroed(&self, layout: Layout) -> *mut u8 {
        note(layout.size());
        System.alloc_zeroed(layout)
    }
    unsafe fn realloc(&self, place: *mut u8, layout: Layout, size: usize) -> *mut u8 {
        note(size);
        System.realloc(place, layout, size)
    }
    unsafe fn dealloc(&self, place: *mut u8, layout: Layout) {
        System.dealloc(place, layout)
    }
}

/// How often a call asks the allocator, and its largest request.
fn asked(call: impl FnOnce()) -> (usize, usize) {
    REQUESTS.set(0);
    LARGEST.set(0);
    call();
    (REQUESTS.get(), LARGEST.get())
}

/// One group of width 3 with so many points. It takes no group fields.
fn template(last_length: u32) -> Template {
    Template {
        number_width: 0,
        splitting: 1,
        missing: 0,
        groups: 1,
        width_reference: 3,
        width_bits: 0,
        length_reference: 0,
        length_increment: 0,
        last_length,
        length_bits: 0,
    }
}

const DIFFERENCES: Differences = Differences { order: 1, descriptor_octets: 1 };

/// The Section 5 of so many points.
fn section5(declared: u32, last_length: u32) -> Vec<u8> {
    Section5::of_packing(declared, &template(last_length), &Physical::default())
}

#[test]
fn the_allocator_is_watched() {
    assert_eq!(asked(|| drop(std::hint::black_box(vec![0_u8; 77]))), (1, 77));
    assert_eq!(asked(|| drop(std::hint::black_box(Vec::<u8>::with_capacity(78)))), (1, 78));
    assert_eq!(asked(|| ()), (0, 0));
}

#[test]
fn nothing_is_lent_above_the_limit() {
    type Lends = fn(u32);
    let lends: [(Lends, usize); 3] = [
        (|declared| assert_eq!(run_length(4, 9, declared, &[0x3C, 0xB5]), Err(Refusal::Points)), LEVEL_OCTETS),
        (
            |declared| assert_eq!(unpack_complex(&template(4), declared, &[0x0C, 0x50]), Err(Refusal::Points)),
            POINT_OCTETS,
        ),
        (
            |declared| {
                let payload = [0x0A, 0x82, 0x0C, 0x50];
                assert_eq!(unpack_spatial(&template(4), &DIFFERENCES, declared, &payload), Err(Refusal::Points));
            },
            POINT_OCTETS,
        ),
    ];
    for (call, octets) in lends {
        assert_eq!(asked(|| call(MOST_POINTS)), (1, MOST_POINTS as usize * octets));
        for declared in [MOST_POINTS + 1, 1 << 31, u32::MAX] {
            assert_eq!(asked(|| call(declared)), (0, 0), "{declared} declared");
        }
    }
    let of_section5 = |octets: &[u8], refusal| asked(|| assert_eq!(unpack(octets, &[0x0C, 0x50]), Err(refusal)));
    let most = section5(MOST_POINTS, 4);
    assert_eq!(of_section5(&most, Refusal::Points), (1, MOST_POINTS as usize * POINT_OCTETS));
    assert_eq!(of_section5(&most[..46], Refusal::Section5), (0, 0));
    for declared in [MOST_POINTS + 1, 1 << 31, u32::MAX] {
        assert_eq!(of_section5(&section5(declared, 4), Refusal::Points), (0, 0), "{declared} declared");
    }
}

/// Points are lent once, and turned into a list of the right size.
#[test]
fn a_list_of_points_is_two_requests() {
    let payload = vec![0x53; 3_000];
    let (requests, largest) =
        asked(|| assert_eq!(unpack_complex(&template(8_000), 8_000, &payload).unwrap().len(), 8_000));
    assert_eq!((requests, largest), (2, 8_000 * size_of::<cleatmow::Point>()));
    let section5 = section5(8_000, 8_000);
    let (requests, largest) = asked(|| assert_eq!(unpack(&section5, &payload).unwrap().len(), 8_000));
    assert_eq!((requests, largest), (2, 8_000 * size_of::<cleatmow::Point>()));
}

/// The list that is answered, and what is handed on to write: no more than a Section 5 has, however much there is.
#[test]
fn what_section_5_asks_for() {
    let mut octets = section5(4, 4);
    octets.resize(1_000_000, 0);
    let mut fields = read_section5(&octets).unwrap();
    assert_eq!(asked(|| drop(read_section5(&octets))), (1, 20 * FIELD_OCTETS));
    fields.resize(1_000_000, 0);
    assert_eq!(asked(|| drop(write_section5(&fields))), (2, 22 * FIELD_OCTETS));
}

/// Of a list above the limit as much is handed on as shows that it is, and no group list is lent.
#[test]
fn what_packing_asks_for() {
    let most = MOST_NUMBERS as usize;
    for more in [1, 2, 1_000_000] {
        let list = vec![0; most + more];
        let (_, largest) = asked(|| assert_eq!(pack(&list, 8), Err(Refusal::Numbers)));
        assert_eq!(largest, (most + 1) * NUMBER_OCTETS, "{more} more");
    }
    // The group list is the largest that is lent; what is answered has the size that it has.
    let list: Vec<u32> = (0..1_000).collect();
    let (_, largest) = asked(|| assert!(pack(&list, 8).is_ok_and(|packing| packing.payload.capacity() < 1_500)));
    assert_eq!(largest, 1_000 * GROUP_OCTETS);
}

/// Of a list above the limit as much is handed on as shows that it is, and no payload is lent; nor for bits that are
/// refused. Else the octets of the levels, as many as are always enough, and what is answered.
#[test]
fn what_writing_levels_asks_for() {
    let most = MOST_POINTS as usize;
    for more in [1, 2, 1_000_000] {
        let levels = vec![0; most + more];
        let refused = asked(|| assert_eq!(write_run_length(4, 9, &levels), Err(Refusal::Numbers)));
        assert_eq!(refused, (1, (most + 1) * LEVEL_OCTETS), "{more} more");
    }
    let levels = vec![1; 1_000];
    for bits in [0, 16, 255] {
        let refused = asked(|| assert_eq!(write_run_length(bits, 9, &levels), Err(Refusal::Width)));
        assert_eq!(refused, (1, 1_000 * LEVEL_OCTETS), "b {bits}");
    }
    let answered = |octets| move |payload: Vec<u8>| (payload.len(), payload.capacity()) == (octets, octets);
    // Base 2, so that 999 are ten digits; and base 0.
    let run = asked(|| assert!(write_run_length(4, 13, &levels).is_ok_and(answered(6))));
    assert_eq!(run, (3, 1_000 * LEVEL_OCTETS));
    let each = asked(|| assert!(write_run_length(15, 32_767, &levels).is_ok_and(answered(1_875))));
    assert_eq!(each, (3, 1_000 * LEVEL_OCTETS));
}

#[test]
fn calls_on_lent_octets_allocate_nothing() {
    let payload = vec![0x53; 3_000];
    let mut points = vec![0; 8_000 * POINT_OCTETS];
    let mut levels = vec![0; 3_000 * LEVEL_OCTETS];
    let (runs, mut runs_written) = (levels_as_octets(&[3, 3, 3, 3, 3, 3, 3, 3, 3, 5]), [0; 5]);
    let beyond = Template { number_width: 31, width_reference: 0, ..template(40_000) };
    let mut many = vec![0; 40_000 * POINT_OCTETS];
    let far = [0, 0, 0, 0, 0, 0, 0, 0, 0, 0, 0, 0, 0xFF, 0xFF, 0xFF, 0xF0];
    let list = numbers_as_octets(&[5, 6, 5, 7].repeat(500));
    let mut groups = vec![0; 2_000 * GROUP_OCTETS];
    let mut summary = [0; SUMMARY_OCTETS];
    let section5 = section5(8_000, 8_000);
    let (mut fields, mut written) = ([0; 22 * FIELD_OCTETS], [0; 49]);
    let nothing = asked(|| {
        // Answers 0, 14 and 10; then 0, 14, 13 and 10.
        let all = unpack_into(&section5, &payload, &mut points).unwrap();
        assert_eq!((all.iter().count(), all.numbers().map(Iterator::count)), (8_000, Ok(8_000)));
        assert_eq!(unpack_into(&section5[..46], &payload, &mut points), Err(Refusal::Section5));
        assert_eq!(unpack_into(&section5, &payload, &mut points[1..]), Err(Refusal::Room));
        assert_eq!(read_section5_into(&section5, &mut fields).map(Fields::len), Ok(20));
        assert_eq!(read_section5_into(&section5[..46], &mut fields), Err(Refusal::Section5));
        assert_eq!(read_section5_into(&section5, &mut fields[9..]), Err(Refusal::Room));
        assert_eq!(write_section5_into(&fields, &mut written), Ok(&section5[..]));
        assert_eq!(write_section5_into(&fields[9..], &mut written), Err(Refusal::Section5));
        assert_eq!(write_section5_into(&fields, &mut written[3..]), Err(Refusal::Room));
        fields[78] = 1;
        assert_eq!(write_section5_into(&fields, &mut written), Err(Refusal::Numbers));
        // Answers 0, 7, 9, 10 and 12.
        let all = unpack_complex_into(&template(8_000), 8_000, &payload, &mut points).unwrap();
        assert_eq!((all.iter().count(), all.numbers().map(Iterator::count)), (8_000, Ok(8_000)));
        assert_eq!(unpack_complex_into(&template(8_001), 8_001, &payload, &mut points), Err(Refusal::Short));
        assert_eq!(unpack_complex_into(&template(7_999), 8_000, &payload, &mut points), Err(Refusal::Points));
        assert_eq!(unpack_complex_into(&template(8_000), 8_000, &payload, &mut points[1..]), Err(Refusal::Room));
        let spatial = |last, points: &mut [u8]| {
            unpack_spatial_into(&template(last), &DIFFERENCES, last, &payload, points).map(Points::len)
        };
        assert_eq!(spatial(7_994, &mut points), Ok(7_994));
        assert_eq!(spatial(7_995, &mut points), Err(Refusal::Short));
        assert_eq!(spatial(7_994, &mut points[55..]), Err(Refusal::Room));
        let second = Differences { order: 2, descriptor_octets: 4 };
        assert_eq!(unpack_spatial_into(&beyond, &second, 40_000, &far, &mut many), Err(Refusal::Beyond));
        let all = run_length_into(8, 200, 3_000, &payload, &mut levels).unwrap();
        assert_eq!(all.iter().count(), 3_000);
        // Answers 0, 5, 13 and 10.
        assert_eq!(write_run_length_into(4, 9, &runs, &mut runs_written), Ok(&[0x3C, 0xB5][..]));
        assert_eq!(write_run_length_into(4, 16, &runs, &mut runs_written), Err(Refusal::Width));
        assert_eq!(write_run_length_into(4, 4, &runs, &mut runs_written), Err(Refusal::Numbers));
        assert_eq!(write_run_length_into(4, 9, &runs, &mut runs_written[4..]), Err(Refusal::Room));
        // Answers 0, 13, and 10 for each of the three.
        let mut packed = |lookahead, slots: usize, room: usize, forty: usize| {
            let (groups, payload) = (&mut groups[..slots * GROUP_OCTETS], &mut points[..room]);
            pack_into(lookahead, &list, groups, payload, &mut summary[..forty])
                .map(|packed| packed.groups.iter().count())
        };
        assert_eq!(packed(1, 2_000, 4_000, SUMMARY_OCTETS), Ok(2_000));
        assert_eq!(packed(0, 2_000, 4_000, SUMMARY_OCTETS), Err(Refusal::Numbers));
        assert_eq!(packed(1, 2_000, 4_000, SUMMARY_OCTETS - 1), Err(Refusal::Room));
        assert_eq!(packed(1, 1_999, 4_000, SUMMARY_OCTETS), Err(Refusal::Room));
        assert_eq!(packed(1, 2_000, 4, SUMMARY_OCTETS), Err(Refusal::Room));
    });
    assert_eq!(nothing, (0, 0));
}

/// A number, a missing point, and every refusal.
#[test]
fn one_point_allocates_nothing() {
    let (payload, map) = (vec![0x77; 3_000], template(8_000));
    let of = |declared, template: &Template| Section5::of_packing(declared, template, &Physical::default());
    let good = of(8_000, &map);
    let managed = of(8_000, &Template { missing: 1, ..map });
    let mut spatial = [&good[..], &[1, 1]].concat();
    (spatial[3], spatial[10]) = (49, 3);
    let refused = [
        (Refusal::Section5, good[..46].to_vec()),
        (Refusal::Section5, spatial),
        (Refusal::Splitting, of(8_000, &Template { splitting: 0, ..map })),
        (Refusal::Management, of(8_000, &Template { missing: 3, ..map })),
        (Refusal::GroupCount, of(8_000, &Template { groups: 0, ..map })),
        (Refusal::Width, of(8_000, &Template { number_width: 32, ..map })),
        // For the group fields, and for the values.
        (Refusal::Short, of(8_000, &Template { groups: 4_000_000, length_bits: 8, ..map })),
        (Refusal::GroupSize, of(8_000, &Template { width_reference: 32, ..map })),
        (Refusal::Short, of(8_001, &template(8_001))),
        (Refusal::Points, of(7_999, &map)),
        (Refusal::Points, of(u32::MAX, &map)),
    ];
    let nothing = asked(|| {
        assert_eq!(point(&good, &payload, 0), Ok(Point::Number(3)));
        assert_eq!(point(&good, &payload, 7_999), Ok(Point::Number(7)));
        assert_eq!(point(&managed, &payload, 7_999), Ok(Point::Missing1));
        for place in [8_000, u32::MAX] {
            assert_eq!(point(&good, &payload, place), Err(Refusal::Place));
        }
        for (refusal, section5) in &refused {
            assert_eq!(point(section5, &payload, 0), Err(*refusal));
        }
    });
    assert_eq!(nothing, (0, 0));
}
