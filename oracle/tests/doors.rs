//! The doors give what the Rust gives: document 01's cases, and the faults of the Rust that are known. Where it panics,
//! most often an overflow is what panics, so these are for the profile that checks them.
#![cfg(have_text)]

use oracle::Outcome::{Answer, Panicked, Refused};
use oracle::Point::{self, Missing1, Missing2, Number};
use oracle::runs::Coding;
use oracle::unpacking::template;
use oracle::{Differences, Packing, Template};

fn normal(numbers: &[i64]) -> Vec<Point> {
    numbers.iter().map(|&number| Number(number)).collect()
}

fn packed(numbers: &[u32], lookahead: usize) -> Packing {
    match oracle::pack(numbers, lookahead) {
        Answer(packing) => packing,
        other => panic!("{other:?}"),
    }
}

#[test]
fn bits_are_read() {
    let octets = [0xba, 0xf0];
    assert_eq!(oracle::read_bits(&octets, 0, 3, 4), Answer(vec![5, 6, 5, 7]));
    assert_eq!(oracle::read_bits(&octets, 2, 5, 2), Answer(vec![29, 15]));
    assert_eq!(oracle::read_bits(&[], 0, 0, 3), Answer(vec![0, 0, 0]));
    assert_eq!(oracle::read_bits(&[0xff], 0, 5, 2), Answer(vec![31]), "ends without a word");
    assert_eq!(oracle::read_bits(&octets, 8, 1, 1), Panicked);
}

#[test]
fn bits_are_written() {
    let mut buffer = [0; 2];
    assert_eq!(oracle::write_bits(&[5, 6, 5, 7], 0, 3, &mut buffer), Answer(2));
    assert_eq!(buffer, [0xba, 0xf0]);
    let refused = oracle::write_bits(&[5, 6, 5, 7], 0, 3, &mut buffer[..1]);
    assert_eq!(refused, Refused("destination buffer is too small".into()));
}

#[test]
fn the_writer_counts_its_span_without_the_starting_bit() {
    let mut two = [0; 2];
    assert_eq!(oracle::write_bits(&[3], 7, 2, &mut two), Answer(1));
    assert_eq!(two, [0x01, 0x80]);
    let mut one = [0; 1];
    assert_eq!(oracle::write_bits(&[3], 7, 2, &mut one), Panicked);
}

#[test]
fn runs_are_read() {
    let (long, short) = ([0x3c, 0xb5], [0x3c, 0x50]);
    let nine_and_one = Answer(vec![3, 3, 3, 3, 3, 3, 3, 3, 3, 5]);
    assert_eq!(oracle::run_length(4, 9, 10, &long), nine_and_one);
    assert_eq!(oracle::run_length(4, 9, 5, &short), Answer(vec![3, 3, 3, 5, 0]));
    for refused in [oracle::run_length(4, 9, 9, &long), oracle::run_length(4, 9, 4, &short)] {
        assert_eq!(refused, Refused("LengthMismatch".into()));
    }
    let repeat_first = oracle::run_length(4, 9, 1, &[0xa0]);
    assert_eq!(repeat_first, Refused("UnclassifiedError(\"invalid first value\")".into()));
}

#[test]
fn weights_of_runs_overflow() {
    // A level and repeat codes that add no point, base 2: the weight after 63 of them is 2^63, after 64 it is 2^64.
    let coding = Coding { bits: 2, max_level: 1 };
    let codes = [&[0][..], &[2; 64]].concat();
    let payload = coding.payload_of(&codes[..64]);
    assert_eq!(oracle::run_length(2, 1, 1, &payload), Answer(vec![0]));
    let payload = coding.payload_of(&codes);
    assert_eq!(oracle::run_length(2, 1, 1, &payload), Panicked);
}

#[test]
fn lists_are_packed() {
    let by_ones = packed(&[5, 6, 5, 7], 1);
    assert_eq!(by_ones.template, template([3, 4, 0, 0, 1, 0, 1, 0]));
    assert_eq!(by_ones.payload, [0xba, 0xf0]);
    assert_eq!(by_ones.missing_values, [u32::MAX; 2]);

    let by_fours = packed(&[5, 6, 5, 7], 4);
    assert_eq!(by_fours.template, template([3, 2, 0, 1, 3, 0, 1, 0]));
    assert_eq!(by_fours.payload, [0xbc, 0x80, 0x40]);
    let groups: Vec<_> = by_fours.groups.iter().map(|g| (g.start, g.length, g.least, g.width)).collect();
    assert_eq!(groups, [(0, 3, 5, 1), (3, 1, 7, 0)]);

    let two_flats = packed(&[0, 0, 0, 0, 8, 8, 8], 2);
    assert_eq!(two_flats.template, template([4, 2, 0, 0, 4, 0, 3, 0]));
    assert_eq!((two_flats.payload, two_flats.announced), (vec![0x08], 1));

    assert_eq!(oracle::pack(&[], 1), Panicked);
    assert_eq!(oracle::pack(&[1, 2], 0), Panicked);
}

#[test]
fn a_step_above_255_is_cut_to_one_octet() {
    let list: Vec<u32> = [vec![0; 10], vec![8; 310], vec![0; 5]].concat();
    let packing = packed(&list, 1);
    assert_eq!(packing.template, template([4, 3, 0, 0, 10, 44, 5, 1]));
    match oracle::unpack_complex(&packing.template, &packing.payload) {
        Answer(points) => assert_eq!(points.len(), 69),
        other => panic!("{other:?}"),
    }

    let list: Vec<u32> = [vec![0, 8], vec![0; 257], vec![8]].concat();
    let packing = packed(&list, 1);
    assert_eq!(packing.template, template([4, 4, 0, 0, 1, 0, 1, 1]));
    assert_eq!(packing.announced, packing.payload.len() + 1);
}

#[test]
fn complex_packing_is_unpacked() {
    let payload = [0xbc, 0x80, 0x40];
    let numbers = template([3, 2, 0, 1, 3, 0, 1, 0]);
    let unpacked = |missing| oracle::unpack_complex(&Template { missing, ..numbers }, &payload);
    assert_eq!(unpacked(0), Answer(normal(&[5, 6, 5, 7])));
    assert_eq!(unpacked(1), Answer(vec![Number(5), Missing1, Number(5), Missing1]));
    assert_eq!(unpacked(2), Answer(vec![Missing2, Missing1, Missing2, Missing1]));
    assert!(matches!(unpacked(3), Refused(_)));
    let by_rows = Template { splitting: 0, ..numbers };
    assert!(matches!(oracle::unpack_complex(&by_rows, &payload), Refused(_)));
    let cut = oracle::unpack_complex(&numbers, &payload[..2]);
    assert_eq!(cut, Refused("LengthMismatch".into()));

    let nothing = template([0, 1, 0, 0, 0, 0, 3, 0]);
    assert_eq!(oracle::unpack_complex(&nothing, &[]), Answer(normal(&[0, 0, 0])));
    let missing = Template { missing: 1, ..nothing };
    assert_eq!(oracle::unpack_complex(&missing, &[]), Answer(vec![Missing1; 3]));
}

#[test]
fn a_sum_of_two_to_the_31_wraps() {
    let numbers = template([31, 1, 1, 0, 0, 0, 1, 0]);
    let wrapped = oracle::unpack_complex(&numbers, &[0xff, 0xff, 0xff, 0xfe, 0x80]);
    assert_eq!(wrapped, Answer(normal(&[-2147483648])));
}

#[test]
fn differences_are_restored() {
    let differences = |order| Differences { order, descriptor_octets: 1 };
    let first = template([0, 1, 3, 0, 0, 0, 4, 0]);
    let points = oracle::unpack_spatial(&first, &differences(1), &[0x0a, 0x82, 0x0c, 0x50]);
    assert_eq!(points, Answer(normal(&[10, 11, 9, 12])));
    let second = template([0, 1, 2, 0, 0, 0, 4, 0]);
    let points = oracle::unpack_spatial(&second, &differences(2), &[0x0a, 0x0c, 0x81, 0x09]);
    assert_eq!(points, Answer(normal(&[10, 12, 15, 18])));
    let refused = oracle::unpack_spatial(&first, &differences(3), &[0x0a, 0x82, 0x0c, 0x50]);
    assert!(matches!(refused, Refused(_)));
}

#[test]
fn the_minimum_is_a_sign_and_a_magnitude() {
    // Order 1, two points with all packed numbers 0: the second is the first value plus the minimum.
    let flat = template([0, 1, 0, 0, 0, 0, 2, 0]);
    for octets in 1..=4 {
        let differences = Differences { order: 1, descriptor_octets: octets };
        let octets = usize::from(octets);
        let second = |sign: u8, last: u8| {
            let mut payload = vec![0; 2 * octets];
            payload[octets - 1] = 100;
            payload[octets] |= sign;
            payload[2 * octets - 1] |= last;
            oracle::unpack_spatial(&flat, &differences, &payload)
        };
        assert_eq!(second(0, 5), Answer(normal(&[100, 105])));
        assert_eq!(second(0x80, 5), Answer(normal(&[100, 95])));
        assert_eq!(second(0x80, 0), Answer(normal(&[100, 100])), "minus zero");
    }
}

#[test]
fn an_empty_group_of_width_0_can_panic() {
    // Two groups, the first with no points: reference 2^31 - 1 and minimum 1 make the Rust add before it counts.
    let numbers = template([31, 2, 0, 0, 0, 0, 1, 0]);
    let differences = Differences { order: 1, descriptor_octets: 1 };
    let payload = [&[0, 1][..], &[0xff, 0xff, 0xff, 0xfe, 0, 0, 0, 0]].concat();
    assert_eq!(oracle::unpack_spatial(&numbers, &differences, &payload), Panicked);
}
