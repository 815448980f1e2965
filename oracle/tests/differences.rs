//! docs/DIFFERENCES.md: each number with its input, what the documents answer and what the Rust makes of it. It fails if
//! either changes. The Rust's overflows are checked in the profile `dev`, and not with `cargo test --release`: both
//! columns are held. 14, the level map, is no matter of an input.
#![cfg(have_text)]

use cleatmow::{
    Packing, SUMMARY_OCTETS, numbers_as_octets, pack, pack_into, run_length, run_length_into, unpack_complex_into,
    unpack_spatial_into, write_run_length, write_run_length_into,
};
use oracle::Outcome::{self, Answer, Panicked, Refused};
use oracle::Point::{self, Missing1, Number};
use oracle::bit_fields;
use oracle::packing::{coded, is_refused};
use oracle::unpacking::{Input, octets_of, template};
use oracle::{Differences, Template};

/// What the Rust makes of an input in this profile: with overflow checks, or without.
fn of_profile<T>(checked: T, unchecked: T) -> T {
    if cfg!(debug_assertions) { checked } else { unchecked }
}

/// The bit reader. Ours has no C call: document 01's column is held as `bit_fields` has it. The Rust's iterator takes no
/// count, so it is asked for more than there is.
#[test]
fn each_difference_of_the_bit_reader_is_as_it_is_written() {
    const MANY: usize = 100;
    // Octets, starting bit, width and count.
    type Read = (&'static [u8], usize, usize, usize);
    let hold = |number: &str, input: Read, document: Result<Vec<u32>, u32>, rust: Outcome<Vec<u32>>| {
        let (octets, start, width, count) = input;
        assert_eq!(bit_fields::read(octets, start, width, count), document, "{number}: document 01");
        assert_eq!(oracle::read_bits_on(octets, start, width, MANY), rust, "{number}: the Rust");
    };
    hold("5", (&[], 0, 1, 1), Err(7), Answer(vec![]));
    hold("5, after one number", (&[0xff], 0, 5, 2), Err(7), Answer(vec![31]));
    hold("6", (&[0], 0, 1, 0), Ok(vec![]), Answer(vec![0; 8]));
    hold("6, from the padding", (&[0xba, 0xf0], 0, 3, 4), Ok(vec![5, 6, 5, 7]), Answer(vec![5, 6, 5, 7, 0]));
    hold("7", (&[], 0, 33, 0), Err(5), Answer(vec![]));
    hold("7, a bit is lost", (&[0x80, 0, 0, 0, 0x80], 0, 33, 1), Err(5), Answer(vec![1]));
    let unchecked = [vec![256], vec![0; 7]].concat();
    hold("7, starting bit", (&[0x80, 0], 8, 1, 1), Err(5), of_profile(Panicked, Answer(unchecked)));
    hold("8", (&[0], 0, 0, 1), Ok(vec![0]), Answer(vec![0; MANY]));
    hold("8, of no octet", (&[], 0, 0, 1), Ok(vec![0]), Answer(vec![]));
    // The Rust's `BitStream` is asked for a count, and heeds it at width 0.
    assert_eq!(oracle::read_bits(&[], 0, 0, 1), Answer(vec![0]), "8: the Rust's BitStream");
}

/// The bit writer, likewise.
#[test]
fn each_difference_of_the_bit_writer_is_as_it_is_written() {
    // Numbers, starting bit, width and the octets before; and an answer with the octets after.
    type Write = (&'static [u32], usize, usize, &'static [u8]);
    type Left<Answer> = (Answer, &'static [u8]);
    let hold = |number: &str, input: Write, document: Left<Result<usize, u32>>, rust: Left<Outcome<usize>>| {
        let (numbers, start, width, before) = input;
        let mut octets = before.to_vec();
        let answer = bit_fields::write(numbers, start, width, &mut octets);
        assert_eq!((answer, &octets[..]), document, "{number}: document 01");
        let mut octets = before.to_vec();
        let answer = oracle::write_bits(numbers, start, width, &mut octets);
        assert_eq!((answer, &octets[..]), rust, "{number}: the Rust");
    };
    hold("1", (&[3], 7, 2, &[0]), (Err(10), &[0]), (Panicked, &[1]));
    hold("1, with room", (&[3], 7, 2, &[0, 0]), (Ok(2), &[1, 0x80]), (Answer(1), &[1, 0x80]));
    hold("2", (&[0], 1, 1, &[0x40]), (Ok(1), &[0]), (Answer(1), &[0x40]));
    hold("2, the rest", (&[0], 1, 1, &[0x20]), (Ok(1), &[0]), (Answer(1), &[0x20]));
    hold("2, not from bit 0", (&[0], 0, 1, &[0x60]), (Ok(1), &[0]), (Answer(1), &[0]));
    hold("3", (&[2], 1, 1, &[0]), (Err(13), &[0]), (Answer(1), &[0x80]));
    hold("3, dropped bits", (&[9], 0, 3, &[0]), (Err(13), &[0]), (Answer(1), &[0x20]));
    hold("3, the number before", (&[0, 2], 0, 1, &[0]), (Err(13), &[0]), (Answer(1), &[0x80]));
    hold("3, a whole octet", (&[256], 0, 8, &[0]), (Err(13), &[0]), (Answer(1), &[0]));
    hold("4", (&[], 0, 33, &[]), (Err(5), &[]), (Answer(0), &[]));
    hold("4, a number", (&[1], 0, 33, &[0; 5]), (Err(5), &[0; 5]), (Answer(5), &[0, 0, 0, 0, 0x80]));
    let rust: Left<Outcome<usize>> = of_profile((Panicked, &[0; 5]), (Answer(5), &[1, 0, 0, 0, 1]));
    hold("4, its shift", (&[1], 7, 33, &[0; 5]), (Err(5), &[0; 5]), rust);
    hold("4, starting bit 8", (&[1], 8, 1, &[0, 0]), (Err(5), &[0, 0]), (Answer(1), &[0, 0x80]));
    let answer = of_profile(Panicked, Answer(1));
    hold("4, starting bit 9", (&[1], 9, 1, &[0, 0]), (Err(5), &[0, 0]), (answer, &[0, 0]));
}

/// Where the two meet, which the frozen rows have: document 01 as `bit_fields` has it gives the Rust's answers.
#[test]
fn bit_fields_are_the_frozen_ones() {
    let rows = include_bytes!("../../crates/vectors/stdin").chunks_exact(64);
    let mut held = 0;
    for row in rows.take_while(|row| row[0] < 3) {
        let [kind, start, width, count] = [0, 1, 2, 3].map(|place| usize::from(row[place]));
        let numbers: Vec<u32> = row[24..24 + 4 * count]
            .chunks_exact(4)
            .map(|number| u32::from_be_bytes(number.try_into().expect("four octets")))
            .collect();
        match kind {
            1 => assert_eq!(bit_fields::read(&row[4..24], start, width, count), Ok(numbers)),
            _ => {
                let mut octets = [0; 20];
                assert!(bit_fields::write(&numbers, start, width, &mut octets).is_ok());
                assert_eq!(octets, row[4..24]);
            }
        }
        held += 1;
    }
    assert_eq!(held, 2_640 + 2_560);
}

#[test]
fn each_difference_of_run_length_is_as_it_is_written() {
    // b, M, the declared count and the payload.
    type Input<'a> = (u8, u16, usize, &'a [u8]);
    let hold = |number: &str, input: Input, document: Result<Vec<u16>, u32>, rust: Outcome<Vec<u16>>| {
        let (bits, max_level, declared, payload) = input;
        let ours = run_length(bits, max_level, declared as u32, payload).map_err(|refusal| refusal.number());
        assert!(ours == document, "{number}: document 01");
        assert!(oracle::run_length(bits, max_level, declared, payload) == rust, "{number}: the Rust");
    };
    hold("9", (16, 0, 1, &[0, 0]), Err(5), of_profile(Panicked, Answer(vec![0])));
    hold("9, with levels", (16, 3, 1, &[0, 0]), Err(5), of_profile(Panicked, Answer(vec![0])));
    hold("10", (1, 2, 0, &[]), Err(5), of_profile(Panicked, Answer(vec![])));
    hold("10, with levels", (4, 16, 2, &[0]), Err(5), of_profile(Panicked, Answer(vec![0, 0])));
    let chain = [0, 0, 0, 4, 0, 8, 0, 0x10, 0, 0x20, 0, 0x40];
    hold("11", (15, 0, 1, &chain), Ok(vec![0]), of_profile(Panicked, Answer(vec![0])));
    hold("11, one repeat less", (15, 0, 1, &chain[..10]), Ok(vec![0]), Answer(vec![0]));
    // Eight levels an octet.
    let above = vec![0; 4_194_304 / 8 + 1];
    hold("12", (1, 1, 8 * above.len(), &above), Err(9), Answer(vec![0; 8 * above.len()]));
    let ours = run_length_into(1, 1, 8, &[0], &mut []).map_err(|refusal| refusal.number());
    assert_eq!((ours, oracle::run_length(1, 1, 8, &[0])), (Err(10), Answer(vec![0; 8])), "13");
    let mismatch = || Refused("LengthMismatch".into());
    hold("37", (1, 0, 1, &[0]), Ok(vec![0]), mismatch());
    hold("37, none declared", (1, 0, 0, &[0]), Err(9), mismatch());
    hold("37, padding that is read", (1, 0, 8, &[0]), Ok(vec![0; 8]), Answer(vec![0; 8]));
    hold("37, a case", (4, 9, 4, &[0x3c, 0x50]), Ok(vec![3, 3, 3, 5]), mismatch());
    hold("37, the same, all of it", (4, 9, 5, &[0x3c, 0x50]), Ok(vec![3, 3, 3, 5, 0]), Answer(vec![3, 3, 3, 5, 0]));
    for declared in [3, 4] {
        hold(
            "37, more than one code",
            (3, 7, declared, &[0xff, 0x80]),
            Ok([7, 7, 7, 0][..declared].into()),
            mismatch(),
        );
    }
    hold("37, 8 bits are left", (4, 9, 2, &[0x30, 0]), Err(9), mismatch());
    hold("37, not all zero", (3, 7, 3, &[0xff, 0x81]), Err(9), mismatch());
}

/// 38: the Rust has no writer. What ours writes it reads, but where the padding has room for a code.
#[test]
fn what_is_written_is_read_by_the_rust() {
    type List<'a> = (u8, u16, &'a [u16]);
    let hold = |number: &str, list: List, payload: &[u8], rust: Outcome<Vec<u16>>| {
        let (bits, max_level, levels) = list;
        assert_eq!(write_run_length(bits, max_level, levels).as_deref(), Ok(payload), "{number}: document 02");
        let read = run_length(bits, max_level, levels.len() as u32, payload);
        assert!(read.as_deref() == Ok(levels), "{number}: ours reads");
        assert!(oracle::run_length(bits, max_level, levels.len(), payload) == rust, "{number}: the Rust reads");
    };
    let mismatch = || Refused("LengthMismatch".into());
    hold("38", (1, 0, &[0]), &[0], mismatch());
    hold("38, no room for a code", (1, 0, &[0; 8]), &[0], Answer(vec![0; 8]));
    hold("38, no room from b 8 on", (8, 0, &[0]), &[0], Answer(vec![0]));
    hold("38, a case", (4, 9, &[3, 3, 3, 5]), &[0x3c, 0x50], mismatch());
    hold("38, one level more", (4, 9, &[3, 3, 3, 5, 0]), &[0x3c, 0x50], Answer(vec![3, 3, 3, 5, 0]));
    hold("38, no list", (1, 0, &[]), &[], Answer(vec![]));
    // Whatever else: a code a level, so many of them.
    for bits in 1..=15 {
        let greatest = (1 << bits) - 1;
        for levels in (1..=40).map(|count| vec![greatest; count]) {
            let payload = write_run_length(bits, greatest, &levels).expect("good levels");
            let spare = 8 * payload.len() - levels.len() * usize::from(bits);
            let rust = if spare < usize::from(bits) { Answer(levels.clone()) } else { mismatch() };
            hold("38, padding of every length", (bits, greatest, &levels), &payload, rust);
        }
    }
    // The greatest weights that are written fit the Rust's `usize`. From b 8 on the padding has no room for a code.
    for (bits, max_level) in [(8, 0), (8, 127), (8, 253), (15, 0)] {
        let levels = vec![0; 4_194_304];
        let payload = write_run_length(bits, max_level, &levels).expect("good levels");
        hold("38, the longest run", (bits, max_level, &levels), &payload, Answer(levels.clone()));
    }
    let refused = |bits, max_level, levels: &[u16]| write_run_length(bits, max_level, levels).map_err(|r| r.number());
    assert_eq!((refused(0, 0, &[]), refused(1, 2, &[]), refused(1, 0, &[1])), (Err(5), Err(5), Err(13)), "38");
    assert_eq!(refused(1, 0, &vec![0; 4_194_305]), Err(13), "38");
    let short = write_run_length_into(1, 0, &[0, 0], &mut []).map_err(|refusal| refusal.number());
    assert_eq!(short, Err(10), "38");
}

/// What the Rust makes of an input.
#[derive(Debug, PartialEq)]
enum Rust {
    Gives(Vec<Point>),
    /// So many points, the last of which is this.
    GivesMany(usize, i64),
    Refuses(&'static str),
    Panics,
}
use Rust::{Gives, GivesMany, Panics, Refuses};

struct Difference {
    number: &'static str,
    input: Input,
    /// Document 01's answer, or its refusal; where the points are many, as many as declared and this one last.
    document: Result<Points, u32>,
    checked: Rust,
    unchecked: Rust,
}

enum Points {
    These(Vec<Point>),
    Last(i64),
}
use Points::{Last, These};

/// The declared count is the points', and the room is just enough.
fn complex(numbers: [u32; 8], payload: &[u8]) -> Input {
    Input::with_its_count(template(numbers), None, payload.to_vec())
}

fn spatial(order: u8, descriptor_octets: u8, numbers: [u32; 8], payload: &[u8]) -> Input {
    let differences = Differences { order, descriptor_octets };
    Input::with_its_count(template(numbers), Some(differences), payload.to_vec())
}

fn declared(declared: u32, mut input: Input) -> Input {
    input.declare(declared);
    input
}

fn room(room: usize, input: Input) -> Input {
    Input { room, ..input }
}

fn numbers(numbers: &[i64]) -> Vec<Point> {
    numbers.iter().map(|&number| Number(number)).collect()
}

/// Second order, first values 0 and 2^32 − 1, minimum 2^31 − 1, and one group of zeros.
fn rising(points: u32) -> Input {
    let descriptors = [0, u32::MAX, 0x7fff_ffff].map(u32::to_be_bytes).concat();
    spatial(2, 4, [0, 1, 0, 0, 0, 0, points, 0], &descriptors)
}

/// The number that stands last in `rising`.
fn risen(points: u32) -> i128 {
    let steps = i128::from(points) - 1;
    steps * i128::from(u32::MAX) + i128::from(i32::MAX) * (steps * (steps - 1) / 2)
}

fn differences() -> Vec<Difference> {
    // One group of width 0 and reference 0.
    let zeros = |points| complex([0, 1, 0, 0, 0, 0, points, 0], &[]);
    let great = [0xff, 0xff, 0xff, 0xfe];
    let with_great = |descriptors: &[u8]| [descriptors, &great].concat();
    let mismatch = || Refuses("LengthMismatch");
    let both = |number, input, document, rust: fn() -> Rust| Difference {
        number,
        input,
        document,
        checked: rust(),
        unchecked: rust(),
    };
    let apart =
        |number, input, document, checked, unchecked| Difference { number, input, document, checked, unchecked };
    vec![
        both("15", declared(0, zeros(1)), Err(9), || Gives(numbers(&[0]))),
        both("16", zeros(4_194_305), Err(9), || GivesMany(4_194_305, 0)),
        both("17", complex([0, 4_194_305, 0, 0, 0, 0, 0, 0], &[]), Err(6), || Gives(Vec::new())),
        both("18", room(8, zeros(1)), Err(10), || Gives(numbers(&[0]))),
        both(
            "19",
            complex([31, 1, 1, 0, 0, 0, 1, 0], &[0xff, 0xff, 0xff, 0xfe, 0x80]),
            Ok(These(numbers(&[2_147_483_648]))),
            || Gives(numbers(&[-2_147_483_648])),
        ),
        apart(
            "20",
            spatial(1, 1, [31, 1, 0, 0, 0, 0, 2, 0], &with_great(&[0, 1])),
            Ok(These(numbers(&[0, 2_147_483_648]))),
            Panics,
            Gives(numbers(&[0, -2_147_483_648])),
        ),
        apart(
            "21",
            spatial(1, 1, [31, 1, 0, 0, 0, 0, 1, 0], &with_great(&[0, 1])),
            Ok(These(numbers(&[0]))),
            Panics,
            Gives(numbers(&[0])),
        ),
        apart(
            "22",
            spatial(1, 1, [31, 1, 0, 0, 0, 0, 0, 0], &with_great(&[0, 1])),
            Ok(These(Vec::new())),
            Panics,
            Gives(Vec::new()),
        ),
        both("23, the last that is accepted", rising(32_767), Ok(Last(risen(32_767) as i64)), || {
            GivesMany(32_767, risen(32_767) as i64)
        }),
        both("23", rising(32_768), Err(12), || GivesMany(32_768, risen(32_768) as i64)),
        both("23, as far as it goes with checks", rising(65_536), Err(12), || GivesMany(65_536, risen(65_536) as i64)),
        apart("23, a step beyond 64 bits", rising(65_537), Err(12), Panics, GivesMany(65_537, risen(65_537) as i64)),
        apart("23, a number beyond 64 bits", rising(92_682), Err(12), Panics, GivesMany(92_682, risen(92_682) as i64)),
        both("24", spatial(255, 1, [0, 1, 0, 0, 0, 0, 0, 0], &[]), Err(3), || Panics),
        both(
            "24, behind another refusal",
            {
                let mut input = spatial(255, 1, [0, 1, 0, 0, 0, 0, 0, 0], &[]);
                input.template.splitting = 0;
                input
            },
            Err(3),
            || Refuses("NotSupported(\"GRIB2 code table 5.4 (group splitting method)\", 0)"),
        ),
        both("25, number width", complex([32, 1, 0, 0, 0, 0, 0, 0], &[0; 4]), Err(5), mismatch),
        both(
            "25, number width, the last that is accepted",
            complex([31, 1, 0, 0, 0, 0, 0, 0], &[0; 4]),
            Ok(These(vec![])),
            || Gives(Vec::new()),
        ),
        both("25, width bits", complex([0, 1, 0, 33, 0, 0, 0, 0], &[0; 5]), Err(5), mismatch),
        both("25, length bits", complex([0, 1, 0, 0, 0, 0, 0, 33], &[0; 5]), Err(5), mismatch),
        both(
            "25, bits, the last that are accepted",
            complex([0, 1, 0, 32, 0, 0, 0, 32], &[0; 8]),
            Ok(These(vec![])),
            || Gives(Vec::new()),
        ),
        both("25, no group", complex([0, 0, 0, 0, 0, 0, 0, 0], &[]), Err(6), mismatch),
        both("25, group fields", complex([1, 1, 0, 0, 0, 0, 0, 0], &[]), Err(7), mismatch),
        both("25, descriptors", spatial(1, 1, [0, 1, 0, 0, 0, 0, 0, 0], &[0]), Err(7), mismatch),
        both("25, values", complex([0, 1, 1, 0, 0, 0, 1, 0], &[]), Err(7), mismatch),
        both("25, group width", complex([0, 1, 32, 0, 0, 0, 0, 0], &[]), Err(8), mismatch),
        both(
            "25, group width, the last that is accepted",
            complex([0, 1, 31, 0, 0, 0, 0, 0], &[]),
            Ok(These(vec![])),
            || Gives(Vec::new()),
        ),
        both("25, length", complex([0, 2, 0, 0, u32::MAX, 1, 0, 1], &[0x80]), Err(8), mismatch),
        both(
            "no difference: a first value of 2^31",
            spatial(1, 4, [0, 1, 0, 0, 0, 0, 1, 0], &[0x80, 0, 0, 0, 0, 0, 0, 0]),
            Ok(These(numbers(&[2_147_483_648]))),
            || Gives(numbers(&[2_147_483_648])),
        ),
        both(
            "no difference: number width 0 under management 2",
            {
                let mut input = zeros(1);
                input.template.missing = 2;
                input
            },
            Ok(These(vec![Missing1])),
            || Gives(vec![Missing1]),
        ),
        both(
            "no difference: the last length code",
            complex([0, 1, 0, 0, 0, 1, 1, 8], &[0xff]),
            Ok(These(numbers(&[0]))),
            || Gives(numbers(&[0])),
        ),
        both("no difference: its room", declared(1, complex([0, 1, 0, 0, 0, 1, 1, 8], &[])), Err(7), mismatch),
        both(
            "no difference: pad bits and octets after the last value",
            complex([0, 1, 1, 0, 0, 0, 1, 0], &[0x7f, 0xff]),
            Ok(These(numbers(&[0]))),
            || Gives(numbers(&[0])),
        ),
    ]
}

#[test]
fn each_difference_is_as_it_is_written() {
    for difference in differences() {
        let Difference { number, input, document, checked, unchecked } = difference;
        assert!(document_answers(&input, &document), "{number}: document 01, {:?}", input.read().answer);
        let rust = match &input.differences {
            None => oracle::unpack_complex(&input.template, &input.payload),
            Some(differences) => oracle::unpack_spatial(&input.template, differences, &input.payload),
        };
        let expected = of_profile(checked, unchecked);
        assert!(is(&rust, &expected), "{number}: the Rust is not as expected, {expected:?}");
    }
}

/// Ours and document 01 as it is written plainly here give this answer.
fn document_answers(input: &Input, document: &Result<Points, u32>) -> bool {
    let answer = input.read().answer;
    let written = match (&answer, document) {
        (Ok(points), Ok(These(these))) => points == these,
        (Ok(points), Ok(Last(last))) => points.last() == Some(&Number(*last)),
        (Err(number), Err(expected)) => number == expected,
        _ => false,
    };
    let mut lent = vec![0; input.room];
    let ours = match &input.differences {
        None => unpack_complex_into(&input.template, input.declared, &input.payload, &mut lent),
        Some(differences) => {
            unpack_spatial_into(&input.template, differences, input.declared, &input.payload, &mut lent)
        }
    }
    .map(|view| view.len());
    written
        && match (answer, ours) {
            (Ok(points), Ok(count)) => count == points.len() && octets_of(&points) == lent,
            (Err(number), Err(refusal)) => number == refusal.number(),
            _ => false,
        }
}

fn is(rust: &Outcome<Vec<Point>>, expected: &Rust) -> bool {
    match (rust, expected) {
        (Answer(points), Gives(these)) => points == these,
        (Answer(points), GivesMany(count, last)) => points.len() == *count && points.last() == Some(&Number(*last)),
        (Refused(said), Refuses(expected)) => said == expected,
        (Panicked, Panics) => true,
        _ => false,
    }
}

/// A list to pack: its lookahead, and how many times each number stands in it.
struct List {
    lookahead: u32,
    runs: &'static [(u32, usize)],
}

impl List {
    fn numbers(&self) -> Vec<u32> {
        self.runs.iter().flat_map(|(number, times)| vec![*number; *times]).collect()
    }
}

/// Template numbers as document 01 lists them, and the payload.
type Octets = ([u32; 8], &'static [u8]);

/// What the Rust makes of a list.
#[derive(Debug, PartialEq)]
enum Packs {
    /// And it says that the payload has so many octets; and its own unpacking gives so many points, or refuses it.
    As(Octets, usize, Result<usize, &'static str>),
    Not,
}

struct PackingDifference {
    number: &'static str,
    list: List,
    /// Document 01's packing, or its refusal.
    document: Result<Octets, u32>,
    checked: Packs,
    unchecked: Packs,
}

fn packing_differences() -> Vec<PackingDifference> {
    let list = |lookahead, runs| List { lookahead, runs };
    let both = |number, list, document, rust: fn() -> Packs| PackingDifference {
        number,
        list,
        document,
        checked: rust(),
        unchecked: rust(),
    };
    const MISMATCH: Result<usize, &str> = Err("LengthMismatch");
    vec![
        both(
            "26",
            list(1, &[(0, 1), (1, 258), (0, 1)]),
            Ok(([1, 3, 0, 0, 1, 1, 1, 9], &[0x40, 0x00, 0x40, 0x40, 0x00])),
            || Packs::As(([1, 3, 0, 0, 1, 1, 1, 1], &[0x40, 0x40]), 2, Ok(4)),
        ),
        both(
            "26, the case of document 01",
            list(1, &[(0, 10), (8, 310), (0, 5)]),
            Ok(([4, 3, 0, 0, 10, 150, 5, 2], &[0x08, 0x00, 0x20])),
            || Packs::As(([4, 3, 0, 0, 10, 44, 5, 1], &[0x08, 0x00, 0x80]), 3, Ok(69)),
        ),
        both(
            "26, the greatest step that meets",
            list(1, &[(0, 1), (1, 256), (0, 1)]),
            Ok(([1, 3, 0, 0, 1, 255, 1, 1], &[0x40, 0x40])),
            || Packs::As(([1, 3, 0, 0, 1, 255, 1, 1], &[0x40, 0x40]), 2, Ok(258)),
        ),
        both("27", list(1, &[(0, 1), (1, 257), (0, 1)]), Ok(([1, 3, 0, 0, 1, 128, 1, 2], &[0x40, 0x20])), || {
            Packs::As(([1, 3, 0, 0, 1, 0, 1, 1], &[0x40]), 2, MISMATCH)
        }),
        both(
            "27, of four groups",
            list(1, &[(0, 1), (8, 1), (0, 257), (8, 1)]),
            Ok(([4, 4, 0, 0, 1, 128, 1, 2], &[0x08, 0x08, 0x08])),
            || Packs::As(([4, 4, 0, 0, 1, 0, 1, 1], &[0x08, 0x08]), 3, MISMATCH),
        ),
        both("28", list(1, &[]), Err(13), || Packs::Not),
        both("29", list(1, &[(0, 4_194_305)]), Err(13), || {
            Packs::As(([0, 1, 0, 0, 0, 0, 4_194_305, 0], &[]), 0, Ok(4_194_305))
        }),
        both("30", list(1, &[(1 << 31, 1)]), Err(13), || {
            Packs::As(([32, 1, 0, 0, 0, 0, 1, 0], &[0x80, 0, 0, 0]), 4, MISMATCH)
        }),
        both("31, one number", list(0, &[(0, 1)]), Err(13), || Packs::As(([0, 1, 0, 0, 0, 0, 1, 0], &[]), 0, Ok(1))),
        PackingDifference {
            number: "31",
            list: list(0, &[(0, 2)]),
            document: Err(13),
            checked: Packs::Not,
            unchecked: Packs::As(([0, 1, 0, 0, 0, 0, 2, 0], &[]), 0, Ok(2)),
        },
        both("32", list(65_536, &[(0, 1)]), Err(13), || Packs::As(([0, 1, 0, 0, 0, 0, 1, 0], &[]), 0, Ok(1))),
        both("32, the last that is accepted", list(65_535, &[(0, 1)]), Ok(([0, 1, 0, 0, 0, 0, 1, 0], &[])), || {
            Packs::As(([0, 1, 0, 0, 0, 0, 1, 0], &[]), 0, Ok(1))
        }),
    ]
}

#[test]
fn each_difference_of_packing_is_as_it_is_written() {
    for PackingDifference { number, list, document, checked, unchecked } in packing_differences() {
        let numbers = list.numbers();
        let octets = |&(template_numbers, payload): &Octets| (template(template_numbers), payload.to_vec());
        let shown = |Packing { template, payload, .. }: Packing| (template, payload);
        let written = if is_refused(&numbers, list.lookahead) {
            Err(13)
        } else {
            Ok(shown(coded(&numbers, list.lookahead).packing))
        };
        let ours = pack(&numbers, list.lookahead).map(shown).map_err(|refusal| refusal.number());
        assert_eq!((&written, &ours), (&document.as_ref().map(octets).map_err(|number| *number), &written), "{number}");

        let expected = of_profile(checked, unchecked);
        match (oracle::pack(&numbers, list.lookahead as usize), &expected) {
            (Answer(rust), Packs::As(these, announced, read)) => {
                assert_eq!((rust.template, rust.payload.clone()), octets(these), "{number}: the Rust");
                assert_eq!((rust.announced, rust.missing_values), (*announced, [u32::MAX; 2]), "{number}: the Rust");
                match (oracle::unpack_complex(&rust.template, &rust.payload), read) {
                    (Answer(points), Ok(count)) => assert_eq!(points.len(), *count, "{number}: the Rust reads"),
                    (Refused(said), Err(expected)) => assert_eq!(said, *expected, "{number}: the Rust reads"),
                    (other, _) => panic!("{number}: the Rust reads {other:?}"),
                }
            }
            (Panicked, Packs::Not) => {}
            (other, _) => panic!("{number}: the Rust is not as expected, {expected:?}, but {other:?}"),
        }
    }
}

/// 33: the Rust answers with lists of its own.
#[test]
fn packing_has_lent_buffers() {
    let numbers = numbers_as_octets(&[1]);
    let room = |groups: usize, payload: usize, summary: usize| {
        let (mut groups, mut payload, mut summary) = (vec![0; groups], vec![0; payload], vec![0; summary]);
        pack_into(1, &numbers, &mut groups, &mut payload, &mut summary).map_or_else(|refusal| refusal.number(), |_| 0)
    };
    assert_eq!((room(16, 1, SUMMARY_OCTETS), room(16, 1, 39)), (0, 10));
    assert_eq!((room(15, 1, SUMMARY_OCTETS), room(16, 0, SUMMARY_OCTETS)), (10, 10));
    assert!(matches!(oracle::pack(&[1], 1), Answer(_)));
}

/// No difference: a list of equal numbers is one group to both, where the Rust does not take its own path for such
/// data.
#[test]
fn equal_numbers_are_one_group() {
    let Answer(rust) = oracle::pack(&[5; 7], 3) else { panic!("the Rust packs equal numbers") };
    let ours = pack(&[5; 7], 3).expect("so does ours");
    assert_eq!((rust.template, &rust.payload), (ours.template, &ours.payload));
    assert_eq!(ours.template, Template { last_length: 7, ..template([3, 1, 0, 0, 0, 0, 0, 0]) });
}
