//! The refusals' numbers and sentences, and the constants that the C header repeats.

use cleatmow::{
    field, Packing, Refusal, FIELD_OCTETS, GREATEST_LOOKAHEAD, GREATEST_NUMBER, GROUP_OCTETS, LEVEL_OCTETS,
    MOST_NUMBERS, MOST_POINTS, NUMBER_OCTETS, POINT_OCTETS, SECTION5_COMPLEX_FIELDS, SECTION5_COMPLEX_OCTETS,
    SECTION5_SPATIAL_FIELDS, SECTION5_SPATIAL_OCTETS, SUMMARY_OCTETS,
};
use std::collections::HashSet;
use std::error::Error;

const HEADER: &str = include_str!("../../include/cleatmow.h");

/// All rows of document 01's table, and those of document 02's requests.
fn table() -> impl Iterator<Item = (u32, Refusal)> {
    (1..=15).map(|number| (number, Refusal::from_number(number).expect("a row")))
}

#[test]
fn numbers_are_the_tables() {
    assert!(table().all(|(number, refusal)| refusal.number() == number));
    assert!(Refusal::ALL.iter().copied().eq(table().map(|(_, refusal)| refusal)));
    for number in [0, 16, 255, 256 + 9, u32::MAX] {
        assert_eq!(Refusal::from_number(number), None);
    }
    assert_eq!((Refusal::Splitting.number(), Refusal::Numbers.number()), (1, 13));
    assert_eq!((Refusal::Width.number(), Refusal::Repeat.number()), (5, 11));
    assert_eq!((Refusal::Points.number(), Refusal::Room.number()), (9, 10));
    assert_eq!((Refusal::Section5.number(), Refusal::Place.number()), (14, 15));
}

#[test]
fn each_has_a_sentence_of_its_own_for_the_log() {
    let mut sentences = HashSet::new();
    for (number, refusal) in table() {
        let error: Box<dyn Error> = refusal.into();
        let line = error.to_string();
        let sentence = line.strip_prefix(&format!("refusal {number}: "));
        let sentence = sentence.expect("the number comes first").to_string();
        assert_eq!(sentence, refusal.sentence());
        assert!(!sentence.contains(['\n', '\t']) && !sentence.contains("  "), "{line}");
        assert!(sentences.insert(sentence), "said twice: {line}");
    }
}

/// Whether the header has this line, but for a comment behind it.
fn has(line: String) -> bool {
    let code = |read: &'static str| read.split("/*").next().unwrap_or_default();
    HEADER.lines().any(|read| code(read).trim_matches([' ', ',']) == line)
}

#[test]
fn the_header_says_the_same() {
    for (number, refusal) in table() {
        let mut name = String::from("CLEATMOW_REFUSAL");
        for letter in format!("{refusal:?}").chars() {
            if letter.is_uppercase() {
                name.push('_');
            }
            name.push(letter.to_ascii_uppercase());
        }
        assert!(has(format!("{name} = {number}")), "{name}");
    }
    assert!(has(format!("#define CLEATMOW_MOST_POINTS {MOST_POINTS}")));
    assert!(has(format!("#define CLEATMOW_POINT_OCTETS {POINT_OCTETS}")));
    assert!(has(format!("#define CLEATMOW_LEVEL_OCTETS {LEVEL_OCTETS}")));
    assert!(has(format!("#define CLEATMOW_MOST_NUMBERS {MOST_NUMBERS}")));
    assert!(has(format!("#define CLEATMOW_GREATEST_NUMBER {GREATEST_NUMBER}")));
    assert!(has(format!("#define CLEATMOW_GREATEST_LOOKAHEAD {GREATEST_LOOKAHEAD}")));
    assert!(has(format!("#define CLEATMOW_NUMBER_OCTETS {NUMBER_OCTETS}")));
    assert!(has(format!("#define CLEATMOW_GROUP_OCTETS {GROUP_OCTETS}")));
    assert!(has(format!("#define CLEATMOW_SUMMARY_OCTETS {SUMMARY_OCTETS}")));
    assert!(has(format!("#define CLEATMOW_FIELD_OCTETS {FIELD_OCTETS}")));
    assert!(has(format!("#define CLEATMOW_SECTION5_COMPLEX_OCTETS {SECTION5_COMPLEX_OCTETS}")));
    assert!(has(format!("#define CLEATMOW_SECTION5_COMPLEX_FIELDS {SECTION5_COMPLEX_FIELDS}")));
    assert!(has(format!("#define CLEATMOW_SECTION5_SPATIAL_OCTETS {SECTION5_SPATIAL_OCTETS}")));
    assert!(has(format!("#define CLEATMOW_SECTION5_SPATIAL_FIELDS {SECTION5_SPATIAL_FIELDS}")));
    assert!(has(format!("#define CLEATMOW_PACKING_SPLITTING {}", Packing::SPLITTING)));
    assert!(has(format!("#define CLEATMOW_PACKING_MISSING {}", Packing::MISSING)));
    assert!(has(format!("#define CLEATMOW_PACKING_MISSING_VALUE {:#x}", Packing::MISSING_VALUE)));
}

/// The names of the fields' places, in the order of document 02's table.
macro_rules! fields {
    ($($name:ident)*) => { [$((stringify!($name), field::$name)),*] };
}

#[test]
fn the_header_has_the_places_of_the_fields() {
    let fields = fields![
        SECTION_LENGTH SECTION_NUMBER DECLARED TEMPLATE REFERENCE BINARY_SCALE DECIMAL_SCALE NUMBER_WIDTH FIELD_TYPE
        SPLITTING MISSING PRIMARY_MISSING SECONDARY_MISSING GROUPS WIDTH_REFERENCE WIDTH_BITS LENGTH_REFERENCE INCREMENT
        LAST_LENGTH LENGTH_BITS ORDER DESCRIPTOR_OCTETS
    ];
    assert!(fields.iter().map(|(_, place)| *place).eq(0..SECTION5_SPATIAL_FIELDS));
    assert_eq!(field::ORDER, SECTION5_COMPLEX_FIELDS);
    for (name, place) in fields {
        assert!(has(format!("CLEATMOW_FIELD_{name} = {place}")), "{name}");
    }
    assert_eq!(HEADER.matches("    CLEATMOW_FIELD_").count(), SECTION5_SPATIAL_FIELDS);
}

#[test]
fn the_header_has_the_version_of_the_host() {
    let version = env!("CARGO_PKG_VERSION");
    assert!(has(format!("#define CLEATMOW_VERSION \"{version}\"")));
    let numbers: Vec<&str> = version.split('.').collect();
    assert_eq!(numbers.len(), 3);
    for (name, number) in ["MAJOR", "MINOR", "PATCH"].iter().zip(numbers) {
        assert!(has(format!("#define CLEATMOW_VERSION_{name} {number}")), "{name}");
    }
}

/// Document 01's table has refusals of the bit reader and the bit writer too, which no C call is.
#[test]
fn the_header_speaks_of_its_own_calls() {
    // Without what begins and ends the lines of a comment.
    let words: Vec<&str> = HEADER.split([' ', '\n', '*', '/']).filter(|word| !word.is_empty()).collect();
    let words = words.join(" ").to_lowercase();
    for absent in ["bit field", "bit reader", "bit writer"] {
        assert!(!words.contains(absent), "{absent}");
    }
}
