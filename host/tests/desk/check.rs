//! `desk check`, and the same check before `desk unpack` and `desk point`.

use crate::*;
use cleatmow::pack;

/// The two sections of a packing.
fn packed(numbers: &[u32], lookahead: u32) -> [Vec<u8>; 2] {
    let packing = pack(numbers, lookahead).unwrap();
    [complex(numbers.len() as u32, packing.template), section7(&packing.payload)]
}

/// What the three commands do with a map in a folder of so many points, the check being right or wrong.
fn hold(folder: &Path, points: usize, lookahead: u32, passes: bool) {
    let lines = [
        format!("check map --lookahead {lookahead}"),
        format!("unpack map --lookahead {lookahead}"),
        format!("point map --columns {points} --rows 1 --column 1 --row 1 --lookahead {lookahead}"),
    ];
    let printed = lines.each_ref().map(|line| {
        if passes {
            return unwrapped(&results(folder, &words(line)));
        }
        // Nothing is shown but the reason.
        let sentence = told(folder, &words(line), OTHER_PACKING);
        assert!(sentence.starts_with("map has ") && sentence.contains("do not belong together"), "{sentence}");
        String::new()
    });
    if passes {
        let checked = format!("checked: packed again with lookahead {lookahead}, both sections are the same");
        assert_eq!([after(&printed[0], "pair"), after(&printed[2], "pair")], [checked.as_str(); 2]);
        assert_eq!(printed[1].lines().count(), points);
    }
}

#[test]
fn what_the_desk_packed_passes() {
    let folder = scratch("check");
    let lists: [Vec<u32>; 6] = [
        vec![5, 6, 5, 7],
        vec![0],
        vec![0; 40],
        vec![2_147_483_647, 0, 2_147_483_647],
        (0..500).map(|number| number * number % 1_009).collect(),
        numbers(&GUST.points()),
    ];
    for list in &lists {
        for lookahead in [1, 4, 65_535] {
            let [section5, section7] = packed(list, lookahead);
            write_map(&folder, "map", &section5, &section7);
            hold(&folder, list.len(), lookahead, true);
            // Reference value, scales and field type are no part of it: Section 5 carries them as they are.
            let mut scaled = section5.clone();
            scaled[11..19].fill(0xA5);
            scaled[20] = 9;
            write_map(&folder, "map", &scaled, &section7);
            hold(&folder, list.len(), lookahead, true);
        }
    }
    // Another lookahead is seen where it makes other groups.
    let [section5, section7] = packed(&lists[0], 1);
    write_map(&folder, "map", &section5, &section7);
    hold(&folder, 4, 4, false);
    hold(&folder, 4, 1, true);
    // What the desk itself wrote.
    results(&folder, &words(&format!("pack {} --cut-rows 1-9 --to cut", GUST.words())));
    results(&folder, &words("check cut --lookahead 4"));
    results(&folder, &words("check cut.s7 --lookahead=4"));
}

/// Maps that unpacking accepts and the desk did not pack.
#[test]
fn other_maps_do_not_pass() {
    let folder = scratch("check-others");
    let [good5, good7] = packed(&[5, 6, 5, 7], 4);
    let changed = |octets: &[u8], place: usize, octet: u8| {
        let mut octets = octets.to_vec();
        octets[place] = octet;
        octets
    };
    let empty = Template { number_width: 0, groups: 1, width_bits: 0, length_reference: 0, last_length: 0, ..CASE };
    let restored = Template { width_reference: 3, last_length: 4, ..empty };
    for (section5, section7, points) in [
        // Missing management, and a missing value of Section 5.
        (changed(&good5, 22, 1), good7.clone(), 4),
        (changed(&good5, 23, 0), good7.clone(), 4),
        // A pad bit, and an octet after the last value.
        (good5.clone(), changed(&good7, 7, 0x41), 4),
        (good5.clone(), section7(&[&CASE_PAYLOAD[..], &[0]].concat()), 4),
        // Template 5.3, a number above what is packed, and a list of no points.
        (with_differences(complex(4, restored), 1, 1), section7(&[0x0A, 0x82, 0x0C, 0x50]), 4),
        (
            complex(1, Template { number_width: 31, width_reference: 1, last_length: 1, ..empty }),
            section7(&[0xFF, 0xFF, 0xFF, 0xFE, 0x80]),
            1,
        ),
        (complex(0, empty), section7(&[]), 0),
    ] {
        write_map(&folder, "map", &section5, &section7);
        assert_eq!(desk(&folder, &["unpack", "map"]).status, Some(0));
        if points > 0 {
            hold(&folder, points, 4, false);
        } else {
            assert!(told(&folder, &words("check map --lookahead 4"), OTHER_PACKING).starts_with("map has no points: "));
        }
    }
    for sample in [GUST, PUERTO_RICO, CONUS] {
        for extension in ["s5", "grib2"] {
            let name = sample.file(extension).display().to_string();
            let sentence = told(&folder, &["check", &name, "--lookahead", "4"], OTHER_PACKING);
            let why =
                if sample.name == GUST.name { " has two other sections when " } else { " has no forecast at point " };
            assert!(sentence.contains(why), "{sentence}");
        }
    }
}

/// A cut-out, packed.
struct CutOut {
    numbers: Vec<u32>,
    sections: [Vec<u8>; 2],
}

/// Cut-outs of the gust map, of one size.
fn cut_outs(count: usize, size: usize) -> Vec<CutOut> {
    let rows = GUST.rows();
    let cut = |place: usize| {
        let (top, left) = (1 + place * 5 % (73 - size), 1 + place * 11 % (144 - size));
        let numbers = numbers(&cut_out(&rows, [top, top + size - 1, left, left + size - 1]));
        let sections = packed(&numbers, LOOKAHEAD);
        CutOut { numbers, sections }
    };
    (0..count).map(cut).collect()
}

/// A Section 5 and a Section 7 of two cut-outs that unpacking accepts.
struct Pair<'a> {
    numbers: Vec<u32>,
    sections: [&'a [u8]; 2],
    /// Whether the numbers are those of one of the two.
    is_one: bool,
}

/// Each one's Section 5 with each other's Section 7: how many there are, and those that unpacking accepts.
fn pairs(cut_outs: &[CutOut]) -> (usize, Vec<Pair<'_>>) {
    let (mut pairs, mut accepted) = (0, Vec::new());
    for one in cut_outs {
        let section5 = Section5::from_octets(&one.sections[0]).unwrap();
        for other in cut_outs.iter().filter(|other| other.numbers != one.numbers) {
            pairs += 1;
            match Input::of_map(&section5, &other.sections[1][5..]).points() {
                Ok(points) => {
                    let numbers = numbers(&points);
                    let is_one = numbers == one.numbers || numbers == other.numbers;
                    accepted.push(Pair { numbers, sections: [&one.sections[0], &other.sections[1]], is_one });
                }
                Err(Refusal::Short | Refusal::Points | Refusal::GroupSize) => {}
                Err(refusal) => panic!("{refusal}"),
            }
        }
    }
    (pairs, accepted)
}

/// Of 40 cut-outs of 24 x 24 points only such pairs pass as are one of the two whole, and no number of another is shown.
#[test]
fn sections_of_two_cut_outs() {
    let folder = scratch("check-pairs");
    let cut_outs = cut_outs(40, 24);
    let (_, accepted) = pairs(&cut_outs);
    for Pair { numbers, sections, is_one } in &accepted {
        write_map(&folder, "map", sections[0], sections[1]);
        hold(&folder, numbers.len(), LOOKAHEAD, *is_one);
    }
    assert!(accepted.iter().filter(|pair| !pair.is_one).count() > 9);
}

/// The table of docs/EVIDENCE.md: how many pairs there are, how many unpacking accepts, how many of these are one of the
/// two cut-outs, and how many others pass the check.
#[test]
fn how_many_pairs_pass() {
    let table =
        [(4, [3_540, 2_418, 276, 84]), (8, [3_540, 970, 66, 6]), (16, [3_540, 471, 30, 0]), (24, [3_540, 40, 12, 0])];
    for (size, expected) in table {
        let cut_outs = cut_outs(60, size);
        let (pairs, accepted) = pairs(&cut_outs);
        let passes = |pair: &&Pair| packed(&pair.numbers, LOOKAHEAD) == pair.sections;
        let (one, other): (Vec<&Pair>, Vec<&Pair>) = accepted.iter().partition(|pair| pair.is_one);
        let others = other.into_iter().filter(passes).count();
        assert_eq!([pairs, accepted.len(), one.len(), others], expected, "{size} x {size}");
    }
}

/// What the check cannot show: two sections that come to a packing of the desk's by themselves, of a third list.
#[test]
fn a_third_map_passes() {
    let folder = scratch("check-third");
    let [one, other] = [packed(&[0, 0, 0, 0, 8, 8, 8], 2), packed(&[0, 0, 0, 9, 9, 9, 9], 2)];
    assert_eq!([one[0].clone(), other[1].clone()], packed(&[0, 0, 0, 0, 9, 9, 9], 2));
    write_map(&folder, "map", &one[0], &other[1]);
    hold(&folder, 7, 2, true);
}

/// Nor a bit that was changed on the way: mostly what is left is a packing of the desk's too, of other numbers. Each bit of
/// the payload of the day's first cut-out is turned over by itself.
#[test]
fn most_changed_bits_pass() {
    let cut = numbers(&cut_out(&GUST.rows(), [15, 30, 93, 124]));
    let [section5, section7] = packed(&cut, LOOKAHEAD);
    let read = Section5::from_octets(&section5).unwrap();
    let (mut accepted, mut passed) = (0, 0);
    let bits = 8 * (section7.len() - 5);
    for bit in 0..bits {
        let mut changed = section7.clone();
        changed[5 + bit / 8] ^= 0x80 >> (bit % 8);
        if let Ok(points) = Input::of_map(&read, &changed[5..]).points() {
            accepted += 1;
            passed += usize::from(packed(&numbers(&points), LOOKAHEAD) == [section5.clone(), changed]);
        }
    }
    assert_eq!([bits, accepted, passed], [4_128, 4_060, 3_920]);
}

/// Where nothing was checked, that is said.
#[test]
fn what_was_not_checked_is_said() {
    let folder = scratch("not-checked");
    write_case(&folder);
    let remark =
        "whether Section 5 and Section 7 belong together; --lookahead K checks it for a cut-out that the desk \
                  packed with lookahead K";
    for form in ["--marks", "--missing=none"] {
        let ran = desk(&folder, &["unpack", "map", form]);
        let map = "desk: note: map, template 5.2, 55 octets\n".to_string();
        assert_eq!(
            (ran.status, ran.notes),
            (Some(0), vec![map.clone(), format!("desk: note: not checked: {remark}\n")])
        );
        let checked = "desk: note: checked: packed again with lookahead 4, both sections are the same\n".to_string();
        assert_eq!(desk(&folder, &["unpack", "map", form, "--lookahead", "4"]).notes, [map, checked]);
    }
    let point = words("point map --columns 4 --rows 1 --column 1 --row 1");
    assert_eq!(after(&unwrapped(&results(&folder, &point)), "pair"), format!("not checked: {remark}"));
    // The sections of a message came together.
    let name = GUST.file("grib2").display().to_string();
    let one_message = "not checked: both sections stand in one message";
    let notes = [
        format!("{name}, message 1 at octet 1, template 5.3, 9,297 octets"),
        one_message.into(),
        format!("points in the order of the file: {}", GUST.grid(true)),
    ];
    assert_eq!(desk(&folder, &["unpack", &name]).notes, notes.map(|note| format!("desk: note: {note}\n")));
    let printed = results(&folder, &["point", &name, "--column", "1", "--row", "1"]);
    assert_eq!(after(&printed, "pair"), one_message);
}
