//! `desk levels`: the levels of a map as a text, and a map of such a text.

use crate::chance::hold;
use crate::support::maps::{rain, Numbers};
use crate::support::others::{maps, Map};
use crate::*;
use cleatmow::{run_length, write_run_length, TemplateNumbers, MOST_POINTS};
use std::fs::File;

/// A Section 5 of template 5.200 that says of no level what it stands for.
fn section5(declared: u32, bits: u8, max_level: u16) -> Vec<u8> {
    Section5::of_levels(declared, bits, max_level, &[0; 3]).unwrap()
}

/// The text of a map, whose Section 5 goes on with these octets from the 15th on.
fn text_of(bits: u8, max_level: u16, values: &[u8], levels: &[u16]) -> String {
    let values: String = values.iter().map(|octet| format!("{octet:02x}")).collect();
    let lines: String = levels.iter().map(|level| format!("{level}\n")).collect();
    let points = levels.len();
    format!(
        "# levels, not gusts: bits {bits}, greatest level {max_level}, points {points}\n\
         # Section 5 from octet 15 on: {values}\n{lines}"
    )
}

/// Document 01's case: nine times 3, then 5.
const CASE_LEVELS: [u16; 10] = [3, 3, 3, 3, 3, 3, 3, 3, 3, 5];

const HEAD: &str = "# levels, not gusts: bits 4, greatest level 9, points 2";

/// Maps by other writers and by hand become texts, and the texts the same maps: the same Section 5 octet by octet, and a
/// Section 7 of the same levels.
#[test]
fn maps_of_others_and_back() {
    let folder = scratch("levels");
    for (place, map) in maps().iter().filter(|map| map.template == 200 && map.refusal.is_none()).enumerate() {
        let Map { section5_octets, payload, .. } = map;
        let TemplateNumbers::RunLength { bits, max_level } = map.section5.numbers else { panic!("{}", map.id) };
        let levels = run_length(bits, max_level, map.section5.declared, payload).unwrap();
        let text = text_of(bits, max_level, &section5_octets[14..], &levels);
        let [name, again, file] = ["map", "again", "text"].map(|name| format!("{name}-{place}"));
        write_map(&folder, &name, section5_octets, &section7(payload));
        let ran = desk(&folder, &["levels", &name]);
        assert_eq!((ran.status, ran.err.as_str()), (Some(0), ""), "{}", map.id);
        assert!(ran.out == text, "{}: {}", map.id, ran.out);
        let note = "desk: note: what a level stands for is not read here, and it may be a missing point\n";
        assert_eq!(ran.notes.last().map(String::as_str), Some(note));

        fs::write(folder.join(&file), &text).unwrap();
        let printed = plain(&unwrapped(&results(&folder, &["levels", "--write", &file, "--to", &again])));
        let written = section7(&write_run_length(bits, max_level, &levels).unwrap());
        let expected = format!(
            "text      {file}: {}, bits {bits}, greatest level {max_level}\n\
             values    what the levels stand for is as the text has it, and is not read here\n\
             packed    {} octets\nwritten   {again}.s5 and {again}.s7\n",
            many(levels.len(), "level"),
            section5_octets.len() + written.len(),
        );
        assert_eq!(printed, expected, "{}", map.id);
        let read = |section: &str| fs::read(folder.join(format!("{again}.{section}"))).unwrap();
        assert_eq!((&read("s5"), read("s7")), (section5_octets, written), "{}", map.id);
        assert!(results(&folder, &["levels", &again]) == text, "{}", map.id);
    }
}

/// A text as a person may have it: by another program, without the second line, without levels.
#[test]
fn texts_in_other_forms() {
    let folder = scratch("texts");
    let good = text_of(4, 9, &[0, 1, 2, 0, 7], &CASE_LEVELS);
    let first = good.lines().next().unwrap();
    let lines = good.lines().skip(2).collect::<Vec<_>>().join("\n");
    let none = "it is said of no level what it stands for";
    let carried = "what the levels stand for is as the text has it, and is not read here";
    let empty = first.replace("points 10", "points 0");
    for (place, (text, right, values)) in [
        (good.clone(), good.clone(), carried),
        (good.trim_end().to_string(), good.clone(), carried),
        (good.replace('\n', "\r\n"), good.clone(), carried),
        (good.replace("\n3", "\n003"), good.clone(), carried),
        (good.replace("0001020007", "000102000A"), good.replace("0001020007", "000102000a"), carried),
        (format!("{first}\n{lines}"), text_of(4, 9, &[0; 3], &CASE_LEVELS), none),
        (format!("{first}\n# Section 5 from octet 15 on: 000000\n{lines}"), text_of(4, 9, &[0; 3], &CASE_LEVELS), none),
        (empty.clone(), text_of(4, 9, &[0; 3], &[]), none),
        (format!("{empty}\n"), text_of(4, 9, &[0; 3], &[]), none),
    ]
    .into_iter()
    .enumerate()
    {
        let name = format!("map-{place}");
        fs::write(folder.join("text"), &text).unwrap();
        let printed = results(&folder, &["levels", "--write", "text", "--to", &name]);
        assert_eq!(after(&unwrapped(&printed), "values"), values, "{text}");
        assert_eq!(results(&folder, &["levels", &name]), right, "{text}");
    }
    assert_eq!(fs::read(folder.join("map-5.s5")).unwrap(), section5(10, 4, 9));
    assert_eq!(fs::read(folder.join("map-5.s7")).unwrap(), section7(&[0x3C, 0xB5]));
    // A map like a radar's.
    let map = rain(100_000);
    fs::write(folder.join("text"), text_of(8, 200, &[0; 3], &map.levels)).unwrap();
    results(&folder, &["levels", "--write", "text", "--to", "rain"]);
    assert!(fs::read(folder.join("rain.s7")).unwrap() == section7(&map.payload));
    assert!(results(&folder, &["levels", "rain"]) == fs::read_to_string(folder.join("text")).unwrap());
}

/// Files that are no text of levels get one sentence, with the line that is wrong, and nothing is written.
#[test]
fn texts_that_are_none() {
    let folder = scratch("no-texts");
    let no_text =
        "text is no text of levels: its first line is not like '# levels, not gusts: bits 4, greatest level 9, \
                   points 10'";
    let no_level =
        |line: usize, said: &str| format!("text, line {line}: '{said}' is no level, a whole number from 0 to 65,535");
    let no_values = "text, line 2: not like '# Section 5 from octet 15 on: 000000'";
    let other_count = |said: &str, found: &str| format!("text says that it has {said}, and it has {found}");
    let below = |lines: &str| format!("{HEAD}\n{lines}").into_bytes();
    for (text, sentence) in [
        (vec![], no_text.to_string()),
        (b"\n".to_vec(), no_text.into()),
        (b"3\n5\n".to_vec(), no_text.into()),
        (b"GRIB\xFF\xFE\x00".to_vec(), no_text.into()),
        (format!(" {HEAD}\n3\n5\n").into_bytes(), no_text.into()),
        (format!("\u{FEFF}{HEAD}\n3\n5\n").into_bytes(), no_text.into()),
        (HEAD.replace("not gusts", "gusts").into_bytes(), no_text.into()),
        (HEAD.replace("bits 4", "bits 256").into_bytes(), no_text.into()),
        (HEAD.replace("bits 4", "bits +4").into_bytes(), no_text.into()),
        (HEAD.replace("bits 4", "bits ").into_bytes(), no_text.into()),
        (HEAD.replace("level 9", "level 65536").into_bytes(), no_text.into()),
        (HEAD.replace("points 2", "points 4294967296").into_bytes(), no_text.into()),
        (HEAD.replace("points 2", "points 2, and more").into_bytes(), no_text.into()),
        (below("3\nfive\n"), no_level(3, "five")),
        (below("3\n65536\n"), no_level(3, "65536")),
        (below("3\n-5\n"), no_level(3, "-5")),
        (below("3\n+5\n"), no_level(3, "+5")),
        (below("3\n5.0\n"), no_level(3, "5.0")),
        (below("3 5\n"), no_level(2, "3 5")),
        (below("3\n5 \n"), no_level(3, "5 ")),
        (below("3\n\n5\n"), no_level(3, "")),
        (below("3\n5\n\n"), no_level(4, "")),
        (below("3\r\r\n5"), no_level(2, "3?")),
        (below("no forecast\n5\n"), no_level(2, "no forecast")),
        (below("3\n# five\n5\n"), no_level(3, "# five")),
        ([below("3\n"), vec![0xFF, b'\n']].concat(), no_level(3, "\u{FFFD}")),
        (below(&"7".repeat(1_000)), no_level(2, &"7".repeat(30))),
        (below("# five\n3\n5\n"), no_values.into()),
        (below("# Section 5 from octet 15 on: \n3\n5\n"), no_values.into()),
        (below("# Section 5 from octet 15 on: 0000\n3\n5\n"), no_values.into()),
        (below("# Section 5 from octet 15 on: 0000000\n3\n5\n"), no_values.into()),
        (below("# Section 5 from octet 15 on: 00000g\n3\n5\n"), no_values.into()),
        (below(""), other_count("2 points", "0 levels")),
        (below("3\n"), other_count("2 points", "1 level")),
        (below("3\n5\n5"), other_count("2 points", "3 levels")),
    ] {
        fs::write(folder.join("text"), &text).unwrap();
        let told = told(&folder, &["levels", "--write", "text", "--to", "map"], HOST);
        assert_eq!(told, sentence, "{}", String::from_utf8_lossy(&text));
        assert_eq!(names_in(&folder), ["text"]);
    }
    let none = told(&folder, &words("levels --write none --to map"), HOST);
    assert_eq!(none, "none cannot be read: No such file or directory (os error 2)");
    assert_eq!(told(&folder, &words("levels --write . --to map"), HOST), ". is not a file");
    // Longer than any text, and it takes no room on the disk.
    File::create(folder.join("long")).unwrap().set_len((1 << 28) + 1).unwrap();
    let long = told(&folder, &words("levels --write long --to map"), HOST);
    assert_eq!(long, "long has more than 268,435,456 octets, and is not read");
}

/// Each refusal of reading and of writing, by the number of its row, with what was found there.
#[test]
fn refusals_of_levels_are_the_exit_status() {
    let folder = scratch("levels-refused");
    let held = |words: &[&str], what: &str, number: u32, found: &str| {
        let refusal = Refusal::from_number(number).unwrap();
        let found = if found.is_empty() { String::new() } else { format!(" ({found})") };
        let told = told(&folder, words, number as i32);
        assert_eq!(told, format!("{what}: {refusal}{found}"));
    };
    for (number, octets, payload, found) in [
        (5, section5(10, 16, 9), &[0x3C, 0xB5][..], "bits are 16, and the greatest level is 9"),
        (5, section5(10, 4, 16), &[0x3C, 0xB5], "bits are 4, and the greatest level is 16"),
        (11, section5(10, 4, 9), &[0xC3, 0xB5], ""),
        (9, section5(9, 4, 9), &[0x3C, 0xB5], "9 points declared"),
        (9, section5(1, 4, 9), &[], "1 point declared"),
        (9, section5(MOST_POINTS + 1, 4, 9), &[0x3C], "4,194,305 points declared"),
    ] {
        write_map(&folder, "map", &octets, &section7(payload));
        held(&["levels", "map"], "map", number, found);
    }
    for (number, head, levels, found) in [
        (5, "bits 0, greatest level 0", "0\n0\n", "bits are 0, and the greatest level is 0"),
        (5, "bits 16, greatest level 9", "3\n5\n", "bits are 16, and the greatest level is 9"),
        (5, "bits 4, greatest level 16", "99\n5\n", "bits are 4, and the greatest level is 16"),
        (13, "bits 4, greatest level 9", "9\n10\n", "level 10 at point 2"),
        (13, "bits 15, greatest level 9", "65535\n10\n", "level 65535 at point 1"),
    ] {
        fs::write(folder.join("text"), format!("# levels, not gusts: {head}, points 2\n{levels}")).unwrap();
        held(&words("levels --write text --to cut"), "text", number, found);
    }
    let many = "0\n".repeat(MOST_POINTS as usize + 1);
    fs::write(folder.join("text"), format!("{}\n{many}", HEAD.replace("points 2", "points 4194305"))).unwrap();
    held(&words("levels --write text --to cut"), "text", 13, "4,194,305 levels");
    fs::write(folder.join("text"), format!("{}\n{}", HEAD.replace("points 2", "points 4194304"), &many[2..])).unwrap();
    results(&folder, &words("levels --write text --to most"));
    assert_eq!(fs::read(folder.join("most.s7")).unwrap().len(), 10);

    // Maps that have no levels, and files that are no map.
    write_case(&folder);
    let sentence = told(&folder, &["levels", "map"], HOST);
    assert_eq!(sentence, "map is under template 5.2: it has no levels, and desk unpack shows it");
    let sentence = told(&folder, &["levels", GUST.file("grib2").to_str().unwrap()], HOST);
    assert!(sentence.ends_with(" is under template 5.3: it has no levels, and desk unpack shows it"), "{sentence}");
    let cut = section5(10, 4, 9)[..16].to_vec();
    write_map(&folder, "map", &cut, &section7(&[0x3C, 0xB5]));
    let found = "Section 5 says that it has 17 octets, and 16 are there";
    assert_eq!(told(&folder, &["levels", "map"], NO_SECTION5), no_section5("map.s5", found));
    write_map(&folder, "map", &section5(10, 4, 9), &section7(&[0x3C, 0xB5])[..6]);
    let sentence = told(&folder, &["levels", "map"], HOST);
    assert_eq!(sentence, "map.s7: Section 7 says that it has 7 octets, and 6 are there");
    assert_eq!(names_in(&folder), ["map.s5", "map.s7", "most.s5", "most.s7", "text"]);
}

/// No file is written over.
#[test]
fn levels_that_cannot_be_written() {
    let folder = scratch("levels-written");
    fs::write(folder.join("text"), text_of(4, 9, &[0; 3], &CASE_LEVELS)).unwrap();
    fs::write(folder.join("first.s7"), "kept").unwrap();
    for (to, sentence) in [
        ("first", "first.s7 is there already, and the desk writes over no file"),
        ("text", "text is a file, from which two sections of its name could not be told apart"),
        ("none/map", "none/map.s5 cannot be written: No such file or directory (os error 2)"),
    ] {
        assert_eq!(told(&folder, &["levels", "--write", "text", "--to", to], HOST), sentence);
        assert_eq!(names_in(&folder), ["first.s7", "text"]);
    }
}

/// Whatever stands in a text there is an answer; and where a map is written of it, it has the levels that the text has.
#[test]
fn texts_by_chance() {
    let folder = scratch("levels-chance");
    let mut chance = Numbers::new(200);
    let good = text_of(4, 9, &[0, 1, 2, 0, 7], &CASE_LEVELS).into_bytes();
    let mut seen = [0; 68];
    for number in 0..400 {
        let mut text = good.clone();
        for _ in 0..1 + chance.below(2) {
            let (place, any) = (chance.below(text.len() as u64) as usize, chance.any() as u8);
            let digit = b'0' + chance.below(10) as u8;
            match chance.below(8) {
                0 => drop(text.remove(place)),
                1 => text.insert(place, [any, digit, b'\n'][number % 3]),
                2 => text[place] = any,
                // A digit for another makes other texts that are whole.
                _ => {
                    let digits = text.iter_mut().filter(|octet| octet.is_ascii_digit());
                    digits.skip(place % 40).take(1).for_each(|octet| *octet = digit);
                }
            }
        }
        fs::write(folder.join("text"), &text).unwrap();
        let name = format!("map-{number}");
        let ran = desk(&folder, &["levels", "--write", "text", "--to", &name]);
        let status = hold(&ran, &|| String::from_utf8_lossy(&text).into_owned());
        let is_written = folder.join(format!("{name}.s5")).exists();
        assert_eq!((is_written, folder.join(format!("{name}.s7")).exists()), (status == 0, status == 0), "{ran:?}");
        if is_written {
            let (shown, text) = (results(&folder, &["levels", &name]), String::from_utf8(text).unwrap());
            let levels = |text: &str| -> Vec<u16> {
                text.lines().filter(|line| !line.starts_with('#')).map(|line| line.parse().unwrap()).collect()
            };
            assert_eq!(levels(&shown), levels(&text));
        }
        seen[status] += 1;
    }
    for status in [0, 5, 13, 64] {
        assert!(seen[status] > 0, "none with status {status}: {seen:?}");
    }
}
