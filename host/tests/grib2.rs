//! GRIB2 files: their fields, grids and bitmaps, and that no damage to one is taken for a field or takes long.

mod support;

use cleatmow::grib2::{contents, Contents, Field, Grid, HasBitmap, NoGrid, NotGrib2, Parameter};
use cleatmow::{payload_of, unpack_complex, unpack_spatial, Point, Refusal, Section5, TemplateNumbers};
use std::error::Error;
use std::ops::Range;
use std::time::{Duration, Instant};
use support::grib2::{
    edition_1, field, map, message, message_of, put, section, section1, section2, section3, section6, GRIDS,
};
use support::maps::Numbers;

/// Reads a file. What is refused has its sentence; what is accepted lies in the octets, message after message.
fn read(file: &[u8]) -> Result<Contents<'_>, NotGrib2> {
    let read = contents(file);
    match &read {
        Ok(contents) => holds(contents, file),
        Err(refused) => has_sentence(refused),
    }
    read
}

fn holds(contents: &Contents, file: &[u8]) {
    // The message of the last field, where it lies, and the octets of all messages so far.
    let (mut number, mut lies, mut octets) = (0, 0..0, 0);
    // Where the last section that was lent ends.
    let mut passed = 0;
    for field in &contents.fields {
        if field.message != number {
            let next = message_at(file, field.at);
            assert!(lies.end <= next.start);
            number += 1;
            octets += next.len();
            passed = next.start + 16;
            lies = next;
        }
        assert_eq!((field.message, field.at), (number, lies.start + 1));
        if let Ok(sections) = field.sections() {
            for (section, number) in sections.iter().zip([5, 7]) {
                let place = place_in(file, section);
                assert!(passed <= place.start && place.end <= lies.end - 4);
                assert!(section.starts_with(&[&(section.len() as u32).to_be_bytes()[..], &[number]].concat()));
                passed = place.end;
            }
            assert_eq!(field.points().to_be_bytes(), sections[0][5..9]);
            assert_eq!(field.template().to_be_bytes(), sections[0][9..11]);
        }
        match field.grid() {
            Ok(grid) => assert_eq!(u64::from(grid.columns) * u64::from(grid.rows), field.points().into()),
            Err(none) => has_sentence(&none),
        }
    }
    assert!(number > 0);
    // What is left is of edition 1.
    let left = file.len() - octets - contents.other_octets;
    assert_eq!(left > 0, contents.edition_1 > 0);
    assert!(left >= 8 * contents.edition_1);
}

/// Where the message of edition 2 lies that begins with this octet. The first is 1.
fn message_at(file: &[u8], at: usize) -> Range<usize> {
    let octets = &file[at - 1..];
    assert!(octets.starts_with(b"GRIB") && octets[7] == 2);
    let length = u64::from_be_bytes(octets[8..16].try_into().unwrap()) as usize;
    assert!(octets[..length].ends_with(b"7777"));
    at - 1..at - 1 + length
}

/// Where in the file the octets are that were lent from it.
fn place_in(file: &[u8], lent: &[u8]) -> Range<usize> {
    let start = (lent.as_ptr() as usize).checked_sub(file.as_ptr() as usize).expect("not before the file");
    assert!(start + lent.len() <= file.len());
    start..start + lent.len()
}

/// One line of words, without a stop: a log or a command goes on as it likes.
fn has_sentence(error: &dyn Error) {
    let told = error.to_string();
    assert!(told.bytes().all(|octet| (b' '..=b'~').contains(&octet)), "{told:?}");
    assert!(told.split(' ').count() >= 4 && told.split(' ').all(|word| !word.is_empty()), "{told:?}");
    assert!(told.ends_with(|last: char| last.is_ascii_alphanumeric()), "{told:?}");
}

fn refused(file: &[u8]) -> NotGrib2 {
    read(file).expect_err("a file that is not read")
}

/// Where the damaged message begins.
fn damaged(file: &[u8]) -> usize {
    match refused(file) {
        NotGrib2::Damaged { at, .. } => at,
        other => panic!("{other:?}"),
    }
}

/// A field as a test says it.
#[derive(Debug, PartialEq)]
struct Told {
    message: usize,
    at: usize,
    /// The number of its map, or the bitmap indicator.
    map: Result<u8, u8>,
    columns: u32,
}

/// What a file of built maps has: its fields, its messages of edition 1, and its other octets.
fn told(file: &[u8]) -> (Vec<Told>, usize, usize) {
    let contents = read(file).unwrap();
    let told = |field: &Field| {
        let map = field.sections().map_err(|HasBitmap { indicator }| indicator).map(|sections| {
            let number = sections[0][11];
            assert_eq!(sections, map(number));
            number
        });
        Told { message: field.message, at: field.at, map, columns: field.grid().unwrap().columns }
    };
    (contents.fields.iter().map(told).collect(), contents.edition_1, contents.other_octets)
}

/// A field without a bitmap, on two columns and two rows.
fn told_of(message: usize, at: usize, map: u8) -> Told {
    Told { message, at, map: Ok(map), columns: 2 }
}

fn sample(name: &str) -> Vec<u8> {
    std::fs::read(format!("{}/../samples/{name}", env!("CARGO_MANIFEST_DIR"))).expect(name)
}

#[test]
fn the_three_messages_of_samples() {
    let grid = |template, columns, rows, scanning| Grid { template, columns, rows, scanning };
    let samples = [
        ("gfs-gust-144x73", 9_450, 3, grid(0, 144, 73, 0)),
        ("ndfd-puerto-rico-339x224", 14_913, 3, grid(10, 339, 224, 0x50)),
        ("ndfd-conus-1073x689", 257_566, 2, grid(30, 1_073, 689, 0x50)),
    ];
    let mut all = Vec::new();
    for (name, octets, template, grid) in samples {
        let [file, section5, section7] = ["grib2", "s5", "s7"].map(|end| sample(&format!("{name}.{end}")));
        let contents = read(&file).unwrap();
        let counts = (file.len(), contents.fields.len(), contents.edition_1, contents.other_octets);
        assert_eq!(counts, (octets, 1, 0, 0), "{name}");
        let field = contents.fields[0];
        assert_eq!((field.message, field.at), (1, 1), "{name}");
        assert_eq!((field.template(), field.points()), (template, grid.columns * grid.rows), "{name}");
        assert_eq!(field.grid(), Ok(grid), "{name}");
        assert!(field.sections().unwrap() == [section5, section7], "{name}");
        all.extend(file);
    }
    let contents = read(&all).unwrap();
    let fields: Vec<_> = contents.fields.iter().map(|field| (field.message, field.at, field.grid().unwrap())).collect();
    let [first, second, third] = samples.map(|sample| sample.3);
    assert_eq!(fields, [(1, 1, first), (2, 9_451, second), (3, 24_364, third)]);
}

/// What a field is a map of stands in its own Section 4 and, for all fields of a message, in Section 0.
#[test]
fn parameters() {
    let of = |category, number, map| {
        let mut sections = field(map);
        put(&mut sections[0], 10, &[category, number]);
        sections
    };
    let sections = [vec![section1(), section3(0, 2, 2, 0)], of(2, 22, 0), of(255, 1, 1)].concat();
    let mut other = message(&sections);
    put(&mut other, 7, &[10]);
    let file = [message(&sections), other].concat();
    let found: Vec<String> = read(&file).unwrap().fields.iter().map(|field| field.parameter().to_string()).collect();
    let expected =
        ["0, category 2, parameter 22", "0, category 255, parameter 1"].map(|said| format!("discipline {said}"));
    assert_eq!(found[..2], expected);
    assert_eq!(found[2..], expected.map(|said| said.replace("discipline 0", "discipline 10")));

    for (name, category, number) in
        [("gfs-gust-144x73", 2, 22), ("ndfd-puerto-rico-339x224", 0, 4), ("ndfd-conus-1073x689", 0, 4)]
    {
        let file = sample(&format!("{name}.grib2"));
        assert_eq!(read(&file).unwrap().fields[0].parameter(), Parameter { discipline: 0, category, number });
    }
}

/// A bulletin has a heading, and what follows its message.
#[test]
fn messages_among_other_octets() {
    let heading = [b'*'; 80];
    let messages = [1, 2, 3].map(message_of);
    let [first, second, third] = messages.each_ref().map(Vec::len);

    let file = messages.concat();
    let fields = vec![told_of(1, 1, 1), told_of(2, 1 + first, 2), told_of(3, 1 + first + second, 3)];
    assert_eq!(told(&file), (fields, 0, 0));

    let file = messages.each_ref().map(|message| [&heading[..], message].concat()).concat();
    let fields = vec![told_of(1, 81, 1), told_of(2, 161 + first, 2), told_of(3, 241 + first + second, 3)];
    assert_eq!(told(&file), (fields, 0, 240));

    for junk in [&b"\0"[..], b"7777", b"GRI", b"\r\r\n\x03", &[0xFF; 1_000]] {
        let file = messages.each_ref().map(|message| [message, junk].concat()).concat();
        let fields = vec![
            told_of(1, 1, 1),
            told_of(2, 1 + first + junk.len(), 2),
            told_of(3, 1 + first + second + 2 * junk.len(), 3),
        ];
        assert_eq!(told(&file), (fields, 0, 3 * junk.len()));
        assert_eq!(file.len(), first + second + third + 3 * junk.len());
    }
}

/// Four letters that no edition follows begin no message.
#[test]
fn the_four_letters_among_other_octets() {
    let message = message_of(1);
    for junk in [
        &b"GRIB"[..],
        b"GRIBGRIBGRIB",
        b"GGRIB",
        b"GRIGRIBB",
        b"GRIB7777",
        b"GRIB in words",
        b"GRIB\0\0\0\0",
        b"GRIB\0\0\0\x03",
        b"GRIB\0\0\0\x03\0\0\0\0\0\0\0\x14",
        b"GRIB\0\0\0\xFF\xFF\xFF\xFF\xFF\xFF\xFF\xFF\xFF",
    ] {
        let file = [junk, &message, junk, &message, junk, b" ended"].concat();
        let at = 1 + junk.len();
        let fields = vec![told_of(1, at, 1), told_of(2, at + message.len() + junk.len(), 1)];
        assert_eq!(told(&file), (fields, 0, 3 * junk.len() + 6), "{junk:?}");
    }
    // Too near the end for an edition: a message that was cut.
    for junk in [&b"GRIB"[..], b"GRIB\0", b"GRIB\0\0", b"GRIB\0\0\0", b"GRIBGRI"] {
        assert_eq!(damaged(&[&message, junk].concat()), message.len() + 1);
        assert_eq!(damaged(junk), 1);
    }
}

/// A message is passed over whole, and what is in its sections begins none.
#[test]
fn the_four_letters_in_a_section() {
    let inner = message_of(2);
    let [section5, _] = map(1);
    for letters in [&b"GRIB"[..], b"GRIB\0\0\0\x01", b"GRIB\0\0\0\x02", &edition_1(b"said"), &inner] {
        let sections = [
            section(1, letters),
            section(2, letters),
            section3(0, 2, 2, 0),
            section(4, &[&[0; 6], letters].concat()),
            section5.clone(),
            section6(255),
            section(7, letters),
        ];
        let file = [message(&sections), message_of(3)].concat();
        let contents = read(&file).unwrap();
        let at: Vec<usize> = contents.fields.iter().map(|field| field.at).collect();
        let last = 1 + file.len() - message_of(3).len();
        assert_eq!((at, contents.edition_1, contents.other_octets), (vec![1, last], 0, 0));
        assert_eq!(contents.fields[0].sections().unwrap(), [&section5, &sections[6]]);
    }
}

#[test]
fn several_fields_of_a_message() {
    let [wide, high] = [section3(0, 4, 1, 0), section3(30, 1, 4, 0x50)];
    let sections = [
        vec![section1(), wide.clone()],
        field(1),
        field(2),
        vec![high.clone()],
        field(3),
        field(4),
        vec![section2(), wide],
        field(5),
        field(6),
        vec![section2(), high],
        field(7),
    ];
    let several = message(&sections.concat());
    let file = [b"*", &several[..], b"*", &message_of(8), b"*", &several].concat();
    let of_several = |message, at| {
        [4, 4, 1, 1, 4, 4, 1].iter().zip(1..).map(move |(&columns, map)| Told { message, at, map: Ok(map), columns })
    };
    let last = 4 + several.len() + message_of(8).len();
    let fields: Vec<Told> =
        of_several(1, 2).chain([told_of(2, 3 + several.len(), 8)]).chain(of_several(3, last)).collect();
    assert_eq!(told(&file), (fields, 0, 3));
}

/// A field without a Section 6 has the one before it, whatever that says, and never one of another message.
#[test]
fn section_6_holds_on() {
    let without = |number| field(number).into_iter().filter(|section| section[4] != 6).collect::<Vec<_>>();
    let with = |number, indicator| {
        let mut sections = field(number);
        sections[2] = section6(indicator);
        sections
    };
    let sections = [
        vec![section1(), section3(0, 2, 2, 0)],
        field(1),
        without(2),
        vec![section3(0, 4, 1, 0)],
        without(3),
        with(4, 0),
        without(5),
        with(6, 254),
        without(7),
        vec![section2(), section3(0, 2, 2, 0)],
        without(8),
        field(9),
        without(10),
    ];
    let expected = [
        (Ok(1), 2),
        (Ok(2), 2),
        (Ok(3), 4),
        (Err(0), 4),
        (Err(0), 4),
        (Err(254), 4),
        (Err(254), 4),
        (Err(254), 2),
        (Ok(9), 2),
        (Ok(10), 2),
    ];
    let fields = expected.map(|(map, columns)| Told { message: 1, at: 1, map, columns });
    let file = message(&sections.concat());
    assert_eq!(told(&file), (fields.into(), 0, 0));

    let never = message(&[vec![section1(), section3(0, 2, 2, 0)], without(1), field(2)].concat());
    assert_eq!(refused(&never).to_string(), "the message at octet 1 is damaged: it has no Section 6");
    assert_eq!(damaged(&[&file[..], &never].concat()), 1 + file.len());
}

#[test]
fn messages_of_edition_1() {
    // Their sections are not read. The first, of 28 octets, says its length in three.
    let said = [&[0, 0, 28, 3, 7, 81, 255, 0x80][..], &[0; 20], b"GRIB\0\0\0\x02"].concat();
    let (other, message) = (edition_1(&said), message_of(1));
    let file = [&other[..], &message, &other, &other, b"junk", &message, &other].concat();
    let fields = vec![told_of(1, 1 + other.len(), 1), told_of(2, 5 + 3 * other.len() + message.len(), 1)];
    assert_eq!(told(&file), (fields, 4, 4));
    let long = edition_1(&[0xAA; 0x0002_0304]);
    assert_eq!(told(&[&long, &message[..]].concat()), (vec![told_of(1, 1 + long.len(), 1)], 1, 0));
    // A message of edition 2 in one of edition 1 is none of the file's.
    let outer = edition_1(&message_of(2));
    assert_eq!(told(&[&outer, &message[..]].concat()), (vec![told_of(1, 1 + outer.len(), 1)], 1, 0));
    for (file, edition_1) in [(outer.clone(), 1), ([&other[..], b"junk", &outer].concat(), 2)] {
        assert_eq!(refused(&file), NotGrib2::NoMessage { count: file.len(), edition_1 });
    }
}

/// One that does not end where it says is passed over by its first eight octets: the others belong to no message.
#[test]
fn messages_of_edition_1_that_are_cut() {
    let (other, message) = (edition_1(&[0x55; 24]), message_of(1));
    for len in 8..other.len() {
        let file = [&other[..len], &message, &other[..len]].concat();
        assert_eq!(told(&file), (vec![told_of(1, 1 + len, 1)], 2, 2 * (len - 8)));
    }
    for length in [0_u32, 1, 7, 8, 9, 11, 12, 35, 37, 0x00FF_FFFF] {
        let mut other = other.clone();
        put(&mut other, 5, &length.to_be_bytes()[1..]);
        let file = [&other, &message[..]].concat();
        assert_eq!(told(&file), (vec![told_of(1, 1 + other.len(), 1)], 1, other.len() - 8), "{length}");
    }
}

/// A message that is whole but for its edition is not passed over as though it were none.
#[test]
fn editions_that_are_damaged() {
    let (mut file, at) = (message_of(1), message_of(1).len() + 1);
    file.extend(message_of(2));
    for edition in (0..=255).filter(|&edition| edition != 2) {
        let mut file = file.clone();
        put(&mut file, at + 7, &[edition]);
        let sentence = format!("the message at octet {at} is damaged: its edition is {edition}");
        assert_eq!(refused(&file).to_string(), sentence);
    }
}

/// The grid of a field whose Section 3 is this, and which has so many points.
fn grid_of(section3: &[u8], points: u32) -> Result<Grid, NoGrid> {
    let mut sections = [vec![section1(), section3.to_vec()], field(1)].concat();
    put(&mut sections[3], 6, &points.to_be_bytes());
    let file = message(&sections);
    let contents = read(&file).unwrap();
    assert_eq!(contents.fields.len(), 1);
    contents.fields[0].grid()
}

#[test]
fn every_scanning_mode_of_each_grid() {
    for (template, _, _) in GRIDS {
        for scanning in 0..=255 {
            let read = grid_of(&section3(template, 5, 3, scanning), 15);
            if [0, 0x10, 0x40, 0x50].contains(&scanning) {
                assert_eq!(read, Ok(Grid { template, columns: 5, rows: 3, scanning }));
                continue;
            }
            assert_eq!(read, Err(NoGrid::Scanning { scanning }));
            let sentence = read.unwrap_err().to_string();
            assert!(sentence.contains(&format!("mode is 0x{scanning:02x} (")), "{sentence}");
            for (bits, words) in [(0x80, "begin at the last column"), (0x20, "column by column"), (0x0F, "are shifted")]
            {
                assert_eq!(sentence.contains(words), scanning & bits != 0, "{sentence}");
            }
        }
    }
    assert_eq!((Grid::UPWARD, Grid::ALTERNATE), (0x40, 0x10));
}

#[test]
fn grids_of_any_size() {
    for (template, _, _) in GRIDS {
        for (columns, rows) in [(1, 1), (0x0102_0304, 1), (1, 0xFFFF_FFFE), (0xFFFF_FFFE, 1), (65_537, 65_535)] {
            let read = grid_of(&section3(template, columns, rows, 0x40), columns * rows);
            assert_eq!(read, Ok(Grid { template, columns, rows, scanning: 0x40 }));
        }
    }
}

#[test]
fn grids_that_are_not_read() {
    for (template, octets, _) in GRIDS {
        let whole = section3(template, 5, 3, 0);
        for count in [14, 30, 38, octets - 1] {
            let read = grid_of(&section(3, &whole[5..count]), 15);
            assert_eq!(read, Err(NoGrid::Short { template, count }));
        }
        assert!(grid_of(&section(3, &[&whole[5..], &[9]].concat()), 15).is_ok());
        let changed = |octet, octets: &[u8]| {
            let mut section = whole.clone();
            put(&mut section, octet, octets);
            grid_of(&section, 15)
        };
        for octet in 1..=255 {
            assert_eq!(changed(6, &[octet]), Err(NoGrid::Unknown { source: octet }));
            assert_eq!(changed(11, &[octet]), Err(NoGrid::Reduced));
        }
        for octet in [31, 35] {
            assert_eq!(changed(octet, &[0xFF; 4]), Err(NoGrid::Reduced));
        }
    }
    let mut section = section3(30, 5, 3, 0);
    for template in (0..=u16::MAX).filter(|template| ![0, 10, 20, 30].contains(template)) {
        put(&mut section, 13, &template.to_be_bytes());
        assert_eq!(grid_of(&section, 15), Err(NoGrid::Template { template }));
    }
}

/// Section 3 says its points itself, and Section 5 those of its map: both are held to columns times rows.
#[test]
fn points_that_are_not_the_grids() {
    // The first two products are 4 and 0 in 32 bits.
    for (columns, rows) in [(2, 0x8000_0002), (65_536, 65_536), (5, 3), (0xFFFF_FFFE, 0xFFFF_FFFE)] {
        let section = section3(0, columns, rows, 0);
        let product = u64::from(columns) * u64::from(rows);
        let wrapped = product as u32;
        for said in [wrapped, 0, 1, 4, 14, 16, u32::MAX] {
            let mut section = section.clone();
            put(&mut section, 7, &said.to_be_bytes());
            for points in [wrapped, said, 4] {
                let wrong = [(3, said), (5, points)].into_iter().find(|&(_, said)| u64::from(said) != product);
                let expected = match wrong {
                    Some((section, said)) => Err(NoGrid::Points { columns, rows, section, said }),
                    None => Ok(Grid { template: 0, columns, rows, scanning: 0 }),
                };
                assert_eq!(grid_of(&section, points), expected);
            }
        }
    }
}

/// There is nothing in them, however many rows they say.
#[test]
fn grids_without_points() {
    for (columns, rows) in [(0, 0), (0, 1), (1, 0), (0, 0xFFFF_FFFE), (0xFFFF_FFFE, 0)] {
        assert_eq!(grid_of(&section3(0, columns, rows, 0), 0), Err(NoGrid::Empty { columns, rows }));
    }
}

#[test]
fn sentences_for_grids() {
    let told = |section3: &[u8]| grid_of(section3, 15).unwrap_err().to_string();
    let changed = |octet, octets: &[u8]| {
        let mut section = section3(10, 5, 3, 0);
        put(&mut section, octet, octets);
        told(&section)
    };
    assert_eq!(changed(6, &[255]), "Section 3 does not define the grid: its octet 6 is 255");
    assert_eq!(changed(13, &[0, 40]), "the grid is of template 3.40, whose columns and rows are not read here");
    let short = told(&section(3, &section3(10, 5, 3, 0)[5..71]));
    assert_eq!(short, "Section 3 has 71 octets, too few for its template 3.10");
    assert_eq!(changed(11, &[2]), "the rows or columns of the grid are not all of one length");
    let scanning =
        "the scanning mode is 0xf1 (rows begin at the last column, points go column by column, rows or columns are \
                    shifted), which is not read here";
    assert_eq!(changed(60, &[0xF1]), scanning);
    assert_eq!(changed(31, &[0, 0, 0, 0]), "the grid is 0 x 3, which has no points");
    assert_eq!(changed(34, &[6]), "the grid is 6 x 3, which is 18 points, and Section 3 says 15");
    let large = grid_of(&section3(10, 65_536, 65_536, 0), 0).unwrap_err().to_string();
    assert_eq!(large, "the grid is 65536 x 65536, which is 4294967296 points, and Section 3 says 0");
}

#[test]
fn bitmaps() {
    for indicator in 0..=255 {
        for bitmap in [&[][..], &[0xA5, 0xA5]] {
            let mut sections = [vec![section1(), section3(0, 2, 2, 0)], field(1)].concat();
            sections[4] = section(6, &[&[indicator], bitmap].concat());
            let file = message(&sections);
            let field = read(&file).unwrap().fields[0];
            assert!(field.grid().is_ok());
            if indicator == 255 {
                assert_eq!(field.sections().unwrap(), map(1));
                continue;
            }
            let has = field.sections().unwrap_err();
            has_sentence(&has);
            assert_eq!(has, HasBitmap { indicator });
            let sentence = format!(
                "the field has a bitmap (octet 6 of Section 6 is {indicator}), so its points are no places of the grid"
            );
            assert_eq!(has.to_string(), sentence);
        }
    }
}

/// Two messages, of three fields and of one, with other octets after each.
struct Small {
    file: Vec<u8>,
    /// Where its messages lie.
    messages: [Range<usize>; 2],
    /// Where the sections of both lie.
    sections: Vec<Range<usize>>,
}

/// What an octet of it says.
enum Says<'a> {
    /// One of the four letters that this message begins with.
    Letter(&'a Range<usize>),
    /// How long this section of this message is.
    Length(&'a Range<usize>, &'a Range<usize>),
    /// What else this message needs: its edition, its length, its end, and the numbers of its sections.
    Needed(&'a Range<usize>),
    /// That a field has no bitmap.
    Indicator,
    /// Nothing that is read without looking into a section.
    Other,
}

impl Small {
    fn new() -> Small {
        let first = [
            vec![section1(), section2(), section3(0, 2, 2, 0)],
            field(1),
            field(2),
            vec![section3(20, 4, 1, 0x40)],
            field(3),
        ];
        let second = [vec![section1(), section3(30, 1, 4, 0x10)], field(4)];
        let (mut file, mut places) = (Vec::new(), Vec::new());
        let messages = [first.concat(), second.concat()].map(|sections| {
            let begin = file.len();
            let mut place = begin + 16;
            for section in &sections {
                places.push(place..place + section.len());
                place += section.len();
            }
            file.extend(message(&sections));
            file.extend(b"-junk-");
            begin..place + 4
        });
        Small { file, messages, sections: places }
    }

    /// The message that an octet is in, if it is in one.
    fn message(&self, place: usize) -> Option<&Range<usize>> {
        self.messages.iter().find(|message| message.contains(&place))
    }

    fn says(&self, place: usize) -> Says<'_> {
        let Some(message) = self.message(place) else { return Says::Other };
        let Some(section) = self.sections.iter().find(|section| section.contains(&place)) else {
            return match place - message.start {
                0..4 => Says::Letter(message),
                4..7 => Says::Other,
                _ => Says::Needed(message),
            };
        };
        match place - section.start {
            0..4 => Says::Length(message, section),
            4 => Says::Needed(message),
            5 if self.file[section.start + 4] == 6 => Says::Indicator,
            _ => Says::Other,
        }
    }

    /// Whether a section may have this length: it ends where it does, or where another does, and none of those that are
    /// in it then is needed.
    fn may_have(&self, section: &Range<usize>, length: u32) -> bool {
        let (begin, end) = (section.start, section.start + length as usize);
        let message = self.message(begin);
        let sections: Vec<_> = self.sections.iter().filter(|other| self.message(other.start) == message).collect();
        let left = sections.iter().filter(|other| other.start <= begin || end <= other.start);
        let numbers: Vec<u8> = left.map(|other| self.file[other.start + 4]).collect();
        sections.iter().any(|other| other.start >= begin && other.end == end) && is_order(&numbers)
    }
}

#[test]
fn the_small_file_is_whole() {
    let Small { file, messages, sections } = Small::new();
    let told_at = |message, map, columns| Told { message, at: messages[message - 1].start + 1, map: Ok(map), columns };
    let fields = vec![told_at(1, 1, 2), told_at(1, 2, 2), told_at(1, 3, 4), told_at(2, 4, 1)];
    assert_eq!(told(&file), (fields, 0, 12));
    assert_eq!(sections.iter().map(Range::len).sum::<usize>(), file.len() - 2 * 20 - 12);
}

#[test]
fn files_that_are_cut() {
    let Small { file, messages: [first, second], .. } = Small::new();
    for len in 0..=file.len() {
        let cut = &file[..len];
        if len < 4 {
            assert_eq!(refused(cut), NotGrib2::NoMessage { count: len, edition_1: 0 });
        } else if len < first.end {
            assert_eq!(damaged(cut), 1);
        } else if len < second.start + 4 {
            let contents = read(cut).unwrap();
            assert_eq!((contents.fields.len(), contents.other_octets), (3, len - first.end));
        } else if len < second.end {
            assert_eq!(damaged(cut), second.start + 1);
        } else {
            let contents = read(cut).unwrap();
            assert_eq!((contents.fields.len(), contents.other_octets), (4, 6 + len - second.end));
        }
    }
}

#[test]
fn lengths_of_sections_that_are_wrong() {
    let small = Small::new();
    let mut accepted = 0;
    for section in &small.sections {
        let message = small.message(section.start).unwrap();
        let length = section.len() as u32;
        let near = [-5, -1, 1, 5].map(|more| length.wrapping_add_signed(more));
        let far = [length | 1 << 8, length | 1 << 16, length | 1 << 31, i32::MAX as u32, u32::MAX - 4, u32::MAX];
        let ends = small.sections.iter().map(|other| other.end.abs_diff(section.start) as u32);
        for wrong in (0..=6).chain(near).chain(far).chain(ends).filter(|&wrong| wrong != length) {
            let mut file = small.file.clone();
            put(&mut file, section.start + 1, &wrong.to_be_bytes());
            if small.may_have(section, wrong) {
                accepted += 1;
                assert!(read(&file).is_ok(), "{section:?}, {wrong}");
            } else {
                assert_eq!(damaged(&file), message.start + 1, "{section:?}, {wrong}");
            }
        }
    }
    assert!((1..100).contains(&accepted), "{accepted}");
}

/// A section that says that it has one octet, from whose second on there is another, which is whole.
#[test]
fn sections_that_overlap() {
    let whole = [vec![section1(), section2(), section3(0, 2, 2, 0)], field(1), field(2)].concat();
    for place in 0..7 {
        let (number, next) = (whole[place][4], whole[place + 1][4]);
        // Its length is 1, and that of the other 256 and its number.
        let mut both = vec![0; 1 + 256 + usize::from(number)];
        put(&mut both, 4, &[1, number, next]);
        let sections = [&whole[..place], &[both], &whole[place + 2..]].concat();
        let sentence = format!("the message at octet 1 is damaged: Section {number} says that it has 1 octets");
        assert_eq!(refused(&message(&sections)).to_string(), sentence + ", too few for one");
    }
}

#[test]
fn lengths_of_messages_that_are_wrong() {
    let Small { file, messages, .. } = Small::new();
    for message in messages {
        let length = message.len() as u64;
        let near = (1..=5).flat_map(|more| [length - more, length + more]);
        let to_the_end = (file.len() - message.start) as u64;
        let far = [to_the_end, to_the_end + 1, length | 1 << 32, 1 << 32, i64::MAX as u64, 1 << 63, u64::MAX];
        for wrong in [0].into_iter().chain(15..=20).chain(near).chain(far) {
            let mut file = file.clone();
            put(&mut file, message.start + 9, &wrong.to_be_bytes());
            assert_eq!(damaged(&file), message.start + 1, "{wrong}");
        }
    }
    // It ends with 7777, and it is two.
    let mut file = [message_of(1), message_of(2)].concat();
    let length = file.len() as u64;
    put(&mut file, 9, &length.to_be_bytes());
    assert_eq!(damaged(&file), 1);
}

/// What a message may have between its Section 1 and its end: at first, and then as often as there are fields.
const FIRST: [&[u8]; 2] = [&[2, 3, 4, 5, 6, 7], &[3, 4, 5, 6, 7]];
const AGAIN: [&[u8]; 6] =
    [&[2, 3, 4, 5, 6, 7], &[3, 4, 5, 6, 7], &[4, 5, 6, 7], &[2, 3, 4, 5, 7], &[3, 4, 5, 7], &[4, 5, 7]];

fn is_order(numbers: &[u8]) -> bool {
    fn goes_on(numbers: &[u8]) -> bool {
        numbers.is_empty() || AGAIN.iter().any(|next| numbers.strip_prefix(*next).is_some_and(goes_on))
    }
    let first = |numbers: &[u8]| FIRST.iter().any(|next| numbers.strip_prefix(*next).is_some_and(goes_on));
    numbers.strip_prefix(&[1]).is_some_and(first)
}

/// Holds a message with sections of these numbers to the orders above.
fn in_order(numbers: &[u8]) -> bool {
    let [section5, section7] = map(1);
    let sections: Vec<Vec<u8>> = numbers
        .iter()
        .map(|number| match number {
            3 => section3(0, 2, 2, 0),
            5 => section5.clone(),
            6 => section6(255),
            7 => section7.clone(),
            number => section(*number, b"said so"),
        })
        .collect();
    let file = [message(&sections), message_of(2)].concat();
    if is_order(numbers) {
        let fields = numbers.iter().filter(|&&number| number == 7).count();
        assert_eq!(read(&file).expect("sections in order").fields.len(), fields + 1, "{numbers:?}");
    } else {
        assert_eq!(damaged(&file), 1, "{numbers:?}");
    }
    is_order(numbers)
}

#[test]
fn orders_of_sections() {
    let whole = [1, 2, 3, 4, 5, 6, 7, 4, 5, 6, 7, 3, 4, 5, 7, 2, 3, 4, 5, 6, 7];
    assert!(in_order(&whole));
    let mut accepted = 0;
    let mut count = |numbers: &[u8]| accepted += usize::from(in_order(numbers));
    for place in 0..whole.len() {
        let (before, after) = whole.split_at(place);
        count(before);
        count(after);
        count(&[before, &after[..1], after].concat());
        count(&[before, &after[1..]].concat());
        for number in (0..=9).chain([71, 255]) {
            count(&[before, &[number], after].concat());
            count(&[before, &[number], &after[1..]].concat());
        }
        for other in 0..place {
            let mut exchanged = whole;
            exchanged.swap(place, other);
            count(&exchanged);
            let left_out = [&whole[..other], &whole[other + 1..place], &after[1..]].concat();
            count(&left_out);
        }
    }
    // Those that leave out what may be, or exchange two of one number.
    assert!((10..100).contains(&accepted), "{accepted}");

    // All of up to six: one field without a Section 2 is the shortest.
    let mut orders = vec![Vec::new()];
    for _ in 0..6 {
        orders = orders.iter().flat_map(|order| (1..=7).map(move |next| [&order[..], &[next]].concat())).collect();
        let accepted: Vec<_> = orders.iter().filter(|order| in_order(order)).collect();
        match orders[0].len() {
            6 => assert_eq!(accepted, [&[1, 3, 4, 5, 6, 7]]),
            _ => assert!(accepted.is_empty()),
        }
    }
}

/// Sections with too few octets for what is read of them, and messages with too few for sections.
#[test]
fn sections_that_are_too_short() {
    let whole = [vec![section1(), section2(), section3(0, 2, 2, 0)], field(1)].concat();
    for (place, least) in [5, 5, 14, 11, 11, 6, 5].into_iter().enumerate() {
        for length in 5..=14_u32 {
            let mut sections = whole.clone();
            sections[place].resize(length as usize, 0);
            put(&mut sections[place], 1, &length.to_be_bytes());
            let file = message(&sections);
            let number = place + 1;
            if length >= least {
                assert!(read(&file).is_ok(), "{number} with {length}");
                continue;
            }
            let sentence = format!("Section {number} says that it has {length} octets, too few for one");
            assert_eq!(refused(&file).to_string(), format!("the message at octet 1 is damaged: {sentence}"));
        }
    }
    for spare in 1..=4 {
        let file = message(&[whole.concat(), vec![0; spare]]);
        let sentence = format!("the message at octet 1 is damaged: {spare} octets before its end are no section");
        assert_eq!(refused(&file).to_string(), sentence);
    }
}

#[test]
fn sentences_for_damage() {
    let told = |file: &[u8]| {
        let sentence = refused(file).to_string();
        let after = sentence.strip_prefix("the message at octet 1 is damaged: ").map(str::to_string);
        after.unwrap_or(sentence)
    };
    let whole = message_of(1);
    let changed = |octet, octets: &[u8]| {
        let mut file = whole.clone();
        put(&mut file, octet, octets);
        told(&file)
    };
    assert_eq!(whole.len(), 212);
    assert_eq!(told(&whole[..12]), "it has 12 octets, too few for a message");
    assert_eq!(told(&whole[..211]), "it says that it has 212 octets, and 211 are left");
    assert_eq!(changed(9, &[0xFF; 8]), "it says that it has 18446744073709551615 octets, and 212 are left");
    assert_eq!(changed(16, &[19]), "it says that it has 19 octets, too few for a message");
    assert_eq!(changed(16, &[211]), "it does not end with 7777 after the 211 octets that it says it has");
    assert_eq!(told(&message(&[])), "it ends after Section 0");
    assert_eq!(told(&message(&[section1()])), "it ends after Section 1");
    assert_eq!(changed(21, &[7]), "Section 7 follows Section 0");
    assert_eq!(changed(17, &[1]), "Section 1 says that it has 16777237 octets, and 192 are left");
    assert_eq!(changed(8, &[3]), "its edition is 3");
    assert_eq!(told(b""), "the file is empty");
    assert_eq!(told(b"GRI"), "no GRIB2 message begins in the file");
    assert_eq!(told(&edition_1(b"said")), "the file has messages of edition 1 only, which are not read here");
}

/// An octet that says what something is or where it ends is not changed unseen. The four letters alone are: without
/// them there is no message, and its octets are counted among the others.
#[test]
fn every_octet_set_to_every_value() {
    let small = Small::new();
    let lies = |contents: &Contents, file: &[u8]| -> Vec<Option<[Range<usize>; 2]>> {
        let place = |field: &Field| Some(field.sections().ok()?.map(|lent| place_in(file, lent)));
        contents.fields.iter().map(place).collect()
    };
    let whole = lies(&read(&small.file).unwrap(), &small.file);
    let mut file = small.file.clone();
    for place in 0..file.len() {
        for octet in (0..=255).filter(|&octet| octet != small.file[place]) {
            file[place] = octet;
            let read = read(&file);
            let now = read.as_ref().map(|contents| (contents.edition_1, contents.other_octets, lies(contents, &file)));
            match (small.says(place), now) {
                (Says::Letter(message), Ok((0, others, fields))) => {
                    assert_eq!(others, 12 + message.len());
                    assert_eq!(fields, if message.start == 0 { &whole[3..] } else { &whole[..3] });
                }
                (Says::Needed(message), Err(NotGrib2::Damaged { at, .. })) => assert_eq!(*at, message.start + 1),
                (Says::Length(message, section), now) => {
                    let length = u32::from_be_bytes(file[section.start..][..4].try_into().unwrap());
                    assert_eq!(now.is_ok(), small.may_have(section, length), "{length} for {section:?}");
                    assert!(now.is_ok() || damaged(&file) == message.start + 1);
                }
                (Says::Indicator, Ok((0, 12, fields))) => {
                    let changed: Vec<_> = fields.iter().zip(&whole).filter(|(now, whole)| now != whole).collect();
                    assert!(matches!(changed[..], [(None, _)]) && fields.len() == 4);
                }
                (Says::Other, Ok((0, 12, fields))) => assert_eq!(fields, whole),
                (_, now) => panic!("octet {octet} at {place}: {now:?}"),
            }
        }
        file[place] = small.file[place];
    }
}

/// Files that chance damages, each as the sections of its messages.
fn good_files() -> Vec<Vec<Vec<Vec<u8>>>> {
    let one = |number| [vec![section1(), section3(10, 2, 2, 0x50)], field(number)].concat();
    let mut bitmap = one(3);
    bitmap[4] = section(6, &[0, 0xF0]);
    let several = [vec![section1(), section2(), section3(0, 2, 2, 0)], field(1), field(2), vec![section3(20, 4, 1, 0)]];
    let several = [several.concat(), field(3), bitmap[2..].to_vec(), field(4)[..2].to_vec(), vec![map(4)[1].clone()]];
    vec![
        vec![one(1)],
        vec![one(2)],
        vec![one(1), one(2)],
        vec![several.concat()],
        vec![bitmap, several.concat(), one(5)],
    ]
}

/// Octets from somewhere, of a file or of none.
fn some_octets(chance: &mut Numbers, files: &[Vec<u8>]) -> Vec<u8> {
    let file = &files[chance.below(files.len() as u64) as usize];
    let start = chance.below(file.len() as u64) as usize;
    let end = start + chance.below((file.len() - start) as u64 + 1) as usize;
    match chance.below(4) {
        0 => file.clone(),
        1 => file[start..end].to_vec(),
        2 => (0..chance.below(9)).map(|_| chance.any() as u8).collect(),
        _ => edition_1(&file[start..end]),
    }
}

/// A number in so many octets, from this place on: a little more or less, a bit other, none, all, or any.
fn damage_length(chance: &mut Numbers, file: &mut [u8], place: usize, octets: usize) {
    let Some(length) = file.get_mut(place..place + octets) else { return };
    let (bit, more) = (chance.below(8 * octets as u64), 1 + chance.below(12));
    let old = length.iter().fold(0_u64, |old, &octet| old << 8 | u64::from(octet));
    let new = match chance.below(6) {
        0 => old.wrapping_add(more),
        1 => old.wrapping_sub(more),
        2 => old ^ 1 << bit,
        3 => 0,
        4 => u64::MAX,
        _ => chance.any(),
    };
    length.copy_from_slice(&new.to_be_bytes()[8 - octets..]);
}

fn damage(chance: &mut Numbers, file: &mut Vec<u8>, files: &[Vec<u8>]) {
    let len = file.len() as u64;
    let place = chance.below(len + 1) as usize;
    let end = place + chance.below((file.len() - place) as u64 + 1) as usize;
    let few = place + (chance.below(12) as usize).min(file.len() - place);
    let begins: Vec<usize> = (0..file.len()).filter(|&place| file[place..].starts_with(b"GRIB")).collect();
    let begin = if begins.is_empty() { place } else { begins[chance.below(begins.len() as u64) as usize] };
    match chance.below(12) {
        0 | 1 if len > 0 => {
            for _ in 0..1 + chance.below(4) {
                file[chance.below(len) as usize] ^= 1 << chance.below(8);
            }
        }
        2 if place < file.len() => file[place] = chance.any() as u8,
        3 => file.truncate(place),
        4 => drop(file.drain(..place)),
        5 => drop(file.drain(place..few)),
        6 => drop(file.splice(place..place, some_octets(chance, files))),
        7 => damage_length(chance, file, begin + 8, 8),
        8 => damage_length(chance, file, begin + 4, 3),
        9 => {
            // The length of a section, by a walk that trusts them.
            let mut section = begin + 16;
            for _ in 0..chance.below(8) {
                let length =
                    file.get(section..section + 4).map_or(0, |length| length[2] as usize * 256 + length[3] as usize);
                section += length;
            }
            damage_length(chance, file, section, 4);
        }
        10 => {
            let over = some_octets(chance, files);
            let end = (place + over.len()).min(file.len());
            drop(file.splice(place..end, over));
        }
        _ => {
            let again = file[place..end].to_vec();
            file.extend(again);
        }
    }
}

/// The points of a field, if it is one that is unpacked.
fn unpacked(field: &Field) -> Option<Result<Vec<Point>, Refusal>> {
    let [section5, section7] = field.sections().ok()?;
    let section = Section5::from_octets(section5).ok()?;
    assert_eq!((section.declared, section.template_number()), (field.points(), field.template()));
    let payload = payload_of(section7).expect("a whole Section 7");
    let TemplateNumbers::Groups { template, differences, .. } = section.numbers else { return None };
    Some(match differences {
        None => unpack_complex(&template, section.declared, payload),
        Some(differences) => unpack_spatial(&template, &differences, section.declared, payload),
    })
}

#[test]
fn the_built_maps_have_their_points() {
    for (number, points) in [(1, [10, 11, 9, 12]), (2, [5, 6, 5, 7])] {
        let file = message_of(number);
        let field = read(&file).unwrap().fields[0];
        assert_eq!(unpacked(&field), Some(Ok(points.map(Point::Number).to_vec())));
    }
}

#[test]
fn a_hundred_thousand_files_damaged_by_chance() {
    let mut chance = Numbers::new(2_024);
    let good = good_files();
    let whole = |file: &[Vec<Vec<u8>>]| file.iter().flat_map(|sections| message(sections)).collect::<Vec<u8>>();
    let mut files: Vec<Vec<u8>> = good.iter().map(|file| whole(file)).collect();
    files.push(edition_1(&[1, 2, 3]));
    let real = sample("gfs-gust-144x73.grib2");
    // Files refused and accepted, fields with and without a bitmap, maps refused and unpacked.
    let (mut of_files, mut of_fields, mut of_maps) = ([0; 2], [0; 2], [0; 2]);
    for number in 0..100_000 {
        let mut file = good[chance.below(good.len() as u64) as usize].clone();
        let deep = number % 2 == 0;
        if deep {
            // What one section says, in a message whose lengths are right.
            let message = chance.below(file.len() as u64) as usize;
            let section = chance.below(file[message].len() as u64) as usize;
            let mut said = file[message][section].split_off(5);
            damage(&mut chance, &mut said, &files);
            file[message][section] = support::grib2::section(file[message][section][4], &said);
        }
        let mut file = if number % 1_000 == 1 { real.clone() } else { whole(&file) };
        if !deep {
            for _ in 0..1 + chance.below(3) {
                damage(&mut chance, &mut file, &files);
            }
        }
        let read = read(&file);
        of_files[usize::from(read.is_ok())] += 1;
        for field in read.iter().flat_map(|contents| &contents.fields) {
            of_fields[usize::from(field.sections().is_ok())] += 1;
            if let Some(read) = unpacked(field) {
                assert_ne!(read, Err(Refusal::Room));
                of_maps[usize::from(read.is_ok())] += 1;
            }
        }
    }
    for count in [of_files, of_fields, of_maps].concat() {
        assert!(count > 2_000, "{of_files:?} {of_fields:?} {of_maps:?}");
    }
}

/// A file of so many octets at most, and what is read of it: how many fields, or none where it is refused.
type Slow = (&'static str, fn(usize) -> (Vec<u8>, Option<usize>));

fn repeated(octets: &[u8], size: usize) -> (Vec<u8>, Option<usize>) {
    (octets.repeat(size / octets.len()), None)
}

/// The shortest sections that a message of one field has.
fn shortest() -> Vec<Vec<u8>> {
    let said = [(1, 0), (3, 9), (4, 6), (5, 6), (6, 1), (7, 0)];
    said.map(|(number, octets)| section(number, &vec![255; octets])).into()
}

const SLOW: [Slow; 14] = [
    ("zeros", |size| repeated(&[0], size)),
    ("letters", |size| repeated(b"GRIB", size)),
    ("almost letters", |size| repeated(b"GRI", size)),
    ("edition 1", |size| repeated(b"GRIB\0\0\0\x01", size)),
    ("edition 1, each up to the end", |size| {
        let mut file = repeated(b"GRIB\0\0\0\x01", size).0;
        for place in (0..size - 8).step_by(8) {
            put(&mut file, place + 5, &((size - place) as u32).to_be_bytes()[1..]);
        }
        (file, None)
    }),
    ("edition 2", |size| repeated(b"GRIB\0\0\0\x02\0\0\0\0\0\0\0\x14", size)),
    ("another edition", |size| repeated(b"GRIB\0\0\0\x03", size)),
    ("another edition, each up to the end", |size| {
        let mut file = repeated(b"GRIB\0\0\0\x03\0\0\0\0\0\0\0\0", size).0;
        for place in (0..size - 16).step_by(16) {
            put(&mut file, place + 9, &((size - place) as u64).to_be_bytes());
        }
        (file, None)
    }),
    ("sections of five octets", |size| {
        let sections: Vec<u8> =
            (0..(size as u64 - 20) / 5).flat_map(|place| [0, 0, 0, 5, 1 + (place % 7) as u8]).collect();
        (message(&[sections]), None)
    }),
    ("sections of no octets", |size| {
        let sections = [0, 0, 0, 0, 1].repeat((size - 20) / 5);
        (message(&[sections]), None)
    }),
    ("short messages", |size| {
        let message = message(&shortest());
        let messages = size / message.len();
        (message.repeat(messages), Some(messages))
    }),
    ("short messages and a damaged one", |size| {
        let message = message(&shortest());
        let mut file = message.repeat(size / message.len());
        *file.last_mut().unwrap() = 0;
        (file, None)
    }),
    ("short fields", |size| {
        let sections = shortest();
        let again = [&sections[2][..], &sections[3], &sections[5]].concat();
        let times = (size - 100) / again.len();
        (message(&[sections.concat(), again.repeat(times)]), Some(1 + times))
    }),
    ("a message in the last section of a message in the last section", |size| {
        let before = shortest()[..5].concat();
        let around = 16 + before.len() + 5 + 4;
        let depth = size / around;
        let mut file = Vec::new();
        for left in (1..=depth).rev() {
            let length = (left * around) as u64;
            file.extend([b"GRIB\0\0\0\x02", &length.to_be_bytes()[..], &before].concat());
            file.extend((length as u32 - (around - 5) as u32).to_be_bytes());
            file.push(7);
        }
        file.extend(b"7777".repeat(depth));
        (file, Some(1))
    }),
];

#[test]
fn files_that_are_made_to_be_slow() {
    // The least of some times: others may be at work at once.
    let time = |name: &str, slow: fn(usize) -> (Vec<u8>, Option<usize>), size| {
        let (file, fields) = slow(size);
        assert!((size - 128..=size).contains(&file.len()), "{name}: {}", file.len());
        let times = (0..2).map(|_| {
            let start = Instant::now();
            let read = contents(&file);
            let time = start.elapsed();
            assert_eq!(read.ok().map(|contents| contents.fields.len()), fields, "{name}");
            time
        });
        times.min().unwrap()
    };
    for (name, slow) in SLOW {
        // What is slow by far is seen before the long files.
        let short = time(name, slow, 256 << 10);
        assert!(short < Duration::from_secs(2), "{name}: {short:?}");
        let [small, large] = [2 << 20, 8 << 20].map(|size| time(name, slow, size));
        assert!(large < 16 * small + Duration::from_secs(1), "{name}: {small:?} and {large:?}");
        assert!(large < Duration::from_secs(30), "{name}: {large:?}");
    }
}
