//! Maps from GRIB2 files: `desk list`, `desk split`, and FILE or FILE:N in the place of a map.

use crate::support::grib2::{
    edition_1, field, map, message, message_of, put, section, section1, section3, section4, section6,
};
use crate::*;

/// A message with these grid and field sections.
fn of(section3: Vec<u8>, field: Vec<Vec<u8>>) -> Vec<u8> {
    message(&[vec![section1(), section3], field].concat())
}

/// The field of the map of this number with another Section 5 or Section 6.
fn with_section5(number: u8, change: impl FnOnce(&mut Vec<u8>)) -> Vec<Vec<u8>> {
    let [mut section5, section7] = map(number);
    change(&mut section5);
    vec![section4(), section5, section6(255), section7]
}

fn with_bitmap(number: u8, indicator: u8) -> Vec<Vec<u8>> {
    let [section5, section7] = map(number);
    vec![section4(), section5, section6(indicator), section7]
}

fn write(folder: &Path, name: &str, octets: &[u8]) {
    fs::write(folder.join(name), octets).unwrap();
}

/// The sections of the three messages are those that stand beside them, and what is read of one is read of the other.
#[test]
fn the_three_messages() {
    let folder = scratch("messages");
    let temperature = "category 0, parameter 4";
    for (sample, parameter, template, grid) in [
        (GUST, "category 2, parameter 22", "5.3", "3.0"),
        (PUERTO_RICO, temperature, "5.3", "3.10"),
        (CONUS, temperature, "5.2", "3.30"),
    ] {
        let file = sample.file("grib2").display().to_string();
        let points = sample.columns * sample.rows;
        let scanning = if sample.alternate { "0x50" } else { "0x00" };
        let listed = format!(
            "{file}: 1 field\n     1  message 1 at octet 1: discipline 0, {parameter}; template {template}, {points} points; \
             {} columns x {} rows (grid template {grid}), scanning mode {scanning}\n",
            sample.columns, sample.rows
        );
        let printed = plain(&results(&folder, &["list", &file])).replace("\n        ", " ");
        assert_eq!(printed, listed);

        let printed = unwrapped(&results(&folder, &["split", &file, "--to", sample.name]));
        assert_eq!(after(&printed, "written"), format!("{0}.s5 and {0}.s7", sample.name));
        assert_eq!(plain(after(&printed, "grid")), format!("{}; the two sections do not say it", sample.grid(true)));
        for section in ["s5", "s7"] {
            let written = fs::read(folder.join(format!("{}.{section}", sample.name))).unwrap();
            assert_eq!(written, fs::read(sample.file(section)).unwrap());
        }
    }
}

/// Several fields, edition 1, and octets that belong to no message.
#[test]
fn fields_of_a_file() {
    let folder = scratch("fields");
    let two = message(&[vec![section1(), section3(0, 2, 2, 0)], field(2), field(3)].concat());
    let heading = [b'h'; 80];
    let file = [&heading[..], &message_of(0), &edition_1(b"old"), &heading, &two, b"\n"].concat();
    write(&folder, "all.grib2", &file);
    let at = 81 + message_of(0).len() + edition_1(b"old").len() + 80;
    let grid = "4 points; 2 columns x 2 rows (grid template 3.0), scanning mode 0x00";
    let zero = "discipline 0, category 0, parameter 0";
    let listed = format!(
        "all.grib2: 3 fields\n     1  message 1 at octet 81: {zero}; template 5.2, {grid}\n     2  message 2 at octet {at}: \
         {zero}; template 5.2, {grid}\n     3  message 2 at octet {at}: {zero}; template 5.3, {grid}\n1 message of edition 1 \
         besides, not read here\n161 octets that belong to no message\n"
    );
    assert_eq!(results(&folder, &["list", "all.grib2"]).replace("\n        ", " "), listed);

    for (which, points) in [(1, "5\n6\n5\n7\n"), (2, "5\n6\n5\n7\n"), (3, "10\n11\n9\n12\n")] {
        let name = format!("all.grib2:{which}");
        assert_eq!(results(&folder, &["unpack", &name]), points);
        let printed = results(&folder, &["point", &name, "--column", "2", "--row", "2"]);
        assert_eq!(after(&printed, "number"), points.trim_end().rsplit('\n').next().unwrap());
        // Octets of no message may be one whose letters are lost: whoever reads a field is told of them.
        let message = if which == 1 { "1 at octet 81".into() } else { format!("2 at octet {at}") };
        let place = format!("{name}, message {message}, 161 octets of no message in the file, template 5.");
        assert!(after(&unwrapped(&printed), "map").starts_with(&place), "{printed}");
        assert!(desk(&folder, &["unpack", &name]).notes[0].starts_with(&format!("desk: note: {place}")));
        results(&folder, &["split", &name, "--to", &format!("part-{which}")]);
    }
    // The reference values say which map it is.
    assert_eq!(fs::read(folder.join("part-2.s5")).unwrap(), map(2)[0]);
    assert_eq!(fs::read(folder.join("part-3.s7")).unwrap(), map(3)[1]);

    // Of several one must be named.
    for line in ["unpack all.grib2", "info all.grib2", "split all.grib2 --to cut", "pack all.grib2 --to cut"] {
        let sentence = told(&folder, &words(line), HOST);
        assert_eq!(sentence, "all.grib2 has 3 fields: all.grib2:1 is the first of them, and desk list shows all");
    }
    for which in ["0", "4", "18446744073709551615"] {
        let sentence = told(&folder, &["unpack", &format!("all.grib2:{which}")], HOST);
        assert!(
            sentence.starts_with("all.grib2 has no field ") && sentence.ends_with(": it has 3 fields"),
            "{sentence}"
        );
    }
    for name in ["", "x", "-1", "+1", "1:1", "18446744073709551616"] {
        assert!(
            told(&folder, &["unpack", &format!("all.grib2:{name}")], HOST).starts_with("there is no map all.grib2:")
        );
    }
    // A file may have such a name by itself, and where both are there neither is read.
    write(&folder, "odd:2", &message_of(0));
    assert_eq!(results(&folder, &["unpack", "odd:2"]), "5\n6\n5\n7\n");
    assert_eq!(results(&folder, &["unpack", "odd:2:1"]), "5\n6\n5\n7\n");
    write(&folder, "odd", &file);
    assert!(told(&folder, &["unpack", "odd:2"], HOST).starts_with("odd:2 could be more than one of these: "));
    assert_eq!(results(&folder, &["unpack", "odd:3"]), "10\n11\n9\n12\n");
}

/// A name that could be a file or two sections is not guessed at.
#[test]
fn names_of_two_things() {
    let folder = scratch("two-things");
    write_case(&folder);
    write(&folder, "map", &message_of(1));
    let sentence = told(&folder, &["unpack", "map"], HOST);
    assert!(sentence.starts_with("map could be more than one of these: a GRIB2 file, "), "{sentence}");
    assert_eq!(results(&folder, &["unpack", "map.s5"]), "5\n6\n5\n7\n");
    assert_eq!(results(&folder, &["unpack", "map:1"]), "10\n11\n9\n12\n");
    // What is split is named by itself, and is no field of a file any more.
    assert_eq!(told(&folder, &words("split map.s5 --to cut"), HOST), "map is two sections already");
    // So nothing is written that could not be told apart from a file.
    let sentence = "map is a file, from which two sections of its name could not be told apart";
    assert_eq!(told(&folder, &words("split map:1 --to map"), HOST), sentence);
    assert_eq!(names_in(&folder), ["map", "map.s5", "map.s7"]);
}

/// The grid is the file's, and words may say it again but not otherwise.
#[test]
fn grids_of_files() {
    let folder = scratch("grids");
    for scanning in [0x00, 0x10, 0x40, 0x50] {
        let (alternate, up) = (scanning & 0x10 != 0, scanning & 0x40 != 0);
        write(&folder, "map.grib2", &of(section3(10, 2, 2, scanning), field(1)));
        let number = if alternate { "12" } else { "9" };
        let (name, rows) = ("map.grib2", if up { "upward" } else { "downward" });
        let size = format!("2 columns x 2 rows, {}", if alternate { "alternate" } else { "not alternate" });
        let grid = format!("{size}, as the file says (scanning mode {scanning:#04x}: rows go {rows})");
        for line in ["", " --columns 2", " --rows 2", " --columns 2 --rows=2"] {
            let line = format!("point {name} --column 1 --row 2{line}");
            let printed = unwrapped(&results(&folder, &words(&line)));
            assert_eq!((after(&printed, "number"), after(&printed, "grid")), (number, grid.as_str()), "{line}");
        }
        let other = |option: &str| format!("{option} is not what {name} says: its grid is {size}");
        for (option, said) in [("--columns 4 --rows 1", "--columns 4"), ("--rows 1", "--rows 1")] {
            for line in [format!("point {name} --column 1 --row 1 {option}"), format!("pack {name} --to cut {option}")]
            {
                assert_eq!(told(&folder, &words(&line), HOST), other(said));
            }
        }
        let line = words("unpack map.grib2 --csv --alternate");
        match alternate {
            true => assert!(results(&folder, &line).contains("\n2,1,0,12\n")),
            false => assert_eq!(told(&folder, &line, HOST), other("--alternate")),
        }
    }
}

/// A grid that is not read is none, and words do not make up for it: the file may say otherwise.
#[test]
fn grids_that_are_not_read() {
    let folder = scratch("no-grids");
    let section = |change: &dyn Fn(&mut Vec<u8>)| {
        let mut section = section3(0, 2, 2, 0);
        change(&mut section);
        section
    };
    for (grid, why) in [
        (
            section(&|grid| put(grid, 13, &[0, 40])),
            "the grid is of template 3.40, whose columns and rows are not read here",
        ),
        (section(&|grid| put(grid, 6, &[255])), "Section 3 does not define the grid: its octet 6 is 255"),
        (section3(0, 2, 2, 0x80), "the scanning mode is 0x80 (rows begin at the last column), which is not read here"),
        (section3(30, 2, 2, 0x70), "the scanning mode is 0x70 (points go column by column), which is not read here"),
        (section(&|grid| put(grid, 31, &[255; 4])), "the rows or columns of the grid are not all of one length"),
        (section3(20, 4, 2, 0), "the grid is 4 x 2, which is 8 points, and Section 5 says 4"),
    ] {
        write(&folder, "map.grib2", &of(grid, field(0)));
        assert!(results(&folder, &["list", "map.grib2"]).replace("\n        ", " ").contains(why), "{why}");
        assert!(unwrapped(&results(&folder, &["info", "map.grib2"])).contains(why), "{why}");
        // Points in their order need no grid, and why there is none is said.
        let ran = desk(&folder, &["unpack", "map.grib2"]);
        assert_eq!((ran.status, ran.out.as_str()), (Some(0), "5\n6\n5\n7\n"));
        assert_eq!(ran.notes[2], format!("desk: note: points in the order of the file: map.grib2: {why}\n"));
        let point = "point map.grib2 --column 2 --row 1";
        let typed = format!("{point} --columns 2 --rows 2");
        for line in [point, &typed, "unpack map.grib2 --csv", "pack map.grib2 --to cut"] {
            assert_eq!(told(&folder, &words(line), HOST), format!("map.grib2: {why}"));
        }
        let printed = unwrapped(&results(&folder, &words("split map.grib2 --to two")));
        let warned = format!("{why}: the two sections must not be read by row and column");
        assert_eq!(after(&printed, "grid"), warned);
        ["two.s5", "two.s7"].iter().for_each(|file| fs::remove_file(folder.join(file)).unwrap());
    }
    assert_eq!(names_in(&folder), ["map.grib2"]);
}

/// A bitmap's points are no places of the grid: such a field is listed, and nothing of it is shown or written.
#[test]
fn fields_with_a_bitmap() {
    let folder = scratch("bitmaps");
    for indicator in [0, 1, 253, 254] {
        write(&folder, "map.grib2", &of(section3(0, 2, 2, 0), with_bitmap(0, indicator)));
        let why = format!(
            "the field has a bitmap (octet 6 of Section 6 is {indicator}), so its points are no places of the grid"
        );
        let listed = results(&folder, &["list", "map.grib2"]).replace("\n        ", " ");
        assert!(listed.contains(&format!("; not read: {why}")), "{listed}");
        for line in [
            "unpack map.grib2",
            "info map.grib2",
            "check map.grib2 --lookahead 4",
            "point map.grib2:1 --column 1 --row 1",
            "pack map.grib2 --to cut",
            "split map.grib2 --to cut",
        ] {
            assert_eq!(told(&folder, &words(line), HOST), format!("map.grib2: {why}"), "{line}");
        }
    }
    assert_eq!(names_in(&folder), ["map.grib2"]);
}

/// Templates that are not read are named. Levels are shown by themselves alone, and can be split off.
#[test]
fn fields_of_other_templates() {
    let folder = scratch("templates");
    for template in [0, 1, 40, 41, 42, 201] {
        let other = with_section5(0, |section5| put(section5, 10, &u16::to_be_bytes(template)));
        write(&folder, "map.grib2", &of(section3(0, 2, 2, 0), other));
        let why = format!("Section 5 is of template 5.{template}, whose numbers are not read here");
        let listed = results(&folder, &["list", "map.grib2"]).replace("\n        ", " ");
        assert!(listed.contains(&format!("template 5.{template}, 4 points")) && listed.contains(&why), "{listed}");
        for line in ["unpack map.grib2", "pack map.grib2 --to cut", "split map.grib2 --to cut"] {
            assert_eq!(told(&folder, &words(line), NO_SECTION5), no_section5("map.grib2", &why), "{line}");
        }
    }
    let levels = section(5, &[0, 0, 0, 10, 0, 200, 4, 0, 9, 0, 0, 0]);
    let runs = vec![section4(), levels.clone(), section6(255), section7(&[0x3C, 0xB5])];
    write(&folder, "map.grib2", &of(section3(0, 5, 2, 0), runs));
    let why =
        "Section 5 is of template 5.200: what its levels stand for is not read here, and desk levels alone shows them";
    assert_eq!(told(&folder, &["unpack", "map.grib2"], NO_SECTION5), no_section5("map.grib2", why));
    assert!(results(&folder, &["list", "map.grib2"])
        .replace("\n        ", " ")
        .contains("; desk levels shows its levels\n"));
    assert_eq!(names_in(&folder), ["map.grib2"]);
    let shown = results(&folder, &["levels", "map.grib2"]);
    assert!(shown.starts_with("# levels, not gusts: bits 4, greatest level 9, points 10\n"), "{shown}");
    results(&folder, &words("split map.grib2 --to levels"));
    assert_eq!(results(&folder, &["levels", "levels"]), shown);
    assert_eq!(fs::read(folder.join("levels.s5")).unwrap(), levels);
    assert_eq!(fs::read(folder.join("levels.s7")).unwrap(), section7(&[0x3C, 0xB5]));
}

/// Files that are no GRIB2, or not whole, get one sentence.
#[test]
fn files_that_are_not_whole() {
    let folder = scratch("not-whole");
    let whole = message_of(0);
    let longer = [&whole[..8], &(whole.len() as u64 + 1).to_be_bytes(), &whole[16..], b"?"].concat();
    let mut endless = whole.clone();
    put(&mut endless, 17, &[0; 4]);
    let length = whole.len();
    for (octets, why) in [
        (vec![], "the file is empty".to_string()),
        (b"5\n6\n5\n7\n".to_vec(), "no GRIB2 message begins in the file".into()),
        (edition_1(b"old"), "the file has messages of edition 1 only, which are not read here".into()),
        (
            whole[..length - 1].to_vec(),
            format!(
                "the message at octet 1 is damaged: it says that it has {length} octets, and {} are left",
                length - 1
            ),
        ),
        (
            longer,
            format!(
                "the message at octet 1 is damaged: it does not end with 7777 after the {} octets that it says it has",
                length + 1
            ),
        ),
        (endless, "the message at octet 1 is damaged: Section 1 says that it has 0 octets, too few for one".into()),
        (
            [&whole[..], &whole[..50]].concat(),
            format!(
                "the message at octet {} is damaged: it says that it has {length} octets, and 50 are left",
                length + 1
            ),
        ),
    ] {
        write(&folder, "map.grib2", &octets);
        for line in ["list map.grib2", "unpack map.grib2", "unpack map.grib2:1", "split map.grib2 --to cut"] {
            assert_eq!(told(&folder, &words(line), HOST), format!("map.grib2: {why}"), "{line}");
        }
    }
    assert_eq!(names_in(&folder), ["map.grib2"]);
}
