//! What is shown of a map: `desk unpack`, `desk point`, `desk info`, and the refusals.

use crate::*;

#[test]
fn points_one_a_line() {
    for sample in [GUST, PUERTO_RICO, CONUS] {
        let name = format!("samples/{}", sample.name);
        let printed = results(&top(), &["unpack", &name]);
        let mut lines = printed.lines();
        for (place, point) in sample.points().into_iter().enumerate() {
            let expected = point.number().map_or("no forecast".into(), |number| number.to_string());
            assert_eq!(lines.next(), Some(expected.as_str()), "{name}, place {place}");
        }
        assert_eq!(lines.next(), None);
        // Either of the files names the map, and so does its message.
        for extension in ["s5", "s7", "grib2", "grib2:1"] {
            assert_eq!(results(&top(), &["unpack", &format!("{name}.{extension}")]), printed, "{extension}");
        }
    }
}

/// Document 01's cases: numbers, both kinds of missing points, and numbers that packing does not take.
#[test]
fn document_01s_cases() {
    let folder = scratch("cases");
    let write = |name: &str, section5: Vec<u8>, payload: &[u8]| write_map(&folder, name, &section5, &section7(payload));
    write("numbers", complex(4, CASE), &CASE_PAYLOAD);
    write("missing-1", complex(4, Template { missing: 1, ..CASE }), &CASE_PAYLOAD);
    write("missing-2", complex(4, Template { missing: 2, ..CASE }), &CASE_PAYLOAD);
    let one = Template { groups: 1, width_bits: 0, length_reference: 0, ..CASE };
    let great = Template { number_width: 31, width_reference: 1, last_length: 1, ..one };
    write("great", complex(1, great), &[0xFF, 0xFF, 0xFF, 0xFE, 0x80]);
    let restored = Template { number_width: 0, width_reference: 3, last_length: 4, ..one };
    write("restored", with_differences(complex(4, restored), 1, 1), &[0x0A, 0x82, 0x0C, 0x50]);
    // The same with first value 1: 1 2 0 3, and with first value 0: 0 1 -1 2.
    write("from-0", with_differences(complex(4, restored), 1, 1), &[0x01, 0x82, 0x0C, 0x50]);
    write("negative", with_differences(complex(4, restored), 1, 1), &[0x00, 0x82, 0x0C, 0x50]);
    let empty = Template { number_width: 0, last_length: 0, ..one };
    write("empty", complex(0, empty), &[]);
    write("zeros", complex(3, Template { last_length: 3, ..empty }), &[]);
    write("all-missing", complex(3, Template { last_length: 3, missing: 1, ..empty }), &[]);

    for (name, lines, marks) in [
        ("numbers", "5 6 5 7", "0000"),
        ("missing-1", "5 no_forecast 5 no_forecast", "0101"),
        ("missing-2", "no_forecast no_forecast no_forecast no_forecast", "2121"),
        ("great", "2147483648", "0"),
        ("restored", "10 11 9 12", "0000"),
        ("from-0", "1 2 0 3", "0000"),
        ("negative", "0 1 -1 2", "0000"),
        ("empty", "", ""),
        ("zeros", "0 0 0", "000"),
        ("all-missing", "no_forecast no_forecast no_forecast", "111"),
    ] {
        let numbers: Vec<String> = lines.split_whitespace().map(|word| word.replace('_', " ")).collect();
        let print = |line: &dyn Fn(usize, &str, char) -> String| -> String {
            numbers.iter().zip(marks.chars()).enumerate().map(|(place, (word, mark))| line(place, word, mark)).collect()
        };
        assert_eq!(results(&folder, &["unpack", name]), print(&|_, word, _| format!("{word}\n")), "{name}");
        let marked = print(&|_, word, mark| format!("{mark} {word}\n"));
        assert_eq!(results(&folder, &["unpack", name, "--marks"]), marked, "{name}");
        // Missing points by another word, which is no number of the map.
        let other = print(&|_, word, _| format!("{}\n", word.replace("no forecast", "NaN")));
        assert_eq!(results(&folder, &["unpack", "--missing", "NaN", name]), other, "{name}");
        if numbers.is_empty() {
            continue;
        }
        let line = format!("unpack {name} --csv --columns 1 --rows {} --missing=none", numbers.len());
        let table =
            print(&|place, word, mark| format!("{},1,{mark},{}\n", place + 1, word.replace("no forecast", "none")));
        assert_eq!(results(&folder, &words(&line)), format!("row,column,mark,number\n{table}"), "{name}");
    }

    let point = |name: &str, columns: &str, rows: &str, column: &str, row: &str| {
        let line = format!("point {name} --columns {columns} --rows {rows} --column {column} --row {row}");
        let printed = unwrapped(&results(&folder, &words(&format!("{line} --group"))));
        // Unless it is asked for, the group is left out, and nothing else.
        let others: String = printed.split_inclusive('\n').filter(|line| !line.starts_with("group ")).collect();
        assert_eq!(unwrapped(&results(&folder, &words(&line))), others, "{line}");
        let (pair, rest) = (after(&printed, "pair"), printed.split("grid ").next().unwrap().to_string());
        assert!(pair.starts_with("not checked: whether Section 5 and Section 7 belong together; "), "{pair}");
        let grid = typed(columns.parse().unwrap(), rows.parse().unwrap());
        assert_eq!(after(&printed, "grid"), format!("{grid}, as typed"));
        format!("{rest}{}", after(&printed, "group"))
    };
    let read = |number: &str, mark: u8, place: &str, group: &str| {
        format!("number    {number}\nmark      {mark}\nscale     {SCALE}\nplace     {place}\n{group}")
    };
    let first = "1 of 2: points 1 to 3, reference 5, width 1";
    let last = "2 of 2: point 4, reference 7, width 0";
    assert_eq!(point("numbers", "2", "2", "2", "1"), read("6", 0, "row 1, column 2: point 2 of 4", first));
    assert_eq!(point("numbers", "1", "4", "1", "3"), read("5", 0, "row 3, column 1: point 3 of 4", first));
    assert_eq!(point("numbers", "4", "1", "4", "1"), read("7", 0, "row 1, column 4: point 4 of 4", last));
    let only = "1 of 1: points 1 to 4, reference 0, width 3, of differences";
    for (name, column, number, mark, group) in [
        ("missing-1", "1", "5", 0, first),
        ("missing-1", "2", "no forecast", 1, first),
        ("missing-2", "1", "no forecast", 2, first),
        ("missing-2", "2", "no forecast", 1, first),
        ("restored", "4", "12", 0, only),
        ("negative", "3", "-1", 0, only),
    ] {
        let place = format!("row 1, column {column}: point {column} of 4");
        assert_eq!(point(name, "4", "1", column, "1"), read(number, mark, &place, group), "{name}");
    }

    // "It never passes a missing point's 0 on as wind", nor a number that packing does not take.
    let pack = |name: &str, columns: &str, cut: &str| {
        let ran =
            desk(&folder, &["pack", name, "--columns", columns, "--rows", "1", "--cut-columns", cut, "--to", "cut"]);
        for section in ["s5", "s7"] {
            let file = folder.join(format!("cut.{section}"));
            assert_eq!(fs::remove_file(&file).is_ok(), ran.status == Some(0), "{name}, {cut}: {ran:?}");
        }
        (ran.status.unwrap(), ran.err)
    };
    let not_packed = |status: i32, column: usize, columns: usize, why: &str| {
        let place = format!("row 1, column {column} of a map of {}", typed(columns, 1));
        (status, format!("desk: {place}, has {why}: the cut-out is not packed\n"))
    };
    let gap = |column, columns| not_packed(NO_FORECAST, column, columns, "no forecast, and so no number to pack");
    let packed = (0, String::new());
    assert_eq!(pack("missing-1", "4", "1-4"), gap(2, 4));
    assert_eq!(pack("missing-1", "4", "2-2"), gap(2, 4));
    assert_eq!(pack("missing-1", "4", "3-4"), gap(4, 4));
    assert_eq!(pack("missing-1", "4", "1-1"), packed);
    assert_eq!(pack("missing-2", "4", "1-1"), gap(1, 4));
    assert_eq!(pack("all-missing", "3", "3-3"), gap(3, 3));
    assert_eq!(pack("zeros", "3", "1-3"), packed);
    let no_number = |column, columns, number: &str| {
        not_packed(NO_NUMBER, column, columns, &format!("number {number}, which is not 0 to 2,147,483,647"))
    };
    assert_eq!(pack("negative", "4", "1-4"), no_number(3, 4, "-1"));
    assert_eq!(pack("negative", "4", "1-2"), packed);
    assert_eq!(pack("from-0", "4", "1-4"), packed);
    assert_eq!(pack("great", "1", "1-1"), no_number(1, 1, "2147483648"));
    let greatest = Template { number_width: 31, width_reference: 0, ..great };
    write("greatest", complex(1, greatest), &[0xFF, 0xFF, 0xFF, 0xFE]);
    assert_eq!(pack("greatest", "1", "1-1"), packed);

    // A map of no points has no grid: there is nothing to read and nothing to pack.
    assert!(told(&folder, &words("point empty --columns 1 --rows 1 --column 1 --row 1"), HOST).contains("has 0 points"));
    assert!(results(&folder, &["info", "empty"]).contains("\nnumbers   none\n"));
}

/// Rows and columns of a table are those of the grid, whose rows may go by turns; and the grid is named.
#[test]
fn a_table_of_points() {
    let folder = scratch("table");
    write_case(&folder);
    for (words, alternate, lines) in [
        ("--alternate", "alternate", "1,1,0,5\n1,2,0,6\n2,2,0,5\n2,1,0,7\n"),
        ("--missing=none", "not alternate", "1,1,0,5\n1,2,0,6\n2,1,0,5\n2,2,0,7\n"),
    ] {
        let ran = desk(&folder, &["unpack", "map", "--csv", words, "--columns", "2", "--rows", "2"]);
        assert_eq!((ran.status, ran.out), (Some(0), format!("row,column,mark,number\n{lines}")));
        let grid = format!("desk: note: 2 columns x 2 rows, {alternate}, as typed\n");
        assert!(ran.notes.contains(&grid), "{:?}", ran.notes);
    }
    let sentence = told(&folder, &["unpack", "map", "--csv"], HOST);
    assert_eq!(sentence, "--columns is missing: map does not say its grid");

    let printed = results(&top(), &["unpack", "--csv", "samples/ndfd-puerto-rico-339x224.grib2"]);
    let rows = PUERTO_RICO.rows();
    let mut seen = 0;
    for line in printed.lines().skip(1) {
        let parts: Vec<&str> = line.split(',').collect();
        let [row, column, mark] = [0, 1, 2].map(|part| parts[part].parse::<usize>().unwrap());
        let point = rows[row - 1][column - 1];
        assert_eq!(usize::from(point.mark()), mark, "{line}");
        assert_eq!(point.number().map_or("no forecast".into(), |number| number.to_string()), parts[3], "{line}");
        seen += 1;
    }
    assert_eq!(seen, 339 * 224);
}

/// No word for a missing point can be taken for a number, for calm, or for more than one field of a table.
#[test]
fn words_for_missing_points() {
    let folder = scratch("missing");
    write_map(&folder, "map", &complex(4, Template { missing: 1, ..CASE }), &section7(&CASE_PAYLOAD));
    for word in ["NaN", "nan", "NA", "n/a", "null", "none", "nodata", "missing", "no forecast"] {
        let printed = results(&folder, &["unpack", "map", "--missing", word]);
        assert_eq!(printed, format!("5\n{word}\n5\n{word}\n"));
    }
    for word in
        ["", " ", "-", "0", "-1", "1e5", "0x10", "inf", "O", "OO", "x", "zero", "calm", "true", "no,ne", " none"]
    {
        let sentence = told(&folder, &["unpack", "map", &format!("--missing={word}")], HOST);
        let allowed = "NaN, NA, N/A, null, none, nodata, missing, no forecast";
        assert!(sentence.starts_with(&format!("--missing {word} is none of {allowed}; ")), "{sentence}");
    }
}

#[test]
fn what_a_map_has() {
    let folder = scratch("info");
    let expected = |name: &str| {
        format!(
            "map       {name}, template 5.2, 55 octets\n\
             template  5.2; splitting method 1; number width 3; width reference 0, bits 1; length reference 3, \
             increment 0, last 1, bits 0\n\
             scale     {SCALE}\npair      not checked: whether Section 5 and Section 7 belong together; --lookahead K \
             checks it for a cut-out that the desk packed with lookahead K\n\
             points    4\nmissing   management 2; missing 1: 2 points; missing 2: 2 points\nnumbers   none\n\
             groups    2; widths 0 to 1; lengths 1 to 3; references 5 to 7\n"
        )
    };
    write_map(&folder, "map", &complex(4, Template { missing: 2, ..CASE }), &section7(&CASE_PAYLOAD));
    assert_eq!(unwrapped(&results(&folder, &["info", "map"])), expected("map"));
    let groups = "       1  points 1 to 3, reference 5, width 1\n       2  point 4, reference 7, width 0\n";
    assert_eq!(unwrapped(&results(&folder, &["info", "map.s7", "--groups"])), expected("map") + groups);

    let printed = unwrapped(&results(&top(), &["info", "samples/ndfd-conus-1073x689.grib2"]));
    assert_eq!(plain(after(&printed, "grid")), CONUS.grid(true));
    assert_eq!(after(&printed, "points"), "739,297");
    assert_eq!(after(&printed, "missing"), "management 1; missing 1: 371,039 points; missing 2: 0 points");
    assert_eq!(after(&printed, "numbers"), "least 0, greatest 439");
    let groups = "22,011; widths 0 to 9; lengths 1 to 256; references 0 to 511";
    assert_eq!(after(&printed, "groups"), groups);
    let printed = unwrapped(&results(&top(), &["info", "samples/ndfd-puerto-rico-339x224"]));
    assert!(after(&printed, "template").starts_with("5.3, order 2, 1 octet a descriptor; "), "{printed}");
    assert_eq!(after(&printed, "groups").split(';').next(), Some("514"));
}

/// Each refusal of unpacking, by the number of its row, with what was found there.
#[test]
fn refusals_are_the_exit_status() {
    let folder = scratch("refusals");
    let spatial = |order, octets| with_differences(complex(4, Template { number_width: 0, ..CASE }), order, octets);
    let wide = Template { width_reference: 32, ..CASE };
    let long = Template { length_reference: u32::MAX, length_increment: 1, length_bits: 1, ..CASE };
    // Under second order each number adds 2^31 - 1 to the step, so that the steps of a great map pass all bounds.
    let beyond_template =
        Template { number_width: 0, groups: 1, width_bits: 0, length_reference: 0, last_length: 4_194_304, ..CASE };
    let beyond = with_differences(complex(4_194_304, beyond_template), 2, 4);
    let beyond_payload = [0, 0, 0, 0, 0, 0, 0, 0, 0x7F, 0xFF, 0xFF, 0xFF];
    for (number, section5, payload, found) in [
        (1, complex(4, Template { splitting: 0, ..CASE }), &CASE_PAYLOAD[..], "splitting method is 0"),
        (2, complex(4, Template { missing: 3, ..CASE }), &CASE_PAYLOAD, "missing management is 3"),
        (3, spatial(3, 1), &CASE_PAYLOAD, "order is 3"),
        (4, spatial(1, 5), &CASE_PAYLOAD, "descriptor octets are 5"),
        (
            5,
            complex(4, Template { number_width: 32, ..CASE }),
            &CASE_PAYLOAD,
            "number width is 32, width bits are 1, length bits are 0",
        ),
        (6, complex(4, Template { groups: 0, ..CASE }), &CASE_PAYLOAD, "group count is 0"),
        (6, complex(4, Template { groups: u32::MAX, ..CASE }), &CASE_PAYLOAD, "group count is 4,294,967,295"),
        (7, complex(4, CASE), &CASE_PAYLOAD[..2], "the payload has 2 octets"),
        (7, complex(4, CASE), &[], "the payload has 0 octets"),
        (8, complex(4, wide), &CASE_PAYLOAD, "group 1 has width 33 and length 3"),
        (8, complex(4, long), &[0, 0, 0x80, 0], "group 1 has width 0 and length 4,294,967,296"),
        (9, complex(5, CASE), &CASE_PAYLOAD, "the groups have 4 points, and 5 are declared"),
        (9, complex(u32::MAX, CASE), &CASE_PAYLOAD, "the groups have 4 points, and 4,294,967,295 are declared"),
        (12, beyond, &beyond_payload, ""),
    ] {
        write_map(&folder, "map", &section5, &section7(payload));
        for line in [
            "unpack map",
            "unpack map --lookahead 4",
            "info map",
            "check map --lookahead 4",
            "pack map --columns 4 --rows 1 --to cut",
            "point map --columns 4 --rows 1 --column 1 --row 1",
            "point map --columns 4 --rows 1 --column 1 --row 1 --group --lookahead 4",
            // The map is judged before its grid.
            "point map --column 1 --row 1",
            "point map --columns 3 --rows 3 --column 9 --row 9",
        ] {
            let sentence = told(&folder, &words(line), number);
            assert!(sentence.starts_with(&format!("map: refusal {number}: ")), "{sentence}");
            let ended =
                if found.is_empty() { !sentence.ends_with(')') } else { sentence.ends_with(&format!(" ({found})")) };
            assert!(ended, "{sentence}");
            assert_eq!(names_in(&folder), ["map.s5", "map.s7"]);
        }
    }
    // Packing's own, which the words show before a file is read.
    write_case(&folder);
    for lookahead in [0, 65_536, u32::MAX] {
        for line in [
            format!("pack map --columns 4 --rows 1 --lookahead {lookahead} --to cut"),
            format!("point map --columns 4 --rows 1 --column 1 --row 1 --lookahead {lookahead}"),
            format!("unpack map --lookahead {lookahead}"),
            format!("check none --lookahead {lookahead}"),
        ] {
            let sentence = told(&folder, &words(&line), 13);
            assert!(sentence.starts_with(&format!("--lookahead {lookahead}: refusal 13: ")), "{sentence}");
            assert_eq!(names_in(&folder), ["map.s5", "map.s7"]);
        }
    }
}
