//! From a map to the site: `desk pack`, and `desk point` on what it wrote.

use crate::*;
use cleatmow::{pack, Group, TemplateNumbers};

/// The group of a point, and which it is, as a person reads it. The reference of a packed group is its least number.
pub fn shown_group(groups: &[Group], index: usize) -> String {
    let which = groups.iter().rposition(|group| group.start as usize <= index).unwrap();
    let Group { start, length, least, width } = groups[which];
    assert!(index < (start + length) as usize);
    let points = match length {
        1 => format!("point {}", start + 1),
        _ => format!("points {} to {}", start + 1, start + length),
    };
    format!("{} of {}: {points}, reference {least}, width {width}", which + 1, groups.len())
}

const NOT_CHECKED: &str =
    "whether Section 5 and Section 7 belong together; --lookahead K checks it for a cut-out that \
                           the desk packed with lookahead K";

const CHECKED: &str = "checked: packed again with lookahead ";

/// Two files that hold the cut-out and nothing else, from the two sections of a map as from its message.
#[test]
fn a_cut_out_on_site() {
    let folder = scratch("site");
    let gust = [[1, 73, 1, 144], [15, 30, 93, 124], [73, 73, 144, 144], [1, 1, 1, 144], [1, 73, 1, 1], [2, 3, 5, 9]];
    let puerto_rico = [[86, 149, 64, 191], [224, 224, 339, 339], [2, 4, 2, 339], [3, 3, 2, 5]];
    let conus = [[253, 573, 115, 705]];
    let cuts = gust.map(|cut| (&GUST, cut)).into_iter().chain(puerto_rico.map(|cut| (&PUERTO_RICO, cut)));
    for (place, (sample, cut)) in cuts.chain(conus.map(|cut| (&CONUS, cut))).enumerate() {
        let [top, bottom, left, right] = cut;
        let (columns, rows) = (right - left + 1, bottom - top + 1);
        let points = cut_out(&sample.rows(), cut);
        let lookahead = [4, 1, 64][place % 3];
        let packing = pack(&numbers(&points), lookahead).unwrap();
        let octets = 52 + packing.payload.len();
        let groups = packing.groups.len();
        let spans = |what: &str, first: usize, last: usize| match first == last {
            true => format!("{what} {first}"),
            false => format!("{what}s {first} to {last}"),
        };
        let sections = sample.words();
        let message = sample.file("grib2").display().to_string();
        for (from, map) in [(sections.as_str(), sections.split(' ').next().unwrap()), (&message, message.as_str())] {
            let name = format!("cut-{place}{}", if from == message { "-message" } else { "" });
            let line = format!(
                "pack {from} --cut-rows {top}-{bottom} --cut-columns {left}-{right} --lookahead {lookahead} --to {name}"
            );
            let printed = plain(&unwrapped(&results(&folder, &words(&line))));
            let (place, pair) = match from == message {
                true => (", message 1 at octet 1", "both sections stand in one message"),
                false => ("", NOT_CHECKED),
            };
            let template = if sample.name == CONUS.name { "5.2" } else { "5.3" };
            let expected = format!(
                "map       {map}{place}, template {template}, {} octets\ngrid      {}\npair      not checked: {pair}\n\
                 cut-out   {}, {}: {}, {}\npacked    {}, lookahead {lookahead}, {octets} octets\n\
                 written   {name}.s5 and {name}.s7\n\
                 on site   read with --columns {columns} --rows {rows} --lookahead {lookahead}\n",
                sample.octets(),
                sample.grid(from == message),
                spans("row", top, bottom),
                spans("column", left, right),
                typed(columns, rows),
                many(columns * rows, "point"),
                many(groups, "group"),
            );
            assert_eq!(printed, expected);

            // The files: the packing, and of Section 5 what the map says of physical values.
            let file = |section: &str| folder.join(format!("{name}.{section}"));
            let section5 = fs::read(file("s5")).unwrap();
            let map_section5 = Section5::from_octets(&fs::read(sample.file("s5")).unwrap()).unwrap();
            let TemplateNumbers::Groups { physical, .. } = map_section5.numbers else { panic!("{map_section5:?}") };
            assert_eq!(section5, Section5::of_packing((columns * rows) as u32, &packing.template, &physical));
            assert_eq!(section5.len(), 47);
            assert_eq!(section5[11..19], fs::read(sample.file("s5")).unwrap()[11..19]);
            assert_eq!(section5[20], fs::read(sample.file("s5")).unwrap()[20]);
            assert_eq!(fs::read(file("s7")).unwrap(), section7(&packing.payload));
            assert_eq!(points_of(&file("s5"), &file("s7")), points);
        }

        // Each corner and the middle, on site and in the centre's map.
        for (row, column) in [(1, 1), (1, columns), (rows, 1), (rows, columns), (rows.div_ceil(2), columns.div_ceil(2))]
        {
            let index = (row - 1) * columns + column - 1;
            let number = points[index].number().expect("a number");
            let grid = format!("--columns {columns} --rows {rows}");
            let line =
                format!("point cut-{place} {grid} --column {column} --row {row} --group --lookahead {lookahead}");
            let reference = [(GUST.name, 1), (PUERTO_RICO.name, 2943), (CONUS.name, 2759)];
            let (_, reference) = reference.into_iter().find(|(name, _)| *name == sample.name).unwrap();
            let expected = format!(
                "number    {number}\nmark      0\nscale     not applied: ({reference} + number x 2^0) / 10^1\n\
                 place     row {row}, column {column}: point {} of {}\ngrid      {}, as typed\n\
                 map       cut-{place}, template 5.2, {octets} octets\n\
                 group     {}\npair      {CHECKED}{lookahead}, both sections are the same\n",
                index + 1,
                columns * rows,
                typed(columns, rows),
                shown_group(&packing.groups, index)
            );
            assert_eq!(plain(&unwrapped(&results(&folder, &words(&line)))), expected, "{line}");
            for from in [&sections, &message] {
                let line = format!("point {from} --column {} --row {}", left + column - 1, top + row - 1);
                let printed = results(&folder, &words(&line));
                assert!(printed.starts_with(&format!("number    {number}\nmark      0\n")), "{line}: {printed}");
                assert!(!printed.contains("\ngroup "), "{line}: {printed}");
            }
        }

        // The map's own groups are those of packing's list.
        let printed = plain(&results(&folder, &words(&format!("info cut-{place} --groups"))));
        let shown: Vec<&str> = printed.lines().rev().take(groups).collect();
        for (which, line) in shown.into_iter().rev().enumerate() {
            let group = shown_group(&packing.groups, packing.groups[which].start as usize);
            let (_, group) = group.split_once(": ").unwrap();
            assert_eq!(line.trim_start(), format!("{}  {group}", which + 1));
        }
    }
}

/// Points of an alternating map are counted as they stand in it.
#[test]
fn places_of_an_alternating_map() {
    let points = PUERTO_RICO.points();
    for (row, column, index) in [(1, 1, 0), (1, 339, 338), (2, 339, 339), (2, 1, 677), (3, 1, 678), (224, 1, 75_935)] {
        for map in [PUERTO_RICO.words(), PUERTO_RICO.file("grib2").display().to_string()] {
            let line = format!("point {map} --column {column} --row {row}");
            let printed = plain(&results(&top(), &words(&line)));
            let number = points[index].number().map_or("no forecast".into(), |number| number.to_string());
            let mark = points[index].mark();
            let place = format!("row {row}, column {column}: point {} of 75936", index + 1);
            let first = format!("number    {number}\nmark      {mark}\n");
            assert!(printed.starts_with(&first) && after(&printed, "place") == place, "{printed}");
        }
    }
}

/// A box of 16 MiB reads a point of a map whose points take 36. Where calls are emulated, the emulator needs more.
#[cfg(target_arch = "x86_64")]
#[test]
fn a_box_without_room_for_the_map() {
    let folder = scratch("box");
    let great = Template { groups: 1, width_bits: 0, length_reference: 0, last_length: 4_194_304, ..CASE };
    write_map(&folder, "map", &complex(4_194_304, great), &section7(&[0xA0]));
    let point = words("point map --columns 2048 --rows 2048 --column 2048 --row 2048");
    let in_a_box = |line: &[&str]| {
        let mut command = Command::new("sh");
        command.args(["-c", "ulimit -c 0; ulimit -d 16384; exec \"$@\"", "sh", env!("CARGO_BIN_EXE_desk")]);
        command.current_dir(&folder).args(line).stdin(Stdio::null()).output().unwrap()
    };
    let ran = Ran::from(in_a_box(&point));
    assert_eq!((ran.status, ran.out.as_str()), (Some(0), results(&folder, &point).as_str()), "{ran:?}");
    assert!(ran.out.starts_with("number    5\nmark      0\n"), "{ran:?}");
    // The box is as small as it says: for the whole map there is no room.
    assert_ne!(in_a_box(&["info", "map"]).status.code(), Some(0));
}

#[test]
fn the_lookahead_where_none_is_said() {
    let folder = scratch("lookahead");
    for (name, lookahead) in [("unsaid", ""), ("said", " --lookahead 4"), ("other", " --lookahead 5")] {
        results(&folder, &words(&format!("pack {} --to {name}{lookahead}", GUST.words())));
    }
    let payload = |name: &str| fs::read(folder.join(format!("{name}.s7"))).unwrap();
    assert_eq!(payload("unsaid"), payload("said"));
    assert_ne!(payload("unsaid"), payload("other"));
}
