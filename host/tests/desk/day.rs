//! `desk day`.

use crate::*;
use cleatmow::pack;

/// Neighbours in a column are alike where rows are read the way that they go.
#[test]
fn rows_go_as_said() {
    let unlike = |rows: &[Vec<Point>]| -> u64 {
        let pairs = rows.windows(2).flat_map(|rows| rows[0].iter().zip(&rows[1]));
        let difference = |(one, other): (&Point, &Point)| match (one.number(), other.number()) {
            (Some(one), Some(other)) => one.abs_diff(other),
            (None, None) => 0,
            _ => 100,
        };
        pairs.map(difference).sum()
    };
    for sample in [GUST, PUERTO_RICO, CONUS] {
        let said = unlike(&sample.rows());
        let other = unlike(&Sample { alternate: !sample.alternate, ..sample }.rows());
        assert!(said < other * 2 / 3, "{}: {said}, {other}", sample.name);
    }
}

/// The picture of a part of the day.
fn picture(part: &str) -> Vec<&str> {
    let mut lines = part.lines().skip_while(|line| !line.starts_with("  cut-out")).skip(2);
    lines.by_ref().take_while(|line| !line.is_empty()).map(|line| &line[4..]).collect()
}

/// `desk day` on samples/, and its part on a map: up to the next map, and up to the end of the route.
fn day() -> String {
    let day = results(&top(), &["day"]);
    for line in day.lines() {
        assert!(line.len() <= 80 && line.trim_end() == line && line.is_ascii(), "{line:?}");
    }
    plain(&unwrapped(&day))
}

fn part_of<'a>(day: &'a str, sample: &Sample) -> &'a str {
    let part = day.split_once(&format!("\n{}: ", sample.name)).expect(sample.name).1;
    part.split("\n\ngfs-").next().unwrap().split("\n\nndfd-").next().unwrap()
}

/// The part of the day on the cut-out that is not packed.
fn gap_of(day: &str) -> &str {
    part_of(day, &PUERTO_RICO).split_once("\n  group ").unwrap().1.split_once('\n').unwrap().1
}

#[test]
fn a_day_at_the_desk() {
    let day = day();
    for (sample, template, missing) in [(GUST, "5.3", 0), (PUERTO_RICO, "5.3", 406), (CONUS, "5.2", 371_039)] {
        let part = part_of(&day, &sample);
        let missing = if missing == 0 { "none".into() } else { missing.to_string() };
        let points = sample.columns * sample.rows;
        let map = format!("{points} points, {missing} of them without forecast; template {template}");
        assert_eq!((after(part, "map"), after(part, "grid")), (map.as_str(), sample.grid(true).as_str()));

        let route = after(part, "cut-out");
        let [top, bottom, left, right] = counts(route)[..4] else { panic!("{route}") };
        let (columns, rows) = (right - left + 1, bottom - top + 1);
        assert_eq!(
            route,
            format!(
                "rows {top} to {bottom}, columns {left} to {right}: {}, {} points",
                typed(columns, rows),
                columns * rows
            )
        );

        // What goes to the site, made apart from the command.
        let map = sample.rows();
        let cut = numbers(&cut_out(&map, [top, bottom, left, right]));
        let packing = pack(&cut, LOOKAHEAD).unwrap();
        let after_packing = 47 + 5 + packing.payload.len();
        assert_eq!(counts(after(part, "octets")), [sample.octets(), after_packing], "{}", sample.name);
        assert!(after_packing < sample.octets());

        let field = after(part, "point");
        let [row, column, site_row, site_column] = counts(field)[..] else { panic!("{field}") };
        assert_eq!((row, column), (top + site_row - 1, left + site_column - 1));
        let number = map[row - 1][column - 1].number().expect("a number");
        let both = |word| after(part, word).split_whitespace().map(str::to_string).collect::<Vec<_>>();
        assert_eq!(both("number"), [&number.to_string(), &number.to_string(), "equal"], "{}", sample.name);
        assert_eq!(both("mark"), ["0", "0", "equal"], "{}", sample.name);

        let index = (site_row - 1) * columns + site_column - 1;
        assert_eq!(i64::from(cut[index]), number);
        assert_eq!(after(part, "group"), site::shown_group(&packing.groups, index));
        let site = part.split_once("\n  on site  ").unwrap().1.lines().next().unwrap();
        let same = "packed again with lookahead 4, both sections are the same";
        assert_eq!(site, format!("{same} all {} points are equal to the centre's", cut.len()));
    }
    assert!(!day.contains("NOT EQUAL"), "{day}");
    let last = "3 maps unpacked; 3 cut-outs packed, and on site equal to the centre's;\n1 not packed, since it has";
    assert!(day.contains(last), "{day}");
}

/// The signs of a picture against the points that they stand for.
#[test]
fn pictures_of_the_day() {
    let day = day();
    let of_routes = [GUST, PUERTO_RICO, CONUS].map(|sample| (part_of(&day, &sample), sample));
    for (part, sample) in of_routes.into_iter().chain([(gap_of(&day), PUERTO_RICO)]) {
        let [top, bottom, left, right] = counts(after(part, "cut-out"))[..4] else { panic!("{part}") };
        let (columns, rows) = (right - left + 1, bottom - top + 1);
        let mut lines = picture(part);
        let block = (columns.div_ceil(64), rows.div_ceil(16));
        let legend = after(part, "picture");
        assert_eq!((lines.len(), lines[0].len()), (rows.div_ceil(block.1), columns.div_ceil(block.0)), "{part}");
        let said = legend.split_once("the greatest of ").map_or(vec![1, 1], |blocks| counts(blocks.1));
        assert_eq!(said, [block.0, block.1], "{legend}");
        // The maps that alternate begin in the south, and pictures have the north at the top.
        if sample.alternate {
            lines.reverse();
        }
        let cut = cut_out(&sample.rows(), [top, bottom, left, right]);
        let all: Vec<i64> = cut.iter().filter_map(|point| point.number()).collect();
        let (least, greatest) = (*all.iter().min().unwrap(), *all.iter().max().unwrap());
        assert!(legend.starts_with(&format!(". to @ is {least} to {greatest}")), "{legend}");
        assert_eq!(legend.contains("? is no forecast"), all.len() < cut.len(), "{legend}");
        for (line, signs) in lines.iter().enumerate() {
            for (place, sign) in signs.chars().enumerate() {
                let rows = line * block.1..(line * block.1 + block.1).min(rows);
                let of_block: Vec<Point> = rows
                    .flat_map(|row| {
                        let row = &cut[row * columns..(row + 1) * columns];
                        row[place * block.0..(place * block.0 + block.0).min(columns)].to_vec()
                    })
                    .collect();
                let numbers: Vec<i64> = of_block.iter().filter_map(|point| point.number()).collect();
                let expected = match numbers.len() == of_block.len() {
                    // Nine signs share the numbers between them.
                    true => {
                        b".:-=+*#%@"[((numbers.iter().max().unwrap() - least) * 9 / (greatest - least + 1)) as usize]
                    }
                    false => b'?',
                };
                assert_eq!(sign, expected as char, "line {line}, place {place} of {part}");
            }
        }
    }
}

/// That a cut-out with a missing point is not packed is a result of the day, and it goes on to the next map.
#[test]
fn a_missing_point_in_the_day() {
    let day = day();
    let part = gap_of(&day);
    let rows = PUERTO_RICO.rows();
    let [top, bottom, left, right] = counts(after(part, "cut-out"))[..4] else { panic!("{part}") };
    let [row, column] = counts(after(part, "point"))[..] else { panic!("{part}") };
    assert!((top..=bottom).contains(&row) && (left..=right).contains(&column));
    assert_eq!(rows[row - 1][column - 1], Point::Missing1);
    assert_eq!(after(part, "number"), "no forecast");
    assert_eq!(after(part, "mark"), "1");
    assert!(picture(part).iter().any(|line| line.contains('?')), "{part}");
    assert!(!part.contains("octets") && !part.contains("on site"), "{part}");

    let width = right - left + 1;
    let cut = cut_out(&rows, [top, bottom, left, right]);
    let first = cut.iter().position(|point| point.is_missing()).unwrap();
    let (row, column) = (top + first / width, left + first % width);
    let place = format!("row {row}, column {column} of a map of 339 columns x 224 rows, alternate,");
    let why = "has no forecast, and so no number to pack: the cut-out is not packed";
    assert_eq!(after(part, "refused"), format!("{place} {why}"));
    assert!(day.find("refused") < day.find(CONUS.name));
}

/// Another folder with the same messages, and with messages that went bad.
#[test]
fn a_day_on_other_maps() {
    let folder = scratch("day");
    let message = |sample: &Sample| folder.join(format!("maps/{}.grib2", sample.name));
    fs::create_dir(folder.join("maps")).unwrap();
    let mend = || {
        for sample in [GUST, PUERTO_RICO, CONUS] {
            copy(&sample.file("grib2"), &message(&sample));
        }
    };
    mend();
    assert_eq!(plain(&unwrapped(&results(&folder, &["day", "--samples", "maps"]))), day());

    // What was shown before the bad message stays on standard output.
    let bad = |status: i32, sentence: &str| {
        let ran = desk(&folder, &["day", "--samples", "maps"]);
        assert_eq!(ran.status, Some(status), "{ran:?}");
        assert!(ran.err.starts_with("desk: ") && ran.err.contains(sentence), "{ran:?}");
        assert_eq!(ran.err.lines().count(), 1, "{ran:?}");
        assert!(!ran.out.contains("The day:"), "{ran:?}");
        mend();
    };
    fs::remove_file(message(&CONUS)).unwrap();
    bad(HOST, "there is no map maps/ndfd-conus-1073x689.grib2");
    let whole = fs::read(GUST.file("grib2")).unwrap();
    fs::write(message(&GUST), &whole[..9_000]).unwrap();
    bad(HOST, "maps/gfs-gust-144x73.grib2: the message at octet 1 is damaged: ");
    // The last group has more points than are declared.
    let mut changed = whole.clone();
    let section5 = fs::read(GUST.file("s5")).unwrap();
    let place = whole.windows(section5.len()).position(|octets| octets == section5).unwrap();
    changed[place + 42..place + 46].copy_from_slice(&4_000_u32.to_be_bytes());
    fs::write(message(&GUST), changed).unwrap();
    bad(9, "maps/gfs-gust-144x73.grib2: refusal 9: ");
    copy(&GUST.file("grib2"), &message(&PUERTO_RICO));
    bad(HOST, "a map of 144 columns x 73 rows, not alternate, does not have rows 86 to 149");

    let ran = desk(&folder, &["day"]);
    assert_eq!(ran.status, Some(HOST), "{ran:?}");
    assert!(ran.err.starts_with("desk: there is no map samples/gfs-gust-144x73.grib2: "), "{ran:?}");
}
