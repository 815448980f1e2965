//! `desk unpack`, `desk point`, `desk check`, `desk pack` and `desk split`.

use crate::arguments::{Form, Pack, Point, Unpack};
use crate::files;
use crate::grid::{no_point_at, Grid, Laid, Typed};
use crate::map::{section5, Map};
use crate::packing::{check, Packed};
use crate::progress::printing;
use crate::shown::{self, Number, NO_FORECAST};
use crate::source::{octets_of, Sections};
use crate::trouble::Trouble;
use cleatmow::Points;
use std::io::{self, Write};
use std::path::{Path, PathBuf};

/// What is said of a map whose sections were not held against each other.
const NOT_CHECKED: &str =
    "not checked: whether Section 5 and Section 7 belong together; --lookahead K checks it for a \
    cut-out that the desk packed with lookahead K";

pub fn unpack(asked: &Unpack, out: &mut impl Write) -> Result<(), Trouble> {
    let (map, mut lent) = (Map::named(&asked.map)?, Vec::new());
    let points = checked_points(&map, asked.lookahead, &mut lent)?;
    let grid = match asked.form {
        Form::Table => Some(Laid::new(map.grid(asked.grid)?, points)?.grid),
        Form::Numbers | Form::Marks => None,
    };
    note(&map.in_full());
    note(&sections_are(&map, asked.lookahead));
    match (grid, map.grid_in_words()) {
        (Some(grid), _) => note(&grid.in_full()),
        // Points in their order need no grid, and what a file says of it is not kept back.
        (None, Some(said)) => note(&format!("points in the order of the file: {said}")),
        (None, None) => {}
    }
    if grid.is_some() {
        writeln!(out, "row,column,mark,number")?;
    }
    printing(out, "point", points.iter().enumerate(), |out, (index, point)| {
        let (mark, number) = (point.mark(), Number(point, &asked.missing));
        match (asked.form, grid.map(|grid: Grid| grid.place(index as u64))) {
            (_, Some(place)) => {
                let (row, column) = (u64::from(place.row) + 1, u64::from(place.column) + 1);
                writeln!(out, "{row},{column},{mark},{number}")
            }
            (Form::Marks, None) => writeln!(out, "{mark} {number}"),
            (_, None) => writeln!(out, "{number}"),
        }
    })?;
    Ok(())
}

/// A line on standard error that is no error.
pub fn note(sentence: &str) {
    // Where it cannot be written, the results are what matters.
    let _ = writeln!(io::stderr(), "desk: note: {sentence}");
}

pub fn point(asked: &Point, out: &mut impl Write) -> Result<(), Trouble> {
    let (map, mut lent) = (Map::named(&asked.map)?, Vec::new());
    let found = map.find(asked.grid, asked.place);
    // A refused map says so before its grid is looked at: where that has no such place, the map is asked for its first.
    let index = found.as_ref().map_or(0, |(_, index)| *index);
    let read = match asked.lookahead {
        None => map.point(index)?,
        lookahead => map.point_among(checked_points(&map, lookahead, &mut lent)?, index)?,
    };
    let (grid, index) = found?;
    let Some(point) = read else { return no_point_at(asked.place) };
    line(out, "number", &Number(point, NO_FORECAST).to_string())?;
    line(out, "mark", &point.mark().to_string())?;
    line(out, "scale", &map.scale())?;
    let of = shown::count(grid.points());
    line(out, "place", &format!("{}: point {} of {of}", asked.place, shown::count(u64::from(index) + 1)))?;
    line(out, "grid", &grid.in_full())?;
    line(out, "map", &map.in_full())?;
    if asked.group {
        line(out, "group", &map.group_of(index.into()))?;
    }
    line(out, "pair", &sections_are(&map, asked.lookahead))
}

/// The points of a map, once it is checked where that is asked for.
fn checked_points<'a>(map: &Map, lookahead: Option<u32>, lent: &'a mut Vec<u8>) -> Result<Points<'a>, Trouble> {
    let points = map.points(lent)?;
    if let Some(lookahead) = lookahead {
        check(map, points, lookahead)?;
    }
    Ok(points)
}

/// What is known of the two sections of a map whose points were shown.
pub fn sections_are(map: &Map, lookahead: Option<u32>) -> String {
    match lookahead {
        Some(lookahead) => format!("checked: packed again with lookahead {lookahead}, both sections are the same"),
        None if map.is_of_one_message() => "not checked: both sections stand in one message".into(),
        None => NOT_CHECKED.into(),
    }
}

pub fn check_map(map: &Path, lookahead: u32, out: &mut impl Write) -> Result<(), Trouble> {
    let (map, mut lent) = (Map::named(map)?, Vec::new());
    checked_points(&map, Some(lookahead), &mut lent)?;
    line(out, "map", &map.in_full())?;
    line(out, "pair", &sections_are(&map, Some(lookahead)))
}

pub fn pack(asked: &Pack, out: &mut impl Write) -> Result<(), Trouble> {
    let (map, mut lent) = (Map::named(&asked.map)?, Vec::new());
    let laid = map.laid(asked.grid, &mut lent)?;
    let cut_out = laid.cut_out(&asked.cut.of(laid.grid))?;
    let packed = Packed::of(&cut_out, &map.physical, asked.lookahead)?;
    let files = write(&asked.to, &packed.sections)?;
    let mut print = || -> Result<(), Trouble> {
        line(out, "map", &map.in_full())?;
        line(out, "grid", &laid.grid.in_full())?;
        line(out, "pair", &sections_are(&map, None))?;
        let (grid, lookahead) = (cut_out.grid(), asked.lookahead);
        line(out, "cut-out", &format!("{}: {grid}, {}", cut_out.rectangle, shown::many(grid.points(), "point")))?;
        let groups = shown::many(packed.groups, "group");
        line(
            out,
            "packed",
            &format!("{groups}, lookahead {lookahead}, {} octets", shown::count(octets_of(&packed.sections))),
        )?;
        line(out, "written", &files)?;
        let Grid { columns, rows, .. } = grid;
        line(out, "on site", &format!("read with --columns {columns} --rows {rows} --lookahead {lookahead}"))?;
        out.flush()?;
        Ok(())
    };
    print().map_err(|trouble| trouble.after(&files))
}

pub fn split(map: &Path, to: &Path, out: &mut impl Write) -> Result<(), Trouble> {
    let Sections { name, place, names, octets, grid } = Sections::named(map)?;
    let Some(grid) = grid else {
        return Trouble::host(format!("{name} is two sections already"));
    };
    let section5 = section5(&names[0], &octets[0])?;
    let files = write(to, &octets)?;
    let mut print = || -> Result<(), Trouble> {
        let points = shown::many(section5.declared, "point");
        line(out, "map", &format!("{name}{place}, template 5.{}, {points}", section5.template_number()))?;
        let grid = match grid {
            Ok(grid) => format!("{}; the two sections do not say it", Typed::default().held_to(grid, &name)?.in_full()),
            Err(why) => format!("{why}: the two sections must not be read by row and column"),
        };
        line(out, "grid", &grid)?;
        line(out, "written", &files)?;
        out.flush()?;
        Ok(())
    };
    print().map_err(|trouble| trouble.after(&files))
}

/// Writes two sections, and answers the names of their files.
pub fn write(to: &Path, [section5, section7]: &[Vec<u8>; 2]) -> Result<String, Trouble> {
    let files: [PathBuf; 2] = files::write(to, [section5, section7])?;
    Ok(files.map(|file| shown::path(&file)).join(" and "))
}

/// A line of results, or more where it is long.
pub fn line(out: &mut impl Write, what: &str, text: &str) -> Result<(), Trouble> {
    writeln!(out, "{}", shown::after(&format!("{what:<10}"), text))?;
    Ok(())
}
