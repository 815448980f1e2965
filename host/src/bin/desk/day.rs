//! `desk day`: a day at the desk on the three messages of samples/.

use crate::arguments::LOOKAHEAD;
use crate::grid::{no_point_at, CutOut, Laid, Place, Rectangle, Typed};
use crate::map::Map;
use crate::packing::{check, Packed};
use crate::picture::Picture;
use crate::shown::{self, Number, NO_FORECAST};
use crate::source::Sections;
use crate::trouble::{Trouble, Why};
use cleatmow::Point;
use std::io::Write;
use std::ops::RangeInclusive;
use std::path::Path;

/// A message of samples/ and what the desk does with it. Rows and columns are counted from 1.
struct Sample {
    name: &'static str,
    /// What samples/README.md says that it is.
    what: &'static str,
    /// A route none of whose points is missing.
    route: Route,
    /// A route whose field has no forecast.
    with_a_gap: Option<Route>,
}

/// The rectangle of a route, and a field of it by row and column.
struct Route {
    rows: RangeInclusive<u32>,
    columns: RangeInclusive<u32>,
    field: (u32, u32),
}

const SAMPLES: [Sample; 3] = [
    Sample {
        name: "gfs-gust-144x73",
        what: "GFS, gust at the surface",
        route: Route { rows: 15..=30, columns: 93..=124, field: (30, 103) },
        with_a_gap: None,
    },
    Sample {
        name: "ndfd-puerto-rico-339x224",
        what: "NDFD, greatest temperature of a day, Puerto Rico",
        route: Route { rows: 86..=149, columns: 64..=191, field: (110, 130) },
        with_a_gap: Some(Route { rows: 86..=149, columns: 1..=128, field: (110, 1) }),
    },
    Sample {
        name: "ndfd-conus-1073x689",
        what: "NDFD, greatest temperature of a day, United States",
        route: Route { rows: 253..=573, columns: 115..=705, field: (400, 400) },
        with_a_gap: None,
    },
];

impl Route {
    fn rectangle(&self) -> Rectangle {
        let span = |span: &RangeInclusive<u32>| span.start() - 1..*span.end();
        Rectangle { rows: span(&self.rows), columns: span(&self.columns) }
    }

    /// The field's place in the map.
    fn field(&self) -> Place {
        Place { row: self.field.0 - 1, column: self.field.1 - 1 }
    }

    /// The field's place in the cut-out.
    fn field_on_site(&self) -> Place {
        Place { row: self.field.0 - self.rows.start(), column: self.field.1 - self.columns.start() }
    }
}

pub fn day(samples: &Path, out: &mut impl Write) -> Result<(), Trouble> {
    let head =
        "A day at the desk. Maps are columns x rows, and in pictures the north is at the top. Numbers are those \
                that the centre packed; they are not scaled to metres a second or degrees.";
    writeln!(out, "{}", shown::after("", head))?;
    for sample in &SAMPLES {
        let map = Map::named(&samples.join(format!("{}.grib2", sample.name)))?;
        let mut lent = Vec::new();
        let laid = map.laid(Typed::default(), &mut lent)?;
        show_map(sample, &map, laid, out)?;
        show_route(sample, &map, laid, out)?;
        if let Some(route) = &sample.with_a_gap {
            show_gap(&map, route, laid, out)?;
        }
        out.flush()?;
    }
    let (maps, gaps) = (SAMPLES.len(), SAMPLES.iter().flat_map(|sample| &sample.with_a_gap).count());
    let summary = format!(
        "The day: {maps} maps unpacked; {maps} cut-outs packed, and on site equal to the centre's; {gaps} not packed, \
         since it has points without forecast."
    );
    writeln!(out)?;
    writeln!(out, "{}", shown::after("", &summary))?;
    Ok(())
}

fn show_map(sample: &Sample, map: &Map, laid: Laid, out: &mut impl Write) -> Result<(), Trouble> {
    let missing = laid.points.iter().filter(|point| point.is_missing()).count();
    let missing = if missing == 0 { "none".into() } else { shown::count(missing as u64) };
    let points = shown::count(laid.grid.points());
    writeln!(out)?;
    writeln!(out, "{}: {}", sample.name, sample.what)?;
    indented(
        out,
        "map",
        &format!("{points} points, {missing} of them without forecast; template {}", map.template_number()),
    )?;
    indented(out, "grid", &laid.grid.in_full())
}

/// The route's cut-out, from the centre to the site.
fn show_route(sample: &Sample, map: &Map, laid: Laid, out: &mut impl Write) -> Result<(), Trouble> {
    let cut_out = laid.cut_out(&sample.route.rectangle())?;
    show_cut_out(&cut_out, out)?;

    // These two sections go to the site, and nothing else of the desk's does.
    let Packed { sections: octets, .. } = Packed::of(&cut_out, &map.physical, LOOKAHEAD)?;
    let name = format!("{} on site", sample.name);
    let names = [name.clone(), name.clone()];
    let site_map = Map::of(Sections { name, place: String::new(), names, octets, grid: None })?;
    let mut lent = Vec::new();
    let points = site_map.points(&mut lent)?;
    check(&site_map, points, LOOKAHEAD)?;
    let site = Laid::new(cut_out.grid(), points)?;
    let (before, after) = (shown::count(map.octets()), shown::count(site_map.octets()));
    indented(out, "octets", &format!("{before} before, the centre's map; {after} after, the packed cut-out"))?;

    let (field, field_on_site) = (sample.route.field(), sample.route.field_on_site());
    let index = site.grid.find(field_on_site)?;
    let at_centre = laid.at(field)?;
    let Some(on_site) = site_map.point_among(points, index as u32)? else { return no_point_at(field_on_site) };
    indented(out, "point", &format!("{field} of the map; {field_on_site} on site"))?;
    writeln!(out)?;
    writeln!(out, "             {:<16}on site", "at the centre")?;
    show_both(out, "number", [at_centre, on_site].map(|point| Number(point, NO_FORECAST)))?;
    show_both(out, "mark", [at_centre, on_site].map(Point::mark))?;
    writeln!(out)?;
    if !site.points.iter().eq(cut_out.points) {
        return Trouble::host(format!("the cut-out of {} is not on site what it is at the centre", sample.name));
    }
    indented(out, "on site", &format!("packed again with lookahead {LOOKAHEAD}, both sections are the same"))?;
    indented(out, "", &format!("all {} points are equal to the centre's", shown::count(site.grid.points())))?;
    indented(out, "group", &site_map.group_of(index))
}

/// A cut-out that must not be packed. That the desk refuses it is a result of the day; that it packs it would be none.
fn show_gap(map: &Map, route: &Route, laid: Laid, out: &mut impl Write) -> Result<(), Trouble> {
    let cut_out = laid.cut_out(&route.rectangle())?;
    let point = laid.at(route.field())?;
    writeln!(out)?;
    show_cut_out(&cut_out, out)?;
    indented(out, "point", &format!("{} of the map", route.field()))?;
    writeln!(out)?;
    writeln!(out, "             at the centre")?;
    writeln!(out, "    number   {}", Number(point, NO_FORECAST))?;
    writeln!(out, "    mark     {}", point.mark())?;
    writeln!(out)?;
    match Packed::of(&cut_out, &map.physical, LOOKAHEAD) {
        Err(Trouble::Own(Why::NoForecast, sentence)) => indented(out, "refused", &sentence),
        Err(trouble) => Err(trouble),
        Ok(_) => Trouble::host(format!("a cut-out of {} with a missing point was packed", map.name)),
    }
}

fn show_cut_out(cut_out: &CutOut, out: &mut impl Write) -> Result<(), Trouble> {
    let grid = cut_out.grid();
    indented(out, "cut-out", &format!("{}: {grid}, {} points", cut_out.rectangle, shown::count(grid.points())))?;
    let Picture { mut lines, legend } = Picture::of(grid, &cut_out.points);
    if grid.rows_go_up() {
        lines.reverse();
    }
    writeln!(out)?;
    for line in lines {
        writeln!(out, "    {line}")?;
    }
    writeln!(out)?;
    indented(out, "picture", &legend)
}

/// What something is at the centre and on site, and whether that is the same.
fn show_both<T: ToString>(out: &mut impl Write, what: &str, both: [T; 2]) -> Result<(), Trouble> {
    let [centre, site] = both.map(|shown| shown.to_string());
    let equal = if centre == site { "equal" } else { "NOT EQUAL" };
    writeln!(out, "    {what:<9}{centre:<16}{site:<16}{equal}")?;
    Ok(())
}

fn indented(out: &mut impl Write, what: &str, text: &str) -> Result<(), Trouble> {
    writeln!(out, "{}", shown::after(&format!("  {what:<9}"), text))?;
    Ok(())
}
