//! Rows, columns and rectangles. Grids are outside document 01: a GRIB2 file says how many columns and rows a map has and
//! which way its rows go, and for a map of two sections whoever runs the command says it. In this program the first row
//! and the first column are 0. A person counts from 1: words of the command line are turned as they are read, places as
//! they are written.

use crate::shown;
use crate::trouble::Trouble;
use cleatmow::{grib2, Point, Points};
use std::fmt;
use std::ops::Range;

/// How the points of a map stand in their list, row after row.
#[derive(Clone, Copy, Debug, PartialEq, Eq)]
pub struct Grid {
    pub columns: u32,
    pub rows: u32,
    /// Whether every second row, the first of all not among them, goes from the last column to the first.
    pub alternate: bool,
    pub said: Said,
}

/// Who says what the grid is.
#[derive(Clone, Copy, Debug, PartialEq, Eq)]
pub enum Said {
    /// The command line.
    Words,
    /// Section 3 of the map's message, by its scanning mode.
    File { scanning: u8 },
}

/// What the command line says of a grid.
#[derive(Clone, Copy, Debug, Default, PartialEq, Eq)]
pub struct Typed {
    pub columns: Option<u32>,
    pub rows: Option<u32>,
    pub alternate: bool,
}

impl Typed {
    /// The grid of a map whose sections say none.
    pub fn grid(self, name: &str) -> Result<Grid, Trouble> {
        let missing = |option: &str| Trouble::host(format!("{option} is missing: {name} does not say its grid"));
        let Some(columns) = self.columns else { return missing("--columns") };
        let Some(rows) = self.rows else { return missing("--rows") };
        Ok(Grid { columns, rows, alternate: self.alternate, said: Said::Words })
    }

    /// The grid that a file says, which words may say again and not otherwise.
    pub fn held_to(self, grid: grib2::Grid, name: &str) -> Result<Grid, Trouble> {
        let grib2::Grid { columns, rows, scanning, .. } = grid;
        let alternate = scanning & grib2::Grid::ALTERNATE != 0;
        let grid = Grid { columns, rows, alternate, said: Said::File { scanning } };
        let other = |option: &str| Trouble::host(format!("{option} is not what {name} says: its grid is {grid}"));
        match self {
            Typed { columns: Some(columns), .. } if columns != grid.columns => other(&format!("--columns {columns}")),
            Typed { rows: Some(rows), .. } if rows != grid.rows => other(&format!("--rows {rows}")),
            Typed { alternate: true, .. } if !grid.alternate => other("--alternate"),
            _ => Ok(grid),
        }
    }
}

impl Grid {
    pub fn points(self) -> u64 {
        u64::from(self.columns) * u64::from(self.rows)
    }

    /// Where a point that the grid has stands in the list. The first stands at 0.
    pub fn index(self, place: Place) -> u64 {
        u64::from(place.row) * u64::from(self.columns) + u64::from(self.turned(place).column)
    }

    /// The same for any place. One that the grid does not have is refused.
    pub fn find(self, place: Place) -> Result<u64, Trouble> {
        self.holds(&Rectangle::of(place))?;
        Ok(self.index(place))
    }

    /// The place of the point that stands there in the list.
    pub fn place(self, index: u64) -> Place {
        let columns = u64::from(self.columns);
        self.turned(Place { row: (index / columns) as u32, column: (index % columns) as u32 })
    }

    /// The place with its column counted from the end where its row goes the other way.
    fn turned(self, place: Place) -> Place {
        let turns = self.alternate && place.row % 2 == 1;
        Place { column: if turns { self.columns - 1 - place.column } else { place.column }, ..place }
    }

    /// Refuses a grid that does not have as many points as there are.
    pub fn of(self, points: u64) -> Result<Grid, Trouble> {
        if self.points() == points {
            return Ok(self);
        }
        let (points, others) = (shown::count(points), shown::count(self.points()));
        Trouble::host(format!("the map has {points} points, and {self}, would be {others}"))
    }

    pub fn whole(self) -> Rectangle {
        Rectangle { rows: 0..self.rows, columns: 0..self.columns }
    }

    /// Refuses a rectangle that does not lie in a map of this grid.
    pub fn holds(self, rectangle: &Rectangle) -> Result<(), Trouble> {
        for (what, span, most) in [("row", &rectangle.rows, self.rows), ("column", &rectangle.columns, self.columns)] {
            if span.is_empty() || span.end > most {
                return Trouble::host(format!("a map of {self}, does not have {}", counted(what, span)));
            }
        }
        Ok(())
    }

    /// Whether the file says that the first row is the lowest.
    pub fn rows_go_up(self) -> bool {
        matches!(self.said, Said::File { scanning } if scanning & grib2::Grid::UPWARD != 0)
    }

    /// All that was taken for granted where a row and a column are named.
    pub fn in_full(self) -> String {
        match self.said {
            Said::Words => format!("{self}, as typed"),
            Said::File { scanning } => {
                let rows = if self.rows_go_up() { "upward" } else { "downward" };
                format!("{self}, as the file says (scanning mode {scanning:#04x}: rows go {rows})")
            }
        }
    }
}

impl fmt::Display for Grid {
    fn fmt(&self, f: &mut fmt::Formatter<'_>) -> fmt::Result {
        let (columns, rows) = (shown::many(self.columns, "column"), shown::many(self.rows, "row"));
        write!(f, "{columns} x {rows}, {}", if self.alternate { "alternate" } else { "not alternate" })
    }
}

/// A point of a map, by its row and column.
#[derive(Clone, Copy, Debug, PartialEq, Eq)]
pub struct Place {
    pub row: u32,
    pub column: u32,
}

impl fmt::Display for Place {
    fn fmt(&self, f: &mut fmt::Formatter<'_>) -> fmt::Result {
        write!(f, "row {}, column {}", u64::from(self.row) + 1, u64::from(self.column) + 1)
    }
}

/// Some rows and some columns of a map.
#[derive(Clone, Debug, PartialEq, Eq)]
pub struct Rectangle {
    pub rows: Range<u32>,
    pub columns: Range<u32>,
}

impl Rectangle {
    /// The rectangle of one point.
    pub fn of(place: Place) -> Rectangle {
        let one = |first: u32| first..first.saturating_add(1);
        Rectangle { rows: one(place.row), columns: one(place.column) }
    }

    /// The place in the whole map of a place in this rectangle.
    fn in_map(&self, place: Place) -> Place {
        Place { row: self.rows.start + place.row, column: self.columns.start + place.column }
    }
}

impl fmt::Display for Rectangle {
    fn fmt(&self, f: &mut fmt::Formatter<'_>) -> fmt::Result {
        write!(f, "{}, {}", counted("row", &self.rows), counted("column", &self.columns))
    }
}

/// "row 3", or "rows 3 to 5".
fn counted(what: &str, span: &Range<u32>) -> String {
    let first = u64::from(span.start) + 1;
    match span.len() {
        1 => format!("{what} {first}"),
        _ => format!("{what}s {first} to {}", span.end),
    }
}

/// What is said where a map has no point at a place of its grid.
pub fn no_point_at<T>(place: Place) -> Result<T, Trouble> {
    Trouble::host(format!("there is no {place}"))
}

/// The points of a map, as unpacking leaves them, in their grid.
#[derive(Clone, Copy)]
pub struct Laid<'a> {
    pub grid: Grid,
    pub points: Points<'a>,
}

impl<'a> Laid<'a> {
    pub fn new(grid: Grid, points: Points<'a>) -> Result<Laid<'a>, Trouble> {
        Ok(Laid { grid: grid.of(points.len() as u64)?, points })
    }

    pub fn at(self, place: Place) -> Result<Point, Trouble> {
        let index = self.grid.find(place)?;
        self.points.get(index as usize).map_or_else(|| no_point_at(place), Ok)
    }

    pub fn cut_out(self, rectangle: &Rectangle) -> Result<CutOut, Trouble> {
        self.grid.holds(rectangle)?;
        let places =
            rectangle.rows.clone().flat_map(|row| rectangle.columns.clone().map(move |column| Place { row, column }));
        let points = places.map(|place| self.at(place)).collect::<Result<_, _>>()?;
        Ok(CutOut { map: self.grid, rectangle: rectangle.clone(), points })
    }
}

/// A rectangle of a map. Its points go row by row, and all rows from the first column to the last.
pub struct CutOut {
    map: Grid,
    pub rectangle: Rectangle,
    pub points: Vec<Point>,
}

impl CutOut {
    /// Its own grid.
    pub fn grid(&self) -> Grid {
        let Rectangle { rows, columns } = &self.rectangle;
        Grid { columns: columns.len() as u32, rows: rows.len() as u32, alternate: false, ..self.map }
    }

    /// What a sentence calls the point that stands there in the cut-out's list.
    pub fn named(&self, index: usize) -> String {
        format!("{} of a map of {},", self.rectangle.in_map(self.grid().place(index as u64)), self.map)
    }
}
