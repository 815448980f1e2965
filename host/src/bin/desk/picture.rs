//! A small picture of a map in characters.

use crate::grid::Grid;
use cleatmow::Point;

/// The most characters of a line, and the most lines.
const MOST: (u32, u32) = (64, 16);

/// The signs of numbers, from the least to the greatest.
const SIGNS: [char; 9] = ['.', ':', '-', '=', '+', '*', '#', '%', '@'];

/// The sign of a missing point, which no number has.
const NO_FORECAST: char = '?';

pub struct Picture {
    pub lines: Vec<String>,
    /// What the signs say.
    pub legend: String,
}

impl Picture {
    /// A sign stands for one point, or for a block of points where there are too many. Of a block it shows the greatest
    /// number; and no forecast where any of its points has none, so that no gap is hidden.
    pub fn of(grid: Grid, points: &[Point]) -> Picture {
        let block = (grid.columns.div_ceil(MOST.0), grid.rows.div_ceil(MOST.1));
        let size = (grid.columns.div_ceil(block.0), grid.rows.div_ceil(block.1));
        let mut greatest = vec![vec![Some(i64::MIN); size.0 as usize]; size.1 as usize];
        let mut range = None;
        for (index, point) in (0..).zip(points) {
            let place = grid.place(index);
            let sign = &mut greatest[(place.row / block.1) as usize][(place.column / block.0) as usize];
            match point.number() {
                Some(number) => {
                    let (least, most) = range.unwrap_or((number, number));
                    range = Some((number.min(least), number.max(most)));
                    *sign = sign.map(|greatest| greatest.max(number));
                }
                None => *sign = None,
            }
        }
        let missing = greatest.iter().flatten().any(Option::is_none);
        let lines = greatest.into_iter().map(|row| row.into_iter().map(|number| sign(number, range)).collect());
        Picture { lines: lines.collect(), legend: legend(block, range, missing) }
    }
}

/// The sign of a number among numbers of this range, least and greatest.
fn sign(number: Option<i64>, range: Option<(i64, i64)>) -> char {
    let (Some(number), Some((least, greatest))) = (number, range) else { return NO_FORECAST };
    let steps = SIGNS.len() as i128;
    let step = (i128::from(number) - i128::from(least)) * steps / (i128::from(greatest) - i128::from(least) + 1);
    SIGNS[step.clamp(0, steps - 1) as usize]
}

fn legend((columns, rows): (u32, u32), range: Option<(i64, i64)>, missing: bool) -> String {
    let [first, .., last] = SIGNS;
    let mut parts = Vec::new();
    match range {
        Some((least, greatest)) if least == greatest => parts.push(format!("{first} is {least}")),
        Some((least, greatest)) => parts.push(format!("{first} to {last} is {least} to {greatest}")),
        None => {}
    }
    if missing {
        parts.push(format!("{NO_FORECAST} is no forecast"));
    }
    if (columns, rows) != (1, 1) {
        parts.push(format!("a sign is the greatest of {columns} x {rows} points"));
    }
    parts.join("; ")
}
