//! The desk's command, run as a person runs it: what it prints, what it writes, and its exit status.

mod chance;
mod check;
mod day;
mod files;
mod grib2_files;
mod levels;
mod maps;
mod output;
mod site;
#[path = "../support/mod.rs"]
mod support;
mod words;

use cleatmow::{section7_of, Physical, Point, Refusal, Section5, Template};
use std::fs;
use std::path::{Path, PathBuf};
use std::process::{Command, Output, Stdio};
use std::time::{Duration, Instant};
use support::model::Input;

/// The exit statuses of the desk's own: an error, a point without forecast, a number that cannot be packed, and a map that
/// is another when it is packed again.
const HOST: i32 = 64;
const NO_FORECAST: i32 = 65;
const NO_NUMBER: i32 = 66;
const OTHER_PACKING: i32 = 67;

/// The refusal of a Section 5, by its number.
const NO_SECTION5: i32 = 14;

/// The lookahead where none is said.
const LOOKAHEAD: u32 = 4;

/// The repository's top folder.
fn top() -> PathBuf {
    Path::new(env!("CARGO_MANIFEST_DIR")).join("..")
}

/// An empty folder for a test.
fn scratch(test: &str) -> PathBuf {
    let folder = Path::new(env!("CARGO_TARGET_TMPDIR")).join(format!("desk-{test}"));
    let _ = fs::remove_dir_all(&folder);
    fs::create_dir_all(&folder).unwrap();
    folder
}

/// Copies a file, which may be one that nobody may write to.
fn copy(from: &Path, to: &Path) {
    fs::write(to, fs::read(from).unwrap()).unwrap();
}

/// The names of the files of a folder, in their order.
fn names_in(folder: &Path) -> Vec<String> {
    let name = |file: std::io::Result<fs::DirEntry>| file.unwrap().file_name().into_string().unwrap();
    let mut names: Vec<String> = fs::read_dir(folder).unwrap().map(name).collect();
    names.sort();
    names
}

/// What a run of the command came to.
#[derive(Debug)]
struct Ran {
    status: Option<i32>,
    out: String,
    /// Standard error without the lines that are kept apart below.
    err: String,
    /// The lines that show progress. A slow machine has some.
    progress: Vec<String>,
    /// The lines that say what was not checked, or what was taken for granted.
    notes: Vec<String>,
}

impl From<Output> for Ran {
    fn from(output: Output) -> Ran {
        let text = |octets| String::from_utf8(octets).unwrap();
        let mut ran = Ran {
            status: output.status.code(),
            out: text(output.stdout),
            err: String::new(),
            progress: Vec::new(),
            notes: Vec::new(),
        };
        for line in text(output.stderr).split_inclusive('\n') {
            if line.ends_with(" s so far\n") {
                ran.progress.push(line.into());
            } else if line.starts_with("desk: note: ") {
                ran.notes.push(line.into());
            } else {
                ran.err += line;
            }
        }
        ran
    }
}

fn command(folder: &Path, words: &[&str]) -> Command {
    let mut command = Command::new(env!("CARGO_BIN_EXE_desk"));
    command.current_dir(folder).args(words).stdin(Stdio::null());
    command
}

/// Runs the command. Where all of it takes less than a second, so does each step, and no progress is shown.
fn desk(folder: &Path, words: &[&str]) -> Ran {
    let start = Instant::now();
    let ran = Ran::from(command(folder, words).output().unwrap());
    assert!(ran.progress.is_empty() || start.elapsed() >= Duration::from_secs(1), "{words:?}: {ran:?}");
    ran
}

/// The results of a run that must go well: no error stands on standard error.
fn results(folder: &Path, words: &[&str]) -> String {
    let ran = desk(folder, words);
    assert_eq!((ran.status, ran.err.as_str()), (Some(0), ""), "{words:?}: {ran:?}");
    ran.out
}

/// The sentence of a run that must fail with this status: one line on standard error, and no result.
fn told(folder: &Path, words: &[&str], status: i32) -> String {
    let ran = desk(folder, words);
    assert_eq!((ran.status, ran.out.as_str()), (Some(status), ""), "{words:?}: {ran:?}");
    let sentence = ran.err.strip_prefix("desk: ").and_then(|line| line.strip_suffix('\n'));
    let sentence = sentence.unwrap_or_else(|| panic!("{words:?}: {ran:?}"));
    assert!(!sentence.is_empty() && !sentence.contains('\n'), "{words:?}: {ran:?}");
    sentence.into()
}

/// The sentence of refusal 14: which of its conditions holds.
fn no_section5(name: &str, found: &str) -> String {
    format!("{name}: refusal 14: {found}")
}

fn words(line: &str) -> Vec<&str> {
    line.split(' ').collect()
}

/// A map of samples/, read apart from the command.
#[derive(Clone, Copy)]
struct Sample {
    name: &'static str,
    columns: usize,
    rows: usize,
    /// Whether every second row goes the other way.
    alternate: bool,
}

const GUST: Sample = Sample { name: "gfs-gust-144x73", columns: 144, rows: 73, alternate: false };
const PUERTO_RICO: Sample = Sample { name: "ndfd-puerto-rico-339x224", columns: 339, rows: 224, alternate: true };
const CONUS: Sample = Sample { name: "ndfd-conus-1073x689", columns: 1073, rows: 689, alternate: true };

impl Sample {
    /// One of its two sections, or the whole message.
    fn file(&self, extension: &str) -> PathBuf {
        top().join("samples").join(format!("{}.{extension}", self.name))
    }

    /// Of both sections.
    fn octets(&self) -> usize {
        ["s5", "s7"].iter().map(|section| fs::metadata(self.file(section)).unwrap().len() as usize).sum()
    }

    fn points(&self) -> Vec<Point> {
        points_of(&self.file("s5"), &self.file("s7"))
    }

    /// Its points in rows that all go from the first column to the last.
    fn rows(&self) -> Vec<Vec<Point>> {
        let mut rows: Vec<Vec<Point>> = self.points().chunks(self.columns).map(<[Point]>::to_vec).collect();
        assert_eq!(rows.len(), self.rows);
        if self.alternate {
            rows.iter_mut().skip(1).step_by(2).for_each(|row| row.reverse());
        }
        rows
    }

    /// The map as two sections, and the words for its grid.
    fn words(&self) -> String {
        let name = self.file("s5").with_extension("");
        let alternate = if self.alternate { " --alternate" } else { "" };
        format!("{} --columns {} --rows {}{alternate}", name.display(), self.columns, self.rows)
    }

    /// What is said of its grid where the words or the message say it.
    fn grid(&self, from_message: bool) -> String {
        let alternate = if self.alternate { "alternate" } else { "not alternate" };
        let said = match (from_message, self.alternate) {
            (false, _) => "as typed",
            // The maps that alternate begin in the south.
            (true, true) => "as the file says (scanning mode 0x50: rows go upward)",
            (true, false) => "as the file says (scanning mode 0x00: rows go downward)",
        };
        format!("{} columns x {} rows, {alternate}, {said}", self.columns, self.rows)
    }
}

/// The points of two files, through the library.
fn points_of(section5: &Path, section7: &Path) -> Vec<Point> {
    let section5 = Section5::from_octets(&fs::read(section5).unwrap()).unwrap();
    Input::of_map(&section5, &fs::read(section7).unwrap()[5..]).points().unwrap()
}

/// Rows and columns counted from 1, both ends among them.
fn cut_out(rows: &[Vec<Point>], [first_row, last_row, first_column, last_column]: [usize; 4]) -> Vec<Point> {
    rows[first_row - 1..last_row].iter().flat_map(|row| row[first_column - 1..last_column].to_vec()).collect()
}

fn numbers(points: &[Point]) -> Vec<u32> {
    points.iter().map(|point| point.number().unwrap().try_into().unwrap()).collect()
}

/// The text without the commas within its numbers.
fn plain(text: &str) -> String {
    let octets = text.as_bytes();
    let within = |place: usize| {
        let digit = |place: usize| octets.get(place).is_some_and(u8::is_ascii_digit);
        octets[place] == b',' && digit(place + 1) && place > 0 && digit(place - 1)
    };
    (0..octets.len()).filter(|&place| !within(place)).map(|place| octets[place] as char).collect()
}

/// The numbers of a line, in their order.
fn counts(line: &str) -> Vec<usize> {
    line.split(|letter: char| !letter.is_ascii_digit()).filter_map(|digits| digits.parse().ok()).collect()
}

/// Results with each text on one line. A line that goes on begins with ten blanks at least, below what it goes on with.
fn unwrapped(results: &str) -> String {
    let mut text = String::new();
    for line in results.lines() {
        if line.starts_with("          ") && !text.ends_with("\n\n") {
            text.pop();
            text += " ";
        }
        text += if text.ends_with(' ') { line.trim_start() } else { line };
        text.push('\n');
    }
    text
}

/// "1 row", or "2 rows".
fn many(count: usize, what: &str) -> String {
    format!("{count} {what}{}", if count == 1 { "" } else { "s" })
}

/// A grid that is typed, without --alternate.
fn typed(columns: usize, rows: usize) -> String {
    format!("{} x {}, not alternate", many(columns, "column"), many(rows, "row"))
}

/// How Section 5 of document 01's cases, as it is written here, scales a number.
const SCALE: &str = "not applied: (1 + number x 2^-3) / 10^1";

/// The text behind this word at the front of a line.
fn after<'a>(text: &'a str, word: &str) -> &'a str {
    let line = text.lines().find(|line| line.trim_start().split(' ').next() == Some(word));
    line.unwrap_or_else(|| panic!("no {word}: {text}")).trim_start()[word.len()..].trim_start()
}

const PHYSICAL: Physical = Physical { reference: 0x3F80_0000, binary_scale: 0x8003, decimal_scale: 1, field_type: 1 };

/// Document 01's case 5 6 5 7, lookahead 4.
const CASE: Template = Template {
    number_width: 3,
    splitting: 1,
    missing: 0,
    groups: 2,
    width_reference: 0,
    width_bits: 1,
    length_reference: 3,
    length_increment: 0,
    last_length: 1,
    length_bits: 0,
};

const CASE_PAYLOAD: [u8; 3] = [0xBC, 0x80, 0x40];

fn section7(payload: &[u8]) -> Vec<u8> {
    section7_of(payload).unwrap()
}

/// Section 5 of template 5.2.
fn complex(declared: u32, template: Template) -> Vec<u8> {
    Section5::of_packing(declared, &template, &PHYSICAL)
}

/// Section 5 of template 5.3, from one of 5.2.
fn with_differences(section5: Vec<u8>, order: u8, descriptor_octets: u8) -> Vec<u8> {
    [&[0, 0, 0, 49], &section5[4..10], &[3], &section5[11..], &[order, descriptor_octets]].concat()
}

fn write_map(folder: &Path, name: &str, section5: &[u8], section7: &[u8]) {
    fs::write(folder.join(format!("{name}.s5")), section5).unwrap();
    fs::write(folder.join(format!("{name}.s7")), section7).unwrap();
}

/// Document 01's case in a folder, as the map `map`.
fn write_case(folder: &Path) {
    write_map(folder, "map", &complex(4, CASE), &section7(&CASE_PAYLOAD));
}
