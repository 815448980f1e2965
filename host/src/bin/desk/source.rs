//! Where a map comes from: the two files NAME.s5 and NAME.s7, or a field of a GRIB2 file.

use crate::files::{is_name, pair, read, section_of};
use crate::shown;
use crate::trouble::{Trouble, Why};
use cleatmow::grib2::{self, Contents, Field, Grid, NoGrid};
use std::ffi::OsStr;
use std::fs;
use std::os::unix::ffi::OsStrExt;
use std::path::{Path, PathBuf};
use std::str::FromStr;

/// The most octets that a section is read of. A map of as many points and groups as unpacking accepts has less than a
/// quarter of them.
const MOST_OF_A_SECTION: u64 = 1 << 28;

/// The most octets that a GRIB2 file is read of.
const MOST_OF_A_FILE: u64 = 1 << 30;

/// Section 5 and Section 7, as octets that nobody has looked at.
pub struct Sections {
    /// What sentences call the map.
    pub name: String,
    /// Where in its file it stands, for a sentence that goes on with it; empty where it has files of its own.
    pub place: String,
    /// What sentences call each section.
    pub names: [String; 2],
    pub octets: [Vec<u8>; 2],
    /// What Section 3 of their message says. Two files have none.
    pub grid: Option<Result<Grid, NoGrid>>,
}

impl Sections {
    /// Those of the map that a command is asked for.
    pub fn named(name: &Path) -> Result<Sections, Trouble> {
        match Source::of(name)? {
            Source::Pair(files) => Ok(Sections {
                name: shown::path(&files[0].with_extension("")),
                place: String::new(),
                octets: [read(&files[0], MOST_OF_A_SECTION)?, read(&files[1], MOST_OF_A_SECTION)?],
                names: files.map(|file| shown::path(&file)),
                grid: None,
            }),
            Source::Field { file, which } => {
                let file = Grib2File::read(&file)?;
                file.sections(which)
            }
        }
    }
}

/// How many octets two sections have.
pub fn octets_of(sections: &[Vec<u8>; 2]) -> u64 {
    sections.iter().map(|section| section.len() as u64).sum()
}

/// A GRIB2 file, read.
pub struct Grib2File {
    pub name: String,
    octets: Vec<u8>,
}

impl Grib2File {
    pub fn read(file: &Path) -> Result<Grib2File, Trouble> {
        Ok(Grib2File { name: shown::path(file), octets: read(file, MOST_OF_A_FILE)? })
    }

    pub fn contents(&self) -> Result<Contents<'_>, Trouble> {
        grib2::contents(&self.octets).map_err(|why| Trouble::Own(Why::Host, format!("{}: {why}", self.name)))
    }

    /// The sections of a field, counted from 1. Where the file has several, one must be said.
    fn sections(&self, which: Option<usize>) -> Result<Sections, Trouble> {
        let (Contents { fields, other_octets, .. }, name) = (self.contents()?, &self.name);
        let which = match (which, fields.len()) {
            (None, 1) => 1,
            (Some(which), count) if (1..=count).contains(&which) => which,
            (Some(which), count) => {
                return Trouble::host(format!("{name} has no field {which}: it has {}", shown::many(count, "field")));
            }
            (None, count) => {
                let fields = shown::many(count, "field");
                return Trouble::host(format!(
                    "{name} has {fields}: {name}:1 is the first of them, and desk list shows all"
                ));
            }
        };
        let name = if fields.len() == 1 { name.clone() } else { format!("{name}:{which}") };
        let field: &Field = &fields[which - 1];
        let octets = field.sections().map_err(|why| Trouble::Own(Why::Host, format!("{name}: {why}")))?;
        // Octets of no message may be a heading, or a message whose first letters are lost: then the fields are others.
        let others = match other_octets {
            0 => String::new(),
            _ => format!(", {} of no message in the file", shown::many(other_octets, "octet")),
        };
        Ok(Sections {
            place: format!(", message {} at octet {}{others}", field.message, shown::count(field.at as u64)),
            names: [name.clone(), name.clone()],
            name,
            octets: octets.map(<[u8]>::to_vec),
            grid: Some(field.grid()),
        })
    }
}

enum Source {
    Pair([PathBuf; 2]),
    Field { file: PathBuf, which: Option<usize> },
}

impl Source {
    /// A name is that of two files, or of a GRIB2 file, or FILE:N. One that could be two of these is refused.
    fn of(name: &Path) -> Result<Source, Trouble> {
        let (files, shown) = (pair(name), shown::path(name));
        if section_of(name).is_some() {
            return Ok(Source::Pair(files));
        }
        let mut found = Vec::new();
        if is_name(name.as_os_str()) && files.iter().any(|file| is_there(file)) {
            found.push(Source::Pair(files));
        }
        if fs::metadata(name).is_ok_and(|found| found.is_file()) {
            found.push(Source::Field { file: name.into(), which: None });
        }
        if let Some((file, which)) = field_of(name).filter(|(file, _)| is_there(file)) {
            found.push(Source::Field { file, which: Some(which) });
        }
        match (found.pop(), found.is_empty()) {
            (Some(source), true) => Ok(source),
            (Some(_), false) => Trouble::host(format!(
                "{shown} could be more than one of these: a GRIB2 file, the field FILE:N of one, two sections; {shown}.s5 \
                 names two sections and {shown}:1 a field of a file {shown}, and else one must be renamed"
            )),
            (None, _) if is_there(name) => Trouble::host(format!("{shown} is not a file")),
            (None, _) => {
                Trouble::host(format!("there is no map {shown}: there is neither a file of this name nor {shown}.s5"))
            }
        }
    }
}

fn is_there(file: &Path) -> bool {
    fs::symlink_metadata(file).is_ok()
}

/// FILE and N of FILE:N.
fn field_of(name: &Path) -> Option<(PathBuf, usize)> {
    let name = name.as_os_str().as_bytes();
    let colon = name.iter().rposition(|octet| *octet == b':')?;
    let which = std::str::from_utf8(&name[colon + 1..]).ok()?;
    Some((OsStr::from_bytes(&name[..colon]).into(), whole_number(which)?))
}

/// The number that a word is, of digits and nothing else.
pub fn whole_number<N: FromStr>(word: &str) -> Option<N> {
    word.bytes().all(|digit| digit.is_ascii_digit()).then(|| word.parse().ok())?
}
