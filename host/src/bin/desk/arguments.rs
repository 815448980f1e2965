//! The words of the command line.

use crate::files::is_name;
use crate::grid::{Grid, Place, Rectangle, Typed};
use crate::help::Topic;
use crate::packing::lookahead_of;
use crate::shown;
use crate::trouble::Trouble;
use std::ffi::{OsStr, OsString};
use std::ops::Range;
use std::os::unix::ffi::{OsStrExt, OsStringExt};
use std::path::PathBuf;

/// What packing looks ahead where nobody says it. Of those that were tried on the three cut-outs of `desk day` it gives
/// two of them the fewest octets, and the third nearly so.
pub const LOOKAHEAD: u32 = 4;

/// The words that can stand for a missing point: nobody takes one of them for a number, or for calm.
const FOR_MISSING: [&str; 8] = ["NaN", "NA", "N/A", "null", "none", "nodata", "missing", shown::NO_FORECAST];

pub enum Command {
    Help(Option<Topic>),
    Version,
    Day { samples: PathBuf },
    List { file: PathBuf },
    Info { map: PathBuf, groups: bool },
    Unpack(Unpack),
    Point(Point),
    Check { map: PathBuf, lookahead: u32 },
    Pack(Pack),
    Levels { map: PathBuf },
    WriteLevels { text: PathBuf, to: PathBuf },
    Split { map: PathBuf, to: PathBuf },
}

pub struct Unpack {
    pub map: PathBuf,
    pub form: Form,
    /// What is printed for a missing point.
    pub missing: String,
    pub grid: Typed,
    pub lookahead: Option<u32>,
}

/// What is printed of a point.
#[derive(Clone, Copy, PartialEq, Eq)]
pub enum Form {
    Numbers,
    Marks,
    Table,
}

pub struct Point {
    pub map: PathBuf,
    pub grid: Typed,
    pub place: Place,
    /// Whether its group is shown.
    pub group: bool,
    pub lookahead: Option<u32>,
}

pub struct Pack {
    pub map: PathBuf,
    pub grid: Typed,
    pub cut: Cut,
    pub lookahead: u32,
    pub to: PathBuf,
}

/// The rows and columns to cut out. Those that are not said are all.
pub struct Cut {
    rows: Option<Range<u32>>,
    columns: Option<Range<u32>>,
}

impl Cut {
    pub fn of(&self, grid: Grid) -> Rectangle {
        let Rectangle { rows, columns } = grid.whole();
        Rectangle { rows: self.rows.clone().unwrap_or(rows), columns: self.columns.clone().unwrap_or(columns) }
    }
}

impl Command {
    /// The command that these words ask for, with the command's own name left out.
    pub fn from_words(words: impl Iterator<Item = OsString>) -> Result<Command, Trouble> {
        let words: Vec<OsString> = words.collect();
        let before_names = words.iter().take_while(|word| *word != "--");
        let is_help = before_names.clone().any(|word| word == "--help" || word == "-h");
        let Some((first, rest)) = words.split_first() else {
            return wrong(None, "a command is missing");
        };
        let topic = first.to_str().and_then(Topic::named);
        match first.to_str() {
            _ if is_help => return Ok(Command::Help(topic)),
            Some("--version" | "-V") => return Ok(Command::Version),
            Some("help") => {
                let asked = rest
                    .first()
                    .filter(|word| *word != "help")
                    .map(|word| word.to_str().and_then(Topic::named).ok_or(word));
                return match asked.transpose() {
                    Ok(topic) => Ok(Command::Help(topic)),
                    Err(word) => wrong(None, &format!("there is no command {}", word.to_string_lossy())),
                };
            }
            _ => {}
        }
        let Some(topic) = topic else {
            return wrong(None, &format!("there is no command {}", first.to_string_lossy()));
        };
        let mut words = Words::read(topic, rest)?;
        let command = words.command()?;
        words.none_left()?;
        Ok(command)
    }
}

fn wrong<T>(topic: Option<Topic>, what: &str) -> Result<T, Trouble> {
    let help = topic.map_or("desk --help".into(), |topic| format!("desk help {}", topic.name()));
    Trouble::host(format!("{}; {help} says how the desk is asked", shown::on_one_line(what)))
}

/// The words of a command that are not used yet.
struct Words {
    topic: Topic,
    /// Those that are no options.
    names: Vec<OsString>,
    /// Options with their values. A flag has an empty one.
    options: Vec<(&'static str, OsString)>,
}

impl Words {
    /// Tells options from names. After `--` all are names.
    fn read(topic: Topic, words: &[OsString]) -> Result<Words, Trouble> {
        let mut read = Words { topic, names: Vec::new(), options: Vec::new() };
        let mut words = words.iter();
        while let Some(word) = words.next() {
            if word == "--" {
                read.names.extend(words.by_ref().cloned());
            } else if word.as_bytes().starts_with(b"-") && word != "-" {
                read.option(word, &mut words)?;
            } else {
                read.names.push(word.clone());
            }
        }
        Ok(read)
    }

    /// Takes an option, and its value: what stands behind `=`, or the next word.
    fn option<'a>(&mut self, word: &OsStr, words: &mut impl Iterator<Item = &'a OsString>) -> Result<(), Trouble> {
        let octets = word.as_bytes();
        let end = octets.iter().position(|octet| *octet == b'=').unwrap_or(octets.len());
        let said = OsStr::from_bytes(&octets[..end]).to_string_lossy().into_owned();
        let value = octets.get(end + 1..).map(|value| OsString::from_vec(value.to_vec()));
        let known = |options: &[&'static str]| options.iter().copied().find(|option| *option == said);
        let (option, value) = if let Some(option) = known(self.topic.options()) {
            let next = value.or_else(|| words.next().cloned().filter(|next| !next.as_bytes().starts_with(b"--")));
            match next {
                Some(value) => (option, value),
                None => return self.wrong(&format!("{option} needs a value")),
            }
        } else if let Some(option) = known(self.topic.flags()) {
            match value {
                None => (option, OsString::new()),
                Some(_) => return self.wrong(&format!("{option} takes no value")),
            }
        } else {
            let command = self.topic.name();
            return self
                .wrong(&format!("desk {command} has no option {said} (a name that begins with - stands behind --)"));
        };
        if self.options.iter().any(|(other, _)| *other == option) {
            return self.wrong(&format!("{option} is said twice"));
        }
        self.options.push((option, value));
        Ok(())
    }

    fn wrong<T>(&self, what: &str) -> Result<T, Trouble> {
        wrong(Some(self.topic), what)
    }

    fn command(&mut self) -> Result<Command, Trouble> {
        Ok(match self.topic {
            Topic::Day => Command::Day { samples: self.value("--samples").unwrap_or("samples".into()).into() },
            Topic::List => Command::List { file: self.name("the file")? },
            Topic::Info => Command::Info { groups: self.flag("--groups"), map: self.map()? },
            Topic::Unpack => {
                let (lookahead, grid) = (self.lookahead()?, self.grid()?);
                self.straight(grid, lookahead)?;
                let form = match (self.flag("--csv"), self.flag("--marks")) {
                    (true, true) => return self.wrong("--csv has marks by itself, so --marks is too much"),
                    (true, false) => Form::Table,
                    (false, _) if grid != Typed::default() => return self.wrong("a grid is typed without --csv"),
                    (false, true) => Form::Marks,
                    (false, false) => Form::Numbers,
                };
                Command::Unpack(Unpack { form, missing: self.missing()?, grid, lookahead, map: self.map()? })
            }
            Topic::Point => {
                let (lookahead, grid) = (self.lookahead()?, self.grid()?);
                self.straight(grid, lookahead)?;
                let place = Place { column: self.counted("--column")?, row: self.counted("--row")? };
                Command::Point(Point { grid, place, group: self.flag("--group"), lookahead, map: self.map()? })
            }
            Topic::Check => match self.lookahead()? {
                Some(lookahead) => Command::Check { lookahead, map: self.map()? },
                None => return self.wrong("--lookahead is missing"),
            },
            Topic::Pack => Command::Pack(Pack {
                grid: self.grid()?,
                cut: Cut { columns: self.span("--cut-columns")?, rows: self.span("--cut-rows")? },
                lookahead: self.lookahead()?.unwrap_or(LOOKAHEAD),
                to: self.to()?,
                map: self.map()?,
            }),
            Topic::Levels => self.levels()?,
            Topic::Split => Command::Split { to: self.to()?, map: self.map()? },
        })
    }

    fn levels(&mut self) -> Result<Command, Trouble> {
        Ok(match self.value("--write") {
            Some(text) => Command::WriteLevels { text: text.into(), to: self.to()? },
            None if self.flag("--to") => return self.wrong("--to is said without --write"),
            None => Command::Levels { map: self.map()? },
        })
    }

    fn value(&mut self, option: &str) -> Option<OsString> {
        let place = self.options.iter().position(|(other, _)| *other == option)?;
        Some(self.options.remove(place).1)
    }

    fn needed(&mut self, option: &str) -> Result<OsString, Trouble> {
        self.value(option).map_or_else(|| self.wrong(&format!("{option} is missing")), Ok)
    }

    fn flag(&mut self, option: &str) -> bool {
        self.value(option).is_some()
    }

    fn map(&mut self) -> Result<PathBuf, Trouble> {
        self.name("the map")
    }

    fn name(&mut self, what: &str) -> Result<PathBuf, Trouble> {
        match self.names.is_empty() {
            true => self.wrong(&format!("{what} is missing")),
            false => Ok(self.names.remove(0).into()),
        }
    }

    fn none_left(&self) -> Result<(), Trouble> {
        match self.names.first() {
            Some(word) => self.wrong(&format!("{} is one word too many", word.to_string_lossy())),
            None => Ok(()),
        }
    }

    fn number(&self, option: &str, value: &OsStr) -> Result<u32, Trouble> {
        let number = value.to_str().and_then(|value| value.parse().ok());
        let said = value.to_string_lossy();
        number.map_or_else(|| self.wrong(&format!("{option} {said} is no whole number that the desk takes")), Ok)
    }

    /// A row or column, which a person counts from 1, counted from 0.
    fn counted(&mut self, option: &str) -> Result<u32, Trouble> {
        let value = self.needed(option)?;
        match self.number(option, &value)?.checked_sub(1) {
            Some(number) => Ok(number),
            None => self.wrong(&format!("{option} is 0, and rows and columns are counted from 1")),
        }
    }

    /// The rows or columns of FIRST-LAST.
    fn span(&mut self, option: &str) -> Result<Option<Range<u32>>, Trouble> {
        let Some(value) = self.value(option) else { return Ok(None) };
        let said = value.to_string_lossy();
        let ends: Option<Vec<u32>> = said.split('-').map(|end| end.parse().ok()).collect();
        match ends.as_deref() {
            Some([0, _]) => self.wrong(&format!("{option} {said} begins with 0, and they are counted from 1")),
            Some([first, last]) if first > last => self.wrong(&format!("{option} {said} ends before it begins")),
            Some([first, last]) => Ok(Some(first - 1..*last)),
            _ => self.wrong(&format!("{option} {said} is not of the form FIRST-LAST, such as 13-28")),
        }
    }

    fn grid(&mut self) -> Result<Typed, Trouble> {
        let mut count = |option| match self.value(option).map(|value| self.number(option, &value)).transpose()? {
            Some(0) => self.wrong(&format!("{option} is 0, and a map has at least 1")),
            count => Ok(count),
        };
        Ok(Typed { columns: count("--columns")?, rows: count("--rows")?, alternate: self.flag("--alternate") })
    }

    fn lookahead(&mut self) -> Result<Option<u32>, Trouble> {
        let value = self.value("--lookahead");
        value.map(|value| self.number("--lookahead", &value).and_then(lookahead_of)).transpose()
    }

    /// A map that passes the check is a cut-out of the desk's, and all rows of those go one way.
    fn straight(&self, grid: Typed, lookahead: Option<u32>) -> Result<(), Trouble> {
        match lookahead {
            Some(_) if grid.alternate => self.wrong("no cut-out that the desk packed alternates: --alternate is wrong"),
            _ => Ok(()),
        }
    }

    /// The word for a missing point.
    fn missing(&mut self) -> Result<String, Trouble> {
        let Some(value) = self.value("--missing") else { return Ok(shown::NO_FORECAST.into()) };
        let word = value.to_string_lossy().into_owned();
        match FOR_MISSING.iter().any(|allowed| word.eq_ignore_ascii_case(allowed)) {
            true => Ok(word),
            false => self.wrong(&format!("--missing {word} is none of {}", FOR_MISSING.join(", "))),
        }
    }

    fn to(&mut self) -> Result<PathBuf, Trouble> {
        let to = self.needed("--to")?;
        match is_name(&to) {
            true => Ok(to.into()),
            false => self.wrong(&format!("--to {} names no file", to.to_string_lossy())),
        }
    }
}
