//! What `desk --help` says.

use crate::shown;
use crate::trouble::Why;
use cleatmow::Refusal;

/// A command, and what can be asked about it.
#[derive(Clone, Copy, Debug, PartialEq, Eq)]
pub enum Topic {
    List,
    Info,
    Unpack,
    Point,
    Check,
    Pack,
    Levels,
    Split,
    Day,
}

impl Topic {
    pub const ALL: [Topic; 9] = [
        Topic::List,
        Topic::Info,
        Topic::Unpack,
        Topic::Point,
        Topic::Check,
        Topic::Pack,
        Topic::Levels,
        Topic::Split,
        Topic::Day,
    ];

    pub fn named(name: &str) -> Option<Topic> {
        Topic::ALL.into_iter().find(|topic| topic.name() == name)
    }

    pub fn name(self) -> &'static str {
        match self {
            Topic::List => "list",
            Topic::Info => "info",
            Topic::Unpack => "unpack",
            Topic::Point => "point",
            Topic::Check => "check",
            Topic::Pack => "pack",
            Topic::Levels => "levels",
            Topic::Split => "split",
            Topic::Day => "day",
        }
    }

    /// Its options that have a value.
    pub fn options(self) -> &'static [&'static str] {
        match self {
            Topic::List | Topic::Info => &[],
            Topic::Unpack => &["--columns", "--rows", "--missing", "--lookahead"],
            Topic::Point => &["--columns", "--rows", "--column", "--row", "--lookahead"],
            Topic::Check => &["--lookahead"],
            Topic::Pack => &["--columns", "--rows", "--cut-columns", "--cut-rows", "--lookahead", "--to"],
            Topic::Levels => &["--write", "--to"],
            Topic::Split => &["--to"],
            Topic::Day => &["--samples"],
        }
    }

    /// Its options that have none.
    pub fn flags(self) -> &'static [&'static str] {
        match self {
            Topic::Info => &["--groups"],
            Topic::Unpack => &["--alternate", "--marks", "--csv"],
            Topic::Point => &["--alternate", "--group"],
            Topic::Pack => &["--alternate"],
            Topic::List | Topic::Check | Topic::Levels | Topic::Split | Topic::Day => &[],
        }
    }

    fn text(self) -> Text {
        match self {
            Topic::List => Text {
                usage: "desk list FILE",
                what: &["The fields of a GRIB2 file: where each stands, its template, how many points it has, and of \
                     its grid columns, rows and scanning mode. Messages of edition 2 are read wherever they begin \
                     in the file; what is not read here is named."],
                example: "desk list gust.grib2",
            },
            Topic::Info => Text {
                usage: "desk info MAP [--groups]",
                what: &[
                    "Template numbers, points, missing points, least and greatest number, and what the groups have. \
                     With --groups each of the map's own groups, one a line.",
                ],
                example: "desk info gust.grib2:1 --groups",
            },
            Topic::Unpack => Text {
                usage: "desk unpack MAP [--marks | --csv] [--missing WORD] [GRID] [--lookahead K]",
                what: &[
                    "Prints the points of a map in their order, one a line: a number, or 'no forecast'. --marks \
                     puts the mark before it (0 number, 1 and 2 missing). --csv prints row, column, mark and number \
                     with commas between them, below a line that says so. WORD stands for a missing point in place \
                     of 'no forecast': NaN, NA, N/A, null, none, nodata or missing.",
                    "With --lookahead the map is checked first (desk help check).",
                ],
                example: "desk unpack gust.grib2 --csv --missing NaN",
            },
            Topic::Point => Text {
                usage: "desk point MAP [GRID] --column C --row R [--group] [--lookahead K]",
                what: &[
                    "Reads one point of a map: its number or 'no forecast'; its mark (0 number, 1 and 2 missing); \
                     how Section 5 scales it, which is not done; its place, and the grid that was taken for \
                     granted. Under template 5.2 the point is read by itself, and the map is not unpacked; under \
                     5.3, where a number is made of those before it, it is.",
                    "With --group its group in the map is shown too. The desk reads the group fields for that; the \
                     number is not made of what it finds there.",
                    "With --lookahead the map is checked first (desk help check), and is unpacked for that. The \
                     point is still read by itself, and nothing is shown where the unpacked map has another.",
                ],
                example: "desk point site --columns 32 --rows 16 --column 11 --row 16 --lookahead 4",
            },
            Topic::Check => Text {
                usage: "desk check MAP --lookahead K",
                what: &[
                    "Packs the map's numbers again with lookahead K. Where both sections come out as they are, \
                     octet by octet, the map is a packing of the desk's; where not, the exit status is 67. unpack \
                     and point make the same check where --lookahead is said, and show no number where it fails; \
                     where it is not said, they say that nothing was checked.",
                    "So a Section 5 and a Section 7 of two cut-outs mostly do not pass. They do where what they \
                     come to is a packing of the desk's by itself: one of the two, or now and then, where cut-outs \
                     are small, a third. What is not shown: that the map is the one that was meant, of the right \
                     day and place; that no bit was changed on the way (a changed value is a packing too); the \
                     scale, which is taken as it stands. A centre's map is no packing of the desk's, and does not \
                     pass.",
                ],
                example: "desk check site --lookahead 4",
            },
            Topic::Pack => Text {
                usage: "desk pack MAP [GRID] [--cut-columns FIRST-LAST] [--cut-rows FIRST-LAST]\n            \
                 [--lookahead K] --to CUT-OUT",
                what: &["Unpacks a map, cuts out a rectangle, packs it, and writes it as CUT-OUT.s5 and CUT-OUT.s7, \
                     under template 5.2 and with all rows from the first column to the last. Without --cut-columns \
                     it has all columns, without --cut-rows all rows. Nothing is packed where a point of the \
                     cut-out has no forecast, or a number that is not 0 to 2,147,483,647. No file is written over: \
                     either both files are written, each whole, or none."],
                example: "desk pack gust.grib2 --cut-columns 93-124 --cut-rows 15-30 --to site",
            },
            Topic::Levels => Text {
                usage: "desk levels MAP, desk levels --write TEXT --to NAME",
                what: &[
                    "Prints the levels of a map under template 5.200 in their order, one a line, below two lines that \
                     begin with #: the bits of a code, the greatest level and how many points there are; and, in \
                     hexadecimal, what Section 5 says of the levels' values. They are levels and not gusts: what one \
                     stands for is not read here, and it may be a missing point.",
                    "With --write such a text becomes a map again, NAME.s5 and NAME.s7. Its first line must be like \
                     '# levels, not gusts: bits 4, greatest level 9, points 10'. Without the second, Section 5 says of \
                     no level what it stands for. No file is written over: either both files are written, each whole, \
                     or none.",
                ],
                example: "desk levels --write rain.txt --to rain",
            },
            Topic::Split => Text {
                usage: "desk split FILE:N --to NAME",
                what: &["Writes Section 5 and Section 7 of a field of a GRIB2 file, of template 5.2, 5.3 or 5.200, \
                     to NAME.s5 and NAME.s7, as they are."],
                example: "desk split gust.grib2:1 --to gust",
            },
            Topic::Day => Text {
                usage: "desk day [--samples FOLDER]",
                what: &[
                    "A day at the desk on the three messages of samples/: each is unpacked, the route's rectangle \
                     is cut out and packed, and on site it is unpacked and checked, and one point is read. One \
                     cut-out has points without forecast: that the desk does not pack it is a result of the day. \
                     FOLDER has the messages; without the option it is the folder samples where the command is run.",
                ],
                example: "desk day --samples samples",
            },
        }
    }
}

/// How a command is asked, what it does, and an example.
struct Text {
    usage: &'static str,
    what: &'static [&'static str],
    example: &'static str,
}

const HEAD: &str = "desk: the wind desk's work on forecast maps, from the centre's map to the number on site";

const HELP: (&str, &str) = (
    "desk help COMMAND, desk COMMAND --help, desk --version",
    "Prints what COMMAND does and the words that all share, or the version.",
);

/// The words that commands share.
const WORDS: [(&str, &str); 6] = [
    (
        "MAP",
        "FILE, a GRIB2 file with one field, or FILE:N for its Nth field; or NAME for the two files NAME.s5 and NAME.s7, \
         either of which names the map too. NAME.s5 is Section 5 of a GRIB2 message, whole, of template 5.2 or 5.3, or for \
         desk levels of 5.200; NAME.s7 is its Section 7, whole: length in four octets, number 7, payload. A field with a \
         bitmap is refused.",
    ),
    (
        "GRID",
        "--columns N --rows N [--alternate]: how many columns and rows the map has; with --alternate every second row \
         goes from the last column to the first. Two sections do not say it, so it must be typed. A GRIB2 file says it \
         (grid templates 3.0, 3.10, 3.20 and 3.30, scanning mode 0x00, 0x10, 0x40 or 0x50): then it need not be typed, \
         and what is typed otherwise is refused, as every other grid of a file is. Points go row by row. Rows, columns, \
         points, groups and fields are counted from 1.",
    ),
    ("FIRST-LAST", "the columns or rows to cut out, both ends among them, like 13-28. One alone is 13-13."),
    (
        "--lookahead",
        "how many numbers packing looks at before it ends a group: 1 to 65,535. desk pack takes 4 if it is not said, and \
         says which it was.",
    ),
    ("--", "ends the options: all words behind it are names. A value can stand behind = too, as in --columns=144."),
    (
        "Numbers",
        "are those that the centre packed. They are not scaled to metres a second or degrees: Section 5 says how that \
         is done, and the one of a cut-out says it as the map's own does.",
    ),
];

const STATUS: &str =
    "Results go to standard output. An error is one sentence on standard error, where notes stand too, and \
    how far a step is that takes longer than a second. The exit status:";

/// The whole text, or the part of one command. No line is longer than 80 characters.
pub fn text(topic: Option<Topic>) -> String {
    let mut lines = Vec::new();
    let topics = topic.map_or(Topic::ALL.to_vec(), |topic| vec![topic]);
    if topic.is_none() {
        lines.extend([shown::after("", HEAD), String::new()]);
    }
    for Text { usage, what, .. } in topics.iter().map(|topic| topic.text()) {
        lines.push(format!("  {usage}"));
        lines.extend(what.iter().map(|what| shown::after("      ", what)));
        lines.push(String::new());
    }
    if topic.is_none() {
        lines.extend([format!("  {}", HELP.0), shown::after("      ", HELP.1), String::new()]);
    }
    lines.extend(WORDS.iter().map(|(word, what)| shown::after(&format!("{word:<13}"), what)));
    lines.extend([String::new(), "Examples:".into()]);
    lines.extend(topics.iter().map(|topic| format!("  {}", topic.text().example)));
    lines.extend([String::new(), shown::after("", STATUS)]);
    let status = |number: u32, sentence: &str| shown::after(&format!("{number:>4}  "), sentence);
    lines.push(status(0, "no error"));
    lines.extend(Refusal::ALL.iter().map(|refusal| status(refusal.number(), refusal.sentence())));
    lines.extend(Why::ALL.iter().map(|why| status(*why as u32, why.sentence())));
    lines.push(shown::after("", "1 to 15 are the refusals of the calls; 10 and 15 do not come from the desk."));
    lines.join("\n") + "\n"
}
