//! What stands between a command and its answer, and the exit status that says so.

use cleatmow::Refusal;
use std::io;

/// Why the desk itself does not go on. Refusals have exit statuses of their own, their numbers, which are below these.
#[derive(Clone, Copy, Debug, PartialEq, Eq)]
pub enum Why {
    /// Words that are no command, or files that are no map.
    Host = 64,
    /// A point of a cut-out is missing.
    NoForecast = 65,
    /// A number of a cut-out is none that packing takes.
    NoNumber = 66,
    /// A map is not what packing makes of its own numbers.
    OtherPacking = 67,
}

impl Why {
    pub const ALL: [Why; 4] = [Why::Host, Why::NoForecast, Why::NoNumber, Why::OtherPacking];

    /// What `desk --help` says of it.
    pub fn sentence(self) -> &'static str {
        match self {
            Why::Host => "an error of the desk's own, such as words that it does not know or a file that is no map",
            Why::NoForecast => "the cut-out has a point without forecast, and is not packed",
            Why::NoNumber => "the cut-out has a number that cannot be packed, negative or above 2,147,483,647",
            Why::OtherPacking => "the map is not what the desk packs of its numbers with this lookahead",
        }
    }
}

#[derive(Debug)]
pub enum Trouble {
    /// A call refuses what it was given.
    Refused {
        /// What was given to it.
        what: String,
        refusal: Refusal,
        /// What was found there, in words; empty where there is no more to say.
        found: String,
    },
    /// The desk itself does not go on, for the reason in this sentence.
    Own(Why, String),
    /// Standard output cannot be written.
    Output {
        error: io::Error,
        /// The files that were written before that.
        written: String,
    },
}

impl Trouble {
    pub fn host<T>(sentence: impl Into<String>) -> Result<T, Trouble> {
        Err(Trouble::Own(Why::Host, sentence.into()))
    }

    /// The same trouble after these files were written.
    pub fn after(self, files: &str) -> Trouble {
        match self {
            Trouble::Output { error, .. } => Trouble::Output { error, written: files.into() },
            other => other,
        }
    }

    /// One sentence for standard error. There is none where whoever reads the results has had enough of them and has
    /// closed the pipe, which is not an error.
    pub fn sentence(&self) -> Option<String> {
        match self {
            Trouble::Refused { what, refusal, found } if found.is_empty() => Some(format!("{what}: {refusal}")),
            // Of 14's conditions the one that holds, in place of all of them.
            Trouble::Refused { what, refusal: Refusal::Section5, found } => {
                Some(format!("{what}: refusal {}: {found}", Refusal::Section5.number()))
            }
            Trouble::Refused { what, refusal, found } => Some(format!("{what}: {refusal} ({found})")),
            Trouble::Own(_, sentence) => Some(sentence.clone()),
            Trouble::Output { error, .. } if error.kind() == io::ErrorKind::BrokenPipe => None,
            Trouble::Output { error, written } => {
                let written = if written.is_empty() { "".into() } else { format!("; {written} stand all the same") };
                Some(format!("standard output cannot be written: {error}{written}"))
            }
        }
    }

    pub fn status(&self) -> u8 {
        match self {
            Trouble::Refused { refusal, .. } => u8::try_from(refusal.number()).unwrap_or(Why::Host as u8),
            Trouble::Own(why, _) => *why as u8,
            Trouble::Output { .. } => self.sentence().map_or(0, |_| Why::Host as u8),
        }
    }
}

/// Files have a sentence of their own each, so what comes without one is standard output's.
impl From<io::Error> for Trouble {
    fn from(error: io::Error) -> Trouble {
        Trouble::Output { error, written: String::new() }
    }
}
