//! How things are written for a person to read.

use cleatmow::Point;
use std::fmt;
use std::path::Path;

/// The most characters of a line.
pub const COLUMNS: usize = 80;

/// What is shown for a missing point where no other word is said.
pub const NO_FORECAST: &str = "no forecast";

/// A point's number. A missing point has none, whatever its octets hold: it is a word.
pub struct Number<'a>(pub Point, pub &'a str);

impl fmt::Display for Number<'_> {
    fn fmt(&self, f: &mut fmt::Formatter<'_>) -> fmt::Result {
        match self.0.number() {
            Some(number) => f.pad(&number.to_string()),
            None => f.pad(self.1),
        }
    }
}

/// A count with a comma before every three digits.
pub fn count(count: impl Into<u64>) -> String {
    let digits = count.into().to_string();
    let mut shown = String::new();
    for (place, digit) in digits.chars().enumerate() {
        if place > 0 && (digits.len() - place) % 3 == 0 {
            shown.push(',');
        }
        shown.push(digit);
    }
    shown
}

/// So many of these: "1 point", "2 points".
pub fn many(how_many: impl TryInto<u64>, what: &str) -> String {
    let how_many = how_many.try_into().unwrap_or(u64::MAX);
    format!("{} {what}{}", count(how_many), if how_many == 1 { "" } else { "s" })
}

pub fn path(path: &Path) -> String {
    on_one_line(&path.to_string_lossy())
}

/// A text from outside within a sentence, which is one line whatever characters the text has.
pub fn on_one_line(text: &str) -> String {
    text.chars().map(|shown| if shown.is_control() { '?' } else { shown }).collect()
}

/// A text after its heading, in lines of up to 80 characters. Its lines but the first begin below the text's first word.
/// A word that is longer by itself is not parted.
pub fn after(heading: &str, text: &str) -> String {
    let (mut shown, indent) = (String::from(heading), heading.chars().count());
    let mut length = indent;
    for (place, word) in text.split(' ').enumerate() {
        let word_length = word.chars().count();
        if place > 0 && length + 1 + word_length > COLUMNS {
            shown.push('\n');
            shown.push_str(&" ".repeat(indent));
            length = indent;
        } else if place > 0 {
            shown.push(' ');
            length += 1;
        }
        shown.push_str(word);
        length += word_length;
    }
    shown
}
