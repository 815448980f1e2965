//! The wind desk's command. `desk --help` says what it does; `help.rs` has that text.

#![forbid(unsafe_code)]

mod arguments;
mod commands;
mod day;
mod files;
mod grid;
mod help;
mod info;
mod levels;
mod map;
mod own_groups;
mod packing;
mod picture;
mod progress;
mod shown;
mod source;
mod trouble;

use arguments::Command;
use std::io::{self, BufWriter, Write};
use std::process::ExitCode;
use trouble::Trouble;

fn main() -> ExitCode {
    let Err(trouble) = run() else { return ExitCode::SUCCESS };
    if let Some(sentence) = trouble.sentence() {
        // Where standard error cannot be written either, the exit status is left.
        let _ = writeln!(io::stderr(), "desk: {sentence}");
    }
    ExitCode::from(trouble.status())
}

fn run() -> Result<(), Trouble> {
    let mut out = BufWriter::new(io::stdout());
    match Command::from_words(std::env::args_os().skip(1))? {
        Command::Help(topic) => out.write_all(help::text(topic).as_bytes())?,
        Command::Version => writeln!(out, "desk {}", env!("CARGO_PKG_VERSION"))?,
        Command::Day { samples } => day::day(&samples, &mut out)?,
        Command::List { file } => info::list(&file, &mut out)?,
        Command::Info { map, groups } => info::info(&map, groups, &mut out)?,
        Command::Unpack(unpack) => commands::unpack(&unpack, &mut out)?,
        Command::Point(point) => commands::point(&point, &mut out)?,
        Command::Check { map, lookahead } => commands::check_map(&map, lookahead, &mut out)?,
        Command::Pack(pack) => commands::pack(&pack, &mut out)?,
        Command::Levels { map } => levels::show(&map, &mut out)?,
        Command::WriteLevels { text, to } => levels::write_text(&text, &to, &mut out)?,
        Command::Split { map, to } => commands::split(&map, &to, &mut out)?,
    }
    out.flush()?;
    Ok(())
}
