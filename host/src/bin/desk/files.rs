//! Files: read as far as a map goes, and written whole or not at all.

use crate::progress::step;
use crate::shown;
use crate::trouble::{Trouble, Why};
use std::ffi::OsStr;
use std::fs::{self, File};
use std::io::{self, Read, Write};
use std::os::unix::ffi::OsStrExt;
use std::path::{Path, PathBuf};

/// The octets of a file, if it has no more than this.
pub fn read(file: &Path, most: u64) -> Result<Vec<u8>, Trouble> {
    let name = shown::path(file);
    let cannot = |error: io::Error| Trouble::Own(Why::Host, format!("{name} cannot be read: {error}"));
    let found = fs::metadata(file).map_err(cannot)?;
    // What is no file, a pipe for one, may never end.
    if !found.is_file() {
        return Trouble::host(format!("{name} is not a file"));
    }
    if found.len() > most {
        return Trouble::host(format!("{name} has more than {} octets, and is not read", shown::count(most)));
    }
    let mut octets = Vec::new();
    // One that grows meanwhile is read no further, and is then not as long as it says.
    let mut opened = File::open(file).map_err(cannot)?.take(most);
    step(|| format!("reading {name}"), || opened.read_to_end(&mut octets)).map_err(cannot)?;
    Ok(octets)
}

/// NAME.s5 and NAME.s7. Either of its files names a map too.
pub fn pair(name: &Path) -> [PathBuf; 2] {
    let stem = match section_of(name) {
        Some(_) => name.with_extension(""),
        None => name.into(),
    };
    ["s5", "s7"].map(|section| with(&stem, section))
}

/// s5 or s7, where a name ends with one of them.
pub fn section_of(name: &Path) -> Option<&OsStr> {
    name.extension().filter(|section| *section == "s5" || *section == "s7")
}

/// Whether a name is one that files can be written to: its last part is no folder.
pub fn is_name(name: &OsStr) -> bool {
    let last = name.as_bytes().rsplit(|octet| *octet == b'/').next();
    last.is_some_and(|last| !matches!(last, b"" | b"." | b".."))
}

fn with(name: &Path, extension: &str) -> PathBuf {
    let mut file = name.as_os_str().to_os_string();
    file.push(".");
    file.push(extension);
    file.into()
}

/// Writes a map to its two files, or to none: neither may be there already, nor a file that has the map's name.
pub fn write(name: &Path, sections: [&[u8]; 2]) -> Result<[PathBuf; 2], Trouble> {
    let (files, mut made) = (pair(name), Vec::new());
    let stem = files[0].with_extension("");
    if stem.is_file() {
        let stem = shown::path(&stem);
        return Trouble::host(format!("{stem} is a file, from which two sections of its name could not be told apart"));
    }
    let Err(trouble) = write_both(&files, sections, &mut made) else { return Ok(files) };
    let stands = |file: &&PathBuf| fs::remove_file(file).is_err() && file.exists();
    let standing: Vec<String> = made.iter().filter(stands).map(|file| shown::path(file)).collect();
    match trouble.sentence() {
        Some(sentence) if !standing.is_empty() => {
            Trouble::host(format!("{sentence}; {} cannot be removed again", standing.join(" and ")))
        }
        _ => Err(trouble),
    }
}

/// Each section is written whole under another name first. What is made on the way is noted, so that it can be removed.
fn write_both(files: &[PathBuf; 2], sections: [&[u8]; 2], made: &mut Vec<PathBuf>) -> Result<(), Trouble> {
    let parts = ["s5", "s7"].map(|section| files[0].with_file_name(format!(".desk-{}.{section}", std::process::id())));
    for ((part, file), octets) in parts.iter().zip(files).zip(sections) {
        let cannot = |error| cannot_write(file, &error);
        let mut new = create(part, made).map_err(|error| match error.kind() {
            io::ErrorKind::AlreadyExists => cannot_write(part, &error),
            _ => cannot(error),
        })?;
        new.write_all(octets).and_then(|()| new.sync_all()).map_err(cannot)?;
    }
    for (part, file) in parts.iter().zip(files) {
        put(part, file, made).map_err(|error| cannot_write(file, &error))?;
    }
    Ok(())
}

/// Gives a whole file its name, which no other file may have. A link never takes a name from another file, as renaming
/// would; where the file system has none, the name is taken by an empty file first.
fn put(part: &Path, file: &Path, made: &mut Vec<PathBuf>) -> io::Result<()> {
    match fs::hard_link(part, file) {
        Ok(()) => {
            made.push(file.into());
            fs::remove_file(part)
        }
        Err(error) if error.kind() == io::ErrorKind::AlreadyExists => Err(error),
        Err(_) => {
            create(file, made)?;
            fs::rename(part, file)
        }
    }
}

fn create(file: &Path, made: &mut Vec<PathBuf>) -> io::Result<File> {
    let new = File::create_new(file)?;
    made.push(file.into());
    Ok(new)
}

fn cannot_write(file: &Path, error: &io::Error) -> Trouble {
    let name = shown::path(file);
    Trouble::Own(
        Why::Host,
        match error.kind() {
            io::ErrorKind::AlreadyExists => format!("{name} is there already, and the desk writes over no file"),
            _ => format!("{name} cannot be written: {error}"),
        },
    )
}
