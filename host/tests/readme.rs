//! The programs of the README, built and run as it says; the one in Rust is a documentation test (src/lib.rs). And the worked
//! number of docs/READING.md.

use std::ffi::OsStr;
use std::fs;
use std::io::{stderr, ErrorKind, Write};
use std::path::{Path, PathBuf};
use std::process::{Command, Output};

const README: &str = include_str!("../../README.md");

/// The one program of this language.
fn program(language: &str) -> &'static str {
    let found: Vec<&str> = README.split(&format!("\n```{language}\n")).skip(1).collect();
    let [program] = found[..] else { panic!("{} programs in {language}", found.len()) };
    program.split_once("```").expect("an end").0
}

/// Runs a command in a folder. Where it is not installed, one line says so.
fn run(folder: &Path, command: &str, words: impl IntoIterator<Item = impl AsRef<OsStr>>) -> Option<Output> {
    match Command::new(command).args(words).current_dir(folder).output() {
        Ok(output) => Some(output),
        Err(error) => {
            assert_eq!(error.kind(), ErrorKind::NotFound, "{command}: {error}");
            // Written past the test harness, which keeps what a test that passes prints.
            stderr().write_all(format!("not run: there is no {command}\n").as_bytes()).unwrap();
            None
        }
    }
}

/// A run that went well and printed this line.
fn hold(ran: &Output, line: &str) {
    let printed = (String::from_utf8_lossy(&ran.stdout), String::from_utf8_lossy(&ran.stderr));
    assert_eq!((ran.status.code(), &*printed.0, &*printed.1), (Some(0), line, ""));
}

/// A folder as the README sees the repository: `include` and the archive are there.
fn repository(language: &str) -> PathBuf {
    let folder = Path::new(env!("CARGO_TARGET_TMPDIR")).join(format!("readme-{language}"));
    let _ = fs::remove_dir_all(&folder);
    for part in ["include", "target/staticlib"] {
        fs::create_dir_all(folder.join(part)).unwrap();
    }
    let header = Path::new(env!("CARGO_MANIFEST_DIR")).join("../include/cleatmow.h");
    fs::copy(header, folder.join("include/cleatmow.h")).unwrap();
    let archive = Path::new(env!("OUT_DIR")).join("libcleatmow.a");
    fs::copy(archive, folder.join("target/staticlib/libcleatmow.a")).unwrap();
    folder
}

/// The words of the command that the README gives, without its first: it stands between backticks and begins so.
fn words(front: &str) -> Vec<&'static str> {
    let place = README.find(&format!("`{front}")).expect(front) + 1;
    let (command, _) = README[place..].split_once('`').expect("an end");
    command.split_whitespace().skip(1).collect()
}

#[test]
fn in_c() {
    let folder = repository("c");
    fs::write(folder.join("site.c"), program("c")).unwrap();
    let Some(built) = run(&folder, "cc", words("cc -Iinclude").into_iter().chain(["-o", "site"])) else {
        return;
    };
    assert!(built.status.success(), "{}", String::from_utf8_lossy(&built.stderr));
    let ran = Command::new(folder.join("site")).output().unwrap();
    hold(&ran, "the last point has mark 0 and number 7\n");
}

#[test]
fn in_python() {
    let folder = repository("python");
    fs::write(folder.join("site.py"), program("python")).unwrap();
    let Some(built) = run(&folder, "cc", words("cc -shared")) else { return };
    assert!(built.status.success(), "{}", String::from_utf8_lossy(&built.stderr));
    if let Some(ran) = run(&folder, "python3", ["site.py"]) {
        hold(&ran, "0: last level 5\n");
    }
}

/// The page shows, whole and by itself, what the program `worked` writes; that it does write this is for the toolchain's check.
#[test]
fn the_worked_number() {
    let page = include_str!("../../docs/READING.md");
    let written = include_str!("../../crates/worked/stdout");
    let shown: Vec<&str> = page.split("```text\n").skip(1).filter_map(|rest| rest.split("```").next()).collect();
    assert_eq!(shown, [written]);
}
