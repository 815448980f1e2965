//! The archive linked by C and by C++ through include/cleatmow.h, and the header without a warning under two standards
//! of each; and the header's calls in the list of those that are emulated where the machine is no x86-64.

use std::ffi::OsStr;
use std::io::{stderr, ErrorKind, Write};
use std::path::{Path, PathBuf};
use std::process::{Command, Output};

/// What a host that wants all warnings asks for.
const WARNINGS: [&str; 4] = ["-Wall", "-Wextra", "-Wpedantic", "-Werror"];

/// The linker looks for a name of its own in place of each of these, and finds none: a call that allocates is not
/// linked.
const NOTHING_ALLOCATES: &str =
    "-Wl,--wrap=malloc,--wrap=calloc,--wrap=realloc,--wrap=aligned_alloc,--wrap=posix_memalign,--wrap=mmap,--wrap=sbrk";

/// A compiler, its name for the language, and a standard of it.
struct Language {
    compiler: &'static str,
    name: &'static str,
    standard: &'static str,
}

impl Language {
    /// Compiles a file of this language, without a warning.
    fn compile(&self, file: &Path, more: impl IntoIterator<Item = impl AsRef<OsStr>>) {
        let Self { compiler, name, standard } = self;
        let ran = Command::new(compiler)
            .args(WARNINGS)
            .arg(format!("-std={standard}"))
            .arg("-I")
            .arg(here("../include"))
            .args(["-x", name])
            .arg(file)
            .args(["-x", "none"])
            .args(more)
            .output()
            .unwrap();
        let said = String::from_utf8_lossy(&ran.stderr);
        assert!(ran.status.success(), "{compiler} -std={standard} refuses {}:\n{said}", file.display());
    }

    /// The header and nothing else; and the header after itself, as where two headers of a host include it.
    fn compile_header(&self) {
        let header = here("../include/cleatmow.h");
        self.compile(&header, ["-fsyntax-only"]);
        self.compile(&header, ["-fsyntax-only", "-include", "cleatmow.h"]);
    }

    /// Compiles a program of tests/, links the archive to it, and runs it.
    fn run(&self, program: &str) -> Output {
        let file = Path::new(env!("CARGO_TARGET_TMPDIR")).join(format!("{program}-{}", self.standard));
        let archive = Path::new(env!("OUT_DIR")).join("libcleatmow.a");
        let more = [archive.as_os_str(), OsStr::new(NOTHING_ALLOCATES), OsStr::new("-o"), file.as_os_str()];
        self.compile(&here("tests").join(program), more);
        Command::new(file).output().unwrap()
    }
}

/// A path seen from host/.
fn here(path: &str) -> PathBuf {
    Path::new(env!("CARGO_MANIFEST_DIR")).join(path)
}

/// All that is asked of a language, under each of these standards. Where there is no compiler of it, one line says so.
fn call_from(compiler: &'static str, name: &'static str, standards: [&'static str; 2]) {
    if let Err(error) = Command::new(compiler).arg("--version").output() {
        assert_eq!(error.kind(), ErrorKind::NotFound, "{compiler}: {error}");
        // Written past the test harness, which keeps what a test that passes prints.
        stderr().write_all(format!("not run: no {compiler} to call from {name}\n").as_bytes()).unwrap();
        return;
    }
    for standard in standards {
        let language = Language { compiler, name, standard };
        language.compile_header();

        let call = language.run("call.c");
        assert_eq!(call.status.code(), Some(0), "{standard}: the line of call.c that went wrong");

        let small = language.run("small.c");
        assert_eq!(small.status.code(), Some(0), "{standard}: the refusal that small.c met");
        assert_eq!(String::from_utf8_lossy(&small.stdout), "3\n3\n3\n3\n3\n3\n3\n3\n3\n5\n", "{standard}");
    }
}

#[test]
fn from_c() {
    call_from("cc", "c", ["c99", "c11"]);
}

#[test]
fn from_cpp() {
    call_from("c++", "c++", ["c++11", "c++17"]);
}

/// What stands behind each of these words, as far as the first bracket that opens or closes.
fn behind<'a>(text: &'a str, word: &str) -> Vec<&'a str> {
    text.split(word).skip(1).filter_map(|rest| rest.split(['(', ')']).next()).collect()
}

/// On any machine: one that is x86-64 builds nothing of that list, and would not miss a call there.
#[test]
fn every_call_is_emulated() {
    let declared = behind(include_str!("../../include/cleatmow.h"), "\nuint32_t cleatmow_");
    let carried = behind(include_str!("../emulated/between.h"), "\n    call(");
    assert!(!declared.is_empty());
    assert_eq!(declared, carried);
}
