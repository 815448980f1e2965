//! Makes libcleatmow.a by `rt lib` in the folder of the crate `cleatmow_c`, and links it.
//! CLEATMOW_ARCHIVE_DIR names a folder that has the archive already, seen from host/; then nothing is made.
//!
//! The archive is x86-64 code. On a Linux that is no x86-64, one with the same calls is linked instead, which carries
//! each call to an x86-64 process under an emulator; that process has the archive (emulated/).

use std::path::{Path, PathBuf};
use std::process::{exit, Command, Output};
use std::{env, fs, io};

const ARCHIVE: &str = "libcleatmow.a";

fn main() {
    if let Err(sentence) = link() {
        eprintln!("cleatmow: {sentence}");
        exit(1);
    }
}

fn link() -> Result<(), String> {
    println!("cargo:rerun-if-changed=build.rs");
    println!("cargo:rerun-if-env-changed=CLEATMOW_ARCHIVE_DIR");
    let archive = match env::var_os("CLEATMOW_ARCHIVE_DIR") {
        Some(folder) => {
            let archive = Path::new(&folder).join(ARCHIVE);
            println!("cargo:rerun-if-changed={}", archive.display());
            archive
        }
        None => made()?,
    };
    let out = folder("OUT_DIR")?;
    if target("ARCH") == "x86_64" {
        // The toolchain sets its out/ aside whenever it proves from nothing, so the host links a copy of its own.
        fs::copy(&archive, out.join(ARCHIVE))
            .map_err(|error| format!("{} cannot be copied: {error}", archive.display()))?;
    } else {
        emulate(&archive, &out)?;
    }
    println!("cargo:rustc-link-search=native={}", out.display());
    println!("cargo:rustc-link-lib=static=cleatmow");
    Ok(())
}

/// Proves the crate `cleatmow_c` and those below it, and answers where its archive is: rt names it after the crate.
fn made() -> Result<PathBuf, String> {
    for_linux()?;
    let host = folder("CARGO_MANIFEST_DIR")?;
    let top = host.parent().ok_or("host/ has no folder above it")?;
    rerun_on_sources(top).map_err(|error| format!("{} cannot be read: {error}", top.join("crates").display()))?;
    let exports = top.join("crates/cleatmow_c");
    let ran = Command::new("rt").arg("lib").current_dir(&exports).output().map_err(not_run)?;
    went_well(&ran, &format!("`rt lib` failed in {}", exports.display()))?;
    Ok(exports.join("out/libcleatmow_c.a"))
}

/// What rt reads of each crate. What it writes there, in out/, would have cargo run this script at every build.
fn rerun_on_sources(top: &Path) -> io::Result<()> {
    println!("cargo:rerun-if-changed={}", top.join("crates.txt").display());
    for entry in fs::read_dir(top.join("crates"))? {
        let crate_folder = entry?.path();
        for sources in ["src", "specs", "proofs"].map(|part| crate_folder.join(part)) {
            if sources.is_dir() {
                println!("cargo:rerun-if-changed={}", sources.display());
            }
        }
    }
    Ok(())
}

fn for_linux() -> Result<(), String> {
    if target("OS") == "linux" {
        return Ok(());
    }
    let target = env::var("TARGET").unwrap_or_default();
    Err(format!("rt makes archives for x86-64 Linux only, and this build is for {target}"))
}

fn went_well(ran: &Output, failed: &str) -> Result<(), String> {
    if ran.status.success() {
        return Ok(());
    }
    eprint!("{}", String::from_utf8_lossy(&ran.stdout));
    eprint!("{}", String::from_utf8_lossy(&ran.stderr));
    Err(format!("{failed} ({}); what it printed stands above", ran.status))
}

fn not_run(error: io::Error) -> String {
    if error.kind() == io::ErrorKind::NotFound {
        "rt, the Rattle toolchain, is not on the PATH; CLEATMOW_ARCHIVE_DIR can name a folder that has libcleatmow.a"
            .into()
    } else {
        format!("rt, the Rattle toolchain, cannot be run: {error}")
    }
}

/// Makes the archive of the carried calls in this folder. The real one becomes a part of the x86-64 program, and that a
/// part of the carrying side, so that nothing but the emulator is needed when a call is made.
fn emulate(archive: &Path, out: &Path) -> Result<(), String> {
    for_linux()?;
    let host = folder("CARGO_MANIFEST_DIR")?;
    let (sources, include) = (host.join("emulated"), host.join("../include"));
    for changing in [&sources, &include] {
        println!("cargo:rerun-if-changed={}", changing.display());
    }
    let emulator = tool("qemu-x86_64");
    run("runs the x86-64 code on this machine", Command::new(&emulator).arg("--version"))?;

    let (program, object, carrier) = (out.join("there"), out.join("here.o"), out.join(ARCHIVE));
    let mut clang = Command::new(tool("clang"));
    clang.args(["--target=x86_64-linux-gnu", "-std=gnu11", "-O2", "-ffreestanding", "-fno-builtin", "-nostdlib"]);
    clang.args(["-static", "-fuse-ld=lld"]).arg(sources.join("there.c")).arg(archive).arg("-o").arg(&program);
    run("links the x86-64 code", &mut clang)?;

    let mut cc = Command::new("cc");
    cc.args(["-std=gnu11", "-O2", "-fPIC", "-pedantic-errors"]).arg("-I").arg(include);
    cc.args([format!("-DEMULATOR={emulator:?}"), format!("-DPROGRAM={program:?}")]);
    run("compiles what carries the calls", cc.arg("-c").arg(sources.join("here.c")).arg("-o").arg(&object))?;

    // To an archive that is there already, ar would add.
    let _ = fs::remove_file(&carrier);
    run("makes the archive", Command::new("ar").arg("crs").args([&carrier, &object]))
}

/// A tool that the Rattle toolchain has and that runs on this machine, or else the one on the PATH.
fn tool(name: &str) -> PathBuf {
    let found = toolchain().map(|folder| folder.join(name)).filter(|tool| {
        let ran = Command::new(tool).arg("--version").output();
        ran.is_ok_and(|ran| ran.status.success())
    });
    found.unwrap_or_else(|| name.into())
}

/// Where those tools are: the toolchain says where its guide is, in the folder above them.
fn toolchain() -> Option<PathBuf> {
    let said = Command::new("rt").arg("doc").output().ok()?;
    let guide = PathBuf::from(String::from_utf8(said.stdout).ok()?.trim_end());
    Some(guide.parent()?.join("toolchain/bin"))
}

/// Runs a tool that does this for the carried calls.
fn run(does: &str, command: &mut Command) -> Result<(), String> {
    let tool = command.get_program().to_string_lossy().into_owned();
    let ran = command.output().map_err(|error| format!("{tool}, which {does}, cannot be run: {error}"))?;
    went_well(&ran, &format!("{tool}, which {does}, failed"))
}

/// What cargo says of the target.
fn target(part: &str) -> String {
    env::var(format!("CARGO_CFG_TARGET_{part}")).unwrap_or_default()
}

/// The folder that cargo names in a variable.
fn folder(variable: &str) -> Result<PathBuf, String> {
    env::var_os(variable)
        .map(PathBuf::from)
        .ok_or_else(|| format!("{variable} is not set: this script is run by cargo"))
}
