//! Lays the Rust text out in OUT_DIR, unchanged, with the doors and the shims about it.
//!
//! A file of the text goes to its own path. One that has a door, `a/b.rs`, goes to `a/b/text.rs` instead, and `a/b.rs`
//! is a module that includes it and has the door for a child, because a child sees what is private to its parent.
//! Where the text looks for an absent file, a module of one line points to the shim.

use std::path::{Path, PathBuf};
use std::{env, fs, io};

/// The files of the text that are compiled, each with the file under `src/doors` that is its door, if it has one.
const TEXT: [(&str, Option<&str>); 17] = [
    ("decoder.rs", Some("decoder.rs")),
    ("decoder/bitmap.rs", None),
    ("decoder/complex.rs", Some("decoder_complex.rs")),
    ("decoder/complex/diff.rs", None),
    ("decoder/complex/missing.rs", None),
    ("decoder/run_length.rs", Some("decoder_run_length.rs")),
    ("decoder/simple.rs", Some("decoder_simple.rs")),
    ("decoder/stream.rs", None),
    ("def/grib2.rs", None),
    ("def/grib2/template5.rs", None),
    ("encoder/bitmap.rs", None),
    ("encoder/complex.rs", Some("encoder_complex.rs")),
    ("encoder/helpers.rs", None),
    ("encoder/simple.rs", None),
    ("encoder/writer.rs", None),
    ("error.rs", None),
    ("helpers.rs", None),
];

/// Absent files that a file of the text declares as its modules. The text's own tests are declared and not published.
const ABSENT: [(&str, &str); 5] = [
    ("decoder/helpers.rs", "pub(crate) use crate::shims::octets::num_octets;"),
    ("decoder/tests.rs", ""),
    ("def/grib2/template1.rs", "pub use crate::shims::templates::template1::*;"),
    ("def/grib2/template3.rs", "pub use crate::shims::templates::template3::*;"),
    ("def/grib2/template4.rs", "pub use crate::shims::templates::template4::*;"),
];

/// The root, in place of the text's `lib.rs`, which declares more than there is. Warnings in the text are not ours to
/// mend; those in the doors are.
const ROOT: &str = "
#[allow(warnings, clippy::all)] mod decoder;
#[allow(warnings, clippy::all)] mod def { pub mod grib2; }
#[allow(warnings, clippy::all)] mod error;
#[allow(warnings, clippy::all)] mod helpers;
#[allow(warnings, clippy::all)] mod encoder {
    mod bitmap;
    mod complex;
    mod helpers;
    mod simple;
    mod writer;
    pub(crate) use self::simple::{SimplePackingStrategy, determine_simple_packing_params};
    pub(crate) use crate::shims::encoder::{Encode, WriteGrib2DataSections, write_section_header};
    #[warn(warnings, clippy::all)] #[path = \"DOORS/encoder.rs\"] pub(crate) mod door;
}
mod codetables { pub(crate) use crate::shims::code_tables as grib2; }
mod context { pub(crate) use crate::shims::messages::{SectionBody, SubMessage}; }
mod reader { pub(crate) use crate::shims::messages::Grib2Read; }
use decoder::{DecodeError, Grib2GpvUnpack};
";

const WITH_DOOR: &str = "
include!(\"STEM/text.rs\");
#[warn(warnings, clippy::all)] #[path = \"DOORS/FILE\"] pub(crate) mod door;
";

fn main() -> io::Result<()> {
    let here = PathBuf::from(env::var_os("CARGO_MANIFEST_DIR").unwrap());
    let out = PathBuf::from(env::var_os("OUT_DIR").unwrap()).join("text");
    let text = match env::var_os("CLEATMOW_RUST_TEXT") {
        Some(folder) => here.join(folder),
        None => here.join("../../shared/docs/src"),
    }
    .join("src");

    println!("cargo:rustc-check-cfg=cfg(have_text)");
    println!("cargo:rerun-if-env-changed=CLEATMOW_RUST_TEXT");
    println!("cargo:rerun-if-changed=build.rs");
    for (file, _) in TEXT {
        // Cargo takes a file that is not there for a changed one, so a text that appears later is noticed.
        println!("cargo:rerun-if-changed={}", text.join(file).display());
    }
    if TEXT.iter().any(|(file, _)| !text.join(file).is_file()) {
        return Ok(());
    }

    let doors = here.join("src/doors");
    let doors = doors.to_str().expect("the path of the package is UTF-8");
    let doors = doors.replace('\\', "/");
    for (file, door) in TEXT {
        let octets = fs::read(text.join(file))?;
        match door {
            None => lay(&out.join(file), &octets)?,
            Some(door) => {
                let stem = Path::new(file).with_extension("");
                lay(&out.join(&stem).join("text.rs"), &octets)?;
                let name = stem.file_name().unwrap().to_str().unwrap();
                let module = WITH_DOOR.replace("STEM", name);
                let module = module.replace("DOORS", &doors).replace("FILE", door);
                lay(&out.join(file), module.as_bytes())?;
            }
        }
    }
    for (file, module) in ABSENT {
        lay(&out.join(file), module.as_bytes())?;
    }
    lay(&out.join("root.rs"), ROOT.replace("DOORS", &doors).as_bytes())?;
    println!("cargo:rustc-cfg=have_text");
    Ok(())
}

fn lay(path: &Path, octets: &[u8]) -> io::Result<()> {
    fs::create_dir_all(path.parent().unwrap())?;
    fs::write(path, octets)
}
