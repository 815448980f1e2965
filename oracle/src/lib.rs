//! The Rust crate grib 0.20.2 as a judge of Cleatmow: its text, compiled unchanged from where it lies, and doors to
//! the private functions that document 01 has ported. `build.rs` lays the text out and says where it looks for it;
//! `shims` has what the text names and does not have.
//!
//! Where the text is not there, `have_text` is not set, there are no doors, and each program says so in one line.
//!
//! No door adds a test. What the Rust does not refuse runs: lengths that document 01 refuses may ask for more memory
//! than there is, which ends the process, and run-length with b 0 never ends. Whoever calls looks first (`runs`,
//! `unpacking`).

#[cfg(have_text)]
include!(concat!(env!("OUT_DIR"), "/text/root.rs"));
// The text names more than the doors run, so much of a shim is never used.
#[cfg(have_text)]
#[allow(dead_code)]
mod shims;

// The two crates that the text names and that are shims here, under the names that it looks for.
#[cfg(have_text)]
extern crate self as grib_template_helpers;
#[cfg(have_text)]
extern crate self as num;
#[cfg(have_text)]
use shims::{
    num::ToPrimitive,
    template_helpers::{Dump, DumpField, TryFromSlice, WriteToBuffer},
};

// Compiled as children of the text's modules, by `build.rs`. This is for the formatter, which follows `mod`.
#[cfg(any())]
mod doors {
    mod decoder;
    mod decoder_complex;
    mod decoder_run_length;
    mod decoder_simple;
    mod encoder;
    mod encoder_complex;
}

pub mod bit_fields;
pub mod dice;
// Those of the host's tests.
#[path = "../../host/tests/support/maps.rs"]
pub mod maps;
pub mod packing;
pub mod runs;
pub mod unpacking;

pub use cleatmow::{Differences, Group, Point, Template};

/// What a program prints, and all that it does, where the text is not there.
pub const NOT_RUN: &str =
    "Not run: the Rust text is not there (CLEATMOW_RUST_TEXT names the folder that has its src/).";

/// What the Rust made of an input.
#[derive(Clone, Debug, PartialEq, Eq)]
pub enum Outcome<T> {
    Answer(T),
    /// Its error, as it writes it for debugging.
    Refused(String),
    /// An overflow, where they are checked, or an index past the end.
    Panicked,
}

/// A packing of the Rust.
#[derive(Clone, Debug, PartialEq, Eq)]
pub struct Packing {
    pub template: Template,
    /// The substitutes for missing 1 and missing 2.
    pub missing_values: [u32; 2],
    pub groups: Vec<Group>,
    /// The octets that the Rust wrote.
    pub payload: Vec<u8>,
    /// The octets that it says the payload has: more than it wrote where its step is a multiple of 256.
    pub announced: usize,
}

#[cfg(have_text)]
pub use doors_to_the_text::*;

#[cfg(have_text)]
mod doors_to_the_text {
    use std::cell::Cell;
    use std::panic::{self, AssertUnwindSafe};
    use std::sync::Once;

    use crate::Outcome::{self, Answer, Panicked, Refused};
    use crate::{Differences, Packing, Point, Template, decoder, encoder};

    /// At most `count` numbers: where the octets end earlier, so does the Rust.
    pub fn read_bits(octets: &[u8], start: usize, width: usize, count: usize) -> Outcome<Vec<u32>> {
        caught(|| Ok(decoder::door::read_bits(octets, start, width, count)))
    }

    /// The Rust's iterator by itself, which takes no count: all that it gives, but at most so many.
    pub fn read_bits_on(octets: &[u8], start: usize, width: usize, most: usize) -> Outcome<Vec<u32>> {
        caught(|| Ok(decoder::door::read_bits_on(octets, start, width, most)))
    }

    /// Answers the span as the Rust counts it, which is without the starting bit.
    pub fn write_bits(numbers: &[u32], start: usize, width: usize, buffer: &mut [u8]) -> Outcome<usize> {
        caught(|| encoder::door::write_bits(numbers, start, width, buffer).map_err(String::from))
    }

    pub fn run_length(bits: u8, max_level: u16, declared: usize, payload: &[u8]) -> Outcome<Vec<u16>> {
        caught(|| debug(decoder::door::run_length(bits, max_level, declared, payload)))
    }

    /// Run-length as it is timed: the Rust's call and nothing about it, so a panic is not caught. None where it
    /// refuses. Never inlined, so that a tool that counts instructions finds by name where it begins and ends.
    #[inline(never)]
    pub fn rust_run_length(bits: u8, max_level: u16, declared: usize, payload: &[u8]) -> Option<Vec<u16>> {
        decoder::door::run_length(bits, max_level, declared, payload).ok()
    }

    pub fn unpack_complex(template: &Template, payload: &[u8]) -> Outcome<Vec<Point>> {
        caught(|| debug(decoder::door::unpack_complex(template, &Section7::new(payload).0)))
    }

    pub fn unpack_spatial(template: &Template, differences: &Differences, payload: &[u8]) -> Outcome<Vec<Point>> {
        caught(|| debug(decoder::door::unpack_spatial(template, differences, &Section7::new(payload).0)))
    }

    /// A payload where the Rust's unpacking looks for it.
    pub struct Section7(decoder::Grib2SubmessageDecoder);

    impl Section7 {
        pub fn new(payload: &[u8]) -> Self {
            Self(decoder::door::message(payload))
        }
    }

    /// Unpacking under 5.2 as it is timed, like `rust_run_length`: the points of the Rust's iterator, in a list.
    #[inline(never)]
    pub fn rust_unpack_complex(template: &Template, payload: &Section7) -> Option<Vec<Point>> {
        decoder::door::unpack_complex(template, &payload.0).ok()
    }

    /// The same under 5.3.
    #[inline(never)]
    pub fn rust_unpack_spatial(
        template: &Template,
        differences: &Differences,
        payload: &Section7,
    ) -> Option<Vec<Point>> {
        decoder::door::unpack_spatial(template, differences, &payload.0).ok()
    }

    pub fn pack(numbers: &[u32], lookahead: usize) -> Outcome<Packing> {
        caught(|| match encoder::door::pack(numbers, lookahead) {
            Ok(packed) => Ok(packed.packing()),
            Err(said) => Err(said.into()),
        })
    }

    /// A packing as the Rust holds it.
    pub struct Packed(encoder::door::Packed);

    impl Packed {
        pub fn packing(&self) -> Packing {
            self.0.packing()
        }
    }

    /// Packing as it is timed, like `rust_run_length`: from the numbers to its groups, the template numbers and a
    /// written Section 7.
    #[inline(never)]
    pub fn rust_pack(numbers: &[u32], lookahead: usize) -> Option<Packed> {
        encoder::door::pack(numbers, lookahead).ok().map(Packed)
    }

    fn debug<T, E: std::fmt::Debug>(answer: Result<T, E>) -> Result<T, String> {
        answer.map_err(|error| format!("{error:?}"))
    }

    thread_local! {
        static IN_THE_TEXT: Cell<bool> = const { Cell::new(false) };
    }

    /// Runs a door. A panic in the text is an outcome and prints nothing; any other keeps its message.
    fn caught<T>(door: impl FnOnce() -> Result<T, String>) -> Outcome<T> {
        static HOOK: Once = Once::new();
        HOOK.call_once(|| {
            let others = panic::take_hook();
            panic::set_hook(Box::new(move |about| {
                if !IN_THE_TEXT.get() {
                    others(about);
                }
            }));
        });
        IN_THE_TEXT.set(true);
        let ended = panic::catch_unwind(AssertUnwindSafe(door));
        IN_THE_TEXT.set(false);
        match ended {
            Ok(Ok(answer)) => Answer(answer),
            Ok(Err(said)) => Refused(said),
            Err(_) => Panicked,
        }
    }
}
