//! The live comparison: the Rust and ours, through its C calls, on the same inputs, which are the same in every run.
//!
//! `compare` runs it all, prints what was compared, and fails on a difference and where too little was compared.
//! `compare at_scale` does so with ten times as many inputs by chance, or as many times as a number after it says, and then
//! prints the tables of docs/DIFFERENCES.md. With an operation and an input it judges that one, whose payload is
//! hexadecimal, or - for none:
//!
//! - `compare run_length BITS MAX_LEVEL DECLARED PAYLOAD`
//! - `compare write_run_length BITS MAX_LEVEL LEVELS`, the levels in hexadecimal too, two octets each; and, where it is not
//!   just enough, the octets that are lent
//! - `compare unpack_complex` and the numbers of the C call in its order, the octets that are lent, the payload
//! - `compare unpack_spatial`, likewise
//! - `compare pack LOOKAHEAD NUMBERS`, the numbers in hexadecimal too, four octets each; and, where it is not just
//!   enough, the octets that are lent for groups, payload and summary
//!
//! An operation is a module with an `Input` that prints and reads itself, `judge` and `compare`, and a line here.

#[cfg(not(have_text))]
fn main() {
    println!("{}", oracle::NOT_RUN);
}

#[cfg(have_text)]
mod lent;
#[cfg(have_text)]
mod packing;
#[cfg(have_text)]
mod run_length;
#[cfg(have_text)]
mod summary;
#[cfg(have_text)]
mod tally;
#[cfg(have_text)]
mod unpacking;
#[cfg(have_text)]
mod words;
#[cfg(have_text)]
mod write_run_length;

#[cfg(have_text)]
fn main() -> std::process::ExitCode {
    use std::process::ExitCode;

    let arguments: Vec<String> = std::env::args().skip(1).collect();
    let words: Vec<&str> = arguments.iter().map(String::as_str).collect();
    let agreed = match words[..] {
        [] => reported(1).1,
        ["at_scale"] => at_scale(10),
        ["at_scale", scale] => at_scale(scale.parse().expect("see the top of this file")),
        ["run_length", ref input @ ..] => {
            let input = run_length::Input::from_words(input).expect("see the top of this file");
            judged(&input, run_length::judge(&input))
        }
        ["write_run_length", ref input @ ..] => {
            let input = write_run_length::Input::from_words(input).expect("see the top of this file");
            judged(&input, write_run_length::judge(&input))
        }
        [operation @ ("unpack_complex" | "unpack_spatial"), ref input @ ..] => {
            let input = unpacking::Shown::from_words(operation, input).expect("see the top of this file");
            judged(&input, unpacking::Judge::default().judge(&input.0))
        }
        ["pack", ref input @ ..] => {
            let input = packing::Input::from_words(input).expect("see the top of this file");
            judged(&input, packing::judge(&input))
        }
        _ => panic!("see the top of this file"),
    };
    if agreed { ExitCode::SUCCESS } else { ExitCode::FAILURE }
}

/// Compares all. Each operation prints its table, whatever the one before it found.
#[cfg(have_text)]
fn reported(scale: u64) -> ([tally::Tally; 5], bool) {
    let operations: [fn(u64) -> tally::Tally; 5] = [
        run_length::compare,
        write_run_length::compare,
        unpacking::compare_complex,
        unpacking::compare_spatial,
        packing::compare,
    ];
    let mut agreed = true;
    let tallies = operations.map(|compare| {
        let tally = compare(scale);
        agreed &= tally.report();
        tally
    });
    (tallies, agreed)
}

/// The same with so many times as many inputs, and then the tables for docs/DIFFERENCES.md, in which nothing may be
/// missing.
#[cfg(have_text)]
fn at_scale(scale: u64) -> bool {
    let (tallies, agreed) = reported(scale);
    print!("\n{}", summary::tables(scale, &tallies));
    let never = summary::never_reached(&tallies);
    if !never.is_empty() {
        print!("\nNEVER REACHED:\n{never}");
    }
    agreed && never.is_empty()
}

#[cfg(have_text)]
fn judged(input: &impl std::fmt::Display, verdict: tally::Verdict) -> bool {
    println!("{input}: {verdict:?}");
    !matches!(verdict, tally::Verdict::Different(_))
}
