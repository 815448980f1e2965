//! What was compared, as tables for docs/DIFFERENCES.md: live, and by the frozen rows that the program `vectors` replays.

use std::collections::BTreeMap;

use crate::tally::Tally;

/// The operations that have no C call: the frozen rows alone compare them.
const WITHOUT_A_CALL: [(&str, u8); 2] = [("bit reader", 1), ("bit writer", 2)];

/// One that has a C call.
struct Operation {
    /// As the tally has it.
    call: &'static str,
    name: &'static str,
    /// The kind of its frozen rows. What the Rust has no counterpart for has none.
    kind: Option<u8>,
    /// The refusals that both have.
    refusals: &'static [u32],
}

const WITH_A_CALL: [Operation; 5] = [
    Operation { call: "run_length", name: "run-length", kind: Some(3), refusals: &[9, 11] },
    Operation { call: "write_run_length", name: "writing run-length", kind: None, refusals: &[] },
    Operation { call: "unpack_complex", name: "unpacking, 5.2", kind: Some(4), refusals: &[1, 2, 5, 6, 7, 8] },
    Operation { call: "unpack_spatial", name: "unpacking, 5.3", kind: Some(5), refusals: &[1, 2, 3, 4, 5, 6, 7, 8] },
    Operation { call: "pack", name: "packing", kind: Some(6), refusals: &[] },
];

/// Why the Rust is no judge, and the numbers of docs/DIFFERENCES.md that say more.
const REASONS: [(&str, &str); 24] = [
    ("b or M that is refused with 5", "9, 10, 38"),
    ("a place weight beyond usize", "11"),
    ("declared count above 4,194,304", "12"),
    ("too long to run through the Rust", "12"),
    ("padding that is not read", "37"),
    ("padding that the Rust reads as levels", "38"),
    ("a level above M", "38"),
    ("a list above 4,194,304 levels", "38"),
    ("declared count not the map's", "15"),
    ("more points than 4,194,304", "16"),
    ("group count above 4,194,304", "17"),
    ("lent buffer too small", "18, 33, 38"),
    ("a value + reference of 2^31 or more", "19"),
    ("a sum with the minimum beyond i32", "20, 21"),
    ("a first value of 2^31 or more", "none: the two agree"),
    ("an empty group of width 0 whose sum is beyond i32", "22"),
    ("a restored number beyond 2^60", "23"),
    ("order 255", "24"),
    ("a step above 255", "26, 27"),
    ("an empty list", "28"),
    ("a list above 4,194,304 numbers", "29"),
    ("a number above 2,147,483,647", "30"),
    ("lookahead 0", "31"),
    ("lookahead above 65,535", "32"),
];

pub fn tables(scale: u64, tallies: &[Tally]) -> String {
    let seeds: Vec<String> = tallies.iter().map(|tally| format!("{} ({})", tally.seed, of(tally).name)).collect();
    [
        format!("By chance {scale} times as many inputs as in `make compare`. Seeds: {}.\n", seeds.join(", ")),
        compared(tallies),
        refused(tallies),
        outside(tallies),
    ]
    .join("\n")
}

/// The refusals and the reasons that no input had, each a line.
pub fn never_reached(tallies: &[Tally]) -> String {
    let refusals = tallies.iter().flat_map(|tally| {
        let missing = of(tally).refusals.iter().filter(|number| !tally.refused.contains_key(number));
        missing.map(|number| format!("{}, refused with {number}\n", tally.operation))
    });
    let reached = |reason: &str| tallies.iter().any(|tally| tally.outside.contains_key(reason));
    let reasons = REASONS.iter().filter(|(reason, _)| !reached(reason));
    refusals.chain(reasons.map(|(reason, _)| format!("outside, {reason}\n"))).collect()
}

fn of(tally: &Tally) -> Operation {
    WITH_A_CALL.into_iter().find(|operation| operation.call == tally.operation).expect("an operation of the table")
}

fn compared(tallies: &[Tally]) -> String {
    let frozen = frozen_rows(include_bytes!("../../../../crates/vectors/stdin"));
    let row = |name: &str, compared: String, accepted: u64, refused: u64, outside: u64, different: String| {
        let [accepted, refused, outside] = [accepted, refused, outside].map(or_nothing);
        format!("| {name} | {compared} | {accepted} | {refused} | {outside} | {different} |\n")
    };
    let frozen_row = |name: &str, kind: u8, why: &str| {
        let [accepted, refused] = frozen.get(&kind).copied().unwrap_or_default();
        row(name, format!("{}, frozen{why}", grouped(accepted + refused)), accepted, refused, 0, "by `vectors`".into())
    };
    let mut table =
        "| operation | compared | accepted by both | refused by both | outside the meeting | different |\n".to_string();
    table += "|---|---|---|---|---|---|\n";
    for (name, kind) in WITHOUT_A_CALL {
        table += &frozen_row(name, kind, " alone: there is no C call");
    }
    for tally in tallies {
        let Operation { name, kind, .. } = of(tally);
        let (accepted, refused) = (tally.accepted(), tally.refused.values().sum());
        let live = format!("{}, live", grouped(accepted + refused));
        table += &kind.map_or(String::new(), |kind| frozen_row(name, kind, ""));
        table += &row(name, live, accepted, refused, tally.outside.values().sum(), grouped(tally.different));
    }
    table
}

fn refused(tallies: &[Tally]) -> String {
    let mut numbers: Vec<u32> = tallies.iter().flat_map(|tally| tally.refused.keys().copied()).collect();
    numbers.sort();
    numbers.dedup();
    let mut table = head("refused by both, with", tallies, "");
    for number in numbers {
        let counts = counts(tallies, |tally| tally.refused.get(&number));
        table += &format!("| {number} | {counts} |\n");
    }
    table
}

fn outside(tallies: &[Tally]) -> String {
    let listed = REASONS.map(|(reason, _)| reason);
    let others = tallies.iter().flat_map(|tally| tally.outside.keys()).filter(|reason| !listed.contains(reason));
    let mut table = head("outside the meeting", tallies, "number");
    for reason in listed.iter().chain(others) {
        let number = REASONS.into_iter().find(|(other, _)| other == reason).map_or("", |(_, number)| number);
        let counts = counts(tallies, |tally| tally.outside.get(reason));
        table += &format!("| {reason} | {counts} | {number} |\n");
    }
    table
}

/// The head of a table with a column for each operation, and one more where it has a name.
fn head(first: &str, tallies: &[Tally], last: &str) -> String {
    let mut names = vec![first];
    names.extend(tallies.iter().map(|tally| of(tally).name));
    names.extend((!last.is_empty()).then_some(last));
    format!("| {} |\n|{}\n", names.join(" | "), "---|".repeat(names.len()))
}

fn counts<'a>(tallies: &'a [Tally], count: impl Fn(&'a Tally) -> Option<&'a u64>) -> String {
    let counts: Vec<String> = tallies.iter().map(|tally| or_nothing(*count(tally).unwrap_or(&0))).collect();
    counts.join(" | ")
}

/// How many frozen rows of each kind hold an answer, and how many a refusal. The top of `freeze.rs` has their layout.
fn frozen_rows(mut rows: &[u8]) -> BTreeMap<u8, [u64; 2]> {
    let mut counts: BTreeMap<u8, [u64; 2]> = BTreeMap::new();
    while let Some(kind) = rows.first() {
        let refusal = match kind {
            3 => rows[7],
            4 | 5 => rows[15],
            _ => 0,
        };
        counts.entry(*kind).or_default()[usize::from(refusal != 0)] += 1;
        rows = &rows[if *kind == 6 { 448 } else { 64 }..];
    }
    counts
}

/// A count with commas, or nothing for 0.
fn or_nothing(count: u64) -> String {
    if count == 0 { String::new() } else { grouped(count) }
}

fn grouped(count: u64) -> String {
    let digits = count.to_string();
    let comma = |place: usize| if place > 0 && (digits.len() - place).is_multiple_of(3) { "," } else { "" };
    digits.char_indices().map(|(place, digit)| format!("{}{digit}", comma(place))).collect()
}
