//! Hostile input: damaged copies of good inputs through every C call, each on octets that hold a pattern and on such that
//! hold its complement. After each call its number, every octet that it was lent or has read, and the guards about them
//! are held to documents 01 and 02 as they are written plainly in `support::model`.
//!
//! `make hostile` runs the two tests that are ignored otherwise: `a_million_of_each`, and, under valgrind,
//! `in_blocks_of_their_own`. CLEATMOW_HOSTILE_INPUTS and CLEATMOW_HOSTILE_SEED set how many inputs a call has and their
//! seed. An input depends on its operation, the seed and its place alone, so a run of fewer has the first of the same.

mod damage;
mod packing;
mod point;
mod run_length;
mod section5;
#[path = "../support/mod.rs"]
mod support;
mod unpacking;
mod write_run_length;

use damage::Chance;
use std::collections::{BTreeMap, HashSet};
use std::env;
use std::fmt::Debug;
use std::hash::{DefaultHasher, Hash, Hasher};
use std::panic::{catch_unwind, resume_unwind, AssertUnwindSafe};
use support::maps::Numbers;

/// An answer: its number and, where the documents give the number to an operation in more than one way, in which.
type Class = (u32, &'static str);

const ACCEPTED: Class = (0, "");

/// One of the C calls, and good inputs for it.
trait Operation {
    type Input: Input;

    const NAME: &'static str;

    /// How it accepts: in one way, unless said.
    const ACCEPTED: &'static [Class] = &[ACCEPTED];

    /// Its refusals, in the documents' order.
    const REFUSALS: &'static [Class];

    /// A copy of one of the good inputs, damaged.
    fn damaged(&self, chance: &mut Chance) -> Self::Input;
}

/// What a call is given.
trait Input: Debug {
    /// What a lent buffer's place in memory is a multiple of: octets stand anywhere, a value of several does not.
    fn lent_at(_buffer: usize) -> usize {
        1
    }

    /// The octets that it reads, for each of its buffers.
    fn read(&self) -> Vec<&[u8]>;

    /// How many octets it is lent, for each of its buffers.
    fn lent(&self) -> Vec<usize>;

    /// Makes the call, and answers its number.
    fn call(&self, read: &mut [Block], lent: &mut [Block]) -> u32;

    /// What the documents say: the answer, and what is left in the lent octets.
    fn right(&self, lent: &mut [Block]) -> Class;
}

/// Octets that a call is handed, with as many guard octets before them as after. Without guards they are a block of the
/// heap by themselves, where valgrind sees every octet that is read or written outside.
#[derive(Clone, PartialEq)]
struct Block {
    all: Vec<u8>,
    guard: usize,
}

impl Block {
    /// These octets, between guards of a pattern.
    fn new(octets: &[u8], guard: usize, flip: u8) -> Block {
        let mut all = Vec::with_capacity(octets.len() + 2 * guard);
        all.extend(pattern(guard, flip));
        all.extend_from_slice(octets);
        all.extend(pattern(guard, flip));
        assert_eq!(all.capacity(), all.len());
        Block { all, guard }
    }

    /// So many octets to lend, which hold the pattern too.
    fn lent(octets: usize, guard: usize, flip: u8) -> Block {
        Block { all: pattern(octets + 2 * guard, flip).collect(), guard }
    }

    fn octets(&mut self) -> &mut [u8] {
        let end = self.all.len() - self.guard;
        &mut self.all[self.guard..end]
    }

    /// The first octet that is not the other's, counted from the first one that is handed over.
    fn first_other(&self, other: &Block) -> Option<isize> {
        let place = self.all.iter().zip(&other.all).position(|(one, other)| one != other)?;
        Some(place as isize - self.guard as isize)
    }
}

fn pattern(octets: usize, flip: u8) -> impl Iterator<Item = u8> {
    (0..octets).map(move |place| (place as u8).wrapping_mul(37) ^ flip)
}

/// A whole number of some size.
///
/// # Safety
///
/// Any octets, as many as it has, are one.
unsafe trait Whole {}

// SAFETY: these are plain numbers without a bit to spare.
unsafe impl Whole for u32 {}
unsafe impl Whole for i64 {}

/// The number that stands in these octets, for a call that is lent a value.
fn value<T: Whole>(octets: &mut [u8]) -> &mut T {
    // SAFETY: any octets are such a number.
    match unsafe { octets.align_to_mut() } {
        ([], [number], []) => number,
        _ => panic!("the octets of a number are not where one may stand"),
    }
}

/// Makes a call twice, on a pattern and on its complement, so that no stray store goes unseen and an answer that depends
/// on octets outside does not stay the same. Answers the documents' class, or what is not as it should be.
fn held<I: Input>(input: &I, guard: usize) -> Result<Class, String> {
    let [first, second] = [0, 0xFF].map(|flip| {
        let mut read: Vec<Block> = input.read().into_iter().map(|octets| Block::new(octets, guard, flip)).collect();
        let block = |(buffer, octets)| Block::lent(octets, guard.next_multiple_of(I::lent_at(buffer)), flip);
        let mut lent: Vec<Block> = input.lent().into_iter().enumerate().map(block).collect();
        let (read_before, mut right) = (read.clone(), lent.clone());
        let class = input.right(&mut right);
        let called = catch_unwind(AssertUnwindSafe(|| input.call(&mut read, &mut lent)));
        match called {
            Err(_) => return Err("the call panics".to_string()),
            Ok(number) if number != class.0 => return Err(format!("the answer is {number} for {}", class.0)),
            Ok(_) => {}
        }
        for (buffer, (read, before)) in read.iter().zip(&read_before).enumerate() {
            if let Some(place) = read.first_other(before) {
                return Err(format!("octet {place} of read buffer {buffer} is changed"));
            }
        }
        for (buffer, (lent, right)) in lent.iter().zip(&right).enumerate() {
            if let Some(place) = lent.first_other(right) {
                return Err(format!("octet {place} of lent buffer {buffer} is another"));
            }
        }
        Ok(class)
    });
    first.and(second)
}

/// How the octets of a run are handed over.
#[derive(Clone, Copy, PartialEq)]
enum Around {
    /// Between guards of 16 to 24 octets, so that they begin at any place in a word.
    Guards,
    Nothing,
}

/// What came of the inputs of an operation.
struct Tally {
    name: &'static str,
    classes: Vec<(Class, u64)>,
}

/// The first inputs of an operation, so many of them, no two the same.
fn run<O: Operation>(operation: &O, inputs: u64, seed: u64, around: Around) -> Tally {
    let mut classes: Vec<(Class, u64)> = [O::ACCEPTED, O::REFUSALS].concat().into_iter().map(|c| (c, 0)).collect();
    let mut seen = HashSet::new();
    for place in 0_u64.. {
        if seen.len() as u64 == inputs {
            break;
        }
        let mut chance = Chance(Numbers::new(Numbers::new(seed).any().wrapping_add(place)));
        let input = operation.damaged(&mut chance);
        if !seen.insert(digest(&input)) {
            continue;
        }
        let guard = if around == Around::Guards { 16 + place as usize % 9 } else { 0 };
        let class = held(&input, guard).unwrap_or_else(|what| {
            let shown: String = format!("{input:02X?}").chars().take(4_000).collect();
            panic!("{}, input {place} of seed {seed}: {what}\n{shown}", O::NAME)
        });
        let counted = classes.iter_mut().find(|(other, _)| *other == class);
        counted.unwrap_or_else(|| panic!("{} does not have {class:?}", O::NAME)).1 += 1;
    }
    Tally { name: O::NAME, classes }
}

/// By this two inputs are told apart.
fn digest(input: &impl Debug) -> u64 {
    let mut hasher = DefaultHasher::new();
    format!("{input:?}").hash(&mut hasher);
    hasher.finish()
}

/// All operations, and their table. It fails where an answer was never reached.
fn run_all(inputs: u64, around: Around) {
    let inputs = set("CLEATMOW_HOSTILE_INPUTS").unwrap_or(inputs);
    let seed = set("CLEATMOW_HOSTILE_SEED").unwrap_or(1);
    let tallies = [
        run(&unpacking::Complex::new(), inputs, seed, around),
        run(&unpacking::Spatial::new(), inputs, seed, around),
        run(&run_length::RunLength::new(), inputs, seed, around),
        run(&packing::Pack::new(), inputs, seed, around),
        run(&section5::Read::new(), inputs, seed, around),
        run(&section5::Write::new(), inputs, seed, around),
        run(&section5::Unpack::new(), inputs, seed, around),
        run(&point::OnePoint::new(), inputs, seed, around),
        run(&write_run_length::WriteRunLength::new(), inputs, seed, around),
    ];
    let how = match around {
        Around::Guards => "guard octets about every buffer",
        Around::Nothing => "every buffer a block of the heap by itself",
    };
    println!("Damaged copies of good inputs, seed {seed}, {how}: all as documents 01 and 02 have it.\n");
    print!("{}", table(inputs, &tallies));
    for Tally { name, classes } in &tallies {
        for ((number, what), count) in classes {
            assert!(*count > 0, "{name}: answer {number} {what} was never reached");
        }
    }
}

/// The number that a variable of the environment has.
fn set(variable: &str) -> Option<u64> {
    let value = env::var(variable).ok()?;
    Some(value.parse().unwrap_or_else(|_| panic!("{variable} is {value}, which is no number")))
}

/// A row for each answer, a column for each operation.
fn table(inputs: u64, tallies: &[Tally]) -> String {
    let mut rows: BTreeMap<Class, Vec<String>> = BTreeMap::new();
    for (column, tally) in tallies.iter().enumerate() {
        for (class, count) in &tally.classes {
            rows.entry(*class).or_insert(vec![String::new(); tallies.len()])[column] = grouped(*count);
        }
    }
    let row = |first: &str, others: &[String]| format!("| {first} | {} |\n", others.join(" | "));
    let mut table = row("answer", &tallies.iter().map(|tally| tally.name.to_string()).collect::<Vec<_>>());
    table += &format!("|---|{}\n", "---|".repeat(tallies.len()));
    table += &row("inputs", &vec![grouped(inputs); tallies.len()]);
    for ((number, what), counts) in rows {
        let what = if what.is_empty() { String::new() } else { format!(", {what}") };
        table += &row(&format!("{number}{what}"), &counts);
    }
    table
}

/// A count with commas.
fn grouped(count: u64) -> String {
    let digits = count.to_string();
    let from_the_end = |place: usize| digits.len() - place;
    let comma = |place: usize| if place > 0 && from_the_end(place) % 3 == 0 { "," } else { "" };
    digits.char_indices().map(|(place, digit)| format!("{}{digit}", comma(place))).collect()
}

#[test]
fn a_few_thousand_of_each() {
    run_all(3_000, Around::Guards);
}

#[test]
fn a_few_in_blocks_of_their_own() {
    run_all(3_000, Around::Nothing);
}

#[test]
#[ignore = "takes minutes: make hostile"]
fn a_million_of_each() {
    run_all(1_000_000, Around::Guards);
}

#[test]
#[ignore = "for valgrind: make hostile"]
fn in_blocks_of_their_own() {
    run_all(20_000, Around::Nothing);
}

/// A call that copies what it reads last to the front of what it is lent last, rightly or with a fault.
#[derive(Debug)]
struct Copying(fn(&mut [Block], &mut [Block]) -> u32);

impl Input for Copying {
    fn read(&self) -> Vec<&[u8]> {
        vec![&[], &[5, 6, 7]]
    }

    fn lent(&self) -> Vec<usize> {
        vec![0, 5]
    }

    fn call(&self, read: &mut [Block], lent: &mut [Block]) -> u32 {
        lent[1].octets()[..3].copy_from_slice(read[1].octets());
        self.0(read, lent)
    }

    fn right(&self, lent: &mut [Block]) -> Class {
        lent[1].octets()[..3].copy_from_slice(&[5, 6, 7]);
        ACCEPTED
    }
}

/// What is held would otherwise be nothing.
#[test]
fn faults_are_told() {
    assert_eq!(held(&Copying(|_, _| 0), 16), Ok(ACCEPTED));
    assert_eq!(held(&Copying(|_, _| 0), 0), Ok(ACCEPTED));
    type Fault = fn(&mut [Block], &mut [Block]) -> u32;
    fn stray(block: &mut Block, place: usize) -> u32 {
        block.all[place] ^= 1;
        0
    }
    let faults: [(Fault, &str); 12] = [
        (|_, _| 9, "the answer is 9 for 0"),
        // As the host does with a number that is not in the table.
        (|_, _| resume_unwind(Box::new("no such number")), "the call panics"),
        (|_, lent| stray(&mut lent[1], 18), "octet 2 of lent buffer 1 is another"),
        (|_, lent| stray(&mut lent[1], 19), "octet 3 of lent buffer 1 is another"),
        (|_, lent| stray(&mut lent[1], 15), "octet -1 of lent buffer 1 is another"),
        (|_, lent| stray(&mut lent[1], 21), "octet 5 of lent buffer 1 is another"),
        (|_, lent| stray(&mut lent[0], 31), "octet 15 of lent buffer 0 is another"),
        (|read, _| stray(&mut read[1], 17), "octet 1 of read buffer 1 is changed"),
        (|read, _| stray(&mut read[1], 15), "octet -1 of read buffer 1 is changed"),
        (|read, _| stray(&mut read[1], 19), "octet 3 of read buffer 1 is changed"),
        (|read, _| stray(&mut read[0], 16), "octet 0 of read buffer 0 is changed"),
        // A store that does not show over the pattern shows over its complement, and so does what an octet outside decides.
        (|read, _| u32::from(read[1].all[15] >= 128), "the answer is 1 for 0"),
    ];
    for (fault, told) in faults {
        assert_eq!(held(&Copying(fault), 16), Err(told.to_string()));
    }
    let one_store: Fault = |_, lent| {
        lent[1].all[0] = 0;
        0
    };
    assert_eq!(held(&Copying(one_store), 16), Err("octet -16 of lent buffer 1 is another".to_string()));
}
