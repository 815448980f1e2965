//! Writing run-length, template 7.200. The Rust has no writer: what `cleatmow_write_run_length` writes,
//! `decoder/run_length.rs` has to read.

use std::fmt::{self, Display, Formatter};

use cleatmow::{LEVEL_OCTETS, Section5, TemplateNumbers, levels_as_octets, write_run_length_into};
use oracle::Outcome::{Answer, Refused};
use oracle::dice::Dice;
use oracle::runs::{Coding, MOST_POINTS, refusal_for};

use crate::lent::Lent;
use crate::tally::{Asked, Tally, Verdict};
use crate::words;

pub struct Input {
    coding: Coding,
    levels: Vec<u16>,
    /// The octets that are lent. None: just enough, and none where the list is refused.
    lent: Option<usize>,
}

impl Display for Input {
    fn fmt(&self, f: &mut Formatter) -> fmt::Result {
        let Coding { bits, max_level } = self.coding;
        write!(f, "write_run_length {bits} {max_level} {}", words::of(&levels_as_octets(&self.levels)))?;
        self.lent.iter().try_for_each(|octets| write!(f, " {octets}"))
    }
}

impl Input {
    pub fn from_words(words: &[&str]) -> Option<Self> {
        let ([bits, max_level, levels, lent @ ..], 3..=4) = (words, words.len()) else {
            return None;
        };
        let (bits, max_level) = (bits.parse().ok()?, max_level.parse().ok()?);
        let octets = words::octets(levels)?;
        let level = |level: &[u8]| u16::from_be_bytes([level[0], level[1]]);
        Some(Self {
            coding: Coding { bits, max_level },
            levels: octets.chunks_exact(LEVEL_OCTETS).map(level).collect(),
            lent: lent.first().map(|octets| octets.parse()).transpose().ok()?,
        })
    }

    /// The payload that document 02 has, or its refusal, and for what.
    fn document(&self) -> Result<Vec<u8>, (u32, &'static str)> {
        let Self { coding, levels, lent } = self;
        if !coding.in_range() {
            return Err((5, "b or M that is refused with 5"));
        }
        if levels.len() > MOST_POINTS as usize {
            return Err((13, "a list above 4,194,304 levels"));
        }
        if levels.iter().any(|level| *level > coding.max_level) {
            return Err((13, "a level above M"));
        }
        let payload = coding.written(levels);
        if lent.is_some_and(|lent| lent < payload.len()) {
            return Err((10, "lent buffer too small"));
        }
        Ok(payload)
    }
}

/// Ours against document 02 as `runs` has it, all lent octets and the guards about them too; and what it writes read back
/// by ours and by the Rust, which cannot where it takes the padding for levels, and nowhere else.
pub fn judge(input: &Input) -> Verdict {
    let Input { coding: coding @ Coding { bits, max_level }, levels, .. } = input;
    let document = input.document();
    if let Some(what) = ours_differs(input, &document) {
        return Verdict::Different(what);
    }
    let payload = match document {
        Ok(payload) => payload,
        Err((_, reason)) => return Verdict::Outside(reason),
    };
    let count = levels.len() as u32;
    if cleatmow::run_length(*bits, *max_level, count, &payload).as_ref() != Ok(levels) {
        return Verdict::Different("ours does not read the levels back".into());
    }
    match (oracle::run_length(*bits, *max_level, levels.len(), &payload), coding.leaves_padding(count, &payload)) {
        (Answer(read), false) if read == *levels => Verdict::Accepted,
        (Refused(said), true) if refusal_for(&said) == Some(9) => {
            Verdict::Outside("padding that the Rust reads as levels")
        }
        (other, _) => Verdict::Different(format!("of {} levels the Rust reads {other:?}", levels.len())),
    }
}

/// Calls ours, and says what is not as document 02 has it, if anything is.
fn ours_differs(input: &Input, document: &Result<Vec<u8>, (u32, &str)>) -> Option<String> {
    let Input { coding: Coding { bits, max_level }, levels, lent } = input;
    let (number, written) = match document {
        Ok(payload) => (0, &payload[..]),
        Err((number, _)) => (*number, &[][..]),
    };
    let mut lent = Lent::new(lent.unwrap_or(written.len()));
    let answer = write_run_length_into(*bits, *max_level, &levels_as_octets(levels), lent.octets());
    let (ours, octets) = answer.map_or_else(|refusal| (refusal.number(), 0), |payload| (0, payload.len()));
    if (ours, octets) != (number, written.len()) {
        let octets_right = written.len();
        return Some(format!("ours: {ours}, {octets} octets; document 02: {number}, {octets_right} octets"));
    }
    (!lent.holds(written)).then(|| {
        let shown = |octets: &[u8]| words::of(&octets[..octets.len().min(100)]);
        format!("ours leaves {}; document 02: {}", shown(lent.all()), shown(written))
    })
}

/// All inputs of the comparison, and so many times as many of those that are made by chance.
pub fn compare(scale: u64) -> Tally {
    const SEED: u64 = 7201;
    let mut comparison = Comparison { tally: Tally::new("write_run_length", SEED), dice: Dice::new(SEED), scale };
    comparison.short();
    comparison.runs();
    comparison.made();
    comparison.lent();
    comparison.limits();
    comparison.samples();
    comparison.tally
}

struct Comparison {
    tally: Tally,
    dice: Dice,
    scale: u64,
}

impl Comparison {
    /// The Rust refuses no list, so what is asked for is that it reads what is written.
    fn stage(&mut self, name: &'static str, accepted: u64, outside: u64) {
        self.tally.stage_asking(name, Asked { accepted, refused: 0, outside });
    }

    fn one(&mut self, coding: Coding, levels: &[u16], lent: Option<usize>) {
        let input = Input { coding, levels: levels.to_vec(), lent };
        self.tally.count(&input, judge(&input));
    }

    /// Every list of up to seven levels, at scale of up to nine, each the least, the greatest or one more than the least.
    fn short(&mut self) {
        self.stage("short, every one", 150_000, 50_000);
        let most = if self.scale > 1 { 9 } else { 7 };
        for coding in Coding::all_to_try(&mut self.dice) {
            let mut choices = vec![0, 1, coding.max_level];
            choices.retain(|level| *level <= coding.max_level);
            choices.sort();
            choices.dedup();
            for count in 0..=most {
                for list in 0..choices.len().pow(count) {
                    let level = |place| choices[list / choices.len().pow(place) % choices.len()];
                    let levels: Vec<u16> = (0..count).map(level).collect();
                    self.one(coding, &levels, None);
                }
            }
        }
    }

    /// Runs about each power of the base, alone and between others.
    fn runs(&mut self) {
        self.stage("runs about each power", 4_000, 1_000);
        for coding in Coding::all_to_try(&mut self.dice) {
            // With base 0 and 1 there are no digits.
            let base = coding.base().max(2);
            let powers = (0..).map(|power| base.pow(power)).take_while(|power| *power <= 20_000);
            for run in powers.flat_map(|power| [power - 1, power, power + 1, power + 2]) {
                let levels = vec![coding.max_level; run as usize];
                self.one(coding, &levels, None);
                self.one(coding, &[&[0], &levels[..], &[0, coding.max_level, 0]].concat(), None);
            }
        }
    }

    /// Lists with runs of every length.
    fn made(&mut self) {
        self.stage("made, with runs", 75_000, 20_000);
        for _ in 0..100_000 * self.scale {
            let (coding, levels) = self.list();
            self.one(coding, &levels, None);
        }
    }

    fn list(&mut self) -> (Coding, Vec<u16>) {
        let bits = 1 + self.dice.below(15) as u8;
        let codings = Coding::with_bits(&mut self.dice, bits);
        let coding = self.dice.one_of(&codings);
        let (runs, longest) = (self.dice.below(20), self.dice.one_of(&[1, 3, 30, 300]));
        let range = self.dice.one_of(&[2, u64::from(coding.max_level) + 1]).min(u64::from(coding.max_level) + 1);
        let mut levels = Vec::new();
        for _ in 0..runs {
            let level = self.dice.below(range) as u16;
            let length = 1 + self.dice.below(longest) as usize;
            levels.resize(levels.len() + length, level);
        }
        (coding, levels)
    }

    /// Too little room, and more than enough.
    fn lent(&mut self) {
        self.stage("lent buffers", 4_000, 5_000);
        for _ in 0..10_000 * self.scale {
            let (coding, levels) = self.list();
            let enough = coding.written(&levels).len();
            let lent = match self.dice.below(2) {
                0 => self.dice.below(enough as u64 + 1) as usize,
                _ => enough + self.dice.below(20) as usize,
            };
            self.one(coding, &levels, Some(lent));
        }
    }

    /// What is refused, and the last that is not, with too little room or enough; and the longest lists.
    fn limits(&mut self) {
        self.stage("limits", 350, 4_000);
        for coding in Coding::all_to_try(&mut self.dice) {
            let most = coding.max_level;
            for above in [most, most + 1, most | 0x100, u16::MAX] {
                for levels in [vec![above], vec![above, 0, 0], vec![0, above, 0], vec![0, 0, above]] {
                    self.one(coding, &levels, None);
                    self.one(coding, &levels, Some(0));
                }
            }
        }
        for bits in 0..=u8::MAX {
            let least = if (1..=15).contains(&bits) { 1 << bits } else { 0 };
            for max_level in [least, least + 1, u16::MAX] {
                self.one(Coding { bits, max_level }, &[], None);
                self.one(Coding { bits, max_level }, &[0, u16::MAX], Some(8));
            }
        }
        for (bits, max_level) in [(1, 1), (2, 0), (2, 1), (3, 5), (3, 6), (4, 9), (8, 3), (15, 0), (15, 30_000)] {
            for count in MOST_POINTS - 1..=MOST_POINTS + 1 {
                self.one(Coding { bits, max_level }, &vec![max_level; count as usize], None);
            }
        }
    }

    /// The levels of the maps of samples/ that are accepted, by other writers and by hand.
    fn samples(&mut self) {
        self.stage("the maps of samples/", 17, 7);
        for line in include_str!("../../../../samples/others.txt").lines() {
            let value = |key| line.split(' ').find_map(|word| word.strip_prefix(key)).unwrap_or_default();
            if (value("t="), value("doc=")) != ("200", "same") {
                continue;
            }
            let octets = |key| words::octets(value(key)).expect("the file has octets there");
            let section5 = Section5::from_octets(&octets("s5=")).expect("the file has Section 5 there");
            let TemplateNumbers::RunLength { bits, max_level } = section5.numbers else {
                panic!("no map of levels: {line}");
            };
            let levels = cleatmow::run_length(bits, max_level, section5.declared, &octets("pay="));
            self.one(Coding { bits, max_level }, &levels.expect("document 01 gives its levels"), None);
        }
    }
}
