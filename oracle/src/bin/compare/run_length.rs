//! Run-length, template 7.200: `decoder/run_length.rs` against `cleatmow_run_length`.

use std::fmt::{self, Display, Formatter};

use oracle::Outcome::{Answer, Panicked, Refused};
use oracle::dice::Dice;
use oracle::runs::{Coding, MOST_POINTS, refusal_for};

use crate::tally::{Asked, Tally, Verdict};
use crate::words;

pub struct Input {
    coding: Coding,
    declared: u32,
    payload: Vec<u8>,
}

impl Display for Input {
    fn fmt(&self, f: &mut Formatter) -> fmt::Result {
        let Coding { bits, max_level } = self.coding;
        write!(f, "run_length {bits} {max_level} {} {}", self.declared, words::of(&self.payload))
    }
}

impl Input {
    pub fn from_words(words: &[&str]) -> Option<Self> {
        let [bits, max_level, declared, payload] = words else {
            return None;
        };
        let (bits, max_level) = (bits.parse().ok()?, max_level.parse().ok()?);
        Some(Self {
            coding: Coding { bits, max_level },
            declared: declared.parse().ok()?,
            payload: words::octets(payload)?,
        })
    }
}

type Levels = Result<Vec<u16>, u32>;

/// Ours against the Rust; where the Rust is no judge, against the documents as `runs` has them.
pub fn judge(input: &Input) -> Verdict {
    let Input { coding, declared, payload } = input;
    let (Coding { bits, max_level }, declared) = (*coding, *declared);
    let ours = cleatmow::run_length(bits, max_level, declared, payload).map_err(|r| r.number());
    if !coding.in_range() {
        return outside("b or M that is refused with 5", ours, Err(5));
    }
    let runs = coding.runs(payload);
    let document = coding.declared_runs(declared, payload).answer(declared);
    if coding.leaves_padding(declared, payload) && runs.weights_fit {
        // What is left out is just what differs: the Rust reads the padding, and has more points than are declared.
        return match oracle::run_length(bits, max_level, declared as usize, payload) {
            Refused(said) if refusal_for(&said) == Some(9) => outside("padding that is not read", ours, document),
            other => Verdict::Different(format!("the Rust has to refuse the padding: {other:?}")),
        };
    }
    let no_judge = if declared > MOST_POINTS {
        Some("declared count above 4,194,304")
    } else if runs.points() > u64::from(MOST_POINTS) {
        Some("too long to run through the Rust")
    } else if !runs.weights_fit {
        Some("a place weight beyond usize")
    } else {
        None
    };
    if let Some(reason) = no_judge {
        return outside(reason, ours, document);
    }
    match oracle::run_length(bits, max_level, declared as usize, payload) {
        Answer(levels) if ours.as_ref() == Ok(&levels) => Verdict::Accepted,
        Answer(levels) => different(ours, "the Rust", Ok(levels)),
        Refused(said) => match refusal_for(&said) {
            Some(number) if ours == Err(number) => Verdict::Refused(number),
            Some(number) => different(ours, "the Rust", Err(number)),
            None => Verdict::Different(format!("the Rust says {said}")),
        },
        Panicked => outside("the Rust panics", ours, document),
    }
}

fn outside(reason: &'static str, ours: Levels, document: Levels) -> Verdict {
    if ours == document { Verdict::Outside(reason) } else { different(ours, "the documents", document) }
}

fn different(ours: Levels, judge: &str, right: Levels) -> Verdict {
    let told = |levels: Levels| match levels {
        Ok(levels) if levels.len() > 40 => format!("{} levels", levels.len()),
        Ok(levels) => format!("{levels:?}"),
        Err(number) => format!("refusal {number}"),
    };
    Verdict::Different(format!("ours: {}; {judge}: {}", told(ours), told(right)))
}

/// All inputs of the comparison, and so many times as many of those that are made by chance.
pub fn compare(scale: u64) -> Tally {
    const SEED: u64 = 7200;
    let mut comparison = Comparison { tally: Tally::new("run_length", SEED), dice: Dice::new(SEED), scale };
    comparison.short();
    comparison.lengths();
    comparison.made();
    comparison.chains();
    comparison.limits();
    comparison.padding();
    comparison.tally
}

struct Comparison {
    tally: Tally,
    dice: Dice,
    scale: u64,
}

impl Comparison {
    fn one(&mut self, coding: Coding, declared: u32, payload: &[u8]) {
        let input = Input { coding, declared, payload: payload.to_vec() };
        self.tally.count(&input, judge(&input));
    }

    /// The declared count as it should be, one more and one less; and where that leaves padding unread, still less, as far
    /// as the first count that does not. A repeat for the first code has no count.
    fn about_the_count(&mut self, coding: Coding, payload: &[u8]) {
        let points = count(coding, payload);
        self.one(coding, points, payload);
        if points > 0 {
            self.one(coding, points.saturating_add(1), payload);
            let mut less = points - 1;
            self.one(coding, less, payload);
            // None declared never leaves padding: before the first code there is a whole octet.
            while coding.leaves_padding(less, payload) {
                less -= 1;
                self.one(coding, less, payload);
            }
        }
    }

    /// Every payload of up to two octets. From b 9 on two octets hold one code, so two M are enough there.
    fn short(&mut self) {
        let asked = Asked { accepted: 1_000_000, refused: 1_000_000, outside: 200_000 };
        self.tally.stage_asking("short, every one", asked);
        for coding in Coding::all_to_try(&mut self.dice) {
            self.about_the_count(coding, &[]);
            self.one(coding, 1, &[]);
            for octet in 0..=u8::MAX {
                self.about_the_count(coding, &[octet]);
            }
        }
        for bits in 1..=15 {
            let greatest = (1 << bits) - 1;
            let most = [0, 1, greatest - 1, greatest];
            for &max_level in if bits <= 8 { &most[..] } else { &most[1..3] } {
                for octets in 0..=u16::MAX {
                    self.about_the_count(Coding { bits, max_level }, &octets.to_be_bytes());
                }
            }
        }
    }

    /// Every length up to twice the one at which codes and octets end together.
    fn lengths(&mut self) {
        self.tally.stage("every length", 4_000);
        for coding in Coding::all_to_try(&mut self.dice) {
            for octets in 0..=2 * usize::from(coding.bits) + 1 {
                let random = self.dice.octets(octets);
                for payload in [vec![0; octets], vec![0xff; octets], random] {
                    self.about_the_count(coding, &payload);
                }
                let codes = octets as u64 * 8 / u64::from(coding.bits);
                let levels_and_runs = coding.some_payload(&mut self.dice, codes, 300);
                self.about_the_count(coding, &levels_and_runs);
            }
        }
    }

    /// Longer payloads, and damaged copies of each.
    fn made(&mut self) {
        self.tally.stage("made, and damaged copies", 100_000);
        for _ in 0..25_000 * self.scale {
            let bits = 1 + self.dice.below(15) as u8;
            let codings = Coding::with_bits(&mut self.dice, bits);
            let coding = self.dice.one_of(&codings);
            let (codes, points) = (self.dice.below(100), self.dice.one_of(&[3, 30, 300, 3_000]));
            let good = coding.some_payload(&mut self.dice, codes, points);
            self.about_the_count(coding, &good);
            for _ in 0..4 {
                let damaged = self.damaged(&good);
                let points = count(coding, &damaged);
                // Damage often makes a run of millions, which takes the Rust long to store: a few are enough.
                let long = (50_000..=MOST_POINTS).contains(&points);
                if !long || self.dice.once_in(20) {
                    self.one(coding, count(coding, &good), &damaged);
                    self.one(coding, points, &damaged);
                }
            }
        }
    }

    /// A bit turned over, an octet changed, cut short, or made longer.
    fn damaged(&mut self, good: &[u8]) -> Vec<u8> {
        let mut payload = good.to_vec();
        let place = self.dice.below(good.len() as u64 + 1) as usize;
        match (self.dice.below(4), payload.get_mut(place)) {
            (0, Some(octet)) => *octet ^= 1 << self.dice.below(8),
            (1, Some(octet)) => *octet = self.dice.number() as u8,
            (2, Some(_)) => payload.truncate(place),
            _ => {
                let more = 1 + self.dice.below(3) as usize;
                payload.extend(self.dice.octets(more));
            }
        }
        payload
    }

    /// A level and repeats that add no point, about as many as the Rust's weights bear; then nothing, a repeat that
    /// adds points, or another level with or without repeats.
    fn chains(&mut self) {
        self.tally.stage("chains of zero digits", 2_500);
        for coding in Coding::all_to_try(&mut self.dice) {
            if coding.base() == 0 {
                continue;
            }
            let beyond = |digits| u128::from(coding.base()).pow(digits) > usize::MAX as u128;
            let borne = (1..64).take_while(|digits| !beyond(*digits)).count();
            let (level, none, most) = (coding.max_level, coding.repeat(0), (1 << coding.bits) - 1);
            for zeros in (borne - 2..=borne + 2).chain([1, 2, 3, 5, 8, 13, 100, 500]) {
                let chain = [vec![level], vec![none; zeros]].concat();
                for tail in [&[][..], &[most], &[level], &[0, most], &[level, none, most]] {
                    let payload = coding.payload_of(&[&chain, tail].concat());
                    self.about_the_count(coding, &payload);
                }
            }
        }
    }

    /// Points and declared counts about the limit; b and M outside their range.
    fn limits(&mut self) {
        self.tally.stage("limits", 15);
        for (bits, max_level) in [(2, 0), (3, 5), (4, 9), (8, 3), (15, 0), (15, 30_000)] {
            let coding = Coding { bits, max_level };
            for points in MOST_POINTS - 2..=MOST_POINTS + 2 {
                // Spare bits may be a level more.
                let payload = coding.payload_of(&coding.run(coding.max_level, points.into()));
                self.about_the_count(coding, &payload);
                self.one(coding, u32::MAX, &payload);
            }
        }
        let one_bit = Coding { bits: 1, max_level: 1 };
        for more in 0..2 {
            let levels_alone = vec![0x5a; MOST_POINTS as usize / 8 + more];
            self.about_the_count(one_bit, &levels_alone);
        }
        for bits in 0..=u8::MAX {
            let least = if (1..=15).contains(&bits) { 1 << bits } else { 0 };
            for max_level in [least, least + 1, u16::MAX] {
                self.one(Coding { bits, max_level }, 1, &[0, 0]);
                self.one(Coding { bits, max_level }, u32::MAX, &[0xff, 0xff]);
            }
        }
    }

    /// Payloads that end with zero bits, for every b with which a code can be padding. Nothing else is outside the meeting
    /// here.
    fn padding(&mut self) {
        self.tally.stage_asking("zero bits at the end", Asked { accepted: 10_000, refused: 10_000, outside: 10_000 });
        for bits in 1..=7 {
            for coding in Coding::with_bits(&mut self.dice, bits) {
                for _ in 0..300 * self.scale {
                    let (codes, points) = (1 + self.dice.below(40), self.dice.one_of(&[3, 30, 300]));
                    let mut payload = coding.some_payload(&mut self.dice, codes, points);
                    let zeros = 1 + self.dice.below(8);
                    if let Some(last) = payload.last_mut() {
                        *last = (u64::from(*last) >> zeros << zeros) as u8;
                    }
                    let runs = coding.runs(&payload);
                    if runs.weights_fit && runs.points() <= 300 {
                        self.about_the_count(coding, &payload);
                    }
                }
            }
        }
    }
}

/// The count of all codes, as far as it can be declared.
fn count(coding: Coding, payload: &[u8]) -> u32 {
    u32::try_from(coding.runs(payload).points()).unwrap_or(u32::MAX)
}
