//! Grouping and packing: `encoder/complex.rs` from `Groups` down against `cleatmow_pack`.

use std::fmt::{self, Display, Formatter};

use cleatmow::{
    GROUP_OCTETS, NUMBER_OCTETS, Packing, Point, SUMMARY_OCTETS, numbers_as_octets, pack_into, unpack_complex,
};
use oracle::Outcome::{self, Answer, Panicked, Refused};
use oracle::dice::Dice;
use oracle::packing::{
    Coded, GREATEST_LOOKAHEAD, GREATEST_NUMBER, MOST_NUMBERS, Shape, coded, group_octets, is_refused, patches,
    summary_octets,
};

use crate::lent::Lent;
use crate::tally::{Asked, Tally, Verdict};
use crate::words;

pub struct Input {
    lookahead: u32,
    numbers: Vec<u32>,
    /// The octets that are lent for the group list, the payload and the summary. None: just enough, and enough for the
    /// greatest group list and payload of so many numbers where they are refused.
    lent: Option<[usize; 3]>,
}

impl Display for Input {
    fn fmt(&self, f: &mut Formatter) -> fmt::Result {
        write!(f, "pack {} {}", self.lookahead, words::of(&numbers_as_octets(&self.numbers)))?;
        self.lent.iter().flatten().try_for_each(|octets| write!(f, " {octets}"))
    }
}

impl Input {
    pub fn from_words(words: &[&str]) -> Option<Self> {
        let [lookahead, numbers, lent @ ..] = words else {
            return None;
        };
        let octets = words::octets(numbers)?;
        let numbers =
            octets.chunks_exact(NUMBER_OCTETS).map(|number| Some(u32::from_be_bytes(number.try_into().ok()?)));
        let lent: Vec<usize> = lent.iter().map(|octets| octets.parse().ok()).collect::<Option<_>>()?;
        Some(Self {
            lookahead: lookahead.parse().ok()?,
            numbers: numbers.collect::<Option<_>>()?,
            lent: if lent.is_empty() { None } else { Some(lent.try_into().ok()?) },
        })
    }
}

/// Ours against document 01 as `oracle::packing` has it, all lent octets and the guards about them too, and the list
/// read back from the payload; and against the Rust, wherever that is a judge.
pub fn judge(input: &Input) -> Verdict {
    let Input { lookahead, numbers, .. } = input;
    if is_refused(numbers, *lookahead) {
        return match ours_differs(input, None) {
            Some(what) => Verdict::Different(what),
            None => Verdict::Outside(refused_for(numbers, *lookahead)),
        };
    }
    let Coded { packing, step } = coded(numbers, *lookahead);
    if let Some(what) = ours_differs(input, Some(&packing)) {
        return Verdict::Different(what);
    }
    if !unpacks_to(&packing, numbers) {
        return Verdict::Different("ours does not read the list back".into());
    }
    if input.lent.is_some_and(|lent| is_short(lent, &packing)) {
        return Verdict::Outside("lent buffer too small");
    }
    match oracle::pack(numbers, *lookahead as usize) {
        // The template numbers and the octets are wrong there, and the groups are not.
        Answer(rust) if step > 255 && rust.groups == packing.groups => Verdict::Outside("a step above 255"),
        Answer(rust) if is_same(&rust, &packing) => Verdict::Accepted,
        other => Verdict::Different(format!("document 01: {}; the Rust: {}", told(&packing), told_rust(other))),
    }
}

/// The first cause of 13, none of which the Rust looks at.
fn refused_for(numbers: &[u32], lookahead: u32) -> &'static str {
    if numbers.is_empty() {
        "an empty list"
    } else if numbers.len() > MOST_NUMBERS {
        "a list above 4,194,304 numbers"
    } else if numbers.iter().any(|number| *number > GREATEST_NUMBER) {
        "a number above 2,147,483,647"
    } else if lookahead == 0 {
        "lookahead 0"
    } else {
        "lookahead above 65,535"
    }
}

fn is_short([groups, payload, summary]: [usize; 3], packing: &Packing) -> bool {
    groups / GROUP_OCTETS < packing.groups.len() || payload < packing.payload.len() || summary < SUMMARY_OCTETS
}

/// Calls ours, and says what is not as document 01 has it, if anything is. No packing: 13.
fn ours_differs(input: &Input, document: Option<&Packing>) -> Option<String> {
    let enough = match document {
        Some(packing) => [packing.groups.len() * GROUP_OCTETS, packing.payload.len(), SUMMARY_OCTETS],
        None => [input.numbers.len() * GROUP_OCTETS, 10 * input.numbers.len() + 4, SUMMARY_OCTETS],
    };
    let [groups_lent, payload_lent, summary_lent] = input.lent.unwrap_or(enough);
    let (mut groups, mut payload) = (Lent::new(groups_lent), Lent::new(payload_lent));
    let mut summary = Lent::new(summary_lent);
    let numbers = numbers_as_octets(&input.numbers);
    let answered = pack_into(input.lookahead, &numbers, groups.octets(), payload.octets(), summary.octets());

    // What stands at the front of each afterwards.
    let (number, written) = match document {
        None => (13, Default::default()),
        Some(_) if summary_lent < SUMMARY_OCTETS => (10, Default::default()),
        Some(packing) => {
            let slots = groups_lent / GROUP_OCTETS;
            let first: Vec<u8> = packing.groups.iter().take(slots).flat_map(group_octets).collect();
            if slots < packing.groups.len() || payload_lent < packing.payload.len() {
                (10, [first, Vec::new(), Vec::new()])
            } else {
                (
                    0,
                    [
                        first,
                        packing.payload.clone(),
                        summary_octets(&packing.template, packing.groups.len(), packing.payload.len()),
                    ],
                )
            }
        }
    };
    let (ours, viewed) = match answered {
        Ok(packed) => (0, [packed.groups.octets().len(), packed.payload.len()]),
        Err(refusal) => (refusal.number(), [0; 2]),
    };
    if ours != number {
        return Some(format!("ours: {ours}; document 01: {number}"));
    }
    if ours == 0 && viewed != [written[0].len(), written[1].len()] {
        return Some(format!("ours shows {viewed:?} octets of groups and payload, and not those of all"));
    }
    for (name, lent, written) in
        [("groups", &groups, &written[0]), ("payload", &payload, &written[1]), ("summary", &summary, &written[2])]
    {
        if !lent.holds(written) {
            return Some(format!("{name}: ours leaves {}; document 01: {}", shown(lent.all()), shown(written)));
        }
    }
    None
}

fn unpacks_to(packing: &Packing, numbers: &[u32]) -> bool {
    let points = unpack_complex(&packing.template, numbers.len() as u32, &packing.payload);
    points.is_ok_and(|points| points.into_iter().eq(numbers.iter().map(|number| Point::Number((*number).into()))))
}

/// All template numbers, the missing values too, the groups, and the whole payload, as long as the Rust says.
fn is_same(rust: &oracle::Packing, ours: &Packing) -> bool {
    let oracle::Packing { template, missing_values, groups, payload, announced } = rust;
    *template == ours.template
        && *missing_values == [Packing::MISSING_VALUE; 2]
        && *groups == ours.groups
        && *payload == ours.payload
        && *announced == payload.len()
}

fn told(packing: &Packing) -> String {
    format!("{:?}, {} groups, {}", packing.template, packing.groups.len(), shown(&packing.payload))
}

fn told_rust(outcome: Outcome<oracle::Packing>) -> String {
    match outcome {
        Answer(oracle::Packing { template, groups, payload, announced, .. }) => {
            format!("{}, {announced} octets announced", told(&Packing { template, groups, payload }))
        }
        Panicked | Refused(_) => format!("{outcome:?}"),
    }
}

fn shown(octets: &[u8]) -> String {
    if octets.len() > 360 { format!("{} octets", octets.len()) } else { words::of(octets) }
}

/// All inputs of the comparison, and so many times as many of those that are made by chance. At scale, longer short ones
/// and every lookahead too.
pub fn compare(scale: u64) -> Tally {
    const SEED: u64 = 502;
    let mut comparison = Comparison { tally: Tally::new("pack", SEED), dice: Dice::new(SEED), scale };
    comparison.short();
    comparison.made();
    if scale > 1 {
        comparison.lookaheads();
    }
    comparison.long();
    comparison.steps();
    comparison.lent();
    comparison.limits();
    comparison.tally
}

struct Comparison {
    tally: Tally,
    dice: Dice,
    scale: u64,
}

impl Comparison {
    /// The Rust refuses no list, so what is asked for is that both pack.
    fn stage(&mut self, name: &'static str, accepted: u64, outside: u64) {
        self.tally.stage_asking(name, Asked { accepted, refused: 0, outside });
    }

    fn one(&mut self, lookahead: u32, numbers: &[u32], lent: Option<[usize; 3]>) {
        let input = Input { lookahead, numbers: numbers.to_vec(), lent };
        self.tally.count(&input, judge(&input));
    }

    fn lookahead(&mut self) -> u32 {
        match self.dice.below(4) {
            0 => self.dice.one_of(&[64, 1_024, GREATEST_LOOKAHEAD]),
            _ => 1 + self.dice.below(20) as u32,
        }
    }

    fn list(&mut self, count: usize, longest: u64) -> Vec<u32> {
        let shape = self.dice.one_of(&Shape::ALL);
        shape.list(&mut self.dice, count, longest)
    }

    /// Every list of up to six numbers, at scale of up to eight, each one of four.
    fn short(&mut self) {
        self.stage("short, every one", 80_000, 0);
        let most = if self.scale > 1 { 8 } else { 6 };
        for values in [[0, 1, 2, 3], [0, 1, 7, 8], [0, 5, 1_000, GREATEST_NUMBER]] {
            for count in 1..=most {
                for list in 0..4_usize.pow(count) {
                    let numbers: Vec<u32> = (0..count).map(|place| values[list >> (2 * place) & 3]).collect();
                    for lookahead in 1..=count {
                        self.one(lookahead, &numbers, None);
                    }
                }
            }
        }
    }

    /// Lists of every shape.
    fn made(&mut self) {
        self.stage("made, of every shape", 75_000, 0);
        for _ in 0..80_000 * self.scale {
            let most = self.dice.one_of(&[1, 2, 8, 30, 100, 300]);
            let count = 1 + self.dice.below(most) as usize;
            let longest = self.dice.one_of(&[1, 4, 40]);
            let numbers = self.list(count, longest);
            let lookahead = self.lookahead();
            self.one(lookahead, &numbers, None);
        }
    }

    /// Each list at every lookahead that sees something else, and at some that see all.
    fn lookaheads(&mut self) {
        self.stage("every lookahead", 100_000 * self.scale, 0);
        for _ in 0..5_000 * self.scale {
            let count = 2 + self.dice.below(40) as usize;
            let longest = self.dice.one_of(&[1, 4, 12]);
            let numbers = self.list(count, longest);
            for lookahead in (1..=count as u32 + 1).chain([64, 1_024, GREATEST_LOOKAHEAD]) {
                self.one(lookahead, &numbers, None);
            }
        }
    }

    /// As long as the Rust's look-ahead bears.
    fn long(&mut self) {
        self.stage("long", 300, 10);
        for _ in 0..600 * self.scale {
            let (count, lookahead) = match self.dice.below(3) {
                0 => (3_000, self.dice.one_of(&[1_024, GREATEST_LOOKAHEAD])),
                1 => (10_000, 64),
                _ => (20_000, 1 + self.dice.below(20) as u32),
            };
            let count = count / 2 + self.dice.below(count / 2);
            let longest = self.dice.one_of(&[40, 400, 4_000]);
            let numbers = self.list(count as usize, longest);
            self.one(lookahead, &numbers, None);
        }
    }

    /// Flat patches of lengths that are so many steps from the least, the last of any length. Steps to 255 meet.
    fn steps(&mut self) {
        self.stage("steps of the lengths", 4_000, 4_000);
        for step in (0..=255).chain(200..=600).chain([768, 1_021, 1_024, 1_200, 4_096, 65_521]) {
            for _ in 0..20 * self.scale {
                let least = 1 + self.dice.below(300);
                let groups = 2 + self.dice.below(6);
                // A step that goes one time is the greatest divisor; among others it may be a multiple.
                let mut lengths: Vec<u64> = (0..groups).map(|_| least + step * self.dice.below(4)).collect();
                lengths[0] = least;
                lengths[1] = least + step;
                lengths.push(1 + self.dice.below(700));
                self.one(1, &patches(&lengths), None);
            }
        }
    }

    /// Too little room for one or several of the three, and more than enough.
    fn lent(&mut self) {
        self.stage("lent buffers", 5_000, 10_000);
        for _ in 0..30_000 * self.scale {
            let count = 1 + self.dice.below(24) as usize;
            let numbers = self.list(count, 6);
            let lookahead = self.lookahead();
            let Coded { packing, .. } = coded(&numbers, lookahead);
            let right = [packing.groups.len() * GROUP_OCTETS, packing.payload.len(), SUMMARY_OCTETS];
            let lent = right.map(|octets| match self.dice.below(6) {
                0 => self.dice.below(octets as u64 + 1) as usize,
                1 => octets + self.dice.below(50) as usize,
                _ => octets,
            });
            self.one(lookahead, &numbers, Some(lent));
        }
    }

    /// What is refused, and the last that is not, with too little room or enough; and the longest lists.
    fn limits(&mut self) {
        self.stage("limits", 40, 500);
        let lookaheads = [0, 1, 2, GREATEST_LOOKAHEAD, GREATEST_LOOKAHEAD + 1, 65_537, 1 << 31, u32::MAX];
        let numbers = [0, 1, GREATEST_NUMBER, GREATEST_NUMBER + 1, u32::MAX];
        for lookahead in lookaheads {
            for lent in [None, Some([0, 0, 0]), Some([16, 9, 39])] {
                self.one(lookahead, &[], lent);
                for first in numbers {
                    self.one(lookahead, &[first], lent);
                    for second in numbers {
                        self.one(lookahead, &[first, second], lent);
                    }
                }
            }
        }
        for count in MOST_NUMBERS - 1..=MOST_NUMBERS + 1 {
            let mut numbers = Shape::Walk.list(&mut self.dice, count, 1);
            self.one(4, &numbers, None);
            numbers.fill(3);
            self.one(1, &numbers, None);
        }
    }
}
