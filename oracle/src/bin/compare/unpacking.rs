//! Unpacking: `decoder/complex.rs` and `decoder/complex/diff.rs` against `cleatmow_unpack_complex` and
//! `cleatmow_unpack_spatial`.

use std::fmt::{self, Display, Formatter};

use cleatmow::{Differences, MOST_POINTS, POINT_OCTETS, Point, Template, unpack_complex_into, unpack_spatial_into};
use oracle::Outcome::{Answer, Panicked, Refused};
use oracle::dice::Dice;
use oracle::unpacking::{Field, Input, MOST_GROUPS, Reading, Size, octets_of, refusals_for, template};

use crate::tally::{Tally, Verdict};
use crate::words;

/// An input as the line that judges it again.
pub struct Shown(pub Input);

impl Display for Shown {
    fn fmt(&self, f: &mut Formatter) -> fmt::Result {
        let Shown(Input { template: t, differences, declared, payload, room }) = self;
        let name = if differences.is_some() { "unpack_spatial" } else { "unpack_complex" };
        write!(f, "{name} {declared} {} {} {} {}", t.number_width, t.splitting, t.missing, t.groups)?;
        write!(f, " {} {} {} {}", t.width_reference, t.width_bits, t.length_reference, t.length_increment)?;
        write!(f, " {} {}", t.last_length, t.length_bits)?;
        if let Some(Differences { order, descriptor_octets }) = differences {
            write!(f, " {order} {descriptor_octets}")?;
        }
        write!(f, " {room} {}", words::of(payload))
    }
}

impl Shown {
    pub fn from_words(operation: &str, words: &[&str]) -> Option<Self> {
        let (payload, numbers) = words.split_last()?;
        let mut numbers = numbers.iter().map(|word| word.parse::<u32>().ok());
        let mut next = || numbers.next()?;
        let octet = |number: Option<u32>| u8::try_from(number?).ok();
        let declared = next()?;
        let template = Template {
            number_width: octet(next())?,
            splitting: octet(next())?,
            missing: octet(next())?,
            groups: next()?,
            width_reference: octet(next())?,
            width_bits: octet(next())?,
            length_reference: next()?,
            length_increment: octet(next())?,
            last_length: next()?,
            length_bits: octet(next())?,
        };
        let differences = match operation {
            "unpack_spatial" => Some(Differences { order: octet(next())?, descriptor_octets: octet(next())? }),
            _ => None,
        };
        let room = next()? as usize;
        let input = Input { template, differences, declared, payload: words::octets(payload)?, room };
        numbers.next().is_none().then_some(Self(input))
    }
}

type Points = Result<Vec<Point>, u32>;

/// Judges inputs one after the other, on octets that it keeps.
#[derive(Default)]
pub struct Judge {
    octets: Vec<u8>,
}

/// What the octets hold before a call, and the guards about the lent ones after it too.
const BEFORE: u8 = 0xa5;
const GUARD: usize = 16;

/// A damaged map of more points than this is seldom looked at: it takes long.
const MANY_POINTS: u32 = 50_000;

impl Judge {
    /// Ours against document 01 as `oracle::unpacking` has it, all lent octets and the guards about them too; and
    /// against the Rust, wherever that is a judge.
    pub fn judge(&mut self, input: &Input) -> Verdict {
        let Reading { answer, count, apart } = input.read();
        if let Some(what) = self.ours_differs(input, &answer) {
            return Verdict::Different(what);
        }
        match (answer, count) {
            (_, Some(count)) if count > MOST_POINTS.into() => Verdict::Outside("more points than 4,194,304"),
            (Err(6), _) if input.template.groups > MOST_GROUPS => Verdict::Outside("group count above 4,194,304"),
            // The Rust's table has this number, so it goes on.
            (Err(3), _) if input.differences.is_some_and(|said| said.order == 255) => Verdict::Outside("order 255"),
            (Err(10), _) => Verdict::Outside("lent buffer too small"),
            (Err(12), _) => Verdict::Outside("a restored number beyond 2^60"),
            (Err(9), Some(_)) if apart.is_some() => Verdict::Outside("declared count not the map's"),
            (Err(9), Some(count)) => match rust(input) {
                Answer(points) if points.len() as i128 == count => Verdict::Outside("declared count not the map's"),
                other => Verdict::Different(format!("document 01: {count} points; the Rust: {}", told(other))),
            },
            (Err(number), _) => match rust(input) {
                Refused(said) if refusals_for(&said).contains(&number) => Verdict::Refused(number),
                other => Verdict::Different(format!("document 01: refusal {number}; the Rust: {}", told(other))),
            },
            (Ok(points), _) => match apart {
                Some(reason) => Verdict::Outside(reason),
                None => match rust(input) {
                    Answer(rusts) if rusts == points => Verdict::Accepted,
                    other => {
                        Verdict::Different(format!("document 01: {}; the Rust: {}", told(Answer(points)), told(other)))
                    }
                },
            },
        }
    }

    /// Calls ours, and says what is not as document 01 has it, if anything is.
    fn ours_differs(&mut self, input: &Input, document: &Points) -> Option<String> {
        let Input { template, differences, declared, payload, room } = input;
        self.octets.clear();
        self.octets.resize(room + 2 * GUARD, BEFORE);
        let lent = &mut self.octets[GUARD..GUARD + room];
        let answered = match differences {
            None => unpack_complex_into(template, *declared, payload, lent),
            Some(differences) => unpack_spatial_into(template, differences, *declared, payload, lent),
        };
        let (number, viewed) = match answered {
            Ok(points) => (0, points.octets().len()),
            Err(refusal) => (refusal.number(), 0),
        };
        let right = match document {
            Ok(_) => 0,
            Err(number) => *number,
        };
        if number != right {
            return Some(format!("ours: {number}; document 01: {right}"));
        }
        if viewed != document.as_ref().map_or(0, |points| points.len() * POINT_OCTETS) {
            return Some(format!("ours shows {viewed} octets of points, and not those of all"));
        }
        // 12 leaves number 0 and mark 0 in the declared places; any other refusal leaves all as it was.
        let written = match document {
            Ok(points) => octets_of(points),
            Err(12) => vec![0; *declared as usize * POINT_OCTETS],
            Err(_) => Vec::new(),
        };
        let (before, rest) = self.octets.split_at(GUARD);
        let (answer, after) = rest.split_at(written.len());
        if answer != written {
            return Some(format!("ours leaves {}; document 01: {}", shown(answer), shown(&written)));
        }
        let unchanged = before.iter().chain(after).all(|octet| *octet == BEFORE);
        (!unchanged).then(|| "ours changes octets that are not its answer's".into())
    }
}

fn rust(input: &Input) -> oracle::Outcome<Vec<Point>> {
    match &input.differences {
        None => oracle::unpack_complex(&input.template, &input.payload),
        Some(differences) => oracle::unpack_spatial(&input.template, differences, &input.payload),
    }
}

fn told(outcome: oracle::Outcome<Vec<Point>>) -> String {
    match outcome {
        Answer(points) if points.len() > 40 => format!("{} points", points.len()),
        Panicked | Refused(_) | Answer(_) => format!("{outcome:?}"),
    }
}

fn shown(octets: &[u8]) -> String {
    if octets.len() > 360 { format!("{} octets", octets.len()) } else { words::of(octets) }
}

/// All inputs of the comparison under 5.2, and so many times as many of those that are made by chance.
pub fn compare_complex(scale: u64) -> Tally {
    compared("unpack_complex", false, 5200, scale)
}

/// The same under 5.3.
pub fn compare_spatial(scale: u64) -> Tally {
    compared("unpack_spatial", true, 5300, scale)
}

fn compared(name: &'static str, spatial: bool, seed: u64, scale: u64) -> Tally {
    let (tally, dice) = (Tally::new(name, seed), Dice::new(seed));
    let mut comparison = Comparison { tally, dice, judge: Judge::default(), spatial, scale };
    comparison.short();
    if spatial {
        comparison.descriptors();
    }
    comparison.several_refusals();
    comparison.lengths();
    comparison.made();
    comparison.limits();
    comparison.tally
}

struct Comparison {
    tally: Tally,
    dice: Dice,
    judge: Judge,
    spatial: bool,
    scale: u64,
}

/// One group of all else 0, for a limit to be set in.
const ONE_GROUP: Template = Template {
    number_width: 0,
    splitting: 1,
    missing: 0,
    groups: 1,
    width_reference: 0,
    width_bits: 0,
    length_reference: 0,
    length_increment: 0,
    last_length: 0,
    length_bits: 0,
};

impl Comparison {
    fn one(&mut self, input: Input) {
        let verdict = self.judge.judge(&input);
        self.tally.count(&Shown(input), verdict);
    }

    /// The declared count as it should be; at times one more, one less, and too little room.
    fn about_the_count(&mut self, mut input: Input) {
        let count = input.declared;
        if self.dice.once_in(8) {
            let mut other = input.clone();
            other.declare(if self.dice.once_in(2) { count.saturating_add(1) } else { count.saturating_sub(1) });
            self.one(other);
        }
        if self.dice.once_in(16) && input.room > 0 {
            let mut other = input.clone();
            other.room -= 1 + self.dice.below(input.room.min(10) as u64) as usize;
            self.one(other);
        }
        if self.dice.once_in(2) {
            input.room += self.dice.below(20) as usize;
        }
        self.one(input);
    }

    /// Under 5.3 with descriptors before the octets, which are small.
    fn with_octets(&mut self, template: Template, octets: &[u8]) {
        if !self.spatial {
            self.about_the_count(Input::with_its_count(template, None, octets.to_vec()));
            return;
        }
        let order = self.dice.one_of(&[1, 2]);
        let descriptor_octets = self.dice.one_of(&[1, 2, 3, 4]);
        let mut payload: Vec<u8> = Vec::new();
        for _ in 0..=order {
            payload.extend(vec![0; usize::from(descriptor_octets) - 1]);
            payload.push(self.dice.number() as u8);
        }
        if self.dice.once_in(2) {
            payload[usize::from(order * descriptor_octets)] ^= 0x80;
        }
        payload.extend(octets);
        let differences = Some(Differences { order, descriptor_octets });
        self.about_the_count(Input::with_its_count(template, differences, payload));
    }

    /// All small template numbers with every payload of up to one octet, and some of them with every one of two.
    fn short(&mut self) {
        self.tally.stage("short, every one", 500_000);
        for template in small_templates() {
            self.with_octets(template, &[]);
            for octet in 0..=u8::MAX {
                self.with_octets(template, &[octet]);
            }
        }
        for numbers in [
            [0, 1, 3, 0, 0, 0, 5, 0],
            [1, 2, 0, 2, 1, 1, 1, 1],
            [4, 2, 0, 0, 2, 3, 4, 2],
            [7, 1, 5, 0, 0, 0, 1, 3],
            [0, 4, 0, 2, 1, 0, 0, 0],
        ] {
            for missing in 0..=2 {
                let template = Template { missing, ..template(numbers) };
                for octets in 0..=u16::MAX {
                    self.with_octets(template, &octets.to_be_bytes());
                }
            }
        }
    }

    /// Every first value and minimum of one octet, with four points that say 0, 1, 2 and 3; then every order and every
    /// count of descriptor octets.
    fn descriptors(&mut self) {
        self.tally.stage("descriptors", 50_000);
        let template = Template { width_reference: 2, last_length: 4, ..ONE_GROUP };
        for octets in 0..=u16::MAX {
            let [first, minimum] = octets.to_be_bytes();
            let second = self.dice.number() as u8;
            for descriptors in [&[first, minimum][..], &[first, second, minimum]] {
                let order = descriptors.len() as u8 - 1;
                let differences = Differences { order, descriptor_octets: 1 };
                let payload = [descriptors, &[0x1b]].concat();
                self.one(Input::with_its_count(template, Some(differences), payload));
            }
        }
        for order in 0..=u8::MAX {
            for descriptor_octets in 0..=u8::MAX {
                let differences = Some(Differences { order, descriptor_octets });
                let payload = self.dice.octets(16);
                self.one(Input::with_its_count(template, differences, payload));
            }
        }
    }

    /// Each number is one that is refused about once in three times, so that the first of several refusals is looked for.
    fn several_refusals(&mut self) {
        self.tally.stage("several refusals", 1_000);
        for _ in 0..200_000 * self.scale {
            let dice = &mut self.dice;
            let template = Template {
                number_width: dice.one_of(&[0, 3, 32]),
                splitting: dice.one_of(&[1, 1, 1, 0]),
                missing: dice.one_of(&[0, 1, 2, 3]),
                groups: dice.one_of(&[1, 2, 3, 0]),
                width_reference: dice.one_of(&[0, 2, 32]),
                width_bits: dice.one_of(&[0, 1, 2, 33]),
                length_reference: dice.one_of(&[0, 1, u32::MAX]),
                length_increment: dice.one_of(&[0, 1]),
                last_length: dice.one_of(&[0, 1, 9]),
                length_bits: dice.one_of(&[0, 1, 2, 33]),
            };
            let differences = self.spatial.then(|| Differences {
                order: dice.one_of(&[1, 1, 2, 2, 0, 3]),
                descriptor_octets: dice.one_of(&[1, 1, 2, 3, 4, 4, 0, 5]),
            });
            let octets = dice.one_of(&[0, 1, 2, 4, 8, 16]);
            let payload = dice.octets(octets);
            self.about_the_count(Input::with_its_count(template, differences, payload));
        }
    }

    fn some(&mut self) -> Input {
        let groups = self.dice.one_of(&[1, 2, 4, 9]);
        let length = self.dice.one_of(&[1, 4, 12, 600]);
        let width = self.dice.one_of(&[2, 8, 20, 30, 31]);
        Input::some(&mut self.dice, self.spatial, Size { groups, length, width })
    }

    /// Maps cut short at every octet, and with octets more.
    fn lengths(&mut self) {
        self.tally.stage("every length", 20_000);
        for _ in 0..12_000 * self.scale {
            let groups = self.dice.one_of(&[1, 2, 4, 9]);
            let width = self.dice.one_of(&[2, 8, 20, 31]);
            let good = Input::some(&mut self.dice, self.spatial, Size { groups, length: 4, width });
            for octets in 0..=good.payload.len() + 2 {
                let mut input = good.clone();
                input.payload.resize(octets, 0xff);
                self.one(input);
            }
        }
    }

    /// Made maps, and damaged copies of each.
    fn made(&mut self) {
        self.tally.stage("made, and damaged copies", 100_000);
        for _ in 0..100_000 * self.scale {
            let good = self.some();
            self.about_the_count(good.clone());
            for _ in 0..4 {
                let mut input = good.clone();
                input.damage(&mut self.dice);
                // Most are declared anew, so that the points of a map with another count are looked at too.
                let count = input.count();
                if (1..MANY_POINTS).contains(&count) && !self.dice.once_in(8) {
                    input.declare(count);
                }
                if count < MANY_POINTS || self.dice.once_in(20) {
                    self.one(input);
                }
            }
        }
    }

    /// Template numbers about their limits, several at a time; long maps; numbers about 2^60.
    fn limits(&mut self) {
        self.tally.stage("limits", 500);
        let mut templates = Vec::new();
        for number_width in [0, 1, 30, 31, 32, 255] {
            for groups in [0, 1, 2, MOST_GROUPS + 1, u32::MAX] {
                for (width_reference, width_bits) in [(0, 0), (31, 0), (32, 0), (30, 1), (255, 32), (0, 32), (0, 33)] {
                    for (length_reference, length_increment, length_bits) in
                        [(0, 0, 0), (0, 1, 32), (1, 1, 32), (u32::MAX, 255, 32), (u32::MAX, 0, 0), (1, 1, 33)]
                    {
                        let numbers = Template { number_width, groups, width_reference, width_bits, ..ONE_GROUP };
                        templates.push(Template { length_reference, length_increment, length_bits, ..numbers });
                    }
                }
            }
        }
        for template in templates {
            for last_length in [0, 1, 2, u32::MAX] {
                let template = Template { last_length, ..template };
                for (splitting, missing) in [(1, 0), (1, 1), (1, 2), (0, 0), (2, 3), (255, 0), (1, 3), (1, 255)] {
                    let template = Template { splitting, missing, ..template };
                    for octets in [0, 3, 40] {
                        let mut random = self.dice.octets(octets);
                        if self.dice.once_in(2) {
                            let fill = self.dice.one_of(&[0, 0xff]);
                            random.fill(fill);
                        }
                        self.with_octets(template, &random);
                    }
                }
            }
        }
        self.long_maps();
        if self.spatial {
            self.about_the_bound();
        }
    }

    /// Points and groups about their limits.
    fn long_maps(&mut self) {
        for points in MOST_POINTS - 1..=MOST_POINTS + 1 {
            self.with_octets(Template { last_length: points, ..ONE_GROUP }, &[]);
        }
        let template = Template { width_reference: 1, last_length: MOST_POINTS, ..ONE_GROUP };
        for short in 0..2 {
            let octets = self.dice.octets(MOST_POINTS as usize / 8 - short);
            self.with_octets(template, &octets);
        }
        let template = Template { number_width: 1, length_reference: 1, last_length: 1, ..ONE_GROUP };
        for (groups, short) in [(MOST_GROUPS, 0), (MOST_GROUPS, 1), (MOST_GROUPS + 1, 0)] {
            let octets = self.dice.octets(groups.div_ceil(8) as usize - short);
            self.with_octets(Template { groups, ..template }, &octets);
        }
    }

    /// Second order, where numbers grow with the square of the place. The first value or the second brings the last
    /// number near to 2^60 either way, and the last reference to it, one beyond and one short of it.
    fn about_the_bound(&mut self) {
        for size in [0x7fff_ffff_u64, 0x4000_0000, 0x1234_5678] {
            // Of so many steps: the greatest sum of all that the minimum adds which is not beyond.
            let sum = |steps: u64| size * (steps * (steps - 1) / 2);
            let steps = (2..).find(|steps| sum(steps + 1) > 1 << 60).expect("it grows");
            let rest = (1 << 60) - sum(steps);
            let up = (0, rest / steps, size, rest % steps);
            let first = rest.div_ceil(steps - 1);
            let down = (first, 0, size | 1 << 31, first * (steps - 1) - rest);
            for (first, second, minimum, last) in [up, down] {
                for last in last.max(2) - 2..=last + 2 {
                    for more in 0..2 {
                        let lengths = [steps, 1 + more];
                        self.restored([first, second, minimum], lengths, [0, last]);
                    }
                }
            }
        }
        // Up and beyond, or nearly, and back again: it is beyond at its greatest number alone.
        for steps in (1 << 15) - 4..(1 << 15) + 4 {
            self.restored([0, 0, 1 << 30 | 1 << 31], [steps, 2 * steps], [0x7fff_fffe, 0]);
        }
    }

    /// Second order: the two first values and the minimum, and two groups of width 0, before them one of missing points.
    fn restored(&mut self, descriptors: [u64; 3], lengths: [u64; 2], references: [u64; 2]) {
        let mut field = Field::default();
        for descriptor in descriptors {
            field.add(descriptor, 32);
        }
        field.add(0x7fff_ffff, 31);
        for reference in references {
            field.add(reference, 31);
        }
        // To the next octet, and three length codes, the last of which is ignored.
        field.add(0, 3);
        for length in [self.dice.below(3), lengths[0], 0] {
            field.add(length, 32);
        }
        let template = Template {
            number_width: 31,
            missing: 1,
            groups: 3,
            length_increment: 1,
            last_length: lengths[1] as u32,
            length_bits: 32,
            ..ONE_GROUP
        };
        let differences = Differences { order: 2, descriptor_octets: 4 };
        self.about_the_count(Input::with_its_count(template, Some(differences), field.octets));
    }
}

fn small_templates() -> Vec<Template> {
    let mut templates = Vec::new();
    for number_width in 0..=3 {
        for groups in 1..=3 {
            for [width_reference, width_bits] in [[0, 0], [1, 0], [2, 0], [0, 1], [1, 1], [0, 2]] {
                for [length_reference, increment] in [[0, 0], [1, 0], [0, 1], [1, 2]] {
                    for [last, length_bits] in [[0, 0], [1, 0], [2, 0], [0, 1], [1, 1], [2, 2]] {
                        let widths = [number_width, groups, width_reference, width_bits];
                        let lengths = [length_reference, increment, last, length_bits];
                        let numbers = [widths, lengths].concat();
                        let numbers = template(numbers.try_into().expect("eight numbers"));
                        templates.extend((0..=2).map(|missing| Template { missing, ..numbers }));
                    }
                }
            }
        }
    }
    templates
}
