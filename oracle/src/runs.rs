//! The documents' reading of a run-length payload, written plainly for the programs here: they have to know how many
//! points an input has before they let the Rust store them, and whether the Rust can judge it at all. And their writing,
//! which the Rust does not have.

use crate::dice::Dice;

/// Above this document 01 refuses every declared count.
pub const MOST_POINTS: u32 = 4_194_304;

/// Document 01's b and M.
#[derive(Clone, Copy)]
pub struct Coding {
    pub bits: u8,
    pub max_level: u16,
}

pub struct Runs {
    /// The codes that were read.
    codes: usize,
    /// The first code repeats a level that is not there: document 01's 11.
    pub repeat_first: bool,
    /// Each level with its points, itself counted.
    pub runs: Vec<(u16, u64)>,
    /// Each place weight, the one after the last repeat code too, fits the Rust's `usize`. Where one does not, the Rust
    /// overflows, and document 01 does not ask the two to meet.
    pub weights_fit: bool,
}

impl Coding {
    /// Every b with the M about both ends of its range and one between them.
    pub fn all_to_try(dice: &mut Dice) -> Vec<Self> {
        (1..=15).flat_map(|bits| Self::with_bits(dice, bits)).collect()
    }

    pub fn with_bits(dice: &mut Dice, bits: u8) -> Vec<Self> {
        let greatest = (1 << bits) - 1;
        let between = dice.below(1 << bits) as u16;
        let mut levels = vec![0, 1, 2, between, greatest.max(2) - 2, greatest - 1, greatest];
        levels.retain(|level| *level <= greatest);
        levels.sort();
        levels.dedup();
        let coding = |max_level| Self { bits, max_level };
        levels.into_iter().map(coding).collect()
    }

    /// Document 01 refuses other ones with 5; the functions below are not for those.
    pub fn in_range(self) -> bool {
        (1..=15).contains(&self.bits) && self.max_level < 1 << self.bits
    }

    pub fn base(self) -> u64 {
        (1 << self.bits) - 1 - u64::from(self.max_level)
    }

    /// The code that repeats with this digit, which is below the base.
    pub fn repeat(self, digit: u64) -> u16 {
        self.max_level + 1 + digit as u16
    }

    /// "All whole codes in the payload are read": document 01 by itself, and the Rust.
    pub fn runs(self, payload: &[u8]) -> Runs {
        self.read(payload, |_, _| false)
    }

    /// Document 02, No. 4: "once the declared count is reached, reading stops before any code where fewer than 8 bits
    /// are left, all zero; else it goes on."
    pub fn declared_runs(self, declared: u32, payload: &[u8]) -> Runs {
        let zeros = payload.last().map_or(0, |last| last.trailing_zeros() as usize);
        self.read(payload, |points, left| points == declared.into() && left < 8 && left <= zeros)
    }

    /// Whether the two readings answer otherwise: the declared count is reached, and only padding is left. Document 01 by
    /// itself and the Rust read on and refuse with 9. Document 02, No. 4: "demand 2's run-length runs leave such inputs
    /// out."
    pub fn leaves_padding(self, declared: u32, payload: &[u8]) -> bool {
        declared <= MOST_POINTS && self.declared_runs(declared, payload).codes < self.runs(payload).codes
    }

    /// Reads code after code, and asks before each, of the points so far and of how many bits are left, whether reading
    /// stops. A number too large for its kind stops at the greatest, far above any limit.
    fn read(self, payload: &[u8], stops: impl Fn(u64, usize) -> bool) -> Runs {
        let mut read = Runs { codes: 0, repeat_first: false, runs: Vec::new(), weights_fit: true };
        let (mut points, mut weight) = (0_u64, 1_u128);
        for code in self.codes(payload) {
            if stops(points, payload.len() * 8 - read.codes * usize::from(self.bits)) {
                break;
            }
            read.codes += 1;
            if code <= self.max_level {
                read.runs.push((code, 1));
                points = points.saturating_add(1);
                weight = 1;
            } else if let Some((_, length)) = read.runs.last_mut() {
                let more = u128::from(code - self.repeat(0)).saturating_mul(weight);
                let more = u64::try_from(more).unwrap_or(u64::MAX);
                *length = length.saturating_add(more);
                points = points.saturating_add(more);
                weight = weight.saturating_mul(self.base().into());
                read.weights_fit &= usize::try_from(weight).is_ok();
            } else {
                read.repeat_first = true;
                break;
            }
        }
        read
    }

    /// All whole codes. One touches at most three octets, and what is past the end is shifted out again.
    fn codes(self, payload: &[u8]) -> impl Iterator<Item = u16> {
        let width = usize::from(self.bits);
        let octet = |place| u32::from(*payload.get(place).unwrap_or(&0));
        (0..payload.len() * 8 / width).map(move |code| {
            let (first, start) = (code * width / 8, code * width % 8);
            let three = octet(first) << 16 | octet(first + 1) << 8 | octet(first + 2);
            (three >> (24 - start - width) & ((1 << width) - 1)) as u16
        })
    }

    /// Document 02, No. 5: "each longest run is its level and then the run length less one in digits of the base, least
    /// first, no leading zero digit at the top, none at all for a run of one. Where the base is below 2, a run repeats its
    /// level instead. Pad with zero bits."
    pub fn written(self, levels: &[u16]) -> Vec<u8> {
        let run = |run: &[u16]| self.run(run[0], run.len() as u64);
        self.payload_of(&levels.chunk_by(u16::eq).flat_map(run).collect::<Vec<u16>>())
    }

    /// The codes of one run.
    pub fn run(self, level: u16, length: u64) -> Vec<u16> {
        if self.base() < 2 {
            return vec![level; length as usize];
        }
        let digits = std::iter::successors(Some(length - 1), |left| Some(left / self.base()));
        let digits = digits.take_while(|left| *left > 0).map(|left| self.repeat(left % self.base()));
        [level].into_iter().chain(digits).collect()
    }

    /// These codes end to end. The spare bits of the last octet are zero, and may be codes beyond them.
    pub fn payload_of(self, codes: &[u16]) -> Vec<u8> {
        let width = usize::from(self.bits);
        let mut payload = vec![0; (codes.len() * width).div_ceil(8)];
        for place in 0..codes.len() * width {
            let bit = codes[place / width] >> (width - 1 - place % width) & 1;
            payload[place / 8] |= (bit as u8) << (7 - place % 8);
        }
        payload
    }

    /// A payload of at most so many codes and points: levels, and repeats for what is left of the points. The spare
    /// bits of its last octet are random, and may be codes beyond that.
    pub fn some_payload(self, dice: &mut Dice, most_codes: u64, most_points: u64) -> Vec<u8> {
        let (mut left, mut weight) = (most_points, 1_u64);
        let mut codes = Vec::new();
        while (codes.len() as u64) < most_codes && left > 0 {
            if self.base() > 0 && !codes.is_empty() && dice.once_in(2) {
                let most = (left / weight).min(self.base() - 1);
                let random = dice.below(most + 1);
                let digit = dice.one_of(&[0, most, random]);
                codes.push(self.repeat(digit));
                left -= digit * weight;
                weight = weight.saturating_mul(self.base());
            } else {
                let random = dice.below(u64::from(self.max_level) + 1) as u16;
                codes.push(dice.one_of(&[0, self.max_level, random, random]));
                left -= 1;
                weight = 1;
            }
        }
        let mut payload = self.payload_of(&codes);
        let spare = payload.len() * 8 - codes.len() * usize::from(self.bits);
        if let Some(last) = payload.last_mut() {
            *last |= dice.below(1 << spare) as u8;
        }
        payload
    }
}

impl Runs {
    pub fn points(&self) -> u64 {
        let points = self.runs.iter().map(|(_, points)| points);
        points.fold(0, |sum: u64, points| sum.saturating_add(*points))
    }

    /// The answer where these were read: all levels, or the number of the refusal.
    pub fn answer(&self, declared: u32) -> Result<Vec<u16>, u32> {
        if self.repeat_first {
            return Err(11);
        }
        if declared > MOST_POINTS || self.points() != u64::from(declared) {
            return Err(9);
        }
        let run = |&(level, points): &(u16, u64)| std::iter::repeat_n(level, points as usize);
        Ok(self.runs.iter().flat_map(run).collect())
    }
}

/// The refusal of document 01 for what the Rust says, or none where it says something else.
pub fn refusal_for(said: &str) -> Option<u32> {
    match said {
        "LengthMismatch" => Some(9),
        "UnclassifiedError(\"invalid first value\")" => Some(11),
        _ => None,
    }
}
