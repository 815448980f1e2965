//! Run-length as documents 01 and 02 say it, written plainly, without care for speed. And what makes inputs for it.
//! `oracle/src/runs.rs` says the same.

use crate::support::guarded;
use crate::support::maps::Numbers;
use cleatmow::LEVEL_OCTETS;

/// What a call is given beside the lent buffer: b, M, the declared count and the payload.
pub type Input<'a> = (u8, u16, u32, &'a [u8]);

/// The runs of the codes that are read, each a level and its length, or refusal 5 or 11.
pub type Runs = Result<Vec<(u16, u128)>, u32>;

/// "All whole codes in the payload are read": document 01 by itself. So many points a map has where all of it is codes.
pub fn runs(bits: u8, max_level: u16, payload: &[u8]) -> Runs {
    read(bits, max_level, payload, |_, _| false)
}

/// Document 02, No. 4: "once the declared count is reached, reading stops before any code where fewer than 8 bits are
/// left, all zero; else it goes on."
pub fn declared_runs((bits, max_level, declared, payload): Input) -> Runs {
    let reached = |points| points == u128::from(declared);
    read(bits, max_level, payload, |points, left| reached(points) && is_padding(left))
}

/// Whether the bits that are left may be left unread.
fn is_padding(left: &[u16]) -> bool {
    left.len() < 8 && left.iter().all(|bit| *bit == 0)
}

/// Reads code after code, and asks before each, of the points so far and of all bits left, whether reading stops.
/// Weights, lengths and points stop at the greatest number of 128 bits, far above any count that is accepted.
fn read(bits: u8, max_level: u16, payload: &[u8], stops: impl Fn(u128, &[u16]) -> bool) -> Runs {
    if is_refused_with_5(bits, max_level) {
        return Err(5);
    }
    let string = string_of(payload);
    let base = (1_u128 << bits) - 1 - u128::from(max_level);
    let mut runs: Vec<(u16, u128)> = Vec::new();
    let (mut points, mut weight) = (0_u128, 1_u128);
    for (place, code) in codes_in(bits, payload).into_iter().enumerate() {
        if stops(points, &string[place * usize::from(bits)..]) {
            break;
        }
        if code <= max_level {
            runs.push((code, 1));
            points = points.saturating_add(1);
            weight = 1;
        } else {
            let (_, length) = runs.last_mut().ok_or(11_u32)?;
            let more = u128::from(code - max_level - 1).saturating_mul(weight);
            *length = length.saturating_add(more);
            points = points.saturating_add(more);
            weight = weight.saturating_mul(base);
        }
    }
    Ok(runs)
}

/// "b not 1 to 15 or M above 2^b − 1"
fn is_refused_with_5(bits: u8, max_level: u16) -> bool {
    !(1..=15).contains(&bits) || u32::from(max_level) > (1 << bits) - 1
}

/// All whole codes in a payload.
pub fn codes_in(bits: u8, payload: &[u8]) -> Vec<u16> {
    let code = |code: &[u16]| code.iter().fold(0, |code, bit| 2 * code + bit);
    string_of(payload).chunks_exact(bits.into()).map(code).collect()
}

/// The bits of a payload.
fn string_of(payload: &[u8]) -> Vec<u16> {
    payload.iter().flat_map(|octet| (0..8).rev().map(move |place| u16::from(octet >> place & 1))).collect()
}

/// How many whole codes at the end of a payload may be left unread. Each of them is level 0, and so one point: with this
/// many points less declared than there are codes for, or fewer, a map is accepted too.
pub fn padding_codes(bits: u8, payload: &[u8]) -> u32 {
    let (string, bits) = (string_of(payload), usize::from(bits));
    let codes = (0..string.len() / bits).rev();
    codes.take_while(|code| is_padding(&string[code * bits..])).count() as u32
}

pub fn points(runs: &[(u16, u128)]) -> u128 {
    runs.iter().fold(0, |sum, (_, length)| sum.saturating_add(*length))
}

/// The answer, and the buffer as it is left.
pub fn answer(input: Input, lent: &[u8]) -> (u32, Vec<u8>) {
    answer_of(declared_runs(input), input.2, lent)
}

/// The same by document 01 alone.
pub fn answer_of_all_codes((bits, max_level, declared, payload): Input, lent: &[u8]) -> (u32, Vec<u8>) {
    answer_of(runs(bits, max_level, payload), declared, lent)
}

/// What comes of the runs that are read.
fn answer_of(runs: Runs, declared: u32, lent: &[u8]) -> (u32, Vec<u8>) {
    let mut left = lent.to_vec();
    let runs = match runs {
        Ok(runs) => runs,
        Err(number) => return (number, left),
    };
    if points(&runs) != u128::from(declared) || declared > 4_194_304 {
        return (9, left);
    }
    if lent.len() / 2 < declared as usize {
        return (10, left);
    }
    let levels = runs.iter().flat_map(|(level, length)| vec![*level; *length as usize]);
    for (place, level) in left.chunks_exact_mut(2).zip(levels) {
        place.copy_from_slice(&level.to_be_bytes());
    }
    (0, left)
}

/// What the call answers, and leaves in the octets. Where a view is answered, it is of the declared levels at the front
/// of the octets, and of nothing past them.
pub fn call((bits, max_level, declared, payload): Input, levels: &mut [u8]) -> u32 {
    let front = levels.as_ptr();
    match cleatmow::run_length_into(bits, max_level, declared, payload, levels) {
        Ok(view) => {
            guarded::hold_view(view, front, declared as usize);
            let level = |octets: &[u8]| u16::from_be_bytes([octets[0], octets[1]]);
            assert!(view.iter().eq(view.octets().chunks_exact(LEVEL_OCTETS).map(level)));
            0
        }
        Err(refusal) => refusal.number(),
    }
}

/// Codes of `bits` bits end to end, and zero bits to the end of the last octet.
pub fn coded(bits: u8, codes: &[u16]) -> Vec<u8> {
    let mut octets = vec![0; (codes.len() * usize::from(bits)).div_ceil(8)];
    for (i, code) in codes.iter().enumerate() {
        for bit in 0..usize::from(bits) {
            let place = i * usize::from(bits) + bit;
            octets[place / 8] |= ((code >> (usize::from(bits) - 1 - bit) & 1) as u8) << (7 - place % 8);
        }
    }
    octets
}

/// The codes of one run: "its level and then the run length less one in digits of the base, least first, no leading zero
/// digit at the top, none at all for a run of one. Where the base is below 2, a run repeats its level instead."
pub fn run(bits: u8, max_level: u16, level: u16, run: u32) -> Vec<u16> {
    let base = (1 << bits) - 1 - u32::from(max_level);
    if base < 2 {
        return vec![level; run as usize];
    }
    let mut codes = vec![level];
    let mut more = run - 1;
    while more > 0 {
        codes.push((u32::from(max_level) + 1 + more % base) as u16);
        more /= base;
    }
    codes
}

/// The codes of "each longest run".
pub fn codes_of(bits: u8, max_level: u16, levels: &[u16]) -> Vec<u16> {
    levels.chunk_by(u16::eq).flat_map(|levels| run(bits, max_level, levels[0], levels.len() as u32)).collect()
}

/// What the call for writing is given beside what it is lent: b, M, and the levels in octets.
pub type List<'a> = (u8, u16, &'a [u8]);

/// The payload of a list, or refusal 5 or 13. Document 02, No. 5: "5 as for reading, then 13 for a level above M or more
/// than 4,194,304 levels".
pub fn written((bits, max_level, octets): List) -> Result<Vec<u8>, u32> {
    let levels: Vec<u16> = octets.chunks_exact(2).map(|level| u16::from_be_bytes([level[0], level[1]])).collect();
    if is_refused_with_5(bits, max_level) {
        return Err(5);
    }
    if levels.len() > 4_194_304 || levels.iter().any(|level| *level > max_level) {
        return Err(13);
    }
    // "Pad with zero bits."
    Ok(coded(bits, &codes_of(bits, max_level, &levels)))
}

/// The answer, and what is left of a lent buffer and of the lent count: "then 10; no buffer is changed by them."
pub fn answer_written(payload: &Result<Vec<u8>, u32>, lent: &[u8], count: u32) -> (u32, Vec<u8>, u32) {
    match payload {
        Err(number) => (*number, lent.to_vec(), count),
        Ok(payload) if lent.len() < payload.len() => (10, lent.to_vec(), count),
        Ok(payload) => (0, [payload, &lent[payload.len()..]].concat(), payload.len() as u32),
    }
}

extern "C" {
    fn cleatmow_write_run_length(
        bits: u8,
        max_level: u16,
        levels: *const u8,
        levels_len: usize,
        payload: *mut u8,
        payload_len: usize,
        octets: *mut u32,
    ) -> u32;
}

/// What the C call for writing answers, and leaves in the octets and in the count, which no wrapper shows. The wrapper
/// answers the same, and leaves the same octets; where it answers a payload, it is the front of what was lent.
pub fn call_write((bits, max_level, levels): List, payload: &mut [u8], count: &mut u32) -> u32 {
    let mut lent = payload.to_vec();
    // SAFETY: each pointer is that of a slice, with its length, or of a value; the two that are written to are borrowed
    // for that. The call keeps none.
    let number = unsafe {
        let (list, octets) = ((levels.as_ptr(), levels.len()), (payload.as_mut_ptr(), payload.len()));
        cleatmow_write_run_length(bits, max_level, list.0, list.1, octets.0, octets.1, count)
    };
    let front = lent.as_ptr();
    match cleatmow::write_run_length_into(bits, max_level, levels, &mut lent) {
        Ok(written) => assert_eq!((0, front, *count as usize), (number, written.as_ptr(), written.len())),
        Err(refusal) => assert_eq!(refusal.number(), number),
    }
    assert!(lent == payload, "the wrapper leaves other octets");
    number
}

/// A map with runs, well coded, for any base.
pub fn good(numbers: &mut Numbers, bits: u8, max_level: u16) -> Vec<u8> {
    let base = (1_u32 << bits) - 1 - u32::from(max_level);
    let runs = runs_by_chance(numbers, max_level, if base < 2 { 1 } else { 7 });
    let codes: Vec<u16> = runs.into_iter().flat_map(|(level, length)| run(bits, max_level, level, length)).collect();
    coded(bits, &codes)
}

/// A list of levels with runs.
pub fn list_by_chance(numbers: &mut Numbers, max_level: u16) -> Vec<u16> {
    let runs = runs_by_chance(numbers, max_level, 7).into_iter();
    runs.flat_map(|(level, length)| vec![level; length as usize]).collect()
}

/// Up to six runs, each a level and its length, which is below 2 to a power below this one. One may have the level of the
/// run before it.
fn runs_by_chance(numbers: &mut Numbers, max_level: u16, powers: u64) -> Vec<(u16, u32)> {
    let runs = 1 + numbers.below(6);
    let one = |_| {
        let level = numbers.below(u64::from(max_level) + 1) as u16;
        let longest = 1 << numbers.below(powers);
        (level, 1 + numbers.below(longest) as u32)
    };
    (0..runs).map(one).collect()
}
