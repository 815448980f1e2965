//! Document 02, No. 4: "The Rust refuses the new case, so it goes into docs/DIFFERENCES.md, and demand 2's run-length runs
//! leave such inputs out." Which inputs are left out, on every short payload, and that the Rust differs on these alone.

use oracle::maps::short_payloads;
use oracle::runs::Coding;

/// Declared counts as far as this.
const MOST: u32 = 20;

/// Every b up to 8, with the M at both ends and in the middle.
fn codings() -> impl Iterator<Item = Coding> {
    (1..=8).flat_map(|bits| {
        let greatest = (1 << bits) - 1;
        let mut most = vec![0, greatest / 2, greatest];
        most.dedup();
        most.into_iter().map(move |max_level| Coding { bits, max_level })
    })
}

/// What the request says, code by code: the counts at which reading may stop, each the points of all codes before one
/// where fewer than 8 bits are left, all zero. None where the first code is a repeat.
fn counts_before_padding(coding: Coding, payload: &[u8]) -> Vec<u64> {
    let string = payload.iter().fold(0_u64, |string, octet| string << 8 | u64::from(*octet));
    let (bits, width) = (8 * payload.len() as u32, u32::from(coding.bits));
    let (mut points, mut weight, mut counts) = (0, 1, Vec::new());
    for code in 0..bits / width {
        let left = bits - code * width;
        let rest = string & ((1 << left) - 1);
        if left < 8 && rest == 0 {
            counts.push(points);
        }
        match (rest >> (left - width)).checked_sub(u64::from(coding.max_level) + 1) {
            None => (points, weight) = (points + 1, 1),
            Some(_) if code == 0 => return Vec::new(),
            Some(digit) => (points, weight) = (points + digit * weight, weight * coding.base()),
        }
    }
    counts
}

#[test]
fn what_is_left_out() {
    let (mut inputs, mut left_out) = (0, [0; 8]);
    for payload in short_payloads(0..=255) {
        for coding in codings() {
            let all = coding.runs(&payload);
            let counts = counts_before_padding(coding, &payload);
            for declared in 0..=MOST {
                inputs += 1;
                let is_left_out = counts.contains(&declared.into());
                assert_eq!(coding.leaves_padding(declared, &payload), is_left_out, "{declared}, {payload:02x?}");
                let [by_all, by_declared] =
                    [&all, &coding.declared_runs(declared, &payload)].map(|r| r.answer(declared));
                if is_left_out {
                    // The same levels, without those of the padding.
                    let levels = all.answer(all.points() as u32).expect("levels");
                    assert_eq!((by_all, by_declared), (Err(9), Ok(levels[..declared as usize].to_vec())));
                    left_out[usize::from(coding.bits) - 1] += 1;
                } else {
                    assert_eq!(by_all, by_declared, "{declared}, {payload:02x?}");
                }
            }
        }
    }
    // Under b 6 padding takes three octets at least, and under b 7 seven: `compare` has such.
    assert_eq!((inputs, left_out), (31_778_019, [97_917, 34_898, 6_913, 5_868, 1_557, 0, 0, 0]));
}

#[cfg(have_text)]
#[test]
fn the_rust_differs_there_alone() {
    use oracle::Outcome::{Answer, Panicked, Refused};
    use oracle::runs::refusal_for;

    let (mut inputs, mut differ) = (0, 0);
    for payload in short_payloads([0, 0x3c, 0x80, 0xff].into_iter()) {
        for coding in codings() {
            for declared in 0..=MOST {
                let rust = match oracle::run_length(coding.bits, coding.max_level, declared as usize, &payload) {
                    Answer(levels) => Ok(levels),
                    Refused(said) => Err(refusal_for(&said)),
                    Panicked => panic!("{declared}, {payload:02x?}: the Rust panics"),
                };
                let document = coding.declared_runs(declared, &payload).answer(declared).map_err(Some);
                let is_left_out = coding.leaves_padding(declared, &payload);
                assert_eq!(rust != document, is_left_out, "{declared}, {payload:02x?}: {rust:?} for {document:?}");
                assert!(!is_left_out || rust == Err(Some(9)));
                (inputs, differ) = (inputs + 1, differ + u64::from(is_left_out));
            }
        }
    }
    assert_eq!((inputs, differ), (618_723, 2_992));
}
