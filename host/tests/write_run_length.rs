//! Writing run-length maps through the C call, against document 02, No. 5: its sentences, limits, lent buffers, a plain
//! model, and reading what was written.

mod support;

use cleatmow::{
    levels_as_octets, run_length, write_run_length, write_run_length_into, Refusal, LEVEL_OCTETS, MOST_POINTS,
};
use std::collections::HashMap;
use support::guarded;
use support::maps::{rain, Numbers};
use support::model::run_length::{self as model, answer_written, call_write, coded, list_by_chance, written, List};

/// What the lent count holds before a call, and what stands on both sides of it: no payload has so many octets.
const COUNT: u32 = 0xEEEE_EEEE;

/// Holds the call on `len` lent octets to the model: its number, every octet that is lent or stands around, and the
/// count.
fn compare(list: List, len: usize) -> u32 {
    compare_with(list, &written(list), len)
}

/// The same where the model's payload or refusal is known.
fn compare_with(list: List, right: &Result<Vec<u8>, u32>, len: usize) -> u32 {
    let (bits, max_level, levels) = list;
    let shown = format!("b {bits}, M {max_level}, {:02X?} of {}", &levels[..levels.len().min(80)], levels.len());
    let answer = |lent: &[u8]| answer_written(right, lent, COUNT);
    let left = |lent: &[u8]| {
        let (number, left, _) = answer(lent);
        (number, left)
    };
    let call = |lent: &mut [u8]| {
        let (_, _, count) = answer(lent);
        let mut counts = [COUNT; 3];
        let number = call_write(list, lent, &mut counts[1]);
        assert_eq!(counts, [COUNT, count, COUNT], "{shown}: the count");
        number
    };
    guarded::compare(&shown, len, left, call).0
}

/// Holds a list that is accepted to the model, in buffers of one octet too few, of just enough and of one more; and to
/// "Reading with No. 4's rule gives the levels back." Answers the payload.
fn hold(bits: u8, max_level: u16, levels: &[u16]) -> Vec<u8> {
    let octets = levels_as_octets(levels);
    let list = (bits, max_level, &octets[..]);
    let right = written(list);
    let payload = right.clone().expect("a good list");
    for len in payload.len().saturating_sub(1)..payload.len() + 2 {
        assert_eq!(compare_with(list, &right, len), if len < payload.len() { 10 } else { 0 });
    }
    // "(levels × bits + 7) / 8 octets are always enough", which the other form relies on.
    assert!(payload.len() <= (levels.len() * usize::from(bits)).div_ceil(8));
    assert!(write_run_length(bits, max_level, levels).as_ref() == Ok(&payload));
    assert!(run_length(bits, max_level, levels.len() as u32, &payload).as_deref() == Ok(levels));
    payload
}

/// M at the ends of its range, and those that have base 0 to 4.
fn greatest_levels(bits: u8) -> Vec<u16> {
    let greatest = (1_u16 << bits) - 1;
    let about_the_end = (0..5).filter_map(|base| greatest.checked_sub(base));
    let mut levels: Vec<u16> = (0..3).filter(|level| *level <= greatest).chain(about_the_end).collect();
    levels.sort();
    levels.dedup();
    levels
}

/// Document 01's cases and those of document 02, No. 4, written; and each sentence of No. 5 by itself.
#[test]
fn sentences_of_the_request() {
    assert_eq!(hold(4, 9, &[3, 3, 3, 3, 3, 3, 3, 3, 3, 5]), [0x3C, 0xB5]);
    assert_eq!(hold(4, 9, &[3, 3, 3, 5]), [0x3C, 0x50]);
    // The same octets: what pads the list above is the code of level 0 here, and the declared count tells them apart.
    assert_eq!(hold(4, 9, &[3, 3, 3, 5, 0]), [0x3C, 0x50]);
    assert_eq!(hold(4, 9, &[3, 3, 3, 5, 0, 0]), [0x3C, 0x50, 0xB0]);
    // "none at all for a run of one"
    assert_eq!(hold(4, 9, &[3, 4, 3, 4]), [0x34, 0x34]);
    // Base 2: 2 to 5 points. "least first, no leading zero digit at the top"
    for (points, codes) in [(2, &[1, 3][..]), (3, &[1, 2, 3]), (4, &[1, 3, 3]), (5, &[1, 2, 2, 3])] {
        assert_eq!(hold(2, 1, &vec![1; points]), coded(2, codes));
    }
    // "Where the base is below 2, a run repeats its level instead."
    assert_eq!(hold(4, 14, &[3, 3, 3, 5]), [0x33, 0x35]);
    assert_eq!(hold(4, 15, &[3, 3, 3, 15]), [0x33, 0x3F]);
    assert_eq!(hold(1, 0, &[0; 9]), [0, 0]);
    // "Pad with zero bits."
    assert_eq!(hold(7, 127, &[127]), [0xFE]);
    assert_eq!(hold(15, 32_767, &[32_767]), [0xFF, 0xFE]);
    // "An empty list writes nothing."
    assert_eq!(hold(4, 9, &[]), []);
}

#[test]
fn bits_and_greatest_level_have_limits() {
    let octets = levels_as_octets(&[0, 0, 1]);
    for bits in [0, 16, 17, 32, 64, 255] {
        for max_level in [0, 1, 9, u16::MAX] {
            assert_eq!(write_run_length(bits, max_level, &[]), Err(Refusal::Width));
            assert_eq!(write_run_length(bits, max_level, &[0; 1_000]), Err(Refusal::Width));
            assert_eq!(compare((bits, max_level, &octets), 10), 5);
        }
    }
    for bits in 1..=15 {
        let greatest = (1 << bits) - 1;
        for max_level in [greatest + 1, greatest + 2, u16::MAX] {
            assert_eq!(compare((bits, max_level, &octets), 10), 5);
        }
        hold(bits, greatest, &[greatest, 0, greatest, greatest]);
    }
}

/// "13 for a level above M"
#[test]
fn levels_have_a_limit() {
    for bits in 1..=15 {
        for max_level in greatest_levels(bits) {
            let good = [max_level, 0, max_level, max_level, 0];
            hold(bits, max_level, &good);
            for place in 0..good.len() {
                for above in [max_level + 1, max_level | 0x100, max_level | 0x8000, u16::MAX] {
                    let mut levels = good;
                    levels[place] = above;
                    let refused = u32::from(above > max_level) * 13;
                    assert_eq!(compare((bits, max_level, &levels_as_octets(&levels)), 20), refused, "{levels:?}");
                }
            }
        }
    }
}

/// "or more than 4,194,304 levels": 13, by either form, and with room for all; and before it the longest lists there are.
#[test]
fn the_list_has_a_limit() {
    const MOST: usize = MOST_POINTS as usize;
    let above = [0, 1].repeat(MOST + 1);
    let most = &above[..MOST * LEVEL_OCTETS];
    for (bits, max_level) in [(1, 1), (2, 1), (2, 2), (4, 9), (8, 200), (15, 1), (15, 32_767)] {
        let right = written((bits, max_level, most));
        let payload = right.clone().expect("a good list");
        for len in payload.len() - 1..payload.len() + 2 {
            assert_eq!(compare_with((bits, max_level, most), &right, len), u32::from(len < payload.len()) * 10);
        }
        let levels = run_length(bits, max_level, MOST_POINTS, &payload).unwrap();
        assert!(levels.len() == MOST && levels.iter().all(|level| *level == 1));
        // A spare octet is no level more.
        assert_eq!(compare_with((bits, max_level, &above[..most.len() + 1]), &right, payload.len()), 0);
        assert_eq!(compare_with((bits, max_level, &above), &Err(13), payload.len() + 1), 13);
        let mut room = vec![7; (MOST * usize::from(bits)).div_ceil(8) + 8];
        assert_eq!(write_run_length_into(bits, max_level, &above, &mut room), Err(Refusal::Numbers));
        assert!(room.iter().all(|octet| *octet == 7));
    }
    let levels = vec![1; MOST + 1];
    assert_eq!(write_run_length(4, 9, &levels), Err(Refusal::Numbers));
    assert!(write_run_length(4, 9, &levels[1..]).ok() == written((4, 9, most)).ok());
    // No run at all, in the most octets that a payload has.
    let levels: Vec<u16> = (0..MOST).map(|place| (place % 2) as u16 * 32_767).collect();
    let payload = write_run_length(15, 32_767, &levels).unwrap();
    assert_eq!(payload.len(), 7_864_320);
    assert!(run_length(15, 32_767, MOST_POINTS, &payload) == Ok(levels));
}

/// "Refusals: 5 as for reading, then 13 …, then 10": each set of faults at once gives the first of them.
#[test]
fn refusals_come_in_their_order() {
    let many = vec![0; (MOST_POINTS as usize + 1) * LEVEL_OCTETS];
    let good = levels_as_octets(&[3, 3, 3, 5]);
    for faults in 0..8 {
        let (width, numbers, room) = (faults & 1 > 0, faults & 2 > 0, faults & 4 > 0);
        let widths = if width { vec![(0, 9), (16, 9), (4, 16), (255, u16::MAX)] } else { vec![(4, 9)] };
        let mut lists = vec![good.clone()];
        if numbers {
            let above = [[10, 3, 3, 5], [3, 3, 10, 5], [3, 3, 3, u16::MAX]];
            lists = above.iter().map(|levels| levels_as_octets(levels)).chain([many.clone()]).collect();
        }
        let expected = match (width, numbers, room) {
            (true, ..) => 5,
            (_, true, _) => 13,
            (.., true) => 10,
            _ => 0,
        };
        for (bits, max_level) in widths {
            for list in &lists {
                for len in if room { [0, 1] } else { [2, 5] } {
                    assert_eq!(compare((bits, max_level, list), len), expected, "{bits} {max_level} {len}");
                }
            }
        }
    }
}

/// "An empty list writes nothing": no room is needed, and 5 is tested all the same. A spare octet makes no list.
#[test]
fn an_empty_list() {
    for levels in [&[][..], &[0], &[0xFF]] {
        for len in 0..4 {
            for bits in 0..=255 {
                for max_level in [0, 1, 9, 15, 16, 32_767, u16::MAX] {
                    let right = (1..=15).contains(&bits) && u32::from(max_level) < 1 << bits;
                    assert_eq!(compare((bits, max_level, levels), len), if right { 0 } else { 5 });
                }
            }
        }
    }
}

#[test]
fn lent_buffers_of_every_size() {
    for (bits, max_level, levels) in [
        (4, 9, &[3, 3, 3, 5][..]),
        (4, 9, &[3, 3, 3, 3, 3, 3, 3, 3, 3, 5]),
        (4, 14, &[3, 3, 3, 5]),
        (1, 1, &[1; 17]),
        (9, 300, &[299, 299, 299, 0, 300]),
        (15, 32_767, &[1, 2, 3]),
        (15, 0, &[0; 9]),
    ] {
        let octets = levels_as_octets(levels);
        let payload = written((bits, max_level, &octets)).unwrap();
        for len in 0..payload.len() + 20 {
            let expected = if len < payload.len() { 10 } else { 0 };
            assert_eq!(compare((bits, max_level, &octets), len), expected);
            // A spare octet is not used, whatever it is.
            for spare in [0, 3, 0xFF] {
                let list = [&octets[..], &[spare]].concat();
                assert_eq!(compare_with((bits, max_level, &list), &Ok(payload.clone()), len), expected);
            }
        }
    }
}

/// Every list of up to so many levels: what is written is read back, and no two lists of one length share a payload.
fn every_list(bits: u8, max_level: u16, most: u32) -> usize {
    let choices = usize::from(max_level) + 1;
    let mut lists = 0;
    for count in 0..=most {
        let mut payloads = HashMap::new();
        for mut number in 0..choices.pow(count) {
            let levels: Vec<u16> = (0..count)
                .map(|_| {
                    let level = number % choices;
                    number /= choices;
                    level as u16
                })
                .collect();
            let payload = hold(bits, max_level, &levels);
            if let Some(other) = payloads.insert(payload, levels.clone()) {
                panic!("b {bits}, M {max_level}: {levels:?} and {other:?} share a payload");
            }
            lists += 1;
        }
    }
    lists
}

#[test]
fn every_short_list() {
    let mut lists = 0;
    for bits in 1..=4 {
        for max_level in (0..4).filter(|max_level| *max_level < 1 << bits) {
            lists += every_list(bits, max_level, 6);
        }
        // Longer ones of two levels, and of one.
        lists += every_list(bits, 1, 10);
        lists += every_list(bits, 0, 300);
    }
    // Every level of the range, under bases 4 to 0.
    for max_level in 11..16 {
        lists += every_list(4, max_level, 3);
    }
    println!("{lists} lists");
    assert_eq!(lists, 44_795);
}

/// Every b, with M at its ends and about the bases that are special, and by chance; lists with runs.
#[test]
fn lists_by_chance_come_back() {
    let mut chance = Numbers::new(5);
    let mut with_runs = 0;
    for bits in 1..=15 {
        let mut most = greatest_levels(bits);
        most.extend((0..20).map(|_| chance.below(1 << bits) as u16));
        for max_level in most {
            for _ in 0..25 {
                // Runs that follow one another may have one level, and are one longest run then.
                let levels = list_by_chance(&mut chance, max_level);
                with_runs += usize::from(levels.windows(2).any(|two| two[0] == two[1]));
                hold(bits, max_level, &levels);
            }
        }
    }
    assert!(with_runs > 5_000, "{with_runs}");
}

/// Run lengths where a digit more is needed, and about them: base^j, less one and one and two more, for every j.
#[test]
fn runs_about_each_power_of_the_base() {
    let about = |base: u64, most: u64| {
        let powers = (0..).map(move |power| base.pow(power)).take_while(move |power| *power <= most + 1);
        powers.flat_map(|power| [power - 1, power, power + 1, power + 2]).filter(move |run| (1..=most).contains(run))
    };
    let mut tried = 0;
    for bits in 2..=15 {
        let greatest = (1_u16 << bits) - 1;
        for max_level in [0, 1, greatest / 2, greatest.saturating_sub(7), greatest - 3, greatest - 2] {
            let base = u64::from(greatest - max_level);
            for run in about(base, 40_000) {
                // Alone, and between levels of another kind.
                let alone = vec![max_level; run as usize];
                hold(bits, max_level, &alone);
                if max_level > 0 {
                    hold(bits, max_level, &[&[0], &alone[..], &[0, 1]].concat());
                }
                tried += 1;
            }
        }
    }
    // As far as a list goes: the model's payload alone, and reading it.
    let levels = vec![1; MOST_POINTS as usize];
    for (bits, max_level) in [(2, 1), (3, 4), (4, 9), (8, 200), (11, 1), (15, 1), (15, 32_764)] {
        let base = (1 << bits) - 1 - u64::from(max_level);
        for run in about(base, MOST_POINTS.into()).filter(|run| *run > 40_000).chain([MOST_POINTS.into()]) {
            let levels = &levels[..run as usize];
            let payload = write_run_length(bits, max_level, levels).unwrap();
            assert_eq!(payload, coded(bits, &model::run(bits, max_level, 1, run as u32)));
            assert!(run_length(bits, max_level, run as u32, &payload).as_deref() == Ok(levels), "{bits}, {run} levels");
            tried += 1;
        }
    }
    println!("{tried} run lengths");
    assert!(tried > 1_000, "{tried}");
}

/// A map like a radar's is written as it was made, and with other bits and levels.
#[test]
fn the_sample_map_is_written_as_it_is() {
    for points in [0, 1, 2, 1_000, 100_000] {
        let map = rain(points);
        assert!(hold(map.bits, map.max_level, &map.levels) == map.payload, "{points} points");
    }
    let map = rain(1_000_000);
    assert!(write_run_length(map.bits, map.max_level, &map.levels).as_ref() == Ok(&map.payload));
    let map = rain(20_000);
    for (bits, max_level) in [(8, 253), (8, 254), (8, 255), (9, 200), (11, 1_000), (13, 200), (15, 32_766)] {
        hold(bits, max_level, &map.levels);
    }
}

#[test]
fn equal_to_the_model_on_inputs_by_chance() {
    const INPUTS: u32 = 100_000;
    let mut numbers = Numbers::new(7);
    let mut answers = [0_u32; 14];
    for _ in 0..INPUTS {
        let bits = if numbers.below(50) == 0 { numbers.below(18) } else { 1 + numbers.below(15) } as u8;
        let greatest = (1_u64 << bits) - 1;
        let max_level = match numbers.below(16) {
            0 => greatest + numbers.below(3),
            1..=4 => greatest.saturating_sub(numbers.below(4)),
            _ => numbers.below(greatest + 1),
        } as u16;
        let mut levels = list_by_chance(&mut numbers, max_level);
        if numbers.below(4) == 0 {
            let place = numbers.below(levels.len() as u64) as usize;
            levels[place] = match numbers.below(3) {
                0 => max_level.saturating_add(1),
                1 => max_level,
                _ => numbers.any() as u16,
            };
        }
        let mut octets = levels_as_octets(&levels);
        octets.extend((0..numbers.below(2)).map(|_| 0xA5));
        let list = (bits, max_level, &octets[..]);
        let right = written(list);
        let enough = right.as_ref().map_or(20, |payload| payload.len() as u64);
        let len = match numbers.below(4) {
            0 => numbers.below(enough + 4),
            extra => enough + extra - 1,
        };
        answers[compare_with(list, &right, len as usize) as usize] += 1;
    }
    println!("answers by number: {answers:?}");
    for (number, least) in [(0, 50_000), (5, 3_000), (10, 10_000), (13, 10_000)] {
        assert!(answers[number] >= least, "too few answers {number}: {answers:?}");
    }
}
