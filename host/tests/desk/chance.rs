//! Files by chance: whatever stands in them, there is an answer, and no file is written that holds anything else.

use crate::support::maps::Numbers;
use crate::*;

/// Results, or one sentence and a status that the documents or the desk give.
pub fn hold(ran: &Ran, input: &dyn Fn() -> String) -> usize {
    let status = ran.status.unwrap_or_else(|| panic!("{}: {ran:?}", input())) as usize;
    assert!(status <= 14 || (64..=67).contains(&status), "{}: {ran:?}", input());
    let lines = (ran.out.is_empty(), ran.err.lines().count());
    assert_eq!(lines, if status == 0 { (false, 0) } else { (true, 1) }, "{}: {ran:?}", input());
    status
}

#[test]
fn sections_by_chance() {
    let folder = scratch("chance");
    let mut chance = Numbers::new(64);
    let mut any = |most: u64| (0..chance.below(most)).map(|_| chance.any() as u8).collect::<Vec<u8>>();
    let small = (complex(4, CASE), section7(&CASE_PAYLOAD));
    let gust = (fs::read(GUST.file("s5")).unwrap(), fs::read(GUST.file("s7")).unwrap());
    let mut maps: Vec<(Vec<u8>, Vec<u8>)> = (0..40).map(|_| (any(60), any(20))).collect();
    maps.extend((0..40).map(|_| (small.0.clone(), section7(&any(20)))));
    for map in [&small, &gust] {
        for place in 0..map.0.len() {
            for change in [1, 0x80, 0xFF] {
                let mut changed = map.clone();
                changed.0[place] ^= change;
                maps.push(changed);
            }
        }
    }
    let mut seen = [0; 68];
    for (section5, section7) in maps {
        write_map(&folder, "map", &section5, &section7);
        for line in [
            "point map --columns 4 --rows 1 --column 2 --row 1",
            "point map --columns 144 --rows 73 --column 9 --row 9",
            "check map --lookahead 4",
        ] {
            seen[hold(&desk(&folder, &words(line)), &|| format!("{section5:?}, {section7:?}"))] += 1;
        }
    }
    for status in [0, 1, 2, 3, 4, 5, 6, 7, 8, 9, 14, 64, 67] {
        assert!(seen[status] > 0, "none with status {status}: {seen:?}");
    }
}

/// A GRIB2 file, damaged: cut, bits turned over, lengths changed, parts of it twice or left out.
fn damaged(whole: &[u8], chance: &mut Numbers) -> Vec<u8> {
    let mut octets = whole.to_vec();
    let mut place = |octets: &[u8]| chance.below(octets.len().max(1) as u64) as usize;
    // What stands before Section 7 is where most of the numbers are.
    let head = place(&octets[..whole.len().min(260)]);
    let (one, other) = (place(&octets), place(&octets));
    let (first, last) = (one.min(other), one.max(other));
    match chance.below(8) {
        0 => octets.truncate(one),
        1 => octets[head] ^= 1 << chance.below(8),
        2 => (0..1 + chance.below(8))
            .for_each(|_| octets[chance.below(whole.len() as u64) as usize] ^= 1 << chance.below(8)),
        3 => octets[head] = chance.any() as u8,
        4 => octets[head..(head + 4).min(whole.len())].fill([0, 0xFF][chance.below(2) as usize]),
        5 => drop(octets.drain(first..last)),
        6 => octets.extend_from_slice(&whole[first..last]),
        _ => drop(octets.splice(first..first, whole[head..(head + 40).min(whole.len())].iter().copied())),
    }
    octets
}

/// No panic, no hang, and no file but what `split` and `pack` make of a field that is whole.
fn damaged_files(count: usize, name: &str) {
    let folder = scratch(name);
    let gust = fs::read(GUST.file("grib2")).unwrap();
    let two = [support::grib2::message_of(0), support::grib2::message_of(1)].concat();
    let mut chance = Numbers::new(2);
    let mut seen = [0; 68];
    for number in 0..count {
        let whole = if number % 2 == 0 { &gust } else { &two };
        let octets = damaged(whole, &mut chance);
        fs::write(folder.join("map"), &octets).unwrap();
        let line = match number % 5 {
            0 => "split map:1 --to cut",
            1 => "pack map:1 --to cut",
            2 => "point map:1 --column 2 --row 2",
            3 => "list map",
            _ => "info map:1",
        };
        let start = Instant::now();
        let ran = desk(&folder, &words(line));
        let input = || format!("{line}, damaged file {number} of {} octets", octets.len());
        let status = hold(&ran, &input);
        assert!(start.elapsed() < Duration::from_secs(60), "{}", input());
        let writes = number % 5 < 2 && status == 0;
        let written: &[&str] = if writes { &["cut.s5", "cut.s7", "map"] } else { &["map"] };
        assert_eq!(names_in(&folder), written, "{}: {ran:?}", input());
        if writes {
            // What was written is whole: the sections of the file as they stand there, or a packing of the desk's.
            let check = ["check", "cut", "--lookahead", "4"];
            match number % 5 {
                0 => ["cut.s5", "cut.s7"].iter().for_each(|file| {
                    let section = fs::read(folder.join(file)).unwrap();
                    assert!(octets.windows(section.len()).any(|octets| octets == section), "{}", input());
                }),
                _ => drop(results(&folder, &check)),
            }
            ["cut.s5", "cut.s7"].iter().for_each(|file| fs::remove_file(folder.join(file)).unwrap());
        }
        seen[status] += 1;
    }
    for status in [0, 1, 2, 6, 7, 9, 14, 64] {
        assert!(seen[status] > 0, "none with status {status}: {seen:?}");
    }
}

#[test]
fn a_thousand_damaged_files() {
    damaged_files(1_000, "damaged");
}

#[test]
#[ignore = "takes half a minute: make hostile"]
fn ten_thousand_damaged_files() {
    damaged_files(10_000, "damaged-10000");
}
