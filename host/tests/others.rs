//! Maps by other writers and by hand, with the points that other readers have (samples/others.txt), through the C calls.

mod support;

use cleatmow::{run_length, unpack, write_run_length, Point, Refusal, TemplateNumbers};
use std::collections::{BTreeMap, HashSet};
use support::model::run_length::{codes_in, padding_codes};
use support::model::{self, Input};
use support::others::{maps, Map, LINES};

/// Unpacks every map of a template, of which the file must have so many, and holds the answers to the file's.
fn hold(template: u16, count: usize, unpack: fn(&Map) -> Result<Vec<Point>, Refusal>) {
    let listed = LINES.matches(&format!(" t={template} ")).count();
    let mut run = 0;
    for map in maps().iter().filter(|map| map.template == template) {
        let (id, answer) = (&map.id, unpack(map));
        match (&answer, map.refusal) {
            (Ok(points), None) => {
                assert_eq!(points.len(), map.section5.declared as usize, "{id}");
                assert!(map.has(points), "{id}: other points");
            }
            _ => assert_eq!(answer.map(|points| points.len()).err(), map.refusal, "{id}"),
        }
        run += 1;
    }
    assert_eq!((run, listed), (count, count), "maps run and maps in the file");
}

fn input(map: &Map) -> Input {
    Input::of_map(&map.section5, &map.payload)
}

#[test]
fn maps_under_5_2() {
    hold(2, 49, |map| unpack(&map.section5_octets, &map.payload));
    hold(2, 49, |map| input(map).points());
}

#[test]
fn maps_under_5_3() {
    hold(3, 49, |map| unpack(&map.section5_octets, &map.payload));
    hold(3, 49, |map| input(map).points());
}

/// The model that other tests hold the calls to reads these maps as their readers do.
#[test]
fn the_model_agrees() {
    let unpack: fn(&Map) -> Result<Vec<Point>, Refusal> = |map| {
        let points = model::points(&input(map)).map_err(|number| Refusal::from_number(number).unwrap())?;
        Ok(points
            .into_iter()
            .map(|point| match point {
                (0, number) => Point::Number(number as i64),
                (1, _) => Point::Missing1,
                _ => Point::Missing2,
            })
            .collect())
    };
    hold(2, 49, unpack);
    hold(3, 49, unpack);
}

/// b and M.
fn coding(map: &Map) -> (u8, u16) {
    let TemplateNumbers::RunLength { bits, max_level } = map.section5.numbers else {
        panic!("{}: no map of levels", map.id);
    };
    (bits, max_level)
}

#[test]
fn run_length_maps() {
    hold(200, 30, |map| {
        let (bits, max_level) = coding(map);
        let levels = run_length(bits, max_level, map.section5.declared, &map.payload)?;
        Ok(levels.into_iter().map(|level| Point::Number(i64::from(level))).collect())
    });
}

/// Document 02, No. 4, on maps that were not made for it: with fewer points declared they are accepted where the rest is
/// padding, as the front of their levels, and refused with 9 everywhere else.
#[test]
fn run_length_maps_with_fewer_points_declared() {
    const LESS: u32 = 30;
    // For each b: its maps, those of them that are accepted with fewer points, these lesser counts, all that were tried,
    // and by how many points the least of them is less.
    let mut by_bits: BTreeMap<u8, [u32; 5]> = BTreeMap::new();
    for map in maps().iter().filter(|map| map.template == 200 && map.refusal.is_none()) {
        let ((bits, max_level), declared) = (coding(map), map.section5.declared);
        let levels = run_length(bits, max_level, declared, &map.payload).unwrap();
        let padding = padding_codes(bits, &map.payload);
        for less in 1..=declared.min(LESS) {
            let front = &levels[..(declared - less) as usize];
            let right = if less <= padding { Ok(front.to_vec()) } else { Err(Refusal::Points) };
            assert_eq!(run_length(bits, max_level, declared - less, &map.payload), right, "{}: {less} less", map.id);
        }
        let [maps, padded, accepted, tried, most] = by_bits.entry(bits).or_default();
        *maps += 1;
        *padded += u32::from(padding > 0);
        *accepted += padding;
        *tried += declared.min(LESS);
        *most = padding.max(*most);
    }
    println!("| b | maps | accepted with fewer points | lesser counts that are accepted | of | at most less |");
    println!("|---|---|---|---|---|---|");
    for (bits, counts) in &by_bits {
        println!("| {bits} | {} |", counts.map(|count| count.to_string()).join(" | "));
    }
    let right = [
        (1, [2, 2, 8, 35, 7]),
        (2, [2, 1, 3, 27, 3]),
        (3, [5, 1, 2, 124, 2]),
        (4, [4, 2, 2, 72, 1]),
        (6, [2, 0, 0, 60, 0]),
        (8, [9, 0, 0, 107, 0]),
    ];
    assert_eq!(by_bits, BTreeMap::from(right));
}

/// What writing never does, where codes do it: a run goes on with its level once more, though the base is above 1; the last
/// repeat code of a run is a zero digit.
fn unlike_writing((bits, max_level): (u8, u16), payload: &[u8]) -> [bool; 2] {
    let (codes, base) = (codes_in(bits, payload), (1 << bits) - 1 - max_level);
    let runs: Vec<&[u16]> = codes.chunk_by(|_, next| *next > max_level).collect();
    let goes_on = runs.windows(2).any(|two| base > 1 && two[0][0] == two[1][0]);
    [goes_on, runs.iter().any(|run| run.len() > 1 && run.ends_with(&[max_level + 1]))]
}

/// Document 02, No. 5, on levels of others: written again they are read back, and they are the very octets that the other
/// wrote but where these do what writing never does. ecCodes does none of it.
#[test]
fn levels_of_run_length_maps_written_again() {
    // Those of ecCodes and those by hand: maps, the same octets, and for each thing that writing never does.
    let mut counts = [[0; 4]; 2];
    for map in maps().iter().filter(|map| map.template == 200 && map.refusal.is_none()) {
        let ((bits, max_level), declared) = (coding(map), map.section5.declared);
        let levels = run_length(bits, max_level, declared, &map.payload).unwrap();
        let written = write_run_length(bits, max_level, &levels).unwrap();
        assert!(run_length(bits, max_level, declared, &written) == Ok(levels), "{}", map.id);
        let (same, unlike) = (written == map.payload, unlike_writing((bits, max_level), &map.payload));
        assert_eq!(same, unlike == [false; 2], "{}: {written:02X?} for {:02X?}", map.id, map.payload);
        let [of_ecc, by_hand] = &mut counts;
        let counts = if map.id.starts_with("ecc") { of_ecc } else { by_hand };
        for (count, counted) in counts.iter_mut().zip([&[true, same], &unlike[..]].concat()) {
            *count += u32::from(counted);
        }
    }
    println!("maps, the same octets, a level once more, a zero digit at the top: {counts:?}");
    assert_eq!(counts, [[10, 10, 0, 0], [14, 3, 5, 10]]);
}

/// ecCodes leaves out the last octet where codes do not fill it: its maps that are 9 here, and all of one level, 0.
#[test]
fn run_length_maps_without_their_last_octet() {
    let of_ecc = |map: &&Map| map.template == 200 && map.id.starts_with("ecc") && map.refusal == Some(Refusal::Points);
    let (maps, mut held) = (maps(), 0);
    for map in maps.iter().filter(of_ecc) {
        let ((bits, max_level), declared) = (coding(map), map.section5.declared);
        assert!(map.has(&vec![Point::Number(0); declared as usize]), "{}", map.id);
        let written = write_run_length(bits, max_level, &vec![0; declared as usize]).unwrap();
        assert_eq!(written[..written.len() - 1], map.payload, "{}", map.id);
        held += 1;
    }
    assert_eq!(held, 3);
}

#[test]
fn every_line_is_whole() {
    let maps = maps();
    let names: HashSet<&str> = maps.iter().map(|map| map.id.as_str()).collect();
    assert_eq!((maps.len(), names.len()), (128, 128));
}

/// A reader of lines that takes anything would hold nothing.
#[test]
fn malformed_lines_are_told() {
    fn told(id: &str, damages: &[(&str, &str)]) {
        let good = LINES.lines().find(|line| line.starts_with(&format!("id={id} "))).unwrap();
        assert!(Map::from_line(good).is_some());
        for (part, damaged) in damages {
            assert!(good.contains(part), "{part}");
            let line = good.replace(part, damaged);
            assert!(Map::from_line(&line).is_none(), "{line}");
        }
    }
    told(
        "edge-rl-doc-1",
        &[
            ("id=edge-rl-doc-1 ", ""),
            ("id=edge-rl-doc-1", "id="),
            (" t=200", " t=201"),
            (" t=200", " t=3"),
            (" doc=same", ""),
            (" doc=same", " doc=refused"),
            (" doc=same", " doc=refused-0"),
            (" doc=same", " doc=refused-99"),
            ("s5=00000023", "s5=00000024"),
            ("s5=0000002305", "s5=0000002307"),
            ("s5=00000023050000000a", "s5=00000023050000000b"),
            ("s5=00000023", "s5=00000023 "),
            ("pay=3cb5", "pay=3cb"),
            ("pay=3cb5", "pay=3cbg"),
            ("pay=3cb5", "pay="),
            ("sha=a4", "sha=a5"),
            ("sha=a4", "sha="),
            ("list=3*9,5", "list=3*8,5"),
            ("list=3*9,5", "list=3*9,6"),
            ("list=3*9,5", "list=3*9,M"),
            ("list=3*9,5", "list=3*9,5,"),
            ("list=3*9,5", "list=3*9,5,4*0"),
            ("list=3*9,5", "list="),
            ("list=3*9,5", "list=3*9,5 "),
        ],
    );
    told(
        "g2c-down-4-t2-m2",
        &[
            (" t=2", " t=3"),
            ("s5=0000002f0500000004", "s5=000000300500000004"),
            ("s5=0000002f0500000004", "s5=0000002f0500000005"),
            ("0000000400 pay", "000000040000 pay"),
            ("list=S,5,0,M", "list=M,5,0,M"),
            ("list=S,5,0,M", "list=S,5,M"),
        ],
    );
    told("edge-o1-one-number-m2", &[(" t=3", " t=2"), ("0003000000", "0002000000"), ("list=M*2,9,M", "list=M*2,8,M")]);
}
