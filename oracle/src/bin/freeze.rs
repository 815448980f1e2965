//! Writes the frozen answers: what the Rust makes of inputs that are the same in every run. `freeze FILE` writes them
//! to FILE and prints how many rows there are of each kind. A row is 64 octets, one of packing 448, seven times as many.
//!
//! Octet 0 is the row's kind, numbers are big-endian, and octets without a meaning are 0.
//!
//! - Kind 1, the bit reader: 1 starting bit; 2 width; 3 count, 0 to 4; 4 to 23 the octets that are read; from 24 the
//!   numbers, four octets each.
//! - Kind 2, the bit writer: the same, but 4 to 23 are what writing the numbers leaves of twenty zeros.
//! - Kind 3, run-length: 1 b; 2 and 3 M; 4 and 5 declared count; 6 length of the payload, 0 to 12; 7 document 01's
//!   number for the refusal, or 0; 8 to 19 the payload; from 20 the levels, at most 22, two octets each.
//! - Kinds 4 and 5, unpacking under 5.2 and 5.3: 1 declared count; 2 to 11 the template numbers in the order of the C
//!   call, one octet each, and 12 and 13 the two that 5.3 has besides; 14 length of the payload, 0 to 12; 15 document
//!   01's number for the refusal, or 0; 16 to 27 the payload; from 28 the points, at most four, nine octets each.
//! - Kind 6, packing: 1 count of numbers, 1 to 15; 2 and 3 lookahead; from 4 the numbers, four octets each, to the end
//!   of the first 64 octets. Then what the C call leaves in lent octets that were 0: 64 to 103 the summary; 104 to 207
//!   the payload; from 208 the groups, sixteen octets each.

#[cfg(not(have_text))]
fn main() {
    println!("{}", oracle::NOT_RUN);
}

#[cfg(have_text)]
fn main() -> std::io::Result<()> {
    let path = std::env::args().nth(1).expect("usage: freeze FILE");
    let kinds = [
        counted("bit reader", frozen::reads()),
        counted("bit writer", frozen::writes()),
        counted("run-length", frozen::run_lengths()),
        counted("unpacking under 5.2", frozen::unpackings(false)),
        counted("unpacking under 5.3", frozen::unpackings(true)),
        counted("packing", frozen::packings()),
    ];
    std::fs::write(path, kinds.concat())?;
    Ok(())
}

/// Prints how many rows there are, and puts them end to end.
#[cfg(have_text)]
fn counted<const OCTETS: usize>(kind: &str, rows: Vec<[u8; OCTETS]>) -> Vec<u8> {
    println!("frozen: {} rows of {kind}", rows.len());
    rows.concat()
}

#[cfg(have_text)]
mod frozen {
    use oracle::Outcome::{Answer, Panicked, Refused};
    use oracle::dice::Dice;
    use oracle::packing::{GREATEST_LOOKAHEAD, Shape, group_octets, summary_octets};
    use oracle::runs::{Coding, MOST_POINTS, refusal_for};
    use oracle::unpacking::{Input, Reading, Size, octets_of, refusals_for};
    use oracle::{Differences, Point, Template};

    type Row = [u8; 64];

    /// How many numbers each of the rows for one width and starting bit has.
    const COUNTS: [usize; 10] = [4, 4, 4, 3, 2, 1, 0, 4, 3, 2];

    /// Every width with every starting bit: all ones, all zeros, then random octets.
    pub fn reads() -> Vec<Row> {
        let mut dice = Dice::new(1);
        let mut rows = Vec::new();
        for (width, start, sample) in fields(0..=32) {
            let octets = match sample {
                0 => vec![0xff; 20],
                1 => vec![0; 20],
                _ => dice.octets(20),
            };
            let count = COUNTS[sample];
            let Answer(numbers) = oracle::read_bits(&octets, start, width, count) else {
                panic!("the Rust reads every width from 20 octets");
            };
            assert_eq!(numbers.len(), count);
            rows.push(field_row(1, start, width, &octets, &numbers));
        }
        rows
    }

    /// The same for writing: the greatest numbers, zeros, then random numbers that fit, the greatest among them.
    pub fn writes() -> Vec<Row> {
        let mut dice = Dice::new(2);
        let mut rows = Vec::new();
        for (width, start, sample) in fields(1..=32) {
            let greatest = (1_u64 << width) - 1;
            let mut number = || match sample {
                0 => greatest,
                1 => 0,
                _ if dice.once_in(5) => greatest,
                _ => dice.below(greatest + 1),
            };
            let numbers: Vec<u32> = (0..COUNTS[sample]).map(|_| number() as u32).collect();
            let mut octets = [0; 20];
            let Answer(_) = oracle::write_bits(&numbers, start, width, &mut octets) else {
                panic!("the Rust writes every width into 20 octets");
            };
            rows.push(field_row(2, start, width, &octets, &numbers));
        }
        rows
    }

    fn fields(widths: std::ops::RangeInclusive<usize>) -> impl Iterator<Item = (usize, usize, usize)> {
        let samples = |width, start| (0..COUNTS.len()).map(move |sample| (width, start, sample));
        widths.flat_map(move |width| (0..8).flat_map(move |start| samples(width, start)))
    }

    fn field_row(kind: u8, start: usize, width: usize, octets: &[u8], numbers: &[u32]) -> Row {
        let mut row = [0; 64];
        row[..4].copy_from_slice(&[kind, start as u8, width as u8, numbers.len() as u8]);
        row[4..24].copy_from_slice(octets);
        let numbers = numbers.iter().copied();
        put(&mut row[24..40], numbers.flat_map(u32::to_be_bytes));
        row
    }

    pub fn run_lengths() -> Vec<Row> {
        let mut dice = Dice::new(3);
        let mut rows = Vec::new();
        for coding in Coding::all_to_try(&mut dice) {
            run_lengths_in(coding, &mut dice, &mut rows);
        }
        rows
    }

    /// Payloads with their true count, one more and one less; random octets; a repeat for the first code.
    fn run_lengths_in(coding: Coding, dice: &mut Dice, rows: &mut Vec<Row>) {
        let mut add = |payload: &[u8], declared: u64| {
            rows.extend(run_length_row(coding, declared as u16, payload));
        };
        add(&[], 0);
        add(&[], 1);
        for sample in 0..8 {
            let payload = few_points(coding, dice);
            let points = coding.runs(&payload).points();
            add(&payload, points);
            let one_off = if sample % 2 == 0 { points + 1 } else { points.saturating_sub(1) };
            add(&payload, one_off);
        }
        for _ in 0..2 {
            add(&dice.octets(12), dice.below(23));
        }
        if coding.base() > 0 {
            for _ in 0..2 {
                // All ones are a repeat, whatever b is.
                let rest = dice.below(11) as usize;
                let payload = [vec![0xff; 2], dice.octets(rest)].concat();
                add(&payload, dice.below(23));
            }
        }
    }

    /// A payload whose levels fit a row.
    fn few_points(coding: Coding, dice: &mut Dice) -> Vec<u8> {
        loop {
            let most_codes = 1 + dice.below(96 / u64::from(coding.bits));
            let most_points = 1 + dice.below(22);
            let payload = coding.some_payload(dice, most_codes, most_points);
            let runs = coding.runs(&payload);
            if runs.weights_fit && runs.points() <= 22 {
                return payload;
            }
        }
    }

    /// None where the Rust is no judge, would store more points than document 01 allows, or reads padding that document
    /// 02, No. 4 leaves unread.
    fn run_length_row(coding: Coding, declared: u16, payload: &[u8]) -> Option<Row> {
        let Coding { bits, max_level } = coding;
        let runs = coding.runs(payload);
        let too_many = runs.points() > u64::from(MOST_POINTS);
        if !runs.weights_fit || too_many || coding.leaves_padding(declared.into(), payload) {
            return None;
        }
        let outcome = oracle::run_length(bits, max_level, declared.into(), payload);
        let (refusal, levels) = match outcome {
            Answer(levels) => (0, levels),
            Refused(said) => (refusal_for(&said).expect("9 or 11"), Vec::new()),
            Panicked => panic!("the Rust has no reason to panic where its weights fit"),
        };
        let mut row = [0; 64];
        row[0] = 3;
        row[1] = bits;
        row[2..4].copy_from_slice(&max_level.to_be_bytes());
        row[4..6].copy_from_slice(&declared.to_be_bytes());
        row[6] = payload.len() as u8;
        row[7] = refusal as u8;
        put(&mut row[8..20], payload.iter().copied());
        put(&mut row[20..], levels.into_iter().flat_map(u16::to_be_bytes));
        Some(row)
    }

    /// How many rows there are of each greatest width under each missing management, and of each refusal.
    const OF_EACH_WIDTH: usize = 8;
    const OF_EACH_REFUSAL: usize = 100;

    /// Good maps up to every width, under every missing management, three of four with more points than first values;
    /// damaged ones for every refusal that the Rust has too.
    pub fn unpackings(spatial: bool) -> Vec<Row> {
        let mut dice = Dice::new(if spatial { 5 } else { 4 });
        let mut rows = Vec::new();
        for width in 0..=31 {
            for missing in 0..=2 {
                let mut good = std::iter::repeat_with(|| {
                    let mut input = few(&mut dice, spatial, width);
                    input.template.missing = missing;
                    unpacking_row(&input)
                })
                .flatten()
                .filter(|row| row[REFUSAL] == 0);
                rows.extend(good.by_ref().take(OF_EACH_WIDTH / 4));
                let several = good.filter(|row| row[DECLARED] > row[ORDER].max(1));
                rows.extend(several.take(OF_EACH_WIDTH * 3 / 4));
            }
        }
        let refusals: &[u8] = if spatial { &[1, 2, 3, 4, 5, 6, 7, 8] } else { &[1, 2, 5, 6, 7, 8] };
        for refusal in refusals {
            let damaged = std::iter::repeat_with(|| {
                let mut input = few(&mut dice, spatial, 31);
                input.damage(&mut dice);
                unpacking_row(&input)
            });
            rows.extend(damaged.flatten().filter(|row| row[REFUSAL] == *refusal).take(OF_EACH_REFUSAL));
        }
        rows
    }

    fn few(dice: &mut Dice, spatial: bool, width: u64) -> Input {
        let size = Size { groups: dice.one_of(&[1, 2, 3]), length: dice.one_of(&[1, 2, 4]), width };
        Input::some(dice, spatial, size)
    }

    /// Places in a row of unpacking.
    const DECLARED: usize = 1;
    const ORDER: usize = 12;
    const REFUSAL: usize = 15;

    /// None where the input does not fit a row, or document 01 does not ask the two to meet.
    fn unpacking_row(input: &Input) -> Option<Row> {
        let Input { template, differences, declared, payload, .. } = input;
        let octet = |number: u32| u8::try_from(number).ok();
        let (groups, length_reference) = (octet(template.groups)?, octet(template.length_reference)?);
        let last_length = octet(template.last_length)?;
        if payload.len() > 12 || *declared > 4 {
            return None;
        }
        let (refusal, points) = match input.read() {
            Reading { answer: Err(9), .. } | Reading { apart: Some(_), .. } => return None,
            Reading { answer: Err(number), .. } => match unpacked(input) {
                Refused(said) if refusals_for(&said).contains(&number) => (number, Vec::new()),
                other => panic!("{input:?}: refusal {number}, and the Rust: {other:?}"),
            },
            Reading { answer: Ok(_), .. } => match unpacked(input) {
                Answer(points) => (0, points),
                other => panic!("{input:?}: accepted, and the Rust: {other:?}"),
            },
        };
        let Template { number_width, splitting, missing, width_reference, width_bits, .. } = *template;
        let Template { length_increment, length_bits, .. } = *template;
        let differences = differences.unwrap_or(Differences { order: 0, descriptor_octets: 0 });
        let mut row = [0; 64];
        row[..16].copy_from_slice(&[
            if input.differences.is_some() { 5 } else { 4 },
            *declared as u8,
            number_width,
            splitting,
            missing,
            groups,
            width_reference,
            width_bits,
            length_reference,
            length_increment,
            last_length,
            length_bits,
            differences.order,
            differences.descriptor_octets,
            payload.len() as u8,
            refusal as u8,
        ]);
        put(&mut row[16..28], payload.iter().copied());
        put(&mut row[28..], octets_of(&points).into_iter());
        Some(row)
    }

    fn unpacked(input: &Input) -> oracle::Outcome<Vec<Point>> {
        match &input.differences {
            None => oracle::unpack_complex(&input.template, &input.payload),
            Some(differences) => oracle::unpack_spatial(&input.template, differences, &input.payload),
        }
    }

    /// A row of packing.
    type LongRow = [u8; 448];

    /// How many rows there are of each shape at each lookahead.
    const OF_EACH_SHAPE: usize = 10;

    /// Lists of every shape at many lookaheads. All their steps are small enough for the Rust.
    pub fn packings() -> Vec<LongRow> {
        let mut dice = Dice::new(6);
        let mut rows = Vec::new();
        for lookahead in (1..=20).chain([64, 1024, GREATEST_LOOKAHEAD]) {
            for shape in Shape::ALL {
                for _ in 0..OF_EACH_SHAPE {
                    let count = 1 + dice.below(15) as usize;
                    let numbers = shape.list(&mut dice, count, 6);
                    rows.push(packing_row(&numbers, lookahead));
                }
            }
        }
        rows
    }

    fn packing_row(numbers: &[u32], lookahead: u32) -> LongRow {
        let Answer(packing) = oracle::pack(numbers, lookahead as usize) else {
            panic!("the Rust packs every list that has a number");
        };
        let oracle::Packing { template, groups, payload, .. } = packing;
        let mut row = [0; 448];
        row[0] = 6;
        row[1] = numbers.len() as u8;
        put(&mut row[2..4], (lookahead as u16).to_be_bytes().into_iter());
        put(&mut row[4..64], numbers.iter().copied().flat_map(u32::to_be_bytes));
        put(&mut row[64..104], summary_octets(&template, groups.len(), payload.len()).into_iter());
        put(&mut row[104..208], payload.into_iter());
        put(&mut row[208..], groups.iter().flat_map(group_octets));
        row
    }

    /// Panics where there is no room.
    fn put(places: &mut [u8], octets: impl Iterator<Item = u8>) {
        let octets: Vec<u8> = octets.collect();
        places[..octets.len()].copy_from_slice(&octets);
    }
}
