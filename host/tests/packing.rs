//! Grouping and packing through the C call, against document 01: its cases, its limits, lent buffers, and a plain
//! model.

mod support;

use cleatmow::{
    numbers_as_octets, pack, pack_into, unpack_complex, Group, Packing, Point, Refusal, GREATEST_LOOKAHEAD,
    GREATEST_NUMBER, GROUP_OCTETS, MOST_NUMBERS, NUMBER_OCTETS, SUMMARY_OCTETS,
};
use support::guarded;
use support::maps::{self, Numbers};
use support::model::packing::{self as model, list_by_chance};
use support::model::template;

/// The octets that are lent: for the group list, for the payload and for the summary.
#[derive(Clone, Copy)]
struct Lent {
    groups: usize,
    payload: usize,
    summary: usize,
}

/// The octets between two of the lent buffers.
const BETWEEN: usize = 16;

impl Lent {
    /// Just enough for a packing.
    fn right(packing: &Packing) -> Lent {
        Lent { groups: packing.groups.len() * 16, payload: packing.payload.len(), summary: 40 }
    }

    fn all(self) -> usize {
        self.groups + BETWEEN + self.payload + BETWEEN + self.summary
    }

    fn buffers(self, lent: &mut [u8]) -> [&mut [u8]; 3] {
        let (groups, rest) = lent.split_at_mut(self.groups);
        let (payload, rest) = rest[BETWEEN..].split_at_mut(self.payload);
        [groups, payload, &mut rest[BETWEEN..]]
    }
}

/// Numbers in octets, to be handed to the call, and what the model makes of them.
struct Input {
    lookahead: u32,
    octets: Vec<u8>,
    right: Option<Packing>,
}

impl Input {
    fn new(numbers: &[u32], lookahead: u32) -> Input {
        let right = (!model::is_refused(numbers, lookahead)).then(|| model::packing(numbers, lookahead));
        Input { lookahead, octets: numbers_as_octets(numbers), right }
    }

    /// Holds the call on these lent octets to the model, and every octet before, between and after them.
    fn compare(&self, lent: Lent) -> u32 {
        let shown = format_args!("k {}, {:02X?}", self.lookahead, self.octets);
        let right = |all: &[u8]| {
            let mut all = all.to_vec();
            let left = lent.buffers(&mut all).map(|buffer| buffer.to_vec());
            let [groups, payload, summary] = left;
            let (number, left) = model::answer(self.right.as_ref(), model::Left { groups, payload, summary });
            for (buffer, left) in lent.buffers(&mut all).into_iter().zip([left.groups, left.payload, left.summary]) {
                buffer.copy_from_slice(&left);
            }
            (number, all)
        };
        let call = |all: &mut [u8]| model::call(self.lookahead, &self.octets, lent.buffers(all), self.right.as_ref());
        guarded::compare(shown, lent.all(), right, call).0
    }
}

/// Holds the call on buffers of the right size to the model, the call that lends for itself to the same, and the
/// payload to the list.
fn compare(numbers: &[u32], lookahead: u32) -> u32 {
    let input = Input::new(numbers, lookahead);
    let lent = input.right.as_ref().map_or(Lent { groups: 64, payload: 64, summary: 40 }, Lent::right);
    let answer = input.compare(lent);
    match (&input.right, pack(numbers, lookahead)) {
        (Some(right), Ok(packing)) => {
            assert_eq!(&packing, right, "k {lookahead}, {numbers:?}");
            assert!(unpacks_to(&packing, numbers), "k {lookahead}, {numbers:?}");
        }
        (None, Err(Refusal::Numbers)) => {}
        (_, other) => panic!("k {lookahead}, {numbers:?}: {other:?}"),
    }
    answer
}

/// Whether unpacking gives the list.
fn unpacks_to(packing: &Packing, numbers: &[u32]) -> bool {
    let points = numbers.iter().map(|number| Point::Number((*number).into()));
    unpack_complex(&packing.template, numbers.len() as u32, &packing.payload)
        .is_ok_and(|unpacked| unpacked.len() == numbers.len() && unpacked.into_iter().eq(points))
}

/// Groups by start, length, least number and width.
fn groups<const N: usize>(groups: [[u32; 4]; N]) -> Vec<Group> {
    groups.map(|[start, length, least, width]| Group { start, length, least, width }).to_vec()
}

/// "Pack ten 0, 310 times 8, five 0, k 1": a step of 300.
fn step_of_300() -> Vec<u32> {
    [vec![0; 10], vec![8; 310], vec![0; 5]].concat()
}

#[test]
fn cases_of_document_01() {
    let flats = pack(&[0, 0, 0, 0, 8, 8, 8], 2).unwrap();
    assert_eq!((flats.template, flats.payload), (template(4, 2, (0, 0), (4, 0, 3, 0)), vec![0x08]));
    assert_eq!(flats.groups, groups([[0, 4, 0, 0], [4, 3, 8, 0]]));

    let singles = pack(&[5, 6, 5, 7], 1).unwrap();
    assert_eq!((singles.template, singles.payload), (template(3, 4, (0, 0), (1, 0, 1, 0)), vec![0xBA, 0xF0]));
    assert_eq!(singles.groups, groups([[0, 1, 5, 0], [1, 1, 6, 0], [2, 1, 5, 0], [3, 1, 7, 0]]));

    let pairs = pack(&[5, 6, 5, 7], 4).unwrap();
    assert_eq!((pairs.template, pairs.payload), (template(3, 2, (0, 1), (3, 0, 1, 0)), vec![0xBC, 0x80, 0x40]));
    assert_eq!(pairs.groups, groups([[0, 3, 5, 1], [3, 1, 7, 0]]));

    let step = pack(&step_of_300(), 1).unwrap();
    assert_eq!((step.template, &step.payload[..]), (template(4, 3, (0, 0), (10, 150, 5, 2)), &[0x08, 0x00, 0x20][..]));
    assert_eq!(step.groups, groups([[0, 10, 0, 0], [10, 310, 8, 0], [320, 5, 0, 0]]));
    assert!(unpacks_to(&step, &step_of_300()));

    for (list, k) in [(&[0, 0, 0, 0, 8, 8, 8][..], 2), (&[5, 6, 5, 7], 1), (&[5, 6, 5, 7], 4), (&step_of_300(), 1)] {
        assert_eq!(compare(list, k), 0);
    }
}

/// "Number 2147483647 packs, 2147483648 is 13. Lookahead 0 is 13."
#[test]
fn cases_of_limits() {
    assert_eq!(compare(&[GREATEST_NUMBER], 1), 0);
    for above in [GREATEST_NUMBER + 1, u32::MAX] {
        assert_eq!(compare(&[above], 1), 13);
        for place in 0..5 {
            let mut numbers = [GREATEST_NUMBER, 0, 3, 3, GREATEST_NUMBER];
            assert_eq!(compare(&numbers, 2), 0);
            numbers[place] = above;
            assert_eq!(compare(&numbers, 2), 13);
        }
    }
    for lookahead in [1, 2, 65_534, GREATEST_LOOKAHEAD] {
        assert_eq!(compare(&[5, 6, 5, 7], lookahead), 0, "lookahead {lookahead}");
    }
    for lookahead in [0, GREATEST_LOOKAHEAD + 1, 65_537, 1 << 16 | 4, 1 << 31, u32::MAX] {
        assert_eq!(compare(&[5, 6, 5, 7], lookahead), 13, "lookahead {lookahead}");
    }
    assert_eq!(compare(&[], 1), 13);
}

#[test]
fn what_is_the_same_in_every_packing() {
    assert_eq!((Packing::SPLITTING, Packing::MISSING, Packing::MISSING_VALUE), (1, 0, 4_294_967_295));
    assert_eq!((NUMBER_OCTETS, GROUP_OCTETS, SUMMARY_OCTETS), (4, 16, 40));
    for list in [&[0][..], &[5, 6, 5, 7], &step_of_300()] {
        let template = pack(list, 4).unwrap().template;
        assert_eq!((template.splitting, template.missing), (Packing::SPLITTING, Packing::MISSING));
    }
}

/// All zeros: "number width 0", one group of width 0, and a payload of no octets. All equal: a reference and no values.
#[test]
fn lists_of_one_value() {
    for count in [1, 2, 7, 1_000] {
        for lookahead in [1, 2, 8, GREATEST_LOOKAHEAD] {
            let zeros = pack(&vec![0; count], lookahead).unwrap();
            assert_eq!(
                (zeros.template, &zeros.payload[..]),
                (template(0, 1, (0, 0), (0, 0, count as u32, 0)), &[][..])
            );
            assert_eq!(zeros.groups, groups([[0, count as u32, 0, 0]]));
            assert!(unpacks_to(&zeros, &vec![0; count]));

            let fives = pack(&vec![5; count], lookahead).unwrap();
            assert_eq!(
                (fives.template, &fives.payload[..]),
                (template(3, 1, (0, 0), (0, 0, count as u32, 0)), &[0xA0][..])
            );

            let greatest = pack(&vec![GREATEST_NUMBER; count], lookahead).unwrap();
            assert_eq!(greatest.payload, [0xFF, 0xFF, 0xFF, 0xFE]);
            assert_eq!(compare(&vec![GREATEST_NUMBER; count], lookahead), 0);
        }
    }
}

#[test]
fn lent_buffers_of_every_size() {
    let lists: [(&[u32], u32); 5] =
        [(&[5, 6, 5, 7], 4), (&[5, 6, 5, 7], 1), (&[0, 0, 0, 0, 8, 8, 8], 2), (&[0, 0], 1), (&step_of_300(), 1)];
    for (list, lookahead) in lists {
        let input = Input::new(list, lookahead);
        let right = Lent::right(input.right.as_ref().unwrap());
        for groups in 0..right.groups + 20 {
            let enough = groups >= right.groups;
            assert_eq!(
                input.compare(Lent { groups, ..right }),
                if enough { 0 } else { 10 },
                "{groups} octets of groups"
            );
            // A short payload leaves all groups, or, where they have too little room, the first.
            let short = Lent { groups, payload: right.payload.saturating_sub(1), summary: 40 };
            assert_eq!(input.compare(short), if enough && right.payload == 0 { 0 } else { 10 });
        }
        for payload in 0..right.payload + 20 {
            let enough = payload >= right.payload;
            assert_eq!(input.compare(Lent { payload, ..right }), if enough { 0 } else { 10 }, "{payload} octets");
        }
        for summary in 0..60 {
            assert_eq!(input.compare(Lent { summary, ..right }), if summary < 40 { 10 } else { 0 }, "{summary} of 40");
            // A short summary comes first: the group list is not touched, however short that is.
            for groups in [0, 15, 16, right.groups + 5] {
                let answer = input.compare(Lent { groups, payload: 0, summary });
                assert!(answer == 10 || summary >= 40, "{summary} of 40, {groups} octets of groups");
            }
        }
    }
}

/// 13 comes before every 10, whichever of its causes it has.
#[test]
fn sets_of_faults_give_the_first() {
    let good = Input::new(&[5, 6, 5, 7], 4);
    let right = Lent::right(good.right.as_ref().unwrap());
    let refused: [(&[u32], u32); 6] = [
        (&[], 4),
        (&[5, 6, 5, GREATEST_NUMBER + 1], 4),
        (&[5, 6, 5, 7], 0),
        (&[5, 6, 5, 7], GREATEST_LOOKAHEAD + 1),
        (&[], 0),
        (&[u32::MAX], u32::MAX),
    ];
    for faults in 0..8 {
        let short = |fault: usize, octets: usize| if faults >> fault & 1 == 1 { octets - 1 } else { octets };
        let lent =
            Lent { groups: short(0, right.groups), payload: short(1, right.payload), summary: short(2, right.summary) };
        assert_eq!(good.compare(lent), if faults == 0 { 0 } else { 10 });
        for (list, lookahead) in refused {
            assert_eq!(Input::new(list, lookahead).compare(lent), 13);
        }
    }
}

/// "spare octets short of a whole one are not used"
#[test]
fn spare_octets_are_not_used() {
    for spare in 0..4 {
        for octet in [0, 0x7F, 0xFF] {
            // Three octets are no number.
            let none = Input { lookahead: 1, octets: vec![octet; spare], right: None };
            assert_eq!(none.compare(Lent { groups: 16, payload: 8, summary: 40 }), 13);
            let mut input = Input::new(&[5, 6, 5, 7], 4);
            input.octets.extend(vec![octet; spare]);
            let right = Lent::right(input.right.as_ref().unwrap());
            assert_eq!(input.compare(right), 0);
            for more in 0..16 {
                assert_eq!(input.compare(Lent { groups: right.groups + more, ..right }), 0);
            }
        }
    }
}

#[test]
fn the_list_has_a_limit() {
    let most = MOST_NUMBERS as usize;
    let mut list: Vec<u32> = (0..most as u32 + 1).map(|place| place / 1_000 % 7).collect();
    assert_eq!(pack(&list, 8), Err(Refusal::Numbers));
    let octets = numbers_as_octets(&list);
    let mut groups = vec![0; most * GROUP_OCTETS];
    let (mut payload, mut summary) = (vec![0; 3 << 20], [0; SUMMARY_OCTETS]);
    assert_eq!(pack_into(8, &octets, &mut groups, &mut payload, &mut summary), Err(Refusal::Numbers));
    assert!([&groups[..], &payload, &summary].iter().all(|lent| lent.iter().all(|octet| *octet == 0)));
    // Octets short of one number more.
    let answer = pack_into(8, &octets[..octets.len() - 1], &mut groups, &mut payload, &mut summary).unwrap();
    list.pop();
    let packing = pack(&list, 8).unwrap();
    assert_eq!(answer.template, packing.template);
    assert!(answer.payload == packing.payload && answer.groups.iter().eq(packing.groups.iter().copied()));
    assert!(unpacks_to(&packing, &list));

    // One group of all numbers, as many groups as numbers, and the greatest lookahead.
    let zeros = pack(&vec![0; most], GREATEST_LOOKAHEAD).unwrap();
    assert_eq!((zeros.template, zeros.payload.len()), (template(0, 1, (0, 0), (0, 0, MOST_NUMBERS, 0)), 0));
    let turns: Vec<u32> = (0..MOST_NUMBERS).map(|place| place % 2 * GREATEST_NUMBER).collect();
    let singles = pack(&turns, 1).unwrap();
    assert_eq!(singles.template, template(31, MOST_NUMBERS, (0, 0), (1, 0, 1, 0)));
    assert!(singles.payload.len() == most * 31 / 8 && unpacks_to(&singles, &turns));
    let together = pack(&turns, GREATEST_LOOKAHEAD).unwrap();
    assert!(together.groups.len() < 8 && unpacks_to(&together, &turns));
    let spikes = maps::spikes(MOST_NUMBERS);
    assert!(unpacks_to(&pack(&spikes, GREATEST_LOOKAHEAD).unwrap(), &spikes));
}

/// With lookahead 1 each flat patch is a group, so the lengths of all groups can be chosen.
fn patches(lengths: &[usize]) -> Vec<u32> {
    lengths.iter().enumerate().flat_map(|(patch, length)| vec![patch as u32 % 2 * 8; *length]).collect()
}

/// "A step up to 255 is the increment; a larger one gives the greatest divisor of it that is at most 255."
#[test]
fn steps_of_every_size() {
    for step in 1..=1_100 {
        let list = patches(&[1, 1 + step, 1 + 3 * step, 2]);
        let Packing { template, .. } = pack(&list, 1).unwrap();
        if step % 7 == 0 || step.is_multiple_of(64) {
            assert_eq!(compare(&list, 1), 0);
        }
        let increment = (1..=255).rev().find(|divisor| step % divisor == 0).unwrap();
        assert_eq!(usize::from(template.length_increment), increment, "step {step}");
        assert_eq!(1 << template.length_bits, (3 * step / increment + 1).next_power_of_two(), "step {step}");
    }
    // The greatest prime below 2^16 has no divisor but 1.
    let prime = pack(&patches(&[1, 65_522, 1]), 1).unwrap().template;
    assert_eq!((prime.length_reference, prime.length_increment, prime.length_bits), (1, 1, 16));
    // The last length has no part in the step, and may be less than the reference.
    let last = pack(&patches(&[7, 9, 7, 2]), 1).unwrap().template;
    assert_eq!((last.length_reference, last.length_increment, last.last_length, last.length_bits), (7, 2, 2, 1));
    // Where all lengths but the last are equal there is no step.
    let equal = pack(&patches(&[7, 7, 7, 2]), 1).unwrap().template;
    assert_eq!((equal.length_reference, equal.length_increment, equal.last_length, equal.length_bits), (7, 0, 2, 0));
}

/// Each width of a group, from 0 to 31, alone and beside the others.
#[test]
fn widths_of_every_size() {
    for width in 0..=31 {
        let greatest = ((1_u64 << width) - 1) as u32;
        for base in [0, 1, GREATEST_NUMBER - greatest] {
            let base = base.min(GREATEST_NUMBER - greatest);
            let list: Vec<u32> = (0..9).map(|place| base + [0, greatest, greatest / 2][place % 3]).collect();
            for lookahead in 1..=10 {
                assert_eq!(compare(&list, lookahead), 0);
                let beside = [&[0; 12], &list[..], &[GREATEST_NUMBER; 12], &list[..]].concat();
                assert_eq!(compare(&beside, lookahead), 0);
            }
        }
    }
}

#[test]
fn small_lists_in_full() {
    for values in [[0, 1, 2, 3], [0, 1, 7, 8], [4, 5, 1_000, GREATEST_NUMBER]] {
        for count in 1..=6 {
            for list in 0..4_usize.pow(count) {
                let numbers: Vec<u32> = (0..count).map(|place| values[list >> (2 * place) & 3]).collect();
                for lookahead in 1..=count {
                    assert_eq!(compare(&numbers, lookahead), 0);
                }
            }
        }
    }
}

#[test]
fn equal_to_the_model_on_lists_by_chance() {
    const LISTS: u32 = 12_000;
    let lookaheads: Vec<u32> = (1..=40).chain([255, GREATEST_LOOKAHEAD]).collect();
    let mut chance = Numbers::new(13);
    let mut several = 0;
    for list in 0..LISTS {
        let most = [4, 12, 40, 90][chance.below(4) as usize];
        let count = 1 + chance.below(most);
        let numbers = list_by_chance(&mut chance, count);
        let lookahead = lookaheads[list as usize % lookaheads.len()];
        assert_eq!(compare(&numbers, lookahead), 0);
        several += u32::from(model::packing(&numbers, lookahead).groups.len() > 1);
    }
    assert!(several > LISTS / 2, "too few lists of several groups: {several}");
}

/// A few lists at every lookahead that there is something to see with.
#[test]
fn equal_to_the_model_at_every_lookahead() {
    let mut chance = Numbers::new(14);
    for _ in 0..150 {
        let count = 30 + chance.below(20);
        let numbers = list_by_chance(&mut chance, count);
        for lookahead in (1..=count as u32 + 2).chain([255, GREATEST_LOOKAHEAD]) {
            assert_eq!(compare(&numbers, lookahead), 0);
        }
    }
}

/// Buffers of any size, with numbers and lookaheads that are refused among them.
/// Equal numbers ahead end a group before them; the number behind them, once it is reached, keeps it open.
#[test]
fn a_long_look_ahead_ends_where_it_says() {
    for equal in [1, 2, 100, GREATEST_LOOKAHEAD - 1] {
        let mut numbers = vec![1; equal as usize + 2];
        numbers[0] = 0;
        numbers[equal as usize + 1] = 9;
        let first = |lookahead| pack(&numbers, lookahead).expect("a good list").groups[0].length;
        assert_eq!(first(equal), 1);
        assert!(first(equal + 1) > 1);
    }
}

#[test]
fn equal_to_the_model_on_lent_buffers_by_chance() {
    let mut chance = Numbers::new(15);
    let mut answers = [0_u32; 14];
    for _ in 0..20_000 {
        let count = chance.below(30);
        let mut numbers = list_by_chance(&mut chance, count);
        if count > 0 && chance.below(10) == 0 {
            numbers[chance.below(count) as usize] = GREATEST_NUMBER + 1 + chance.below(1 << 31) as u32;
        }
        let lookahead = match chance.below(12) {
            0 => [0, 65_536, 65_537, u32::MAX][chance.below(4) as usize],
            1 => GREATEST_LOOKAHEAD,
            _ => 1 + chance.below(40) as u32,
        };
        let mut input = Input::new(&numbers, lookahead);
        input.octets.extend((0..chance.below(4)).map(|_| 0xFF));
        let right = input.right.as_ref().map_or(Lent { groups: 32, payload: 9, summary: 40 }, Lent::right);
        let mut some = |octets: usize| match chance.below(8) {
            0 => chance.below(octets as u64 + 1) as usize,
            1 => octets.saturating_sub(1),
            more => octets + [0, 0, 0, 1, 7, 40][more as usize - 2],
        };
        let lent = Lent { groups: some(right.groups), payload: some(right.payload), summary: some(right.summary) };
        answers[input.compare(lent) as usize] += 1;
    }
    for (number, least) in [(0, 5_000), (10, 5_000), (13, 2_000)] {
        assert!(answers[number] >= least, "too few answers {number}: {answers:?}");
    }
}

/// Longer lists than the model can be asked for, read back by unpacking.
#[test]
fn lists_are_read_back() {
    let mut chance = Numbers::new(16);
    for list in 0..600 {
        let count = 1 + chance.below(if list % 20 == 0 { 100_000 } else { 3_000 });
        let numbers = list_by_chance(&mut chance, count);
        let lookahead = [1, 2, 3, 8, 20, 64, 1_024, GREATEST_LOOKAHEAD][list % 8];
        let packing = pack(&numbers, lookahead).unwrap();
        assert!(unpacks_to(&packing, &numbers), "list {list}");
        // The groups follow one another over the whole list.
        let mut next = 0;
        for group in &packing.groups {
            assert!(group.start == next && group.length > 0, "list {list}");
            next += group.length;
        }
        assert_eq!((next as usize, packing.template.groups as usize), (numbers.len(), packing.groups.len()));
    }
    for list in [maps::gust_numbers, maps::rising, maps::sawtooth, maps::patches, maps::alternating, maps::doubling] {
        let list = list(200_000);
        for lookahead in [1, 8, 64, GREATEST_LOOKAHEAD] {
            assert!(unpacks_to(&pack(&list, lookahead).unwrap(), &list));
        }
    }
}

#[test]
fn numbers_in_octets() {
    assert_eq!(numbers_as_octets(&[]), []);
    assert_eq!(numbers_as_octets(&[1, 0x0102_0304, u32::MAX]), [0, 0, 0, 1, 1, 2, 3, 4, 255, 255, 255, 255]);
}
