//! The benchmark: ours, through its C calls, and the Rust on the same map in one run. docs/PERFORMANCE.md says what is
//! timed.
//!
//! `bench [OPERATION] [--points N]` times one operation or all, on maps of N points, 1,000,000 without the option.
//! Those that end with `_1000` have a map of 1,000 points, and make many calls in one timing, since one takes too little.
//! Those that begin with `write_` write the levels of a run-length map, beside reading it.
//! Those that begin with `real_` unpack the real maps of samples/, which have the points that they have. Those that
//! begin with `section5_` unpack by the octets of Section 5, beside the call with typed numbers. Those that begin with
//! `point_` read one point, the first of a map, the middle or the last, beside the unpacking of all of it. Those that
//! begin with `pack_` pack numbers: a number after it is the lookahead, on the numbers of a made map; `real_` and a
//! name is a real map, and the lookahead comes last; any other word names a list that is hard to group, at the greatest
//! lookahead or, for `comb`, at the one that is hardest for it.
//! With `--only-ours`, `--only-rust`, `--only-typed` or `--only-limit` it makes one call and times nothing, for a tool
//! that counts instructions.
//!
//! An operation is a type that is an `Operation`, and a line in `OPERATIONS`.

#[cfg(not(have_text))]
fn main() {
    println!("{}", oracle::NOT_RUN);
}

#[cfg(have_text)]
fn main() {
    let Some(options) = bench::Options::from_words(std::env::args().skip(1)) else {
        eprintln!("{}", bench::usage());
        std::process::exit(2);
    };
    bench::run(&options);
}

#[cfg(have_text)]
mod bench {
    use std::hint::black_box;
    use std::time::Instant;

    use cleatmow::{
        GREATEST_LOOKAHEAD, GROUP_OCTETS, Group, LEVEL_OCTETS, MOST_POINTS, NUMBER_OCTETS, POINT_OCTETS, Packing,
        Point, Points, SUMMARY_OCTETS, Section5, Template, TemplateNumbers, levels_as_octets, numbers_as_octets, pack,
        pack_into, point, run_length, run_length_into, unpack, unpack_complex, unpack_complex_into, unpack_into,
        unpack_spatial, unpack_spatial_into, write_run_length, write_run_length_into, write_section5,
    };
    use oracle::maps::{self, ComplexMap, RunLengthMap, gust_differences, gust_numbers, gusts, rain};
    use oracle::{Outcome, Packed, Section7, rust_pack, rust_run_length, rust_unpack_complex, rust_unpack_spatial};

    /// A map of samples/, by its name.
    macro_rules! real {
        ($name:literal) => {
            real(
                include_bytes!(concat!("../../../samples/", $name, ".s5")),
                include_bytes!(concat!("../../../samples/", $name, ".s7")),
            )
        };
    }

    /// Every operation, by a name of this program's own. `bench.sh` says which C call, which function of the oracle and
    /// which limit are behind it.
    const OPERATIONS: [(&str, Run); 37] = [
        ("run_length", |name, options| {
            bench(name, RunLength::new(options.points, 1), options);
            if options.calls == Calls::Timed {
                println!("  on the made map alone: none of the real maps of samples/ is packed so");
            }
        }),
        ("run_length_1000", |name, options| bench(name, RunLength::new(1_000, 500), options)),
        ("write_run_length", |name, options| bench(name, WriteRunLength::new(options.points, 1), options)),
        ("write_run_length_1000", |name, options| bench(name, WriteRunLength::new(1_000, 500), options)),
        ("unpack_complex", |name, options| bench(name, Unpacking::new(gusts(options.points)), options)),
        ("unpack_spatial_1", |name, options| bench(name, Unpacking::new(gust_differences(1, options.points)), options)),
        ("unpack_spatial_2", |name, options| bench(name, Unpacking::new(gust_differences(2, options.points)), options)),
        ("section5_complex", |name, options| bench(name, BySection5::new(gusts(options.points)), options)),
        ("section5_spatial", |name, options| {
            bench(name, BySection5::new(gust_differences(1, options.points)), options)
        }),
        ("point_first", |name, options| bench(name, OnePoint::first(gusts(options.points)), options)),
        ("point_middle", |name, options| bench(name, OnePoint::middle(gusts(options.points)), options)),
        ("point_last", |name, options| bench(name, OnePoint::last(gusts(options.points)), options)),
        ("point_conus_first", |name, options| bench(name, OnePoint::first(real!("ndfd-conus-1073x689")), options)),
        ("point_conus_middle", |name, options| bench(name, OnePoint::middle(real!("ndfd-conus-1073x689")), options)),
        ("point_conus_last", |name, options| bench(name, OnePoint::last(real!("ndfd-conus-1073x689")), options)),
        ("real_gust", |name, options| bench(name, Unpacking::new(real!("gfs-gust-144x73")), options)),
        ("real_conus", |name, options| bench(name, Unpacking::new(real!("ndfd-conus-1073x689")), options)),
        ("real_puerto_rico", |name, options| bench(name, Unpacking::new(real!("ndfd-puerto-rico-339x224")), options)),
        ("pack_8", |name, options| pack_beside(name, gust_numbers(options.points), 8, 1, options)),
        ("pack_64", |name, options| pack_beside(name, gust_numbers(options.points), 64, 1, options)),
        // On all numbers the Rust would take minutes.
        ("pack_1024", |name, options| pack_beside(name, gust_numbers(options.points), 1_024, 16, options)),
        ("pack_real_gust_8", |name, options| pack_beside(name, real_gust_numbers(), 8, 1, options)),
        ("pack_real_gust_64", |name, options| pack_beside(name, real_gust_numbers(), 64, 1, options)),
        ("pack_real_gust_1024", |name, options| pack_beside(name, real_gust_numbers(), 1_024, 1, options)),
        ("pack_real_gust_65535", |name, options| {
            pack_beside(name, real_gust_numbers(), GREATEST_LOOKAHEAD, 1, options)
        }),
        ("pack_real_conus_8", |name, options| pack_beside(name, real_conus_numbers(), 8, 1, options)),
        ("pack_real_conus_64", |name, options| pack_beside(name, real_conus_numbers(), 64, 1, options)),
        // On all numbers the Rust would take most of a minute, and at the greatest lookahead most of an hour.
        ("pack_real_conus_1024", |name, options| pack_beside(name, real_conus_numbers(), 1_024, 16, options)),
        ("pack_real_conus_65535", |name, options| {
            pack_beside(name, real_conus_numbers(), GREATEST_LOOKAHEAD, 16, options)
        }),
        ("pack_65535", |name, options| hard(name, gust_numbers, GREATEST_LOOKAHEAD, options)),
        ("pack_rising", |name, options| hard(name, maps::rising, GREATEST_LOOKAHEAD, options)),
        ("pack_sawtooth", |name, options| hard(name, maps::sawtooth, GREATEST_LOOKAHEAD, options)),
        ("pack_patches", |name, options| hard(name, maps::patches, GREATEST_LOOKAHEAD, options)),
        ("pack_alternating", |name, options| hard(name, maps::alternating, GREATEST_LOOKAHEAD, options)),
        ("pack_doubling", |name, options| hard(name, maps::doubling, GREATEST_LOOKAHEAD, options)),
        ("pack_spikes", |name, options| hard(name, maps::spikes, GREATEST_LOOKAHEAD, options)),
        ("pack_comb", |name, options| hard(name, maps::comb, 29, options)),
    ];

    /// The host's tests hold its points to their digests; here they are what the Rust makes of it.
    fn real(section_5: &[u8], section_7: &[u8]) -> ComplexMap {
        let section_5 = Section5::from_octets(section_5).expect("a whole Section 5");
        let TemplateNumbers::Groups { template, differences, .. } = section_5.numbers else {
            panic!("a map of levels")
        };
        let payload = section_7[5..].to_vec();
        // Not by the functions that are timed: their instructions are counted wherever they are called from.
        let points = match &differences {
            None => oracle::unpack_complex(&template, &payload),
            Some(differences) => oracle::unpack_spatial(&template, differences, &payload),
        };
        let Outcome::Answer(points) = points else { panic!("not a good map") };
        ComplexMap { template, differences, declared: section_5.declared, payload, points }
    }

    /// The numbers of the real gusts, all of them: none is missing.
    fn real_gust_numbers() -> Vec<u32> {
        real!("gfs-gust-144x73").points.into_iter().map(number).collect()
    }

    /// The numbers of the cut-out of the continental United States that `desk day` packs, row by row: rows 253 to 573
    /// and columns 115 to 705, none of whose points is missing. Every second row of the map goes from the last column to
    /// the first.
    fn real_conus_numbers() -> Vec<u32> {
        const COLUMNS: usize = 1_073;
        let points = real!("ndfd-conus-1073x689").points;
        let row = |row: usize| {
            let mut row_of_map = points[row * COLUMNS..(row + 1) * COLUMNS].to_vec();
            if row % 2 == 1 {
                row_of_map.reverse();
            }
            row_of_map.drain(114..705).map(number).collect::<Vec<u32>>()
        };
        (252..573).flat_map(row).collect()
    }

    /// A point that has a number to pack.
    fn number(point: Point) -> u32 {
        let Point::Number(number) = point else { panic!("a missing point") };
        number.try_into().expect("a number to pack")
    }

    /// Packing beside the Rust, which is given one part in so many.
    fn pack_beside(name: &str, numbers: Vec<u32>, lookahead: u32, parts: usize, options: &Options) {
        bench(name, BesideTheRust::new(numbers, lookahead, parts), options);
    }

    /// A list that the Rust would take too long for, or that ours might.
    fn hard(name: &str, list: fn(u32) -> Vec<u32>, lookahead: u32, options: &Options) {
        let list = List::new(list(options.points), lookahead);
        let map = List::new(gust_numbers(options.points), 8);
        bench(name, BesideItself { list, map }, options);
    }

    /// Does with an operation of this name what the options say.
    type Run = fn(&str, &Options);

    /// An operation with its input and buffers to lend. The calls are timed; what they answer is freed after that.
    trait Operation {
        type Answer;
        /// What the other side answers.
        type Other;
        /// What the limit does and nothing else. None unless said: no limit is timed then.
        const LIMIT: Option<&'static str> = None;
        /// Whether what stands in the lent buffers is read through the view too. Not unless said.
        const IS_READ: bool = false;
        /// What the call on the lent buffers is called in the report.
        const LENT: &'static str = "ours, lent buffer";
        /// Whether the wrapper makes a list. So unless said: otherwise the wrapper is the call itself.
        const IS_LIST: bool = true;

        /// The C call, on the lent buffers.
        fn ours_lent(&mut self);
        /// The same, and a pass over the view that it answers.
        fn ours_read(&mut self) {}
        /// The host's wrapper, which lends buffers of its own and answers a list.
        fn ours_new(&self) -> Self::Answer;
        /// What ours is timed beside.
        fn other(&mut self) -> Self::Other;
        /// The limit: a loop over what the call is lent that does only what no call can leave out.
        fn limit(&mut self) {}

        /// What stands in the lent buffers.
        fn left(&self) -> Self::Answer;
        fn is_right(&self, answer: &Self::Answer) -> bool;
        /// Whether the pass over the view has found what is there.
        fn read_is_right(&self) -> bool {
            true
        }
        fn other_is_right(&self, answer: &Self::Other) -> bool;
        /// Whether the limit has done what it says.
        fn limit_is_right(&self) -> bool {
            true
        }
        /// The points and the octets of the packed map.
        fn size(&self) -> (u32, usize);
        /// How many calls are made in one timing: one, unless said.
        fn calls(&self) -> usize {
            1
        }
        /// What a call goes through one by one, and how many there are: the points, unless said.
        fn units(&self) -> (u32, &'static str) {
            (self.size().0, "points")
        }
        /// Which is the other side: the Rust on the same points, unless said.
        fn beside(&self) -> Beside {
            Beside::Rust(self.size().0)
        }
    }

    /// The other side, and on how many points it is timed.
    enum Beside {
        /// The Rust, which answers a list.
        Rust(u32),
        /// Ours at lookahead 8 on the made map, on lent buffers.
        AtEight(u32),
        /// Ours with typed numbers, on the same points and lent buffers.
        Typed(u32),
        /// Ours on the whole map, on lent buffers, where one point of it is read.
        Whole(u32),
        /// Ours, reading the same map on a lent buffer, where its levels are written.
        Reading(u32),
    }

    struct RunLength {
        map: RunLengthMap,
        levels: Vec<u8>,
        calls: usize,
    }

    impl RunLength {
        fn new(points: u32, calls: usize) -> Self {
            Self { map: rain(points), levels: vec![0; points as usize * LEVEL_OCTETS], calls }
        }
    }

    impl Operation for RunLength {
        type Answer = Vec<u16>;
        type Other = Vec<u16>;

        fn ours_lent(&mut self) {
            let RunLengthMap { bits, max_level, declared, ref payload, .. } = self.map;
            run_length_into(bits, max_level, declared, black_box(payload), &mut self.levels).expect("a good map");
            black_box(&mut self.levels);
        }

        fn ours_new(&self) -> Vec<u16> {
            let RunLengthMap { bits, max_level, declared, ref payload, .. } = self.map;
            run_length(bits, max_level, declared, black_box(payload)).expect("a good map")
        }

        fn other(&mut self) -> Vec<u16> {
            let RunLengthMap { bits, max_level, declared, ref payload, .. } = self.map;
            rust_run_length(bits, max_level, declared as usize, black_box(payload)).expect("a good map")
        }

        fn left(&self) -> Vec<u16> {
            self.levels.chunks_exact(LEVEL_OCTETS).map(|level| u16::from_be_bytes([level[0], level[1]])).collect()
        }

        fn is_right(&self, levels: &Vec<u16>) -> bool {
            *levels == self.map.levels
        }

        fn other_is_right(&self, levels: &Vec<u16>) -> bool {
            self.is_right(levels)
        }

        fn size(&self) -> (u32, usize) {
            (self.map.declared, self.map.payload.len())
        }

        fn calls(&self) -> usize {
            self.calls
        }
    }

    /// Writing the levels of a map, beside reading it.
    struct WriteRunLength {
        reading: RunLength,
        octets: Vec<u8>,
        payload: Vec<u8>,
        /// How many octets the last call wrote.
        written: usize,
    }

    impl WriteRunLength {
        fn new(points: u32, calls: usize) -> Self {
            let reading = RunLength::new(points, calls);
            let octets = levels_as_octets(&reading.map.levels);
            // As many as are always enough.
            let payload = vec![0; (points as usize * usize::from(reading.map.bits)).div_ceil(8)];
            Self { reading, octets, payload, written: 0 }
        }
    }

    impl Operation for WriteRunLength {
        type Answer = Vec<u8>;
        type Other = ();

        fn ours_lent(&mut self) {
            let RunLengthMap { bits, max_level, .. } = self.reading.map;
            let written = write_run_length_into(bits, max_level, black_box(&self.octets), &mut self.payload);
            self.written = written.expect("good levels").len();
            black_box(&mut self.payload);
        }

        fn ours_new(&self) -> Vec<u8> {
            let RunLengthMap { bits, max_level, ref levels, .. } = self.reading.map;
            write_run_length(bits, max_level, black_box(levels)).expect("good levels")
        }

        fn other(&mut self) {
            self.reading.ours_lent();
        }

        fn left(&self) -> Vec<u8> {
            self.payload[..self.written].to_vec()
        }

        fn is_right(&self, payload: &Vec<u8>) -> bool {
            *payload == self.reading.map.payload
        }

        fn other_is_right(&self, (): &()) -> bool {
            self.reading.is_right(&self.reading.left())
        }

        fn size(&self) -> (u32, usize) {
            self.reading.size()
        }

        fn calls(&self) -> usize {
            self.reading.calls
        }

        fn beside(&self) -> Beside {
            Beside::Reading(self.size().0)
        }
    }

    /// Under 5.3 where the map has differences.
    struct Unpacking {
        map: ComplexMap,
        /// The payload where the Rust looks for it.
        section: Section7,
        points: Vec<u8>,
        /// What the pass over the view found: the sum of the numbers, and how many points are missing.
        found: Option<(i64, usize)>,
    }

    impl Unpacking {
        fn new(map: ComplexMap) -> Self {
            let section = Section7::new(&map.payload);
            let points = vec![0; map.declared as usize * POINT_OCTETS];
            Self { map, section, points, found: None }
        }

        fn lent(&mut self) -> Points<'_> {
            let ComplexMap { ref template, ref differences, declared, ref payload, .. } = self.map;
            let payload = black_box(payload);
            match differences {
                None => unpack_complex_into(template, declared, payload, &mut self.points),
                Some(differences) => unpack_spatial_into(template, differences, declared, payload, &mut self.points),
            }
            .expect("a good map")
        }
    }

    /// The limit of unpacking: nine octets a point, the mark 0 and a number that is one more than the last, and nothing
    /// read. Never inlined, so that a tool that counts instructions finds it by name.
    #[inline(never)]
    fn only_store(points: &mut [u8], step: i64) {
        let mut number: i64 = 0;
        for point in points.chunks_exact_mut(POINT_OCTETS) {
            point[0] = 0;
            point[1..].copy_from_slice(&number.to_be_bytes());
            number = number.wrapping_add(step);
        }
    }

    /// The sum of the numbers, and how many points are missing.
    fn sum_and_missing(points: impl Iterator<Item = Point>) -> (i64, usize) {
        points.fold((0, 0), |(sum, missing), point| match point.number() {
            Some(number) => (sum + number, missing),
            None => (sum, missing + 1),
        })
    }

    impl Operation for Unpacking {
        type Answer = Vec<Point>;
        type Other = Vec<Point>;
        const LIMIT: Option<&'static str> = Some("stores nine octets a point");
        const IS_READ: bool = true;

        fn ours_lent(&mut self) {
            self.lent();
            black_box(&mut self.points);
        }

        fn ours_read(&mut self) {
            self.found = black_box(Some(sum_and_missing(self.lent().iter())));
        }

        fn ours_new(&self) -> Vec<Point> {
            let ComplexMap { ref template, ref differences, declared, ref payload, .. } = self.map;
            let payload = black_box(payload);
            match differences {
                None => unpack_complex(template, declared, payload),
                Some(differences) => unpack_spatial(template, differences, declared, payload),
            }
            .expect("a good map")
        }

        fn other(&mut self) -> Vec<Point> {
            let ComplexMap { ref template, ref differences, .. } = self.map;
            let section = black_box(&self.section);
            match differences {
                None => rust_unpack_complex(template, section),
                Some(differences) => rust_unpack_spatial(template, differences, section),
            }
            .expect("a good map")
        }

        fn limit(&mut self) {
            only_store(&mut self.points, black_box(1));
            black_box(&mut self.points);
        }

        fn limit_is_right(&self) -> bool {
            self.left().into_iter().eq((0..self.map.declared.into()).map(Point::Number))
        }

        fn left(&self) -> Vec<Point> {
            let number = |octets: &[u8]| i64::from_be_bytes(octets.try_into().expect("eight octets"));
            let point = |octets: &[u8]| match octets[0] {
                0 => Point::Number(number(&octets[1..])),
                1 => Point::Missing1,
                2 => Point::Missing2,
                mark => panic!("a point with mark {mark}"),
            };
            self.points.chunks_exact(POINT_OCTETS).map(point).collect()
        }

        fn is_right(&self, points: &Vec<Point>) -> bool {
            *points == self.map.points
        }

        fn read_is_right(&self) -> bool {
            self.found == Some(sum_and_missing(self.map.points.iter().copied()))
        }

        fn other_is_right(&self, points: &Vec<Point>) -> bool {
            self.is_right(points)
        }

        fn size(&self) -> (u32, usize) {
            (self.map.declared, self.map.payload.len())
        }
    }

    /// Unpacking by the octets of Section 5, beside the call with typed numbers.
    struct BySection5 {
        section_5: Vec<u8>,
        typed: Unpacking,
    }

    impl BySection5 {
        fn new(map: ComplexMap) -> Self {
            let template = &map.template;
            let (length, number) = if map.differences.is_some() { (49, 3) } else { (47, 2) };
            // Reference value, scales and field type are 0.
            let mut fields = vec![length, 5, map.declared, number, 0, 0, 0];
            fields.extend([template.number_width, 0, template.splitting, template.missing].map(u32::from));
            fields.extend([Packing::MISSING_VALUE, Packing::MISSING_VALUE, template.groups]);
            fields.extend([template.width_reference, template.width_bits].map(u32::from));
            fields.extend([template.length_reference, template.length_increment.into()]);
            fields.extend([template.last_length, template.length_bits.into()]);
            if let Some(differences) = &map.differences {
                fields.extend([differences.order, differences.descriptor_octets].map(u32::from));
            }
            let section_5 = write_section5(&fields).expect("a good Section 5");
            Self { section_5, typed: Unpacking::new(map) }
        }
    }

    impl Operation for BySection5 {
        type Answer = Vec<Point>;
        type Other = ();

        fn ours_lent(&mut self) {
            let Unpacking { map, points, .. } = &mut self.typed;
            unpack_into(black_box(&self.section_5), black_box(&map.payload), points).expect("a good map");
            black_box(points);
        }

        fn ours_new(&self) -> Vec<Point> {
            unpack(black_box(&self.section_5), black_box(&self.typed.map.payload)).expect("a good map")
        }

        fn other(&mut self) {
            self.typed.ours_lent();
        }

        fn left(&self) -> Vec<Point> {
            self.typed.left()
        }

        fn is_right(&self, points: &Vec<Point>) -> bool {
            self.typed.is_right(points)
        }

        fn other_is_right(&self, (): &()) -> bool {
            self.typed.is_right(&self.typed.left())
        }

        fn size(&self) -> (u32, usize) {
            self.typed.size()
        }

        fn beside(&self) -> Beside {
            Beside::Typed(self.typed.map.declared)
        }
    }

    /// One point of a map under 5.2, beside the unpacking of all of it.
    struct OnePoint {
        whole: BySection5,
        place: u32,
        /// What the last call answered.
        read: Option<Point>,
    }

    impl OnePoint {
        fn first(map: ComplexMap) -> Self {
            Self { whole: BySection5::new(map), place: 0, read: None }
        }

        fn middle(map: ComplexMap) -> Self {
            Self { place: map.declared / 2, ..Self::first(map) }
        }

        fn last(map: ComplexMap) -> Self {
            Self { place: map.declared - 1, ..Self::first(map) }
        }
    }

    impl Operation for OnePoint {
        type Answer = Option<Point>;
        type Other = ();
        const LENT: &'static str = "ours, one point";
        const IS_LIST: bool = false;

        fn ours_lent(&mut self) {
            self.read = self.ours_new();
        }

        fn ours_new(&self) -> Option<Point> {
            let BySection5 { section_5, typed } = &self.whole;
            let read = point(black_box(section_5), black_box(&typed.map.payload), black_box(self.place));
            Some(read.expect("a good map"))
        }

        fn other(&mut self) {
            self.whole.ours_lent();
        }

        fn left(&self) -> Option<Point> {
            self.read
        }

        fn is_right(&self, read: &Option<Point>) -> bool {
            read.as_ref() == self.whole.typed.map.points.get(self.place as usize)
        }

        fn other_is_right(&self, (): &()) -> bool {
            self.whole.is_right(&self.whole.left())
        }

        fn size(&self) -> (u32, usize) {
            self.whole.size()
        }

        fn units(&self) -> (u32, &'static str) {
            (self.whole.typed.map.template.groups, "groups")
        }

        fn beside(&self) -> Beside {
            Beside::Whole(self.size().0)
        }
    }

    /// A list to pack, and buffers to lend.
    struct List {
        numbers: Vec<u32>,
        octets: Vec<u8>,
        lookahead: u32,
        groups: Vec<u8>,
        payload: Vec<u8>,
        summary: [u8; SUMMARY_OCTETS],
        /// What the last call answered: the template numbers, how many groups, and how many octets of payload.
        answered: Option<(Template, usize, usize)>,
    }

    impl List {
        fn new(numbers: Vec<u32>, lookahead: u32) -> Self {
            let octets = numbers_as_octets(&numbers);
            // As many as are always enough.
            let (groups, payload) = (vec![0; numbers.len() * GROUP_OCTETS], vec![0; 10 * numbers.len() + 4]);
            Self { numbers, octets, lookahead, groups, payload, summary: [0; SUMMARY_OCTETS], answered: None }
        }

        fn lent(&mut self) {
            let Self { lookahead, octets, groups, payload, summary, .. } = self;
            let packed = pack_into(*lookahead, black_box(octets), groups, payload, summary).expect("a good list");
            self.answered = Some((packed.template, packed.groups.len(), packed.payload.len()));
            black_box((&mut self.groups, &mut self.payload));
        }

        fn new_list(&self) -> Packing {
            pack(black_box(&self.numbers), self.lookahead).expect("a good list")
        }

        fn left(&self) -> Packing {
            let (template, groups, octets) = self.answered.expect("a call before it");
            let number = |octets: &[u8]| u32::from_be_bytes(octets.try_into().expect("four octets"));
            let group = |octets: &[u8]| Group {
                start: number(&octets[..4]),
                length: number(&octets[4..8]),
                least: number(&octets[8..12]),
                width: number(&octets[12..]),
            };
            let groups = self.groups[..groups * GROUP_OCTETS].chunks_exact(GROUP_OCTETS).map(group).collect();
            Packing { template, groups, payload: self.payload[..octets].to_vec() }
        }

        /// The numbers and the octets that they are packed in; none yet before the first call.
        fn size(&self) -> (u32, usize) {
            (self.numbers.len() as u32, self.answered.map_or(0, |(_, _, octets)| octets))
        }
    }

    /// Whether this is a packing of the numbers.
    fn unpacks_to(packing: &Packing, numbers: &[u32]) -> bool {
        let points = unpack_complex(&packing.template, numbers.len() as u32, &packing.payload);
        points.is_ok_and(|points| {
            points.iter().zip(numbers).all(|(point, number)| *point == Point::Number((*number).into()))
        })
    }

    /// Packing beside the Rust, which is given the front of the list alone where it would take too long.
    struct BesideTheRust {
        list: List,
        rust: usize,
        /// What the limit found: the least number, and the greatest.
        found: Option<(u32, u32)>,
    }

    impl BesideTheRust {
        /// The Rust is given one part in so many.
        fn new(numbers: Vec<u32>, lookahead: u32, parts: usize) -> Self {
            Self { rust: numbers.len().div_ceil(parts), list: List::new(numbers, lookahead), found: None }
        }
    }

    /// The limit of packing: four octets a number are read, the least and the greatest are kept, and nothing is stored.
    #[inline(never)]
    fn only_read(numbers: &[u8]) -> (u32, u32) {
        numbers.chunks_exact(NUMBER_OCTETS).fold((u32::MAX, 0), |(least, greatest), number| {
            let number = u32::from_be_bytes(number.try_into().expect("four octets"));
            (least.min(number), greatest.max(number))
        })
    }

    impl Operation for BesideTheRust {
        type Answer = Packing;
        type Other = Packed;
        const LIMIT: Option<&'static str> = Some("reads four octets a number, and keeps the least and the greatest");

        fn ours_lent(&mut self) {
            self.list.lent();
        }

        fn ours_new(&self) -> Packing {
            self.list.new_list()
        }

        fn other(&mut self) -> Packed {
            let numbers = black_box(&self.list.numbers[..self.rust]);
            rust_pack(numbers, self.list.lookahead as usize).expect("a good list")
        }

        fn limit(&mut self) {
            self.found = Some(only_read(black_box(&self.list.octets)));
        }

        fn limit_is_right(&self) -> bool {
            let numbers = self.list.numbers.iter().copied();
            self.found == numbers.clone().min().zip(numbers.max())
        }

        fn left(&self) -> Packing {
            self.list.left()
        }

        fn is_right(&self, packing: &Packing) -> bool {
            unpacks_to(packing, &self.list.numbers)
        }

        /// The groups alone: where its step is above 255 the rest is not right, as docs/DIFFERENCES.md says.
        fn other_is_right(&self, packed: &Packed) -> bool {
            let ours = pack(&self.list.numbers[..self.rust], self.list.lookahead);
            ours.is_ok_and(|ours| ours.groups == packed.packing().groups)
        }

        fn size(&self) -> (u32, usize) {
            self.list.size()
        }

        fn beside(&self) -> Beside {
            Beside::Rust(self.rust as u32)
        }
    }

    /// Packing beside packing at lookahead 8 on the made map.
    struct BesideItself {
        list: List,
        map: List,
    }

    impl Operation for BesideItself {
        type Answer = Packing;
        type Other = ();

        fn ours_lent(&mut self) {
            self.list.lent();
        }

        fn ours_new(&self) -> Packing {
            self.list.new_list()
        }

        fn other(&mut self) {
            self.map.lent();
        }

        fn left(&self) -> Packing {
            self.list.left()
        }

        fn is_right(&self, packing: &Packing) -> bool {
            unpacks_to(packing, &self.list.numbers)
        }

        fn other_is_right(&self, (): &()) -> bool {
            unpacks_to(&self.map.left(), &self.map.numbers)
        }

        fn size(&self) -> (u32, usize) {
            self.list.size()
        }

        fn beside(&self) -> Beside {
            Beside::AtEight(self.map.numbers.len() as u32)
        }
    }

    pub struct Options {
        /// All where none is named.
        operation: Option<String>,
        points: u32,
        calls: Calls,
    }

    #[derive(PartialEq)]
    enum Calls {
        Timed,
        OnlyOurs,
        OnlyRust,
        OnlyTyped,
        OnlyLimit,
    }

    pub fn usage() -> String {
        let names = OPERATIONS.map(|(name, _)| name).join(" | ");
        let only = "--only-ours | --only-rust | --only-typed | --only-limit";
        format!("usage: bench [{names}] [--points N] [{only}], N from 1 to {MOST_POINTS}")
    }

    impl Options {
        pub fn from_words(mut words: impl Iterator<Item = String>) -> Option<Self> {
            let mut options = Self { operation: None, points: 1_000_000, calls: Calls::Timed };
            while let Some(word) = words.next() {
                match word.as_str() {
                    "--points" => options.points = words.next()?.parse().ok()?,
                    "--only-ours" if options.calls == Calls::Timed => options.calls = Calls::OnlyOurs,
                    "--only-rust" if options.calls == Calls::Timed => options.calls = Calls::OnlyRust,
                    "--only-typed" if options.calls == Calls::Timed => options.calls = Calls::OnlyTyped,
                    "--only-limit" if options.calls == Calls::Timed => options.calls = Calls::OnlyLimit,
                    name if OPERATIONS.iter().any(|(known, _)| *known == name) => options.operation = Some(word),
                    _ => return None,
                }
            }
            (1..=MOST_POINTS).contains(&options.points).then_some(options)
        }
    }

    pub fn run(options: &Options) {
        for (name, run) in OPERATIONS {
            if options.operation.as_ref().is_none_or(|wanted| wanted == name) {
                run(name, options);
            }
        }
    }

    fn bench<O: Operation>(name: &str, mut operation: O, options: &Options) {
        let calls = &options.calls;
        if matches!(calls, Calls::Timed | Calls::OnlyOurs) {
            operation.ours_lent();
            assert!(operation.is_right(&operation.left()), "{name}: ours is wrong");
        }
        if matches!(calls, Calls::Timed | Calls::OnlyRust | Calls::OnlyTyped) {
            let other = operation.other();
            assert!(operation.other_is_right(&other), "{name}: what ours is timed beside is wrong");
        }
        if matches!(calls, Calls::Timed | Calls::OnlyLimit) && O::LIMIT.is_some() {
            operation.limit();
            assert!(operation.limit_is_right(), "{name}: the limit is wrong");
        }
        if *calls != Calls::Timed {
            let (count, units) = match (calls, operation.beside()) {
                (Calls::OnlyRust, Beside::Rust(points)) | (Calls::OnlyTyped, Beside::Typed(points)) => {
                    (points, "points")
                }
                (Calls::OnlyRust, _) => panic!("{name}: the Rust is left out"),
                (Calls::OnlyTyped, _) => panic!("{name}: not by Section 5"),
                (Calls::OnlyLimit, _) if O::LIMIT.is_none() => panic!("{name}: no limit"),
                _ => operation.units(),
            };
            println!("{name}: one call on {count} {units}");
            return;
        }
        assert!(operation.is_right(&operation.ours_new()), "{name}: ours is wrong as a list");
        if O::IS_READ {
            operation.ours_read();
            assert!(operation.read_is_right(), "{name}: ours is wrong through the view");
        }
        time(name, &mut operation);
    }

    /// How often each form of ours is timed, and the limit. The other side is timed after each of them, so that each
    /// comes after the same.
    const REPETITIONS: usize = 51;

    /// The C library keeps what is freed once a block of this size was (glibc: the threshold follows the largest block,
    /// up to 32 MiB). Otherwise a call would pay for pages that the one before it gave back to the system.
    const KEPT: usize = 30 << 20;

    fn time<O: Operation>(name: &str, operation: &mut O) {
        drop(black_box(vec![1_u8; KEPT]));
        let [mut lent, mut new, mut read, mut other, mut limit] = [const { Times(Vec::new()) }; 5];
        let calls = operation.calls();
        for _ in 0..REPETITIONS {
            lent.add(calls, || operation.ours_lent());
            other.add(calls, || operation.other());
            if O::IS_LIST {
                new.add(calls, || operation.ours_new());
                other.add(calls, || operation.other());
            }
            if O::IS_READ {
                read.add(calls, || operation.ours_read());
                other.add(calls, || operation.other());
            }
            if O::LIMIT.is_some() {
                limit.add(calls, || operation.limit());
                other.add(calls, || operation.other());
            }
        }
        let (points, octets) = operation.size();
        let times = if calls > 1 { format!(", {calls} calls in one timing") } else { String::new() };
        println!("{name}: {points} points in {octets} octets, nanoseconds a point{times}");
        let new = O::IS_LIST.then(|| new.report("ours, new list", points));
        let lent = lent.report(O::LENT, points);
        if O::IS_READ {
            read.report("ours, through view", points);
        }
        match operation.beside() {
            Beside::Rust(on) => {
                let rust = other.report("Rust, new list", on);
                if on < points {
                    println!("  the Rust packs the first {on} alone: all of them would take it too long");
                }
                println!("  ours / Rust, by the medians:");
                if let Some(new) = new {
                    println!("    {} new list: both allocate", ratio(new, rust));
                }
                println!("    {} lent buffer: the Rust alone allocates", ratio(lent, rust));
            }
            Beside::AtEight(on) => {
                let eight = other.report("ours, map, at 8", on);
                println!("  the Rust is left out: at the greatest lookahead it would take too long");
                let ratio = ratio(lent, eight);
                println!("  ours / ours on the map at lookahead 8, lent buffers, by the medians: {ratio}");
            }
            Beside::Typed(on) => {
                let typed = other.report("ours, typed", on);
                println!("  by Section 5 / by typed numbers, lent buffers, by the medians: {}", ratio(lent, typed));
            }
            Beside::Reading(on) => {
                let reading = other.report("ours, reading", on);
                println!("  writing / reading, lent buffers, by the medians: {}", ratio(lent, reading));
            }
            Beside::Whole(on) => {
                let whole = other.report("ours, whole map", on);
                let (count, units) = operation.units();
                let each = lent * f64::from(points) / f64::from(count);
                println!("  one point / whole map, lent buffer, by the medians: {}", ratio(lent, whole));
                println!("  one point, nanoseconds for each of {count} {units}, by the median: {each:.2}");
            }
        }
        if let Some(does) = O::LIMIT {
            println!("  the limit is a loop that only {does}");
            let limit = limit.report("limit", points);
            println!("  ours / limit, lent buffer, by the medians: {}", ratio(lent, limit));
        }
    }

    /// Two digits after the point, or four where two would say little.
    fn ratio(one: f64, other: f64) -> String {
        let ratio = one / other;
        if ratio < 0.095 { format!("{ratio:.4}") } else { format!("{ratio:.2}") }
    }

    /// How long a call took in each timing, in nanoseconds.
    struct Times(Vec<f64>);

    impl Times {
        fn add<T>(&mut self, calls: usize, mut call: impl FnMut() -> T) {
            let mut answers = Vec::with_capacity(calls);
            let start = Instant::now();
            for _ in 0..calls {
                answers.push(black_box(call()));
            }
            self.0.push(start.elapsed().as_nanos() as f64 / calls as f64);
            drop(answers);
        }

        /// Prints the best and the median time a point, and answers the median.
        fn report(mut self, form: &str, points: u32) -> f64 {
            self.0.sort_unstable_by(f64::total_cmp);
            let [best, median] = [0, self.0.len() / 2].map(|place| self.0[place] / f64::from(points));
            println!("  {form:<18} best {best:7.3}  median {median:7.3}  of {}", self.0.len());
            median
        }
    }
}
