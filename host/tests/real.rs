//! Three maps of a weather service (samples/README.md says what they are), through the C calls.

mod support;

use cleatmow::{
    payload_of, read_section5, section7_of, unpack, unpack_into, write_section5, Point, Refusal, Section5, POINT_OCTETS,
};
use support::model::Input;
use support::sha256::sha256;

/// A map, and what the two tables of samples/README.md say of it.
struct Map {
    name: &'static str,
    section5: &'static [u8],
    section7: &'static [u8],
    /// 2 or 3.
    template: u16,
    /// Order and descriptor octets, or none under 5.2.
    differences: Option<(u8, u8)>,
    missing_management: u8,
    groups: u32,
    points: u32,
    missing: usize,
    greatest: i64,
    digest: &'static str,
}

const MAPS: [Map; 3] = [
    Map {
        name: "gfs-gust-144x73",
        section5: include_bytes!("../../samples/gfs-gust-144x73.s5"),
        section7: include_bytes!("../../samples/gfs-gust-144x73.s7"),
        template: 3,
        differences: Some((1, 2)),
        missing_management: 0,
        groups: 785,
        points: 144 * 73,
        missing: 0,
        greatest: 380,
        digest: "c4356056e3533fa8be55d04f21b4a1c8f851bc713143c3a20d48421a2d7a6812",
    },
    Map {
        name: "ndfd-puerto-rico-339x224",
        section5: include_bytes!("../../samples/ndfd-puerto-rico-339x224.s5"),
        section7: include_bytes!("../../samples/ndfd-puerto-rico-339x224.s7"),
        template: 3,
        differences: Some((2, 1)),
        missing_management: 1,
        groups: 514,
        points: 339 * 224,
        missing: 406,
        greatest: 127,
        digest: "20bcfaf68967752dc9fb908e512f504934b2f8d21615109297298329dee5fdd8",
    },
    Map {
        name: "ndfd-conus-1073x689",
        section5: include_bytes!("../../samples/ndfd-conus-1073x689.s5"),
        section7: include_bytes!("../../samples/ndfd-conus-1073x689.s7"),
        template: 2,
        differences: None,
        missing_management: 1,
        groups: 22_011,
        points: 1_073 * 689,
        missing: 371_039,
        greatest: 439,
        digest: "2af3696b4418d2f67ea973bee19e4568d1c4d4fb0decc8d22bacb84113695e99",
    },
];

impl Map {
    /// What a call is given, from both sections. Section 7 says its length and its number, and then has the payload.
    fn input(&self) -> Input {
        let section5 = Section5::from_octets(self.section5).expect(self.name);
        let (header, payload) = self.section7.split_at(5);
        assert_eq!(header, [&(self.section7.len() as u32).to_be_bytes()[..], &[7]].concat(), "{}", self.name);
        assert_eq!(payload_of(self.section7), Ok(payload), "{}", self.name);
        assert!(section7_of(payload).is_some_and(|section7| section7 == self.section7), "{}", self.name);
        assert_eq!(section5.template_number(), self.template, "{}", self.name);
        Input::of_map(&section5, payload)
    }
}

#[test]
fn template_numbers_are_the_tables() {
    for map in MAPS {
        let input = map.input();
        let read = input.differences.map(|differences| (differences.order, differences.descriptor_octets));
        assert_eq!(read, map.differences, "{}", map.name);
        let read = (input.template.missing, input.template.groups, input.declared);
        assert_eq!(read, (map.missing_management, map.groups, map.points), "{}", map.name);
    }
}

/// Section 5 is what is written of its fields.
#[test]
fn fields_are_the_tables() {
    for map in MAPS {
        let fields = read_section5(map.section5).expect(map.name);
        assert_eq!(write_section5(&fields).as_deref(), Ok(map.section5), "{}", map.name);
        let count = if map.template == 3 { 22 } else { 20 };
        assert_eq!((fields.len(), fields[2], fields[3]), (count, map.points, map.template.into()), "{}", map.name);
        assert_eq!((fields[10], fields[13]), (map.missing_management.into(), map.groups), "{}", map.name);
        let differences = map.differences.map_or(vec![], |(order, octets)| vec![order.into(), octets.into()]);
        assert_eq!(fields[20..], differences, "{}", map.name);
    }
}

#[test]
fn points_are_the_tables() {
    for map in MAPS {
        let input = map.input();
        let digest = |octets: &[u8]| sha256(octets).iter().map(|octet| format!("{octet:02x}")).collect::<String>();
        let mut octets = vec![0xEE; map.points as usize * POINT_OCTETS];
        assert_eq!(input.call(&mut octets), 0, "{}", map.name);
        assert_eq!(digest(&octets), map.digest, "{}", map.name);
        octets.fill(0xEE);
        let view = unpack_into(map.section5, &input.payload, &mut octets).expect(map.name);
        assert_eq!((digest(view.octets()), view.len()), (map.digest.into(), map.points as usize), "{}", map.name);

        let points = input.points().unwrap();
        assert!(unpack(map.section5, &input.payload).is_ok_and(|same| same == points), "{}", map.name);
        let view = input.view(&mut octets).expect(map.name);
        assert!(view.iter().eq(points.iter().copied()), "{}", map.name);
        let mut numbers = Vec::new();
        for point in &points {
            match point {
                Point::Number(number) => numbers.push(*number),
                Point::Missing1 => {}
                Point::Missing2 => panic!("{}: missing 2 under management {}", map.name, map.missing_management),
            }
        }
        assert_eq!(points.len(), map.points as usize, "{}", map.name);
        assert_eq!(points.len() - numbers.len(), map.missing, "{}", map.name);
        assert_eq!((numbers.iter().min(), numbers.iter().max()), (Some(&0), Some(&map.greatest)), "{}", map.name);
    }
}

/// A map that was cut off, or whose count is another map's, is refused and not shown.
#[test]
fn damaged_maps_are_refused() {
    for map in MAPS {
        let whole = map.input();
        for len in [0, 1, whole.payload.len() / 2, whole.payload.len() - 1] {
            let cut = Input { payload: whole.payload[..len].to_vec(), ..map.input() };
            assert_eq!(cut.points(), Err(Refusal::Short), "{}", map.name);
            assert_eq!(unpack(map.section5, &whole.payload[..len]), Err(Refusal::Short), "{}", map.name);
        }
        for len in 0..map.section5.len() {
            assert_eq!(unpack(&map.section5[..len], &whole.payload), Err(Refusal::Section5), "{}", map.name);
        }
        for declared in [0, map.points - 1, map.points + 1] {
            assert_eq!(Input { declared, ..map.input() }.points(), Err(Refusal::Points), "{}", map.name);
        }
    }
}
