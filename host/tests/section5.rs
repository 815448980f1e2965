//! Section 5: read as it stands, and written for a packing. And Section 7: its header, and the payload after it.

use cleatmow::{
    pack, payload_of, read_section5, section7_of, unpack, Differences, NotSection, Packing, Physical, Point, Refusal,
    Section5, Template, TemplateNumbers,
};
use std::error::Error;

/// Every octet after the template number says its own place, so that a number says which octets it was read from.
fn section(template: u16, count: u8) -> Vec<u8> {
    let mut octets: Vec<u8> = (1..=count).collect();
    octets[..5].copy_from_slice(&[0, 0, 0, count, 5]);
    octets[9..11].copy_from_slice(&template.to_be_bytes());
    octets
}

const PHYSICAL: Physical =
    Physical { reference: 0x0C0D_0E0F, binary_scale: 0x1011, decimal_scale: 0x1213, field_type: 21 };

const TEMPLATE: Template = Template {
    number_width: 20,
    splitting: 22,
    missing: 23,
    groups: 0x2021_2223,
    width_reference: 36,
    width_bits: 37,
    length_reference: 0x2627_2829,
    length_increment: 42,
    last_length: 0x2B2C_2D2E,
    length_bits: 47,
};

#[test]
fn each_number_is_at_its_octets() {
    let read = |template, count| Section5::from_octets(&section(template, count)).unwrap();
    for (template, count, differences) in
        [(2, 47, None), (3, 49, Some(Differences { order: 48, descriptor_octets: 49 }))]
    {
        let section = read(template, count);
        assert_eq!((section.declared, section.template_number()), (0x0607_0809, template));
        assert_eq!(section.numbers, TemplateNumbers::Groups { template: TEMPLATE, differences, physical: PHYSICAL });
    }
    for count in [17, 19, 255] {
        let section = read(200, count);
        assert_eq!((section.declared, section.template_number()), (0x0607_0809, 200));
        assert_eq!(section.numbers, TemplateNumbers::RunLength { bits: 12, max_level: 0x0D0E });
    }
}

/// Of template 5.200, from what is read of it and from what is not.
#[test]
fn a_section_5_of_levels() {
    for count in [17, 19, 255] {
        let octets = section(200, count);
        let values = &octets[Section5::BEFORE_LEVEL_VALUES..];
        assert_eq!(values[0], 15);
        assert_eq!(Section5::of_levels(0x0607_0809, 12, 0x0D0E, values).as_ref(), Some(&octets));
    }
}

/// Nothing that unpacking has a refusal for is refused here.
#[test]
fn numbers_are_not_judged() {
    for octet in [0, 255] {
        let mut octets = section(3, 49);
        octets[5..9].fill(octet);
        octets[11..].fill(octet);
        let section = Section5::from_octets(&octets).unwrap();
        let TemplateNumbers::Groups { template, differences, .. } = section.numbers else { panic!("{section:?}") };
        let four = u32::from_be_bytes([octet; 4]);
        assert_eq!((section.declared, template.groups, template.last_length), (four, four, four));
        assert_eq!((template.splitting, template.missing, template.number_width), (octet, octet, octet));
        assert_eq!(differences, Some(Differences { order: octet, descriptor_octets: octet }));
    }
}

#[test]
fn octets_that_are_none() {
    let refused = |octets: &[u8]| Section5::from_octets(octets).unwrap_err();
    for (template, length) in [(2, 47), (3, 49), (200, 19)] {
        let whole = section(template, length);
        let size = usize::from(length);
        for count in 0..11 {
            assert_eq!(refused(&whole[..count]), NotSection::Short { section: 5, count });
        }
        for count in 11..size {
            assert_eq!(refused(&whole[..count]), NotSection::Length { section: 5, length: length.into(), count });
        }
        for more in [1, 2, 300] {
            let longer = [&whole[..], &vec![0; more]].concat();
            let count = size + more;
            assert_eq!(refused(&longer), NotSection::Length { section: 5, length: length.into(), count });
        }
        for number in [0, 4, 6, 7, 255] {
            let octets = [&whole[..4], &[number], &whole[5..]].concat();
            // The number comes before all that follows it.
            for count in [5, 11, size] {
                assert_eq!(refused(&octets[..count]), NotSection::Number { section: 5, number });
            }
        }
    }
    for template in [2, 3] {
        let whole = section(template, 60);
        for length in [0_u32, 11, 46, 48, 50, 47 << 8, 49 << 8, 60, u32::MAX] {
            let octets = [&length.to_be_bytes(), &whole[4..]].concat();
            for count in [11, 47, 49, 60] {
                assert_eq!(refused(&octets[..count]), NotSection::Size { template, length });
            }
        }
    }
    // The length of the other.
    assert_eq!(refused(&section(2, 49)), NotSection::Size { template: 2, length: 49 });
    assert_eq!(refused(&section(3, 47)), NotSection::Size { template: 3, length: 47 });
    for count in 11..17 {
        assert_eq!(refused(&section(200, count)), NotSection::Size { template: 200, length: count.into() });
    }
    for template in [0, 1, 4, 40, 199, 201, 0x0200, 0x0300, 0xC800, u16::MAX] {
        for count in [11, 47, 49] {
            assert_eq!(refused(&section(template, count)), NotSection::Template { template });
        }
    }
}

/// Where the call refuses octets, there are words for it; and where there are words for octets that it does not refuse,
/// they are that others stand behind the section. Template 5.200 is read here alone.
#[test]
fn words_are_those_of_refusal_14() {
    let is_behind = |why| matches!(why, NotSection::Length { length, count, .. } if (length as usize) < count);
    let mut seen = [0; 4];
    for template in [0, 2, 3, 200, 0x0203] {
        for (length, number) in [(47, 5), (49, 5), (48, 5), (47 << 8, 5), (47, 0), (49, 7)] {
            let mut octets = section(template, 60);
            octets[..5].copy_from_slice(&[&u32::to_be_bytes(length)[..], &[number]].concat());
            for count in 0..=60 {
                let octets = &octets[..count];
                let kind = match (read_section5(octets), Section5::from_octets(octets)) {
                    (Ok(_), Ok(read)) if read.template_number() == template => 0,
                    (Ok(_), Err(why)) if is_behind(why) => 1,
                    (Err(Refusal::Section5), Ok(read)) if read.template_number() == 200 && template == 200 => 2,
                    (Err(Refusal::Section5), Err(why)) if template == 200 || !is_behind(why) => 3,
                    other => panic!("{octets:?}: {other:?}"),
                };
                seen[kind] += 1;
            }
        }
    }
    assert!(seen.iter().all(|count| *count > 0), "{seen:?}");
}

#[test]
fn what_is_written_is_read() {
    let mut octets = section(2, 47);
    octets[23..31].copy_from_slice(&[255; 8]);
    let written = Section5::of_packing(0x0607_0809, &TEMPLATE, &PHYSICAL);
    assert_eq!(written, octets);
    assert_eq!(Packing::MISSING_VALUE.to_be_bytes(), [255; 4]);
    let section = Section5::from_octets(&written).unwrap();
    let numbers = TemplateNumbers::Groups { template: TEMPLATE, differences: None, physical: PHYSICAL };
    assert_eq!(section, Section5 { declared: 0x0607_0809, numbers });
}

/// Document 01's case 5 6 5 7 with lookahead 4, by hand: all octets of its Section 5. The map is unpacked from them.
#[test]
fn the_section_5_of_a_packing() {
    let packing = pack(&[5, 6, 5, 7], 4).unwrap();
    // Reference value −1.5, binary scale −3, decimal scale 1, field type 1.
    let physical = Physical { reference: 0xBFC0_0000, binary_scale: 0x8003, decimal_scale: 1, field_type: 1 };
    let octets = [
        &[0, 0, 0, 47, 5, 0, 0, 0, 4, 0, 2][..],
        &[0xBF, 0xC0, 0, 0, 0x80, 3, 0, 1],
        &[3, 1, 1, 0, 255, 255, 255, 255, 255, 255, 255, 255],
        &[0, 0, 0, 2, 0, 1, 0, 0, 0, 3, 0, 0, 0, 0, 1, 0],
    ]
    .concat();
    assert_eq!(Section5::of_packing(4, &packing.template, &physical), octets);
    assert_eq!(unpack(&octets, &packing.payload), Ok([5, 6, 5, 7].map(Point::Number).to_vec()));
    // All that a packing can say of itself fits: the greatest numbers of each field.
    let greatest = Template {
        number_width: 255,
        splitting: 255,
        missing: 255,
        groups: u32::MAX,
        width_reference: 255,
        width_bits: 255,
        length_reference: u32::MAX,
        length_increment: 255,
        last_length: u32::MAX,
        length_bits: 255,
    };
    let physical = Physical { reference: u32::MAX, binary_scale: u16::MAX, decimal_scale: u16::MAX, field_type: 255 };
    let octets = [&[0, 0, 0, 47, 5, 255, 255, 255, 255, 0, 2][..], &[255; 36]].concat();
    assert_eq!(Section5::of_packing(u32::MAX, &greatest, &physical), octets);
}

/// The payload is what follows the header of a whole Section 7, whatever it is.
#[test]
fn payloads_of_section_7() {
    for count in (0..300).chain([65_531, 65_536, 1 << 24]) {
        let payload: Vec<u8> = (0..count).map(|place| place as u8 ^ 0x5A).collect();
        let section7 = section7_of(&payload).expect("four octets hold its length");
        let length = (count as u32 + 5).to_be_bytes();
        assert_eq!((&section7[..4], section7[4], section7.len()), (&length[..], 7, count + 5));
        assert!(payload_of(&section7) == Ok(&payload[..]), "{count} octets");
    }
    assert_eq!(section7_of(&[0xBC, 0x80, 0x40]), Some(vec![0, 0, 0, 8, 7, 0xBC, 0x80, 0x40]));
    assert_eq!(section7_of(&[]), Some(vec![0, 0, 0, 5, 7]));
}

#[test]
fn octets_that_have_no_payload() {
    let whole = section7_of(&[0xBC, 0x80, 0x40]).expect("four octets hold its length");
    for count in 0..5 {
        assert_eq!(payload_of(&whole[..count]), Err(NotSection::Short { section: 7, count }));
    }
    for count in 5..8 {
        assert_eq!(payload_of(&whole[..count]), Err(NotSection::Length { section: 7, length: 8, count }));
    }
    let longer = [&whole[..], &[0]].concat();
    assert_eq!(payload_of(&longer), Err(NotSection::Length { section: 7, length: 8, count: 9 }));
    for length in [0_u32, 3, 5, 7, 9, 8 << 8, 8 << 24, u32::MAX] {
        let octets = [&length.to_be_bytes(), &whole[4..]].concat();
        assert_eq!(payload_of(&octets), Err(NotSection::Length { section: 7, length, count: 8 }));
    }
    for number in (0..=255).filter(|number| *number != 7) {
        let octets = [&whole[..4], &[number], &whole[5..]].concat();
        assert_eq!(payload_of(&octets), Err(NotSection::Number { section: 7, number }));
        // The number comes before the length.
        assert_eq!(payload_of(&octets[..7]), Err(NotSection::Number { section: 7, number }));
    }
}

/// Each is whole by itself.
#[test]
fn sentences() {
    let told = |octets: &[u8]| Section5::from_octets(octets).unwrap_err().to_string();
    assert_eq!(told(b"GRIB"), "too few octets for a Section 5: 4");
    assert_eq!(told(b"GRIB\0\0\0\x02\0\0\0\0"), "the section number is 0, and not 5");
    assert_eq!(told(&section(3, 49)[..47]), "Section 5 says that it has 49 octets, and 47 are there");
    let behind = [section(3, 49), vec![0; 3]].concat();
    assert_eq!(told(&behind), "octets stand behind Section 5: it says that it has 49, and 52 are there");
    assert_eq!(told(&section(40, 21)), "Section 5 is of template 5.40, whose numbers are not read here");
    let size = "Section 5 says that it has 49 octets, which is not the length of template 5.2";
    assert_eq!(told(&section(2, 49)), size);

    let told = |octets: &[u8]| {
        let error: Box<dyn Error> = payload_of(octets).unwrap_err().into();
        error.to_string()
    };
    assert_eq!(told(b""), "too few octets for a Section 7: 0");
    assert_eq!(told(&section(3, 49)), "the section number is 5, and not 7");
    assert_eq!(told(&[0, 0, 0, 8, 7, 0xBC, 0x80]), "Section 7 says that it has 8 octets, and 7 are there");
    let behind = "octets stand behind Section 7: it says that it has 6, and 7 are there";
    assert_eq!(told(&[0, 0, 0, 6, 7, 0xBC, 0x80]), behind);
}
