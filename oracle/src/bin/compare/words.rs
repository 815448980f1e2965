//! Octets as one word of a line: hexadecimal, or - for none.

pub fn of(octets: &[u8]) -> String {
    if octets.is_empty() {
        return "-".into();
    }
    octets.iter().map(|octet| format!("{octet:02x}")).collect()
}

pub fn octets(word: &str) -> Option<Vec<u8>> {
    let digits = if word == "-" { "" } else { word };
    let octet = |place| u8::from_str_radix(digits.get(place..place + 2)?, 16).ok();
    (0..digits.len()).step_by(2).map(octet).collect()
}
