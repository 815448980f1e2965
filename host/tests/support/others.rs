//! The maps of samples/others.txt. The head of that file says how a line goes.

use super::model::octets_of;
use super::sha256::sha256;
use cleatmow::{Point, Refusal, Section5};

/// The file, line by line.
pub const LINES: &str = include_str!("../../../samples/others.txt");

/// One map.
#[derive(Debug)]
pub struct Map {
    pub id: String,
    /// 2, 3 or 200.
    pub template: u16,
    /// What document 01 does with it, where that is a refusal. Otherwise it gives the points.
    pub refusal: Option<Refusal>,
    pub section5_octets: Vec<u8>,
    pub section5: Section5,
    pub payload: Vec<u8>,
    digest: Vec<u8>,
    /// What the other readers answer, or none where only the digest stands in the file.
    points: Option<Vec<Point>>,
}

/// All maps, in the file's order.
pub fn maps() -> Vec<Map> {
    let lines = LINES.lines().filter(|line| !line.starts_with('#'));
    lines.map(|line| Map::from_line(line).unwrap_or_else(|| panic!("malformed: {line}"))).collect()
}

impl Map {
    /// None where the line is malformed, or does not agree with itself.
    pub fn from_line(line: &str) -> Option<Map> {
        let mut words = line.split(' ');
        let mut value = |key: &str| words.next()?.strip_prefix(key)?.strip_prefix('=');
        let id = value("id")?.to_string();
        let template = value("t")?.parse().ok()?;
        let refusal = match value("doc")? {
            "same" => None,
            refused => Some(Refusal::from_number(refused.strip_prefix("refused-")?.parse().ok()?)?),
        };
        let section5_octets = octets(value("s5")?)?;
        let map = Map {
            id,
            template,
            refusal,
            section5: Section5::from_octets(&section5_octets).ok()?,
            section5_octets,
            payload: match value("pay")? {
                "-" => Vec::new(),
                hex => octets(hex)?,
            },
            digest: octets(value("sha")?)?,
            points: match value("list")? {
                "-" => None,
                list => Some(points(list)?),
            },
        };
        let agreed = map.section5.template_number() == map.template;
        let listed =
            |points: &Vec<Point>| points.len() == map.section5.declared as usize && map.digest == digest(points);
        let whole = words.next().is_none() && !map.id.is_empty() && map.digest.len() == 32;
        (agreed && whole && map.points.as_ref().is_none_or(listed)).then_some(map)
    }

    /// Whether these are the points that the other readers answer.
    pub fn has(&self, points: &[Point]) -> bool {
        self.points.as_ref().is_none_or(|own| own == points) && self.digest == digest(points)
    }
}

/// Over nine octets a point.
fn digest(points: &[Point]) -> [u8; 32] {
    sha256(&octets_of(points))
}

fn octets(hex: &str) -> Option<Vec<u8>> {
    let digits: Option<Vec<u8>> = hex.chars().map(|digit| Some(digit.to_digit(16)? as u8)).collect();
    let digits = digits?;
    let whole = !digits.is_empty() && digits.len() % 2 == 0;
    whole.then(|| digits.chunks_exact(2).map(|pair| pair[0] << 4 | pair[1]).collect())
}

fn points(list: &str) -> Option<Vec<Point>> {
    let mut points = Vec::new();
    for word in list.split(',') {
        let (point, repeats) = word.split_once('*').unwrap_or((word, "1"));
        let point = match point {
            "M" => Point::Missing1,
            "S" => Point::Missing2,
            number => Point::Number(number.parse().ok()?),
        };
        let repeats: usize =
            repeats.parse().ok().filter(|repeats| (1..=cleatmow::MOST_POINTS as usize).contains(repeats))?;
        points.resize(points.len() + repeats, point);
    }
    Some(points)
}
