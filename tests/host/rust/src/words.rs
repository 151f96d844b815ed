//! The kinds of words in lower case: keywords, colors and numbers with their units.

use crate::gradient::{Amount, Color, Size};

#[derive(Clone, Copy, PartialEq, Debug)]
pub enum Key {
    Left,
    Center,
    Right,
    Top,
    Bottom,
}

#[derive(Clone, Copy, PartialEq, Debug)]
pub enum Word {
    To,
    At,
    Circle,
    Key(Key),
    Extent(Size),
    Color(Color),
    Amount(Amount),
    Angle(i64),
}

impl Key {
    pub fn x(self) -> i64 {
        match self {
            Key::Left => -1,
            Key::Right => 1,
            _ => 0,
        }
    }

    pub fn y(self) -> i64 {
        match self {
            Key::Top => -1,
            Key::Bottom => 1,
            _ => 0,
        }
    }

    pub fn horizontal(self) -> bool {
        self.y() == 0
    }

    pub fn vertical(self) -> bool {
        self.x() == 0
    }

    /// The part of the box's side that the word stands for.
    pub fn amount(self) -> Amount {
        Amount::Percentage((self.x() + self.y() + 1) * 50_000)
    }
}

impl Size {
    pub fn name(self) -> &'static str {
        match self {
            Size::Extent { farthest: false, corner: false } => "closest-side",
            Size::Extent { farthest: false, corner: true } => "closest-corner",
            Size::Extent { farthest: true, corner: false } => "farthest-side",
            Size::Extent { farthest: true, corner: true } => "farthest-corner",
            Size::Length(_) => "length",
        }
    }
}

pub const COLORS: [(&str, u32); 16] = [
    ("aqua", 0x00ffff), ("black", 0x000000), ("blue", 0x0000ff), ("fuchsia", 0xff00ff),
    ("gray", 0x808080), ("green", 0x008000), ("lime", 0x00ff00), ("maroon", 0x800000),
    ("navy", 0x000080), ("olive", 0x808000), ("purple", 0x800080), ("red", 0xff0000),
    ("silver", 0xc0c0c0), ("teal", 0x008080), ("white", 0xffffff), ("yellow", 0xffff00),
];

pub fn is_white(byte: u8) -> bool {
    matches!(byte, 0x20 | 0x09 | 0x0a | 0x0d | 0x0c)
}

/// The kind of one word, none if the grammar has no such word.
pub fn classify(word: &[u8]) -> Option<Word> {
    let text = std::str::from_utf8(word).ok()?;
    keyword(text).or_else(|| color(text).map(Word::Color)).or_else(|| measured(text))
}

fn keyword(text: &str) -> Option<Word> {
    Some(match text {
        "to" => Word::To,
        "at" => Word::At,
        "circle" => Word::Circle,
        "left" => Word::Key(Key::Left),
        "center" => Word::Key(Key::Center),
        "right" => Word::Key(Key::Right),
        "top" => Word::Key(Key::Top),
        "bottom" => Word::Key(Key::Bottom),
        "closest-side" => Word::Extent(Size::Extent { farthest: false, corner: false }),
        "closest-corner" => Word::Extent(Size::Extent { farthest: false, corner: true }),
        "farthest-side" => Word::Extent(Size::Extent { farthest: true, corner: false }),
        "farthest-corner" => Word::Extent(Size::Extent { farthest: true, corner: true }),
        _ => return None,
    })
}

fn color(text: &str) -> Option<Color> {
    if text == "transparent" {
        return Some([0, 0, 0, 0]);
    }
    if let Some(digits) = text.strip_prefix('#') {
        return hex_color(digits);
    }
    let (_, rgb) = COLORS.iter().find(|(name, _)| *name == text)?;
    let [_, red, green, blue] = rgb.to_be_bytes();
    Some([red, green, blue, 255])
}

fn hex_color(digits: &str) -> Option<Color> {
    let values: Option<Vec<u8>> = digits.chars().map(|c| c.to_digit(16).map(|v| v as u8)).collect();
    let values = values?;
    let mut channels: Vec<u8> = match values.len() {
        3 | 4 => values.iter().map(|v| v * 17).collect(),
        6 | 8 => values.chunks(2).map(|pair| pair[0] * 16 + pair[1]).collect(),
        _ => return None,
    };
    channels.resize(4, 255);
    Some([channels[0], channels[1], channels[2], channels[3]])
}

fn measured(text: &str) -> Option<Word> {
    if let Some(number) = text.strip_suffix("px") {
        return Some(Word::Amount(Amount::Length(thousandths(number)?)));
    }
    if let Some(number) = text.strip_suffix('%') {
        return Some(Word::Amount(Amount::Percentage(thousandths(number)?)));
    }
    if let Some(number) = text.strip_suffix("deg") {
        return Some(Word::Angle(thousandths(number)?));
    }
    (thousandths(text)? == 0).then_some(Word::Amount(Amount::Length(0)))
}

/// More thousandths than any range allows; longer numbers are cut to this.
const PLENTY: i64 = 1_000_000_000_000;

fn thousandths(number: &str) -> Option<i64> {
    let (sign, rest) = match number.as_bytes().first()? {
        b'-' => (-1, &number[1..]),
        b'+' => (1, &number[1..]),
        _ => (1, number),
    };
    let (whole, part) = match rest.split_once('.') {
        None if rest.is_empty() => return None,
        None => (rest, "000".to_string()),
        Some((_, part)) if part.is_empty() || part.len() > 3 => return None,
        Some((whole, part)) => (whole, format!("{part:0<3}")),
    };
    let mut value = 0;
    for digit in whole.chars().chain(part.chars()) {
        value = (value * 10 + i64::from(digit.to_digit(10)?)).min(PLENTY);
    }
    Some(sign * value)
}
