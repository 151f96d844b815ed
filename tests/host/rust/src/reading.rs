//! From a text to a gradient. The text is cut at commas, each item into words, each word is
//! given its kind, and an item is in the grammar if its kinds match one of a few patterns.

use crate::gradient::{judge_ranges, Amount, Direction, Gradient, Shape, Size, Stop, MOST_STOPS};
use crate::words::{classify, is_white, Key, Word};

pub const LONGEST_TEXT: usize = 1024;

pub struct Reading {
    pub gradient: Gradient,
    /// The clauses of the grammar that the text uses.
    pub clauses: Vec<&'static str>,
}

/// The gradient of a text, or the reply 3, 4, 5 or 6.
pub fn read(text: &[u8]) -> Result<Reading, u32> {
    if text.len() > LONGEST_TEXT {
        return Err(3);
    }
    let reading = parse(text).ok_or(4u32)?;
    judge_ranges(&reading.gradient)?;
    if reading.gradient.stops.len() > MOST_STOPS {
        return Err(6);
    }
    Ok(reading)
}

type Item = Vec<Word>;

/// The function's name and its items, all in lower case.
fn take_apart(text: &[u8]) -> Option<(Vec<u8>, Vec<Item>)> {
    let lower = text.to_ascii_lowercase();
    let from = lower.iter().position(|b| !is_white(*b))?;
    let to = lower.iter().rposition(|b| !is_white(*b))?;
    let whole = &lower[from..=to];
    let open = whole.iter().position(|b| *b == b'(')?;
    let body = whole[open + 1..].strip_suffix(b")")?;
    let items: Option<Vec<Item>> = body.split(|b| *b == b',').map(item).collect();
    Some((whole[..open].to_vec(), items?))
}

fn item(text: &[u8]) -> Option<Item> {
    text.split(|b| is_white(*b)).filter(|word| !word.is_empty()).map(classify).collect()
}

fn parse(text: &[u8]) -> Option<Reading> {
    let (name, items) = take_apart(text)?;
    let mut clauses = Vec::new();
    let (repeating, kind) = match name.strip_prefix(b"repeating-") {
        Some(kind) => (true, kind),
        None => (false, name.as_slice()),
    };
    let (shape, rest) = match kind {
        b"linear-gradient" => linear(&items, &mut clauses),
        b"radial-gradient" => (circle(&items[0], &mut clauses)?, &items[1..]),
        _ => return None,
    };
    if repeating {
        clauses.push(if kind == b"linear-gradient" { "repeating line" } else { "repeating circle" });
    }
    let stops: Option<Vec<Stop>> = rest.iter().map(|words| stop(words, &mut clauses)).collect();
    let stops = stops?;
    if stops.len() == MOST_STOPS {
        clauses.push("16 stops");
    }
    (stops.len() >= 2).then_some(Reading { gradient: Gradient { repeating, shape, stops }, clauses })
}

fn linear<'a>(items: &'a [Item], clauses: &mut Vec<&'static str>) -> (Shape, &'a [Item]) {
    match direction(&items[0], clauses) {
        Some(found) => (Shape::Linear(found), &items[1..]),
        None => {
            clauses.push("no direction");
            (Shape::Linear(Direction::Toward(0, 1)), items)
        }
    }
}

fn direction(words: &[Word], clauses: &mut Vec<&'static str>) -> Option<Direction> {
    let (clause, found) = match words {
        [Word::To, Word::Key(key)] if *key != Key::Center => ("side", Direction::Toward(key.x(), key.y())),
        [Word::To, Word::Key(a), Word::Key(b)] if a.x() != 0 && b.y() != 0 => {
            ("corner, horizontal word first", Direction::Toward(a.x(), b.y()))
        }
        [Word::To, Word::Key(a), Word::Key(b)] if a.y() != 0 && b.x() != 0 => {
            ("corner, vertical word first", Direction::Toward(b.x(), a.y()))
        }
        [Word::Angle(v)] if *v < 0 => ("angle below 0", Direction::Angle(*v)),
        [Word::Angle(v)] if *v > 360_000 => ("angle above 360", Direction::Angle(*v)),
        [Word::Angle(v)] => ("angle", Direction::Angle(*v)),
        _ => return None,
    };
    clauses.push(clause);
    Some(found)
}

fn circle(words: &[Word], clauses: &mut Vec<&'static str>) -> Option<Shape> {
    let parts: Vec<&[Word]> = words.split(|word| *word == Word::At).collect();
    let (before, position) = match parts.as_slice() {
        [before] => {
            clauses.push("no at");
            (*before, (Key::Center.amount(), Key::Center.amount()))
        }
        [before, after] => (*before, center(after, clauses)?),
        _ => return None,
    };
    let size = circle_size(before, clauses)?;
    Some(Shape::Circle { size, x: position.0, y: position.1 })
}

fn circle_size(words: &[Word], clauses: &mut Vec<&'static str>) -> Option<Size> {
    let (clause, size) = match words {
        [Word::Circle] => ("circle alone", Size::Extent { farthest: true, corner: true }),
        [Word::Circle, Word::Extent(size)] => (size.name(), *size),
        [Word::Extent(size), Word::Circle] => ("extent before circle", *size),
        [Word::Circle, Word::Amount(Amount::Length(v))] => ("circle and length", Size::Length(*v)),
        [Word::Amount(Amount::Length(v)), Word::Circle] => ("length and circle", Size::Length(*v)),
        [Word::Amount(Amount::Length(v))] => ("single length", Size::Length(*v)),
        _ => return None,
    };
    clauses.push(clause);
    Some(size)
}

fn center(words: &[Word], clauses: &mut Vec<&'static str>) -> Option<(Amount, Amount)> {
    let middle = Key::Center.amount();
    let (clause, found) = match words {
        [Word::Key(Key::Center)] => ("at center", (middle, middle)),
        [Word::Key(a)] if a.horizontal() => ("at horizontal word", (a.amount(), middle)),
        [Word::Key(a)] => ("at vertical word", (middle, a.amount())),
        [Word::Amount(a)] => ("at number", (*a, middle)),
        [Word::Key(a), Word::Key(b)] if a.horizontal() && b.vertical() => {
            ("at two words", (a.amount(), b.amount()))
        }
        [Word::Key(a), Word::Key(b)] if a.vertical() && b.horizontal() => {
            ("at two words, vertical first", (b.amount(), a.amount()))
        }
        [Word::Key(a), Word::Amount(b)] if a.horizontal() => ("at word and number", (a.amount(), *b)),
        [Word::Amount(a), Word::Key(b)] if b.vertical() => ("at number and word", (*a, b.amount())),
        [Word::Amount(a), Word::Amount(b)] => ("at two numbers", (*a, *b)),
        _ => return None,
    };
    clauses.push(clause);
    Some(found)
}

fn stop(words: &[Word], clauses: &mut Vec<&'static str>) -> Option<Stop> {
    let (color, position) = match words {
        [Word::Color(color)] => (*color, None),
        [Word::Color(color), Word::Amount(amount)] => (*color, Some(*amount)),
        _ => return None,
    };
    clauses.push(match position {
        None => "stop without position",
        Some(Amount::Length(_)) => "stop with length",
        Some(Amount::Percentage(_)) => "stop with percentage",
    });
    Some(Stop { color, position })
}
