//! Layouts that are changed, or made from random values at the ends of their ranges.

use crate::chance::Chance;
use crate::gradient::{Amount, Direction, Gradient, Shape, Size, Stop};
use crate::gradient::{ANGLE_LIMIT, LENGTH_LIMIT, PERCENTAGE_LIMIT, QUARTER_DEGREE};
use crate::layout::{FURTHEST, GRADIENT_BYTES, STOPS_BYTES};
use crate::placing::Placed;

const HEADER_WORDS: usize = 16;
const RESERVED: [usize; 4] = [32, 36, 48, 60];
const REPEATING: usize = 8;
/// Words for a field that is 0 or 1.
pub const FLAGS: [u32; 10] = [0, 1, 2, 3, 255, 256, 257, 65_536, 0x8000_0001, u32::MAX];
const COUNTS: [u32; 12] = [0, 1, 2, 3, 15, 16, 17, 18, 255, 256 + 3, 0x8000_0002, u32::MAX];

fn color(chance: &mut Chance) -> [u8; 4] {
    let mut color = [chance.byte(), chance.byte(), chance.byte(), chance.byte()];
    if chance.one_in(3) {
        color[3] = *chance.pick(&[0, 1, 254, 255]);
    }
    color
}

fn number(chance: &mut Chance, low: i64, high: i64, usual: i64) -> i64 {
    match chance.below(6) {
        0 => low,
        1 => high,
        2 => chance.between(low, high),
        _ => chance.between(low.max(-usual), usual),
    }
}

fn amount(chance: &mut Chance) -> Amount {
    match chance.one_in(2) {
        true => Amount::Length(number(chance, -LENGTH_LIMIT, LENGTH_LIMIT, 30_000)),
        false => Amount::Percentage(number(chance, -PERCENTAGE_LIMIT, PERCENTAGE_LIMIT, 120_000)),
    }
}

fn shape(chance: &mut Chance) -> Shape {
    let (farthest, corner) = (chance.one_in(2), chance.one_in(2));
    match chance.below(4) {
        0 => {
            let quarters = number(chance, -ANGLE_LIMIT / QUARTER_DEGREE, ANGLE_LIMIT / QUARTER_DEGREE, 1440);
            Shape::Linear(Direction::Angle(quarters * QUARTER_DEGREE))
        }
        1 => {
            let (x, y) = *chance.pick(&[(1, 1), (1, -1), (-1, 1), (-1, -1), (0, -1), (0, 1), (1, 0), (-1, 0)]);
            Shape::Linear(Direction::Toward(x, y))
        }
        2 => Shape::Circle { size: Size::Extent { farthest, corner }, x: amount(chance), y: amount(chance) },
        _ => {
            let size = Size::Length(number(chance, 0, LENGTH_LIMIT, 40_000));
            Shape::Circle { size, x: amount(chance), y: amount(chance) }
        }
    }
}

/// The first place and the last one of stops that may repeat, `unit` to a pixel and not beyond `most`: a period of many
/// sizes, beginning before the box, in it or past it.
pub fn ends(chance: &mut Chance, unit: i64, most: i64) -> (i64, i64) {
    let first = match chance.below(20) {
        0..=5 => 0,
        6 => -most,
        7 => most - chance.between(0, 3 * unit),
        8..=9 => -chance.between(1, 40 * unit),
        10..=11 => -chance.between(1, most),
        12..=13 => chance.between(2100, 8000) * unit,
        14..=15 => -chance.between(60, 8000) * unit,
        16..=17 => chance.between(-30, 30) * unit,
        _ => chance.between(0, 30 * unit),
    };
    let smallest = (unit + 63) / 64;
    let period = match chance.below(12) {
        0 | 1 => 0,
        2 => smallest,
        3 => chance.between(2, 63) * smallest,
        4 => unit,
        5 => chance.between(2, 12) * unit,
        6 => 40 * unit,
        7 => chance.between(100, 3000) * unit,
        8 => most,
        9 => chance.between(1, most),
        _ => chance.between(1, 30 * unit),
    };
    (first, (first + period).min(most))
}

/// A gradient that no text needs to have said.
pub fn random_gradient(chance: &mut Chance) -> Gradient {
    let count = 2 + chance.below(15);
    let mut stops = Vec::new();
    for _ in 0..count {
        let position = if chance.one_in(3) { None } else { Some(amount(chance)) };
        stops.push(Stop { color: color(chance), position });
    }
    let repeating = chance.one_in(2);
    if repeating && !chance.one_in(3) {
        let (first, last) = ends(chance, 1000, LENGTH_LIMIT);
        for stop in &mut stops {
            stop.position = (!chance.one_in(3)).then(|| Amount::Length(chance.between(first, last)));
        }
        stops[0].position = Some(Amount::Length(first));
        stops[count - 1].position = Some(Amount::Length(last));
    }
    Gradient { repeating, shape: shape(chance), stops }
}

/// Stops in their order, near the start of the line or anywhere in the range, or with a period of some size.
pub fn random_stops(chance: &mut Chance) -> Vec<Placed> {
    let count = 2 + chance.below(15);
    let reach = *chance.pick(&[100, 3000, FURTHEST]);
    let mut places: Vec<i64> = (0..count).map(|_| chance.between(-reach / 4, reach)).collect();
    if chance.one_in(2) {
        let (first, last) = ends(chance, 64, FURTHEST);
        places = (0..count).map(|_| chance.between(first, last)).collect();
        (places[0], places[count - 1]) = (first, last);
        places.sort_unstable();
        return places.iter().map(|at| Placed { color: color(chance), at: *at }).collect();
    }
    if chance.one_in(4) {
        places[0] = -FURTHEST;
    }
    if chance.one_in(4) {
        places[count - 1] = FURTHEST;
    }
    places.sort_unstable();
    places.iter().map(|at| Placed { color: color(chance), at: *at }).collect()
}

fn set_word(bytes: &mut [u8], at: usize, word: i64) {
    bytes[at..at + 4].copy_from_slice(&(word as u32).to_le_bytes());
}

fn swap(bytes: &mut [u8], first: usize, second: usize, size: usize) {
    for k in 0..size {
        bytes.swap(first + k, second + k);
    }
}

/// A slice that is one short, one longer, or empty.
fn wrong_length(chance: &mut Chance, bytes: &mut Vec<u8>) {
    match chance.below(4) {
        0 => bytes.truncate(bytes.len() - 1),
        1 => bytes.push(0),
        2 => bytes.clear(),
        _ => bytes.truncate(chance.below(bytes.len())),
    }
}

fn any_byte(chance: &mut Chance, bytes: &mut [u8]) {
    let k = chance.below(bytes.len());
    match chance.one_in(2) {
        true => bytes[k] = chance.byte(),
        false => bytes[k] ^= 1 << chance.below(8),
    }
}

fn limit(chance: &mut Chance) -> i64 {
    let ends = [LENGTH_LIMIT, PERCENTAGE_LIMIT, ANGLE_LIMIT, 0, 1 << 30];
    let past = *chance.pick(&[-1, 0, 1, QUARTER_DEGREE]);
    (*chance.pick(&ends) + past) * *chance.pick(&[-1, 1])
}

/// One change to a gradient's 320 bytes.
pub fn damage_gradient(chance: &mut Chance, bytes: &mut Vec<u8>) {
    let place = 64 + 16 * chance.below(16);
    match chance.below(13) {
        0 | 1 => any_byte(chance, bytes),
        2 => set_word(bytes, *chance.pick(&RESERVED), chance.between(1, 3)),
        3 => set_word(bytes, place + 12, chance.between(-1, 2)),
        4 | 5 => set_word(bytes, 0, i64::from(*chance.pick(&COUNTS))),
        6 => set_word(bytes, 4 * chance.below(HEADER_WORDS), chance.between(-1, 9)),
        7 => set_word(bytes, *chance.pick(&[16, 28, 44, 56]), limit(chance)),
        8 => set_word(bytes, place + 8, limit(chance)),
        9 => set_word(bytes, place + 4, chance.between(-1, 3)),
        10 => swap(bytes, place, 64 + 16 * chance.below(16), 16),
        11 => set_word(bytes, REPEATING, i64::from(*chance.pick(&FLAGS))),
        _ => wrong_length(chance, bytes),
    }
    if chance.one_in(40) {
        *bytes = (0..GRADIENT_BYTES).map(|_| chance.byte()).collect();
    }
}

/// One change to the 132 bytes of placed stops.
pub fn damage_stops(chance: &mut Chance, bytes: &mut Vec<u8>) {
    let place = 4 + 8 * chance.below(16);
    let used = 4 + 8 * chance.below(usize::from(bytes[0]).clamp(1, 16));
    let past = chance.between(-1, 1);
    match chance.below(9) {
        0 => any_byte(chance, bytes),
        1 => bytes[1 + chance.below(3)] = 1 + chance.below(255) as u8,
        2 | 3 => bytes[0] = *chance.pick(&COUNTS) as u8,
        4 => swap(bytes, used, 4, 8),
        5 => set_word(bytes, used + 4, (FURTHEST + past) * *chance.pick(&[-1, 1])),
        6 => set_word(bytes, 8, -(FURTHEST + past)),
        7 => set_word(bytes, place + 4, *chance.pick(&[0, 1, -1, 1 << 31, (1 << 31) - 1])),
        _ => wrong_length(chance, bytes),
    }
    if chance.one_in(40) {
        *bytes = (0..STOPS_BYTES).map(|_| chance.byte()).collect();
    }
}

/// More than 16 stops of which each place is sound, so that only the count is at fault, or a place too.
pub fn fill_places(chance: &mut Chance, stops: &[Placed]) -> Vec<Placed> {
    let last = stops[stops.len() - 1].at;
    let mut full = stops.to_vec();
    while full.len() < 16 {
        full.push(Placed { color: color(chance), at: last });
    }
    if chance.one_in(6) {
        full[15].at = FURTHEST + 1;
    }
    full
}
