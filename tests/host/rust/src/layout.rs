//! Gradients and placed stops as bytes. Bytes are taken leniently, written anew and compared:
//! a value has one layout, so whatever does not come back the same breaks it.

use crate::gradient::{judge_ranges, Amount, Direction, Gradient, Shape, Size, Stop, MOST_STOPS};
use crate::placing::Placed;

pub const GRADIENT_BYTES: usize = 320;
pub const STOPS_BYTES: usize = 132;
pub const FURTHEST: i64 = 33_554_432;

const TOWARD: [(i64, i64); 8] = [(0, -1), (1, 0), (0, 1), (-1, 0), (-1, -1), (1, -1), (-1, 1), (1, 1)];
const ANGLE: i32 = 8;

fn put(bytes: &mut [u8], at: usize, word: i64) {
    let word = i32::try_from(word).expect("a number of a layout fits a word");
    bytes[at..at + 4].copy_from_slice(&word.to_le_bytes());
}

fn get(bytes: &[u8], at: usize) -> i32 {
    i32::from_le_bytes([bytes[at], bytes[at + 1], bytes[at + 2], bytes[at + 3]])
}

fn put_amount(bytes: &mut [u8], at: usize, amount: Amount) {
    let (unit, number) = match amount {
        Amount::Length(v) => (1, v),
        Amount::Percentage(v) => (2, v),
    };
    put(bytes, at, unit);
    put(bytes, at + 4, number);
}

fn get_amount(bytes: &[u8], at: usize) -> Amount {
    let number = i64::from(get(bytes, at + 4));
    match get(bytes, at) {
        1 => Amount::Length(number),
        _ => Amount::Percentage(number),
    }
}

fn put_shape(bytes: &mut [u8], shape: &Shape) {
    match *shape {
        Shape::Linear(Direction::Angle(v)) => {
            put(bytes, 12, i64::from(ANGLE));
            put(bytes, 16, v);
        }
        Shape::Linear(Direction::Toward(x, y)) => {
            let code = TOWARD.iter().position(|pair| *pair == (x, y)).expect("a side or corner");
            put(bytes, 12, code as i64);
        }
        Shape::Circle { size, x, y } => {
            put(bytes, 4, 1);
            match size {
                Size::Extent { farthest, corner } => put(bytes, 20, 2 * i64::from(farthest) + i64::from(corner)),
                Size::Length(v) => put_amount(bytes, 24, Amount::Length(v)),
            }
            put_amount(bytes, 40, x);
            put_amount(bytes, 52, y);
        }
    }
}

fn get_shape(bytes: &[u8]) -> Shape {
    if get(bytes, 4) == 0 {
        let code = get(bytes, 12);
        return Shape::Linear(match TOWARD.get(code as usize) {
            Some((x, y)) => Direction::Toward(*x, *y),
            None => Direction::Angle(i64::from(get(bytes, 16))),
        });
    }
    let size = match get(bytes, 24) {
        0 => Size::Extent { farthest: get(bytes, 20) & 2 != 0, corner: get(bytes, 20) & 1 != 0 },
        _ => Size::Length(i64::from(get(bytes, 28))),
    };
    Shape::Circle { size, x: get_amount(bytes, 40), y: get_amount(bytes, 52) }
}

/// For at most 16 stops.
pub fn gradient_bytes(gradient: &Gradient) -> Vec<u8> {
    let mut bytes = vec![0; GRADIENT_BYTES];
    put(&mut bytes, 0, gradient.stops.len() as i64);
    put(&mut bytes, 8, i64::from(gradient.repeating));
    put_shape(&mut bytes, &gradient.shape);
    for (k, stop) in gradient.stops.iter().enumerate() {
        let at = 64 + 16 * k;
        bytes[at..at + 4].copy_from_slice(&stop.color);
        if let Some(amount) = stop.position {
            put_amount(&mut bytes, at + 4, amount);
        }
    }
    bytes
}

fn get_stop(bytes: &[u8], at: usize) -> Stop {
    let color = [bytes[at], bytes[at + 1], bytes[at + 2], bytes[at + 3]];
    let position = (get(bytes, at + 4) != 0).then(|| get_amount(bytes, at + 4));
    Stop { color, position }
}

/// The gradient in a slice handed in, or the reply 4, 5 or 6. The count is not signed.
pub fn take_gradient(bytes: &[u8]) -> Result<Gradient, u32> {
    if bytes.len() != GRADIENT_BYTES {
        return Err(4);
    }
    let count = get(bytes, 0) as u32 as usize;
    let held = count.min(MOST_STOPS);
    let stops = (0..held).map(|k| get_stop(bytes, 64 + 16 * k)).collect();
    let gradient = Gradient { repeating: get(bytes, 8) != 0, shape: get_shape(bytes), stops };
    if count < 2 || gradient_bytes(&gradient)[4..] != bytes[4..] {
        return Err(4);
    }
    judge_ranges(&gradient)?;
    if count > MOST_STOPS {
        return Err(6);
    }
    Ok(gradient)
}

/// For at most 16 stops.
pub fn stops_bytes(stops: &[Placed]) -> Vec<u8> {
    let mut bytes = vec![0; STOPS_BYTES];
    bytes[0] = stops.len() as u8;
    for (k, stop) in stops.iter().enumerate() {
        let at = 4 + 8 * k;
        bytes[at..at + 4].copy_from_slice(&stop.color);
        put(&mut bytes, at + 4, stop.at);
    }
    bytes
}

/// The stops in a slice handed in, or the reply 4, 5 or 6.
pub fn take_stops(bytes: &[u8]) -> Result<Vec<Placed>, u32> {
    if bytes.len() != STOPS_BYTES {
        return Err(4);
    }
    let count = usize::from(bytes[0]);
    let places = bytes[4..].chunks(8).take(count);
    let stops: Vec<Placed> = places
        .map(|place| Placed { color: [place[0], place[1], place[2], place[3]], at: i64::from(get(place, 4)) })
        .collect();
    let falls = stops.windows(2).any(|pair| pair[1].at < pair[0].at);
    if count < 2 || falls || stops_bytes(&stops)[1..] != bytes[1..] {
        return Err(4);
    }
    if stops.iter().any(|stop| stop.at.abs() > FURTHEST) {
        return Err(5);
    }
    if count > MOST_STOPS {
        return Err(6);
    }
    Ok(stops)
}
