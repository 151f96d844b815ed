//! Units of 1/64 px: lengths, roots, the gradient line and the locations of pixels.

use crate::gradient::{Amount, Direction, Shape, Size, QUARTER_DEGREE};
use crate::sines::sine;

pub const LONGEST_SIDE: usize = 2048;

/// The whole number nearest to n / d, the greater one where two are.
pub fn nearest(n: i64, d: i64) -> i64 {
    let below = n.div_euclid(d);
    let (to_below, to_above) = (n - below * d, (below + 1) * d - n);
    if to_below < to_above {
        below
    } else {
        below + 1
    }
}

/// A length or a percentage in units, as a fraction.
pub fn exact(amount: Amount, whole: i64) -> (i64, i64) {
    match amount {
        Amount::Length(v) => (v * 64, 1000),
        Amount::Percentage(v) => (v * whole, 100_000),
    }
}

pub fn units(amount: Amount, whole: i64) -> i64 {
    let (n, d) = exact(amount, whole);
    nearest(n, d)
}

/// The greatest q with q*q*n at most square. The guess may be off: whole numbers decide.
pub fn root(square: u128, n: u128) -> i64 {
    let mut q = (square as f64 / n as f64).sqrt() as u128;
    while q * q * n > square {
        q -= 1;
    }
    while (q + 1) * (q + 1) * n <= square {
        q += 1;
    }
    q as i64
}

/// Where pixels lie: along a vector, or around a center given in units.
#[derive(Clone, Copy, Debug)]
pub enum Rule {
    Line { x: i64, y: i64 },
    Circle { x: i64, y: i64 },
}

#[derive(Clone, Copy, Debug)]
pub struct Grid {
    pub rule: Rule,
    pub width: i64,
    pub height: i64,
}

fn vector(direction: Direction, width: i64, height: i64) -> (i64, i64) {
    match direction {
        Direction::Toward(x, 0) => (x, 0),
        Direction::Toward(0, y) => (0, y),
        Direction::Toward(x, y) => (x * height, y * width),
        Direction::Angle(v) => {
            let quarters = v / QUARTER_DEGREE;
            (sine(quarters), -sine(quarters + 360))
        }
    }
}

impl Grid {
    pub fn new(shape: &Shape, area: (usize, usize)) -> Grid {
        let (width, height) = (area.0 as i64, area.1 as i64);
        let rule = match *shape {
            Shape::Linear(direction) => {
                let (x, y) = vector(direction, width, height);
                Rule::Line { x, y }
            }
            Shape::Circle { x, y, .. } => Rule::Circle { x: units(x, 64 * width), y: units(y, 64 * height) },
        };
        Grid { rule, width, height }
    }

    /// The box as seen along the vector: W|x| + H|y|.
    fn span(&self, x: i64, y: i64) -> i64 {
        self.width * x.abs() + self.height * y.abs()
    }

    pub fn line_length(&self, shape: &Shape) -> i64 {
        match (self.rule, *shape) {
            (Rule::Line { x, y }, _) => root_of_line(64 * self.span(x, y), x, y),
            (Rule::Circle { .. }, Shape::Circle { size: Size::Length(v), .. }) => units(Amount::Length(v), 0),
            (Rule::Circle { x, y }, Shape::Circle { size: Size::Extent { farthest, corner }, .. }) => {
                let across = [x.abs(), (64 * self.width - x).abs()];
                let down = [y.abs(), (64 * self.height - y).abs()];
                extent(across, down, farthest, corner)
            }
            _ => unreachable!("a circle's rule comes from a circle"),
        }
    }

    pub fn location(&self, i: i64, j: i64) -> i64 {
        match self.rule {
            Rule::Line { x, y } => {
                let along = (2 * i + 1 - self.width) * x + (2 * j + 1 - self.height) * y + self.span(x, y);
                root_of_line(32 * along, x, y)
            }
            Rule::Circle { x, y } => {
                let (dx, dy) = (64 * i + 32 - x, 64 * j + 32 - y);
                root((dx * dx + dy * dy) as u128, 1)
            }
        }
    }
}

fn root_of_line(value: i64, x: i64, y: i64) -> i64 {
    let value = i128::from(value);
    root((value * value) as u128, (x * x + y * y) as u128)
}

/// A corner's squared distance is a sum of one square across and one down.
fn extent(across: [i64; 2], down: [i64; 2], farthest: bool, corner: bool) -> i64 {
    let mut distances: Vec<i64> = if corner {
        across.iter().flat_map(|a| down.iter().map(move |d| a * a + d * d)).collect()
    } else {
        across.iter().chain(down.iter()).copied().collect()
    };
    distances.sort_unstable();
    let chosen = if farthest { distances[distances.len() - 1] } else { distances[0] };
    if corner {
        root(chosen as u128, 1)
    } else {
        chosen
    }
}
