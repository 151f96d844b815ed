//! A gradient as its text says it, and whether its numbers are within their ranges.

/// Red, green, blue, alpha; not premultiplied.
pub type Color = [u8; 4];

/// Thousandths of a px, or of a percent.
#[derive(Clone, Copy, PartialEq, Debug)]
pub enum Amount {
    Length(i64),
    Percentage(i64),
}

#[derive(Clone, Copy, PartialEq, Debug)]
pub struct Stop {
    pub color: Color,
    pub position: Option<Amount>,
}

#[derive(Clone, Copy, PartialEq, Debug)]
pub enum Direction {
    /// Signs toward a side or corner: right and bottom are 1, left and top -1.
    Toward(i64, i64),
    /// Thousandths of a degree.
    Angle(i64),
}

#[derive(Clone, Copy, PartialEq, Debug)]
pub enum Size {
    Extent { farthest: bool, corner: bool },
    Length(i64),
}

#[derive(Clone, Copy, PartialEq, Debug)]
pub enum Shape {
    Linear(Direction),
    Circle { size: Size, x: Amount, y: Amount },
}

#[derive(Clone, PartialEq, Debug)]
pub struct Gradient {
    pub repeating: bool,
    pub shape: Shape,
    pub stops: Vec<Stop>,
}

pub const MOST_STOPS: usize = 16;
pub const LENGTH_LIMIT: i64 = 8_192_000;
pub const PERCENTAGE_LIMIT: i64 = 1_000_000;
pub const ANGLE_LIMIT: i64 = 3_600_000;
pub const QUARTER_DEGREE: i64 = 250;

fn amount_fits(amount: Amount) -> bool {
    match amount {
        Amount::Length(v) => v.abs() <= LENGTH_LIMIT,
        Amount::Percentage(v) => v.abs() <= PERCENTAGE_LIMIT,
    }
}

fn shape_fits(shape: &Shape) -> bool {
    match *shape {
        Shape::Linear(Direction::Toward(..)) => true,
        Shape::Linear(Direction::Angle(v)) => v.abs() <= ANGLE_LIMIT && v % QUARTER_DEGREE == 0,
        Shape::Circle { size, x, y } => {
            let size_fits = match size {
                Size::Extent { .. } => true,
                Size::Length(v) => (0..=LENGTH_LIMIT).contains(&v),
            };
            size_fits && amount_fits(x) && amount_fits(y)
        }
    }
}

/// Reply 5 for a number out of its range.
pub fn judge_ranges(gradient: &Gradient) -> Result<(), u32> {
    let stops_fit = gradient.stops.iter().filter_map(|stop| stop.position).all(amount_fits);
    if shape_fits(&gradient.shape) && stops_fit {
        Ok(())
    } else {
        Err(5)
    }
}
