//! The bytes of a picture.

use crate::gradient::Color;
use crate::grid::Grid;
use crate::placing::Placed;

/// Colors times alpha, and alpha times 255.
fn premultiplied(color: Color) -> [i64; 4] {
    let alpha = i64::from(color[3]);
    [i64::from(color[0]) * alpha, i64::from(color[1]) * alpha, i64::from(color[2]) * alpha, 255 * alpha]
}

/// The nearest whole number to top/bottom, a half going up; neither is below 0.
fn nearest(top: i64, bottom: i64) -> u8 {
    ((2 * top as u64 + bottom as u64) / (2 * bottom as u64)) as u8
}

struct Mark {
    at: i64,
    color: [i64; 4],
}

/// The color at s of marks that are all moved so far along the line.
fn color_at(marks: &[Mark], moved: i64, s: i64) -> [u8; 4] {
    let place = |mark: &Mark| mark.at + moved;
    let passed = marks.iter().filter(|mark| place(mark) <= s).count();
    if passed == 0 || passed == marks.len() {
        let only = &marks[passed.saturating_sub(1)].color;
        return std::array::from_fn(|c| nearest(only[c], 255));
    }
    let (a, b) = (&marks[passed - 1], &marks[passed]);
    let bottom = 255 * (b.at - a.at);
    std::array::from_fn(|c| nearest(a.color[c] * (place(b) - s) + b.color[c] * (s - place(a)), bottom))
}

/// The average of a gradient with these stops equally spaced, as a sum and what it is to be divided by: of each two
/// neighbors both colors count, with half of their share of the line.
pub fn average(stops: &[Placed]) -> ([i64; 4], i64) {
    let mut sum = [0; 4];
    for pair in stops.windows(2) {
        for color in [premultiplied(pair[0].color), premultiplied(pair[1].color)] {
            (0..4).for_each(|c| sum[c] += color[c]);
        }
    }
    (sum, 255 * 2 * (stops.len() as i64 - 1))
}

/// How far the stops of a gradient that repeats are moved to be the one copy that begins at or below s and ends above.
fn copy_around(marks: &[Mark], period: i64, s: i64) -> i64 {
    (s - marks[0].at).div_euclid(period) * period
}

/// The rows from `first` up to `end`, counted from the top. The stops' places never fall, so those passed are the first
/// ones.
pub fn rows_of(grid: &Grid, repeating: bool, stops: &[Placed], (first, end): (usize, usize)) -> Vec<u8> {
    let marks: Vec<Mark> =
        stops.iter().map(|stop| Mark { at: stop.at, color: premultiplied(stop.color) }).collect();
    let period = repeating.then(|| stops[stops.len() - 1].at - stops[0].at);
    if period == Some(0) {
        let (sum, bottom) = average(stops);
        return sum.map(|top| nearest(top, bottom)).repeat(grid.width as usize * (end - first));
    }
    let mut bytes = Vec::with_capacity(4 * grid.width as usize * (end - first));
    for j in first as i64..end as i64 {
        for i in 0..grid.width {
            let s = grid.location(i, j);
            let moved = period.map_or(0, |period| copy_around(&marks, period, s));
            bytes.extend_from_slice(&color_at(&marks, moved, s));
        }
    }
    bytes
}

/// All rows.
pub fn picture(grid: &Grid, repeating: bool, stops: &[Placed]) -> Vec<u8> {
    rows_of(grid, repeating, stops, (0, grid.height as usize))
}
