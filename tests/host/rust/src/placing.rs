//! Stops with a place on the gradient line.

use std::cmp::Ordering;

use crate::gradient::{Color, Gradient};
use crate::grid::{exact, nearest, units, Grid};

#[derive(Clone, Copy, PartialEq, Debug)]
pub struct Placed {
    pub color: Color,
    /// In units from the start of the line.
    pub at: i64,
}

/// The stops that have a place before the others are spaced, none below an earlier one.
fn known(gradient: &Gradient, length: i64) -> Vec<Option<i64>> {
    let mut known: Vec<Option<i64>> =
        gradient.stops.iter().map(|stop| stop.position.map(|amount| units(amount, length))).collect();
    let last = known.len() - 1;
    known[0].get_or_insert(0);
    known[last].get_or_insert(length);
    raise(&mut known);
    known
}

pub fn place(gradient: &Gradient, area: (usize, usize)) -> Vec<Placed> {
    let length = Grid::new(&gradient.shape, area).line_length(&gradient.shape);
    let known = known(gradient, length);
    (0..known.len()).map(|k| Placed { color: gradient.stops[k].color, at: spaced(&known, k) }).collect()
}

fn raise(known: &mut [Option<i64>]) {
    let mut greatest = i64::MIN;
    for at in known.iter_mut().flatten() {
        greatest = greatest.max(*at);
        *at = greatest;
    }
}

/// A stop's own place, or its share of the way between its placed neighbors.
fn spaced(known: &[Option<i64>], k: usize) -> i64 {
    known[k].unwrap_or_else(|| {
        let (a, n, d) = share(known, k);
        a + nearest(n, d)
    })
}

/// The placed stop before an unplaced one, and how far from it the unplaced one is, as a fraction.
fn share(known: &[Option<i64>], k: usize) -> (i64, i64, i64) {
    let before = (0..k).rev().find(|i| known[*i].is_some()).expect("the first stop is placed");
    let after = (k..known.len()).find(|i| known[*i].is_some()).expect("the last stop is placed");
    let (a, b) = (known[before].unwrap_or(0), known[after].unwrap_or(0));
    (a, (b - a) * (k - before) as i64, (after - before) as i64)
}

/// The ways in which positions and spacings are rounded, for the counts.
pub fn roundings(gradient: &Gradient, area: (usize, usize)) -> Vec<&'static str> {
    let length = Grid::new(&gradient.shape, area).line_length(&gradient.shape);
    let known = known(gradient, length);
    let positions = gradient.stops.iter().filter_map(|stop| stop.position).map(|amount| exact(amount, length));
    let positions = positions.filter_map(|(n, d)| match (way(n, d)?, n < 0) {
        (Ordering::Less, _) => Some("position taken down"),
        (Ordering::Greater, _) => Some("position taken up"),
        (Ordering::Equal, false) => Some("position at half a unit, above 0"),
        (Ordering::Equal, true) => Some("position at half a unit, below 0"),
    });
    let unplaced = (0..known.len()).filter(|k| known[*k].is_none()).map(|k| share(&known, k));
    let spacings = unplaced.filter_map(|(_, n, d)| match way(n, d)? {
        Ordering::Less => Some("spacing taken down"),
        Ordering::Greater => Some("spacing taken up"),
        Ordering::Equal => Some("spacing at half a unit"),
    });
    positions.chain(spacings).collect()
}

/// What is left of n / d after its whole part, beside a half; nothing for a whole number.
fn way(n: i64, d: i64) -> Option<Ordering> {
    match n.rem_euclid(d) {
        0 => None,
        left => Some((2 * left).cmp(&d)),
    }
}
