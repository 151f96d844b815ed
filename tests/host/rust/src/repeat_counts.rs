//! What the repeating gradients of a run have reached, and what they must reach, for each export that draws.

use std::collections::BTreeMap;

use crate::gradient::{Gradient, Shape, MOST_STOPS};
use crate::grid::{Grid, Rule};
use crate::layout::{take_gradient, take_stops};
use crate::library::{Call, Export};
use crate::pixels::average;
use crate::placing::{place, Placed};
use crate::reading::read;

const DRAWERS: [Export; 6] = [
    Export::Draw,
    Export::DrawGradient,
    Export::DrawRows,
    Export::DrawGradientRows,
    Export::DrawStops,
    Export::Png,
];

const CLAUSES: [&str; 26] = [
    "repeated line", "repeated circle", "repeated, 10,000 pixels or more",
    "period of 1 unit", "period of 2 to 63 units", "period of 1 px", "period of 40 px",
    "period longer than the picture", "three periods of 1 px or more",
    "first stop below 0", "pixel before the first stop", "pixel at or past the last stop",
    "all stops past the picture", "all stops before the picture",
    "pixel where the last stop meets the first", "pixel one unit before that",
    "stops in one place within a period", "alpha below 255, repeated", "2 stops, repeated", "16 stops, repeated",
    "line of one color", "circle of one color", "alpha below 255, one color", "half a level, one color",
    "2 stops, one color", "16 stops, one color",
];

pub struct RepeatCounts {
    counts: BTreeMap<(&'static str, &'static str), u64>,
}

/// What an accepted call draws: the gradient, and the stops in their places.
fn drawn(call: &Call) -> Option<(Gradient, Vec<Placed>)> {
    let gradient = match call.export.takes_text() {
        true => read(call.first).ok()?.gradient,
        false => take_gradient(call.first).ok()?,
    };
    let stops = match call.export {
        Export::DrawStops => take_stops(call.second).ok()?,
        _ => place(&gradient, call.area),
    };
    Some((gradient, stops))
}

/// Locations of pixels that are drawn, the least and the greatest among them: those of the corners and, in a circle, of
/// the pixel nearest to the center.
fn locations(gradient: &Gradient, call: &Call) -> Vec<i64> {
    let grid = Grid::new(&gradient.shape, call.area);
    let (first, last) = (call.rows.0 as i64, call.rows.1 as i64 - 1);
    let right = grid.width - 1;
    let mut pixels = vec![(0, first), (0, last), (right, first), (right, last)];
    if let Rule::Circle { x, y } = grid.rule {
        pixels.push((x.div_euclid(64).clamp(0, right), y.div_euclid(64).clamp(first, last)));
    }
    pixels.into_iter().map(|(i, j)| grid.location(i, j)).collect()
}

fn repeated(gradient: &Gradient, stops: &[Placed], call: &Call) -> Vec<(&'static str, bool)> {
    let (first, last) = (stops[0].at, stops[stops.len() - 1].at);
    let period = last - first;
    let seen = locations(gradient, call);
    let least = seen.iter().copied().fold(i64::MAX, i64::min);
    let greatest = seen.iter().copied().fold(0, i64::max);
    let copy = |s: i64| (s - first).div_euclid(period);
    let within = |s: &i64| (s - first).rem_euclid(period);
    let line = matches!(gradient.shape, Shape::Linear(_));
    vec![
        ("repeated line", line),
        ("repeated circle", !line),
        ("repeated, 10,000 pixels or more", call.area.0 * (call.rows.1 - call.rows.0) >= 10_000),
        ("period of 1 unit", period == 1),
        ("period of 2 to 63 units", (2..64).contains(&period)),
        ("period of 1 px", period == 64),
        ("period of 40 px", period == 40 * 64),
        ("period longer than the picture", period > greatest - least),
        ("three periods of 1 px or more", period >= 64 && copy(greatest) - copy(least) >= 2),
        ("first stop below 0", first < 0),
        ("pixel before the first stop", least < first),
        ("pixel at or past the last stop", greatest >= last),
        ("all stops past the picture", first > greatest),
        ("all stops before the picture", last <= least),
        ("pixel where the last stop meets the first", period > 1 && seen.iter().any(|s| within(s) == 0)),
        ("pixel one unit before that", period > 1 && seen.iter().any(|s| within(s) == period - 1)),
        ("stops in one place within a period", stops.windows(2).any(|pair| pair[0].at == pair[1].at)),
        ("alpha below 255, repeated", stops.iter().any(|stop| stop.color[3] < 255)),
        ("2 stops, repeated", stops.len() == 2),
        ("16 stops, repeated", stops.len() == MOST_STOPS),
    ]
}

fn one_color(gradient: &Gradient, stops: &[Placed]) -> Vec<(&'static str, bool)> {
    let line = matches!(gradient.shape, Shape::Linear(_));
    let (sum, bottom) = average(stops);
    vec![
        ("line of one color", line),
        ("circle of one color", !line),
        ("alpha below 255, one color", stops.iter().any(|stop| stop.color[3] < 255)),
        ("half a level, one color", sum.iter().any(|top| 2 * (top % bottom) == bottom)),
        ("2 stops, one color", stops.len() == 2),
        ("16 stops, one color", stops.len() == MOST_STOPS),
    ]
}

impl RepeatCounts {
    pub fn new() -> RepeatCounts {
        let names = DRAWERS.iter().flat_map(|export| CLAUSES.map(|clause| ((export.name(), clause), 0)));
        RepeatCounts { counts: names.collect() }
    }

    /// A call that drew.
    pub fn call(&mut self, call: &Call) {
        let Some((gradient, stops)) = drawn(call).filter(|(gradient, _)| gradient.repeating) else {
            return;
        };
        let clauses = match stops[0].at == stops[stops.len() - 1].at {
            true => one_color(&gradient, &stops),
            false => repeated(&gradient, &stops, call),
        };
        for (name, _) in clauses.into_iter().filter(|(_, holds)| *holds) {
            *self.counts.get_mut(&(call.export.name(), name)).expect("a clause of the list") += 1;
        }
    }

    pub fn print(&self) {
        println!("pictures of repeating gradients, by clause and export:");
        let titles = DRAWERS.map(|export| format!("{:>20}", export.name().trim_start_matches("avarezhu_")));
        println!("  {:<44}{}", "", titles.concat());
        for name in CLAUSES {
            let row = DRAWERS.map(|export| format!("{:>20}", self.counts[&(export.name(), name)]));
            println!("  {:<44}{}", name, row.concat());
        }
    }

    pub fn missing(&self) -> Vec<String> {
        let none = self.counts.iter().filter(|(_, count)| **count == 0);
        none.map(|((export, clause), _)| format!("{export}, {clause}")).collect()
    }
}
