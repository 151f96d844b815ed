//! What the strips of a run have reached, and what they must reach, for each of the two exports that draw them.

use std::collections::BTreeMap;

use crate::expected::room;
use crate::library::{Call, Export};

/// Of several refusals that apply, the first in this order is given.
pub const ORDER: [u32; 7] = [1, 8, 2, 3, 4, 5, 6];

const DRAWERS: [Export; 2] = [Export::DrawRows, Export::DrawGradientRows];

const CLAUSES: [&str; 31] = [
    "drawn: one row", "drawn: all rows of several", "drawn: the first row of several",
    "drawn: the last row of several",
    "drawn: rows up to the last, not the first", "drawn: rows with others above and below",
    "drawn: right after a refusal", "drawn: fewer bytes lent than the picture has",
    "drawn: as many bytes lent as the strip has", "drawn: more bytes lent than the strip has",
    "drawn: up to four rows of a million pixels", "a byte too little lent",
    "rows refused: 0 up to 0", "rows refused: first is end, in the picture",
    "rows refused: first and end are the height", "rows refused: first above end, in the picture",
    "rows refused: end one above the height", "rows refused: one row, at the height",
    "rows refused: first is the greatest number", "rows refused: end is the greatest number",
    "rows refused: as many bytes lent as they have", "rows refused: 4 * width * rows is 2 to the 64 or more",
    "cut: no cut", "cut: two strips", "cut: strips of one row each", "cut: strips of 64 rows",
    REFUSED[0], REFUSED[1], REFUSED[2], REFUSED[3], "cut: 2,048 rows",
];

/// For the replies 3 to 6.
const REFUSED: [&str; 4] = [
    "cut: a picture refused with 3", "cut: a picture refused with 4", "cut: a picture refused with 5",
    "cut: a picture refused with 6",
];

#[derive(Default)]
struct Count {
    clauses: BTreeMap<&'static str, u64>,
    /// The reply that was given, and another refusal that applied too.
    pairs: BTreeMap<(u32, u32), u64>,
    refused_last: bool,
}

pub struct StripCounts {
    counts: [Count; 2],
}

fn may_refuse(export: Export, reply: u32) -> bool {
    reply != 3 || export.takes_text()
}

fn pairs_of(export: Export) -> Vec<(u32, u32)> {
    let order: Vec<u32> = ORDER.into_iter().filter(|reply| may_refuse(export, *reply)).collect();
    let after = |k: usize| order[k + 1..].iter();
    let pairs = order.iter().enumerate().flat_map(|(k, given)| after(k).map(move |other| (*given, *other)));
    pairs.collect()
}

fn clauses_of(export: Export) -> impl Iterator<Item = &'static str> {
    CLAUSES.into_iter().filter(move |name| *name != REFUSED[0] || may_refuse(export, 3))
}

fn drawn_clauses(call: &Call) -> Vec<(&'static str, bool)> {
    let ((_, height), (first, end)) = (call.area, call.rows);
    vec![
        ("drawn: one row", end - first == 1),
        ("drawn: all rows of several", height > 1 && end - first == height),
        ("drawn: the first row of several", height > 1 && (first, end) == (0, 1)),
        ("drawn: the last row of several", height > 1 && (first + 1, end) == (height, height)),
        ("drawn: rows up to the last, not the first", first > 0 && end == height),
        ("drawn: rows with others above and below", first > 0 && end < height),
        ("drawn: up to four rows of a million pixels", end - first <= 4 && call.area.0 * height >= 1 << 20),
        ("drawn: fewer bytes lent than the picture has", call.lent < 4 * call.area.0 * height),
        ("drawn: as many bytes lent as the strip has", call.lent == room(call)),
        ("drawn: more bytes lent than the strip has", call.lent > room(call)),
    ]
}

fn refused_clauses(call: &Call) -> Vec<(&'static str, bool)> {
    let ((width, height), (first, end)) = (call.area, call.rows);
    let size = 4 * width as u128 * end.saturating_sub(first) as u128;
    vec![
        ("rows refused: 0 up to 0", (first, end) == (0, 0)),
        ("rows refused: first is end, in the picture", first == end && 0 < end && end < height),
        ("rows refused: first and end are the height", (first, end) == (height, height)),
        ("rows refused: first above end, in the picture", first > end && first < height),
        ("rows refused: end one above the height", first < height && end == height + 1),
        ("rows refused: one row, at the height", (first, end) == (height, height + 1)),
        ("rows refused: first is the greatest number", first == usize::MAX),
        ("rows refused: end is the greatest number", end == usize::MAX),
        ("rows refused: as many bytes lent as they have", size > 0 && size == call.lent as u128),
        ("rows refused: 4 * width * rows is 2 to the 64 or more", size >> 64 != 0),
    ]
}

impl StripCounts {
    pub fn new() -> StripCounts {
        StripCounts { counts: DRAWERS.map(|_| Count::default()) }
    }

    fn of(&mut self, export: Export) -> &mut Count {
        &mut self.counts[usize::from(export == Export::DrawGradientRows)]
    }

    fn clause(&mut self, export: Export, name: &'static str) {
        assert!(CLAUSES.contains(&name), "a clause of the list");
        *self.of(export).clauses.entry(name).or_default() += 1;
    }

    pub fn call(&mut self, call: &Call, reply: u32) {
        let mut clauses = match reply {
            0 => drawn_clauses(call),
            2 => vec![("a byte too little lent", call.lent + 1 == room(call))],
            8 => refused_clauses(call),
            _ => Vec::new(),
        };
        let refused_last = std::mem::replace(&mut self.of(call.export).refused_last, reply != 0);
        clauses.push(("drawn: right after a refusal", refused_last && reply == 0));
        for (name, _) in clauses.into_iter().filter(|(_, holds)| *holds) {
            self.clause(call.export, name);
        }
    }

    /// A reply was given where these refusals apply.
    pub fn refusals(&mut self, export: Export, given: u32, all: &[u32]) {
        for other in all.iter().filter(|other| **other != given) {
            *self.of(export).pairs.entry((given, *other)).or_default() += 1;
        }
    }

    /// A picture was drawn, or refused, in the strips between these cuts.
    pub fn cut(&mut self, export: Export, cuts: &[usize], reply: u32) {
        let height = cuts[cuts.len() - 1];
        let every = |rows: usize| cuts.windows(2).all(|pair| pair[1] == height.min(pair[0] + rows));
        let each = |rows: usize| height > rows && every(rows);
        let clauses = [
            ("cut: no cut", cuts.len() == 2),
            ("cut: two strips", cuts.len() == 3),
            ("cut: strips of one row each", each(1)),
            ("cut: strips of 64 rows", each(64)),
            ("cut: 2,048 rows", height == 2048),
        ];
        for (name, _) in clauses.into_iter().filter(|(_, holds)| *holds && reply == 0) {
            self.clause(export, name);
        }
        if let Some(name) = reply.checked_sub(3).and_then(|k| REFUSED.get(k as usize)) {
            self.clause(export, name);
        }
    }

    pub fn print(&self) {
        println!("strips of texts and of gradients, by clause:");
        for name in CLAUSES {
            let row = self.counts.each_ref().map(|count| count.clauses.get(name).copied().unwrap_or(0));
            println!("  {:<54}{:>9}{:>9}", name, row[0], row[1]);
        }
        for (export, count) in DRAWERS.iter().zip(&self.counts) {
            println!("{}, the reply that was given, and calls by another that applied too:", export.name());
            for given in ORDER.into_iter().filter(|given| count.pairs.keys().any(|(first, _)| first == given)) {
                let others = count.pairs.iter().filter(|((first, _), _)| *first == given);
                println!("  {given}:{}", others.map(|((_, other), n)| format!("  {other} {n}")).collect::<String>());
            }
        }
    }

    pub fn missing(&self) -> Vec<String> {
        let mut list = Vec::new();
        for (export, count) in DRAWERS.into_iter().zip(&self.counts) {
            let clauses = clauses_of(export).filter(|name| !count.clauses.contains_key(name));
            list.extend(clauses.map(|name| format!("{}, {name}", export.name())));
            let pairs = pairs_of(export).into_iter().filter(|pair| !count.pairs.contains_key(pair));
            list.extend(pairs.map(|(given, other)| format!("{}, {given} where {other} applies too", export.name())));
        }
        list
    }
}
