//! Texts made from the grammar.

use crate::chance::Chance;
use crate::gradient::LENGTH_LIMIT;
use crate::layouts::ends;
use crate::spelling::Spelling;

const SIDES: [&str; 4] = ["left", "right", "top", "bottom"];
const ACROSS: [&str; 3] = ["left", "center", "right"];
const DOWN: [&str; 3] = ["top", "center", "bottom"];
const EXTENTS: [&str; 4] = ["closest-side", "closest-corner", "farthest-side", "farthest-corner"];

/// A text that keeps to the grammar; some have a number out of its range or too many stops.
pub fn grammatical(chance: &mut Chance) -> Vec<u8> {
    let mut text = Spelling::new(chance);
    text.maybe_white();
    let repeating = text.chance.one_in(2);
    if repeating {
        text.word("repeating-");
    }
    if text.chance.one_in(2) {
        text.word("linear-gradient");
        open(&mut text);
        if !text.chance.one_in(4) {
            direction(&mut text);
            comma(&mut text);
        }
    } else {
        text.word("radial-gradient");
        open(&mut text);
        circle(&mut text);
        comma(&mut text);
    }
    match repeating && !text.chance.one_in(3) {
        true => periodic_stops(&mut text),
        false => stops(&mut text),
    }
    text.maybe_white();
    text.raw(")");
    text.maybe_white();
    text.out
}

fn open(text: &mut Spelling) {
    text.raw("(");
    text.maybe_white();
}

fn comma(text: &mut Spelling) {
    text.maybe_white();
    text.raw(",");
    text.maybe_white();
}

fn words(text: &mut Spelling, list: &[&str]) {
    for (k, word) in list.iter().enumerate() {
        if k > 0 {
            text.gap();
        }
        text.word(word);
    }
}

fn direction(text: &mut Spelling) {
    match text.chance.below(5) {
        0 => {
            let side = *text.chance.pick(&SIDES);
            words(text, &["to", side]);
        }
        1 => {
            let (across, down) = (*text.chance.pick(&SIDES[..2]), *text.chance.pick(&SIDES[2..]));
            match text.chance.one_in(2) {
                true => words(text, &["to", across, down]),
                false => words(text, &["to", down, across]),
            }
        }
        _ => text.angle(),
    }
}

fn circle(text: &mut Spelling) {
    let extent = *text.chance.pick(&EXTENTS);
    match text.chance.below(6) {
        0 => text.word("circle"),
        1 => words(text, &["circle", extent]),
        2 => words(text, &[extent, "circle"]),
        3 => {
            text.word("circle");
            text.gap();
            text.radius();
        }
        4 => {
            text.radius();
            text.gap();
            text.word("circle");
        }
        _ => text.radius(),
    }
    if !text.chance.one_in(3) {
        text.gap();
        text.word("at");
        text.gap();
        position(text);
    }
}

fn position(text: &mut Spelling) {
    let across = *text.chance.pick(&ACROSS);
    let down = *text.chance.pick(&DOWN);
    match text.chance.below(8) {
        0 => text.word(across),
        1 => text.word(down),
        2 => text.amount(),
        3 => words(text, &[across, down]),
        4 => words(text, &[down, across]),
        5 => {
            text.word(across);
            text.gap();
            text.amount();
        }
        6 => {
            text.amount();
            text.gap();
            text.word(down);
        }
        _ => {
            text.amount();
            text.gap();
            text.amount();
        }
    }
}

fn how_many(chance: &mut Chance) -> usize {
    match chance.below(40) {
        0 => 16,
        1 => 17,
        2 => 18,
        3 => 3 + chance.below(38),
        4..=9 => 6 + chance.below(11),
        _ => 2 + chance.below(4),
    }
}

fn stops(text: &mut Spelling) {
    let count = how_many(text.chance);
    for k in 0..count {
        if k > 0 {
            comma(text);
        }
        text.color();
        if text.chance.one_in(2) {
            text.gap();
            text.amount();
        }
    }
}

/// Stops from one length to another: a period of some size.
fn periodic_stops(text: &mut Spelling) {
    let count = how_many(text.chance);
    let (first, last) = ends(text.chance, 1000, LENGTH_LIMIT);
    for k in 0..count {
        if k > 0 {
            comma(text);
        }
        text.color();
        let at = match k {
            0 => first,
            _ if k + 1 == count => last,
            _ if text.chance.one_in(2) => continue,
            _ => text.chance.between(first, last),
        };
        text.gap();
        text.number(at, "px");
    }
}
