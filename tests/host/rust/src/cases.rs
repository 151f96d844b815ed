//! The calls made for one text: from the text, from the gradient and the stops that it gives,
//! and from layouts that are changed or made up.

use crate::chance::Chance;
use crate::compare::Compare;
use crate::expected::{answer, box_fits, file, needed, Answer};
use crate::gradient::Gradient;
use crate::layout::{gradient_bytes, stops_bytes, take_gradient, take_stops};
use crate::layouts::{damage_gradient, damage_stops, fill_places, random_gradient, random_stops};
use crate::library::{Call, Export};
use crate::placing::roundings;
use crate::png::shows_gray;
use crate::reading::{read, LONGEST_TEXT};

pub type Area = (usize, usize);

const ODD_SIDES: [usize; 8] = [0, 2049, 2050, 65_536 + 4, (1 << 32) + 4, (1 << 62) + 1, 1 << 63, usize::MAX];
/// Pictures of more pixels are drawn fewer times for one text.
const FEW_PIXELS: usize = 1000;

/// Mostly small boxes; some long, some middling, some refused.
pub fn some_box(chance: &mut Chance) -> Area {
    let (width, height) = (1 + chance.below(24), 1 + chance.below(24));
    match chance.below(200) {
        0 | 1 => (2048, 1),
        2 | 3 => (1, 2048),
        4 => (2046 + chance.below(3), 1 + chance.below(2)),
        5 if chance.one_in(2) => (25 + chance.below(120), 25 + chance.below(120)),
        6..=8 => (*chance.pick(&ODD_SIDES), height),
        9..=11 => (width, *chance.pick(&ODD_SIDES)),
        12 => (*chance.pick(&ODD_SIDES), *chance.pick(&ODD_SIDES)),
        13..=80 => (1 + chance.below(6), 1 + chance.below(6)),
        _ => (width, height),
    }
}

/// Lengths of a lent slice: exact, longer, shorter, empty.
fn lengths(chance: &mut Chance, need: usize) -> [usize; 4] {
    let shorter = if chance.one_in(2) { need - 1 } else { chance.below(need) };
    [need, need + 1 + chance.below(70), shorter, 0]
}

fn need_in(chance: &mut Chance, export: Export, area: Area) -> usize {
    if export.draws() && !box_fits(area) {
        1 + chance.below(300)
    } else {
        needed(export, area)
    }
}

struct Handed<'a> {
    first: &'a [u8],
    second: &'a [u8],
    area: Area,
}

/// One call for each length; a large picture is drawn whole only once.
fn each_length(
    compare: &mut Compare, chance: &mut Chance, export: Export, handed: &Handed, answer: &Answer,
) -> Result<(), String> {
    let need = need_in(chance, export, handed.area);
    for (k, lent) in lengths(chance, need).into_iter().enumerate() {
        if k == 1 && need > 4 * FEW_PIXELS {
            continue;
        }
        let Handed { first, second, area } = *handed;
        compare.check(&Call { export, first, second, area, rows: (0, area.1), lent }, answer)?;
    }
    Ok(())
}

/// One call with an exact, longer, shorter or empty lent slice, mostly exact.
fn one_length(
    compare: &mut Compare, chance: &mut Chance, export: Export, handed: &Handed, answer: &Answer,
) -> Result<(), String> {
    let need = need_in(chance, export, handed.area);
    let choice = chance.below(16);
    let lent = lengths(chance, need)[choice.saturating_sub(12)];
    let Handed { first, second, area } = *handed;
    compare.check(&Call { export, first, second, area, rows: (0, area.1), lent }, answer)
}

fn judged(compare: &mut Compare, chance: &mut Chance, export: Export, handed: &Handed) -> Result<(), String> {
    let right = answer(export, handed.first, handed.second, handed.area);
    one_length(compare, chance, export, handed, &right)
}

fn note(compare: &mut Compare, text: &[u8]) -> Option<Gradient> {
    compare.counts.text(text);
    let reading = read(text).ok()?;
    if text.len() == LONGEST_TEXT {
        compare.counts.clause("text of 1,024 bytes");
    }
    for clause in reading.clauses {
        compare.counts.clause(clause);
    }
    Some(reading.gradient)
}

/// Everything for one text in one box.
pub fn text_case(compare: &mut Compare, chance: &mut Chance, text: &[u8], area: Area) -> Result<(), String> {
    let gradient = note(compare, text);
    let handed = Handed { first: text, second: &[], area };
    let mut answers = Vec::new();
    for export in [Export::Read, Export::Place, Export::Draw] {
        let right = answer(export, text, &[], area);
        each_length(compare, chance, export, &handed, &right)?;
        answers.push(right);
    }
    each_length(compare, chance, Export::Png, &handed, &file(&answers[2], area))?;
    if answers[2].as_ref().is_ok_and(|pixels| shows_gray(pixels, area)) {
        compare.counts.clause("file through which a gray square shows");
    }
    if let Some(gradient) = gradient {
        if box_fits(area) {
            roundings(&gradient, area).into_iter().for_each(|way| compare.counts.clause(way));
        }
        handed_on(compare, chance, &gradient, area, &answers)?;
    }
    Ok(())
}

/// The gradient and stops that a text gave, handed in again, must give the same; then changed ones.
fn handed_on(
    compare: &mut Compare, chance: &mut Chance, gradient: &Gradient, area: Area, answers: &[Answer],
) -> Result<(), String> {
    let bytes = gradient_bytes(gradient);
    assert_eq!(take_gradient(&bytes).as_ref(), Ok(gradient), "the model takes its own gradient");
    let handed = Handed { first: &bytes, second: &[], area };
    one_length(compare, chance, Export::PlaceGradient, &handed, &answers[1])?;
    one_length(compare, chance, Export::DrawGradient, &handed, &answers[2])?;
    let stops = match &answers[1] {
        Ok(stops) => stops.clone(),
        Err(_) => stops_bytes(&random_stops(chance)),
    };
    assert!(take_stops(&stops).is_ok(), "the model takes its own stops");
    let handed = Handed { first: &bytes, second: &stops, area };
    one_length(compare, chance, Export::DrawStops, &handed, &answers[2])?;
    let small = if area.0.saturating_mul(area.1) > FEW_PIXELS && box_fits(area) { (5, 4) } else { area };
    changed_layouts(compare, chance, &bytes, &stops, small)?;
    made_layouts(compare, chance, small)
}

fn changed_layouts(
    compare: &mut Compare, chance: &mut Chance, bytes: &[u8], stops: &[u8], area: Area,
) -> Result<(), String> {
    let mut changed = bytes.to_vec();
    damage_gradient(chance, &mut changed);
    let handed = Handed { first: &changed, second: &[], area };
    judged(compare, chance, Export::PlaceGradient, &handed)?;
    judged(compare, chance, Export::DrawGradient, &handed)?;
    let mut changed_stops = stops.to_vec();
    damage_stops(chance, &mut changed_stops);
    let first = if chance.one_in(3) { &changed } else { bytes };
    judged(compare, chance, Export::DrawStops, &Handed { first, second: &changed_stops, area })
}

/// Layouts that come from no text.
fn made_layouts(compare: &mut Compare, chance: &mut Chance, area: Area) -> Result<(), String> {
    if !chance.one_in(3) {
        return Ok(());
    }
    let mut gradient = gradient_bytes(&random_gradient(chance));
    let placed = random_stops(chance);
    let mut stops = stops_bytes(&placed);
    match chance.below(6) {
        0 => damage_gradient(chance, &mut gradient),
        1 => damage_stops(chance, &mut stops),
        2 => {
            stops = stops_bytes(&fill_places(chance, &placed));
            stops[0] = *chance.pick(&[16, 17, 18, 127, 128, 255]);
        }
        _ => {}
    }
    let handed = Handed { first: &gradient, second: &stops, area };
    judged(compare, chance, Export::PlaceGradient, &handed)?;
    judged(compare, chance, Export::DrawGradient, &handed)?;
    judged(compare, chance, Export::DrawStops, &handed)
}

/// Reading alone, for sweeps over many texts.
pub fn read_case(compare: &mut Compare, text: &[u8]) -> Result<(), String> {
    note(compare, text);
    let right = answer(Export::Read, text, &[], (1, 1));
    let call = Call { export: Export::Read, first: text, second: &[], area: (1, 1), rows: (0, 1), lent: 320 };
    compare.check(&call, &right)
}

/// Placing or drawing one text in one box, with a lent slice of the exact size.
pub fn exact_case(compare: &mut Compare, export: Export, text: &[u8], area: Area) -> Result<(), String> {
    let right = answer(export, text, &[], area);
    let call = Call { export, first: text, second: &[], area, rows: (0, area.1), lent: needed(export, area) };
    compare.check(&call, &right)
}
