//! Repeating gradients: the word of the layout that says so, and pictures of some size.

use crate::chance::Chance;
use crate::compare::Compare;
use crate::expected::{answer, needed, settle, strip};
use crate::layout::{gradient_bytes, stops_bytes};
use crate::layouts::{random_gradient, random_stops, FLAGS};
use crate::library::{Call, Export};
use crate::placing::place;
use crate::reading::read;
use crate::texts::grammatical;

const PICTURES: u64 = 500;
const TEXTS: [&str; 3] = [
    "linear-gradient(to right, red, #00f8 3px)",
    "radial-gradient(circle 2px at left, lime -1px, black)",
    "linear-gradient(45deg, #fff 1px, #0008 1px, red 1px)",
];
const TAKERS: [Export; 4] =
    [Export::PlaceGradient, Export::DrawGradient, Export::DrawGradientRows, Export::DrawStops];
const AREA: (usize, usize) = (7, 3);

/// Each word of the list and each bit alone: 0 and 1 are taken, every other word breaks the layout.
pub fn flags(compare: &mut Compare) -> Result<(), String> {
    compare.place.part = "word of repeating, number";
    let bits = (0..32).map(|bit| 1u32 << bit);
    for (k, word) in FLAGS.into_iter().chain(bits).enumerate() {
        compare.place.number = k as u64;
        TEXTS.iter().try_for_each(|text| flag(compare, text, word))?;
    }
    Ok(())
}

fn flag(compare: &mut Compare, text: &str, word: u32) -> Result<(), String> {
    let gradient = read(text.as_bytes()).map_err(|reply| format!("the model refuses {text} with {reply}\n"))?.gradient;
    let mut first = gradient_bytes(&gradient);
    first[8..12].copy_from_slice(&word.to_le_bytes());
    let second = stops_bytes(&place(&gradient, AREA));
    for export in TAKERS {
        let right = match export.draws_rows() {
            true => strip(export, &first, AREA, (0, AREA.1)),
            false => answer(export, &first, &second, AREA),
        };
        let lent = needed(export, AREA) + 5;
        let call = Call { export, first: &first, second: &second, area: AREA, rows: (0, AREA.1), lent };
        if settle(&call, &right).0 != if word > 1 { 4 } else { 0 } {
            return Err(format!("the model takes {word} wrongly for whether a gradient repeats\n"));
        }
        compare.check(&call, &right)?;
    }
    Ok(())
}

/// Whole pictures of up to some hundred pixels a side, or long and thin.
pub fn pictures(compare: &mut Compare) -> Result<(), String> {
    compare.place.part = "repeating picture";
    for case in 1..=PICTURES {
        compare.place.number = case;
        let mut chance = Chance::new(compare.place.seed.wrapping_add(1), case);
        let area = match chance.below(4) {
            0 => (1 + chance.below(2048), 1 + chance.below(24)),
            1 => (1 + chance.below(24), 1 + chance.below(2048)),
            _ => (1 + chance.below(400), 1 + chance.below(300)),
        };
        let text = accepted_text(&mut chance);
        let mut gradient = random_gradient(&mut chance);
        gradient.repeating = true;
        let (bytes, stops) = (gradient_bytes(&gradient), stops_bytes(&random_stops(&mut chance)));
        let drawers = [(Export::Draw, &text), (Export::DrawGradient, &bytes), (Export::DrawStops, &bytes)];
        for (export, first) in drawers {
            let right = answer(export, first, &stops, area);
            let lent = needed(export, area);
            compare.check(&Call { export, first, second: &stops, area, rows: (0, area.1), lent }, &right)?;
        }
    }
    Ok(())
}

/// A text of a repeating gradient that is taken.
fn accepted_text(chance: &mut Chance) -> Vec<u8> {
    loop {
        let text = grammatical(chance);
        if read(&text).is_ok_and(|reading| reading.gradient.repeating) {
            return text;
        }
    }
}
