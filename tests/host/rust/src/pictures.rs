//! Pictures of the greatest box.

use crate::chance::Chance;
use crate::compare::Compare;
use crate::expected::{answer, needed};
use crate::layout::gradient_bytes;
use crate::library::{Call, Export};
use crate::reading::read;
use crate::strips;

const FULL: (usize, usize) = (2048, 2048);

const PICTURES: [(&str, Export, (usize, usize)); 25] = [
    ("linear-gradient(37.25deg, red, white 30%, blue)", Export::Draw, FULL),
    ("linear-gradient(to top left, black, white)", Export::Draw, FULL),
    ("linear-gradient(to left, #f008, lime 20%, transparent)", Export::Draw, FULL),
    ("radial-gradient(circle at 30% 70.5px, #123456, yellow 400px, #0007)", Export::Draw, FULL),
    ("radial-gradient(circle closest-side at -100px 3000px, red -10%, teal, navy 200%)", Export::Draw, FULL),
    ("linear-gradient(red, blue)", Export::DrawGradient, FULL),
    ("linear-gradient(-271.5deg, red, blue, #0f0, #00f8, red, #123, #321, #fff, #000, #777, #7778, \
      red, lime, blue, aqua, olive)", Export::DrawGradient, FULL),
    ("radial-gradient(700.125px at center bottom, silver -3px, #8001 11%, purple)", Export::DrawGradient, FULL),
    ("linear-gradient(0.25deg, white 1px, black 8192px)", Export::DrawStops, FULL),
    ("radial-gradient(farthest-side circle, red, blue, #0f0, #00f8, red, #123, #321, #fff, #000, #777, #7778, \
      red, lime, blue, aqua, olive 333.333%)", Export::DrawStops, FULL),
    ("linear-gradient(to bottom right, gray, #80808010)", Export::DrawStops, FULL),
    ("linear-gradient(to bottom left, fuchsia, maroon 12%, green)", Export::Draw, (2048, 1531)),
    ("linear-gradient(3599.75deg, #fedc, #0123)", Export::DrawGradient, (1021, 2048)),
    ("radial-gradient(circle closest-corner at 200% 1000%, red, blue, white)", Export::Draw, (2048, 999)),
    ("linear-gradient(200.5deg, #f008, #0f0c 40%, transparent 70%, blue)", Export::Png, FULL),
    ("radial-gradient(circle at 30.3% 41.7%, #fff0, #0008 30%, #ffff 61%)", Export::Png, FULL),
    ("linear-gradient(to right, transparent, #12345678)", Export::Png, (2047, 1033)),
    ("repeating-linear-gradient(37.25deg, red -3px, white 10px, #00f8 40.5px)", Export::Draw, FULL),
    ("repeating-linear-gradient(to left, black, white 1px, red 1px, lime 2.5px)", Export::DrawGradient, FULL),
    ("repeating-linear-gradient(to bottom right, black 5000px, white 5000.016px, red 5000.3px)", Export::Draw, FULL),
    ("repeating-radial-gradient(circle at 30% 70.5px, red, #0007 8px, yellow 20px)", Export::DrawGradient, FULL),
    ("repeating-radial-gradient(700.125px at 1000% -8192px, silver -3px, #8001 11%, purple)", Export::Draw, FULL),
    ("repeating-radial-gradient(circle, black -0.016px, white 0px, red 0.5px)", Export::DrawStops, FULL),
    ("repeating-linear-gradient(12deg, red 7px, #0f08 7px, blue 3px)", Export::Draw, FULL),
    ("repeating-linear-gradient(200.5deg, #f008 -8192px, #0f0c -8000px, transparent -7900px)", Export::Png, FULL),
];

pub fn all(compare: &mut Compare) -> Result<(), String> {
    compare.place.part = "picture";
    for (k, (text, export, area)) in PICTURES.into_iter().enumerate() {
        compare.place.number = k as u64 + 1;
        picture(compare, text.as_bytes(), export, area, 13 * (k % 2))?;
    }
    Ok(())
}

fn picture(
    compare: &mut Compare, text: &[u8], export: Export, area: (usize, usize), more: usize,
) -> Result<(), String> {
    compare.counts.text(text);
    let reading = read(text).map_err(|reply| format!("the model refuses a picture's text with {reply}"))?;
    let bytes = gradient_bytes(&reading.gradient);
    let stops = answer(Export::PlaceGradient, &bytes, &[], area).unwrap_or_default();
    let first = if export.takes_text() { text } else { &bytes };
    let right = answer(export, first, &stops, area);
    let lent = needed(export, area) + more;
    compare.check(&Call { export, first, second: &stops, area, rows: (0, area.1), lent }, &right)?;
    if !matches!(export, Export::Draw | Export::DrawGradient) {
        return Ok(());
    }
    let mut chance = Chance::new(compare.place.seed, compare.place.number);
    strips::cut(compare, &mut chance, export, first, area)
}
