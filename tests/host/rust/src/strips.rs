//! Strips of pictures: rows of every kind beside the model, pictures cut into strips beside the whole ones, and every
//! two refusals at once.

use crate::cases::{some_box, Area};
use crate::chance::Chance;
use crate::compare::Compare;
use crate::expected::{box_fits, rows_fit, settle, strip, Answer};
use crate::layout::{gradient_bytes, take_gradient};
use crate::layouts::{damage_gradient, random_gradient};
use crate::library::{Call, Export, Rows};
use crate::reading::read;
use crate::strip_counts::ORDER;
use crate::texts::grammatical;

const LARGE_PICTURES: u64 = 1500;
const FAR: [usize; 12] = [
    0, 1, 2047, 2048, 2049, 1 << 32, (1 << 32) + 1, 1 << 60, 1 << 62, 1 << 63, usize::MAX - 1, usize::MAX,
];

/// Rows of a picture, which may have none.
fn rows_in(chance: &mut Chance, height: usize) -> Rows {
    let height = height.max(1);
    let first = chance.below(height);
    match chance.below(8) {
        0 => (0, height),
        1 => (height - 1, height),
        2 => (first, height),
        3 => (first, first + 1),
        _ => (first, first + 1 + chance.below(height - first)),
    }
}

/// Rows that are refused in most pictures.
fn rows_out(chance: &mut Chance, height: usize) -> Rows {
    let (first, end) = rows_in(chance, height);
    match chance.below(10) {
        0 => (first, first),
        1 => (end, first),
        2 => (height, height),
        3 => (first, height.saturating_add(1)),
        4 => (height, height.saturating_add(1)),
        5 => (first, *chance.pick(&FAR)),
        6 => (*chance.pick(&FAR), end),
        7 => (first, first.saturating_add(*chance.pick(&FAR))),
        8 => (end, height.saturating_add(end)),
        _ => (*chance.pick(&FAR), *chance.pick(&FAR)),
    }
}

/// As many bytes as the rows have, or about so many; some number where they have too many or none.
fn length(chance: &mut Chance, area: Area, (first, end): Rows) -> usize {
    let size = end.saturating_sub(first).saturating_mul(area.0).saturating_mul(4);
    let size = if size > 4 << 20 { chance.below(300) } else { size };
    match chance.below(10) {
        0 => 0,
        1 => size.saturating_sub(1),
        2 => chance.below(size + 1),
        3 | 4 => size + 1 + chance.below(70),
        _ => size,
    }
}

/// The refusals that come from the box, the rows and the length, whether or not another comes before them.
fn refusals_around(call: &Call) -> Vec<u32> {
    let rows = call.rows.1 as i128 - call.rows.0 as i128;
    let size = (4 * call.area.0 as i128).saturating_mul(rows);
    let short = (call.lent as i128) < size;
    let list = [(1, !box_fits(call.area)), (8, !rows_fit(call.rows, call.area.1)), (2, short)];
    list.into_iter().filter(|(_, applies)| *applies).map(|(reply, _)| reply).collect()
}

/// Makes a call for a strip; `own` are the refusals of what is handed in. The model must give the first that applies,
/// and the library the same.
fn check(compare: &mut Compare, call: &Call, answer: &Answer, own: &[u32]) -> Result<(), String> {
    let all = [&refusals_around(call), own].concat();
    let given = ORDER.into_iter().find(|reply| all.contains(reply)).unwrap_or(0);
    let (reply, _) = settle(call, answer);
    if reply != given {
        return Err(format!("the model replies {reply} to a strip where {all:?} apply\n"));
    }
    compare.check(call, answer)?;
    compare.counts.strips.refusals(call.export, given, &all);
    Ok(())
}

/// One call with rows and a length that may be right or wrong.
fn one(
    compare: &mut Compare, chance: &mut Chance, export: Export, first: &[u8], area: Area, own: &[u32],
) -> Result<(), String> {
    let rows = if chance.one_in(5) { rows_out(chance, area.1) } else { rows_in(chance, area.1) };
    let lent = length(chance, area, rows);
    let call = Call { export, first, second: &[], area, rows, lent };
    check(compare, &call, &strip(export, first, area, rows), own)
}

/// Where a picture is cut, from 0 to its height.
fn cuts(chance: &mut Chance, height: usize) -> Vec<usize> {
    let rows = match chance.below(6) {
        0 => height,
        1 if height <= 64 => 1,
        2 => 1 + height / 2,
        3 => 64,
        4 => 1 + chance.below(height),
        _ => 0,
    };
    let inner: Vec<usize> = match rows {
        0 => (1..height).filter(|_| chance.below(height) < 12).collect(),
        _ => (rows..height).step_by(rows).collect(),
    };
    [vec![0], inner, vec![height]].concat()
}

/// A picture in strips: each must be its part of what the whole-picture call leaves, and all of them get its reply.
pub fn cut(
    compare: &mut Compare, chance: &mut Chance, export: Export, first: &[u8], area: Area,
) -> Result<(), String> {
    let row = 4 * area.0;
    let picture = Call { export, first, second: &[], area, rows: (0, area.1), lent: row * area.1 };
    let (reply, whole) = compare.left(&picture);
    let export = if export == Export::Draw { Export::DrawRows } else { Export::DrawGradientRows };
    let cuts = cuts(chance, area.1);
    for pair in cuts.windows(2) {
        let part = &whole[row * pair[0]..row * pair[1]];
        let right = if reply == 0 { Ok(part.to_vec()) } else { Err(reply) };
        let more = if chance.one_in(2) { 0 } else { 1 + chance.below(2 * row) };
        let call = Call { export, first, second: &[], area, rows: (pair[0], pair[1]), lent: part.len() + more };
        compare.check(&call, &right)?;
    }
    compare.counts.strips.cut(export, &cuts, reply);
    Ok(())
}

/// The reply to what is handed in, as a list.
fn own<T>(judged: Result<T, u32>) -> Vec<u32> {
    judged.err().into_iter().collect()
}

fn gradient_case(compare: &mut Compare, chance: &mut Chance, bytes: &[u8], area: Area) -> Result<(), String> {
    one(compare, chance, Export::DrawGradientRows, bytes, area, &own(take_gradient(bytes)))?;
    if chance.one_in(4) && box_fits(area) {
        cut(compare, chance, Export::DrawGradient, bytes, area)?;
    }
    Ok(())
}

/// Strips of one text, of its gradient and of a changed one in one box.
pub fn text_case(compare: &mut Compare, chance: &mut Chance, text: &[u8], area: Area) -> Result<(), String> {
    let reading = read(text);
    one(compare, chance, Export::DrawRows, text, area, &own(reading.as_ref().map_err(|reply| *reply)))?;
    if chance.one_in(4) && box_fits(area) {
        cut(compare, chance, Export::Draw, text, area)?;
    }
    if let Ok(reading) = reading {
        let mut bytes = gradient_bytes(&reading.gradient);
        gradient_case(compare, chance, &bytes, area)?;
        damage_gradient(chance, &mut bytes);
        gradient_case(compare, chance, &bytes, area)?;
    }
    Ok(())
}

fn side(chance: &mut Chance, most: usize) -> usize {
    match chance.below(3) {
        0 => (*chance.pick(&[64, 128, 256, 480, 512, 640, 1024, 2047, 2048])).min(most),
        _ => 1 + chance.below(most),
    }
}

/// Up to four rows: the first, the last, some around the middle, or anywhere.
fn few_rows(chance: &mut Chance, height: usize) -> Rows {
    let count = (1 + chance.below(4)).min(height);
    let first = match chance.below(5) {
        0 => 0,
        1 => height - count,
        2 => (height / 2).saturating_sub(chance.below(4)).min(height - count),
        _ => chance.below(height - count + 1),
    };
    (first, first + count)
}

/// A few rows of large pictures beside the model, and every eighth time a middling picture in strips.
pub fn large(compare: &mut Compare) -> Result<(), String> {
    compare.place.part = "strips of large pictures, number";
    for case in 1..=LARGE_PICTURES {
        compare.place.number = case;
        let mut chance = Chance::new(!compare.place.seed, case);
        let area = (side(&mut chance, 2048), side(&mut chance, 2048));
        let (rows, small) = (few_rows(&mut chance, area.1), (side(&mut chance, 700), side(&mut chance, 700)));
        let text = grammatical(&mut chance);
        let gradient = gradient_bytes(&random_gradient(&mut chance));
        let of_text = (Export::DrawRows, Export::Draw, &text);
        let of_gradient = (Export::DrawGradientRows, Export::DrawGradient, &gradient);
        for (export, whole, first) in [of_text, of_gradient] {
            let right = strip(export, first, area, rows);
            let call = Call { export, first, second: &[], area, rows, lent: 4 * area.0 * (rows.1 - rows.0) };
            check(compare, &call, &right, &own(right.as_ref().map_err(|reply| *reply)))?;
            if case % 8 == 0 {
                cut(compare, &mut chance, whole, first, small)?;
            }
        }
    }
    Ok(())
}

/// A text that gets each refusal of the list: it is too long, is not in the grammar, has a number out of its range, has
/// too many stops.
fn refused_text(chance: &mut Chance, list: &[u32]) -> Vec<u8> {
    let heads = match list.contains(&5) {
        true => ["linear-gradient(45.1deg", "radial-gradient(-0.001px"],
        false => ["linear-gradient(45deg", "radial-gradient(5px"],
    };
    let head = *chance.pick(&heads);
    let stops = ", red".repeat(if list.contains(&6) { 17 } else { 2 });
    let tail = if list.contains(&4) { *chance.pick(&["", ",)", "))"]) } else { ")" };
    let text = format!("{head}{stops}{tail}");
    let length = if list.contains(&3) { 1025 + chance.below(3) } else { text.len() };
    format!("{text:<length$}").into_bytes()
}

/// A gradient likewise: its layout is broken, an angle is out of its range, it has too many stops.
fn refused_gradient(chance: &mut Chance, list: &[u32]) -> Vec<u8> {
    let sound = read(b"linear-gradient(45deg, red, blue)").map(|reading| gradient_bytes(&reading.gradient));
    let mut bytes = sound.unwrap_or_default();
    if list.contains(&5) {
        bytes[16..20].copy_from_slice(&45_100i32.to_le_bytes());
    }
    if list.contains(&6) {
        bytes[0] = 17;
    }
    match chance.below(3) {
        _ if !list.contains(&4) => {}
        0 => bytes.push(0),
        1 => bytes.truncate(319),
        _ => bytes[8] = 2,
    }
    bytes
}

/// Every set of refusals that a text or a gradient can get, with boxes, rows and lengths of which many are refused too.
pub fn refusals(compare: &mut Compare) -> Result<(), String> {
    compare.place.part = "refusals of strips, set";
    for set in 0..16u32 {
        compare.place.number = u64::from(set);
        let mut chance = Chance::new(compare.place.seed, u64::from(set));
        let list: Vec<u32> = (3..=6).filter(|reply| set >> (reply - 3) & 1 == 1).collect();
        for _ in 0..600 {
            let sides = [2049, 2050, 1 << 32, usize::MAX];
            let (width, height) = some_box(&mut chance);
            let area = match chance.below(6) {
                0 => (*chance.pick(&sides), height),
                1 => (width, *chance.pick(&sides)),
                _ => (width, height),
            };
            let text = refused_text(&mut chance, &list);
            one(compare, &mut chance, Export::DrawRows, &text, area, &list)?;
            if !list.contains(&3) {
                let gradient = refused_gradient(&mut chance, &list);
                one(compare, &mut chance, Export::DrawGradientRows, &gradient, area, &list)?;
            }
        }
    }
    Ok(())
}
