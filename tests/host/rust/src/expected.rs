//! What each export should answer.

use crate::gradient::Gradient;
use crate::grid::{Grid, LONGEST_SIDE};
use crate::layout::{gradient_bytes, stops_bytes, take_gradient, take_stops, GRADIENT_BYTES, STOPS_BYTES};
use crate::library::{Call, Export, Rows};
use crate::pixels::{picture, rows_of};
use crate::placing::{place, Placed};
use crate::png;
use crate::reading::read;

/// The bytes of an accepted call, or a reply other than 0 and 2, if the lent slice is long enough.
pub type Answer = Result<Vec<u8>, u32>;

pub fn box_fits(area: (usize, usize)) -> bool {
    let range = 1..=LONGEST_SIDE;
    range.contains(&area.0) && range.contains(&area.1)
}

fn judge_box(area: (usize, usize)) -> Result<(), u32> {
    if box_fits(area) {
        Ok(())
    } else {
        Err(1)
    }
}

/// Whether there is a row to draw, and each is in the picture.
pub fn rows_fit((first, end): Rows, height: usize) -> bool {
    first < end && end <= height
}

/// The size that the lent slice must have for all of the answer; for pictures only in a box that fits.
pub fn needed(export: Export, area: (usize, usize)) -> usize {
    match export {
        Export::Read => GRADIENT_BYTES,
        Export::Place | Export::PlaceGradient => STOPS_BYTES,
        Export::Png => 63 + (6 + 3 * area.0) * area.1,
        _ => 4 * area.0 * area.1,
    }
}

/// The size that the lent slice of a call must have; for strips only with rows that fit.
pub fn room(call: &Call) -> usize {
    match call.export.draws_rows() {
        true => 4 * call.area.0 * (call.rows.1 - call.rows.0),
        false => needed(call.export, call.area),
    }
}

fn placed(gradient: &Gradient, area: (usize, usize)) -> Answer {
    Ok(stops_bytes(&place(gradient, area)))
}

fn drawn(gradient: &Gradient, stops: &[Placed], area: (usize, usize)) -> Answer {
    Ok(picture(&Grid::new(&gradient.shape, area), gradient.repeating, stops))
}

/// The file of a picture that was drawn.
pub fn file(drawn: &Answer, area: (usize, usize)) -> Answer {
    drawn.as_ref().map(|pixels| png::file(pixels, area)).map_err(|reply| *reply)
}

pub fn answer(export: Export, first: &[u8], second: &[u8], area: (usize, usize)) -> Answer {
    if export != Export::Read {
        judge_box(area)?;
    }
    let gradient = match export {
        Export::DrawStops => return drawn_stops(first, second, area),
        Export::Png => return file(&answer(Export::Draw, first, second, area), area),
        _ if export.takes_text() => read(first)?.gradient,
        _ => take_gradient(first)?,
    };
    match export {
        Export::Read => Ok(gradient_bytes(&gradient)),
        _ if export.draws() => drawn(&gradient, &place(&gradient, area), area),
        _ => placed(&gradient, area),
    }
}

fn drawn_stops(first: &[u8], second: &[u8], area: (usize, usize)) -> Answer {
    match (take_gradient(first), take_stops(second)) {
        (Ok(gradient), Ok(stops)) => drawn(&gradient, &stops, area),
        (Err(a), Err(b)) => Err(a.min(b)),
        (Err(reply), Ok(_)) | (Ok(_), Err(reply)) => Err(reply),
    }
}

/// The rows that an export for strips should draw.
pub fn strip(export: Export, first: &[u8], area: (usize, usize), rows: Rows) -> Answer {
    judge_box(area)?;
    if !rows_fit(rows, area.1) {
        return Err(8);
    }
    let gradient = match export.takes_text() {
        true => read(first)?.gradient,
        false => take_gradient(first)?,
    };
    Ok(rows_of(&Grid::new(&gradient.shape, area), gradient.repeating, &place(&gradient, area), rows))
}

/// The reply with this much lent, and the bytes that come before the zeros.
pub fn settle<'a>(call: &Call, answer: &'a Answer) -> (u32, &'a [u8]) {
    match answer {
        Err(reply @ (1 | 8)) => (*reply, &[]),
        _ if call.lent < room(call) => (2, &[]),
        Ok(bytes) => (0, bytes),
        Err(reply) => (*reply, &[]),
    }
}
