//! The nine exports of the archive.

#[derive(Clone, Copy, PartialEq, Debug)]
pub enum Export {
    Read,
    Place,
    PlaceGradient,
    Draw,
    DrawGradient,
    DrawRows,
    DrawGradientRows,
    DrawStops,
    Png,
}

pub const EXPORTS: [Export; 9] = [
    Export::Read,
    Export::Place,
    Export::PlaceGradient,
    Export::Draw,
    Export::DrawGradient,
    Export::DrawRows,
    Export::DrawGradientRows,
    Export::DrawStops,
    Export::Png,
];

impl Export {
    pub fn name(self) -> &'static str {
        match self {
            Export::Read => "avarezhu_read",
            Export::Place => "avarezhu_place",
            Export::PlaceGradient => "avarezhu_place_gradient",
            Export::Draw => "avarezhu_draw",
            Export::DrawGradient => "avarezhu_draw_gradient",
            Export::DrawRows => "avarezhu_draw_rows",
            Export::DrawGradientRows => "avarezhu_draw_gradient_rows",
            Export::DrawStops => "avarezhu_draw_stops",
            Export::Png => "avarezhu_png",
        }
    }

    pub fn takes_text(self) -> bool {
        matches!(self, Export::Read | Export::Place | Export::Draw | Export::DrawRows | Export::Png)
    }

    /// Whether the answer is a picture, whole or a strip of it, as bytes or as a file.
    pub fn draws(self) -> bool {
        !matches!(self, Export::Read | Export::Place | Export::PlaceGradient)
    }

    pub fn draws_rows(self) -> bool {
        matches!(self, Export::DrawRows | Export::DrawGradientRows)
    }
}

extern "C" {
    fn avarezhu_read(text: *const u8, text_len: usize, gradient: *mut u8, gradient_len: usize) -> u32;
    fn avarezhu_place(
        text: *const u8, text_len: usize, width: usize, height: usize, stops: *mut u8, stops_len: usize,
    ) -> u32;
    fn avarezhu_place_gradient(
        gradient: *const u8, gradient_len: usize, width: usize, height: usize, stops: *mut u8, stops_len: usize,
    ) -> u32;
    fn avarezhu_draw(
        text: *const u8, text_len: usize, width: usize, height: usize, pixels: *mut u8, pixels_len: usize,
    ) -> u32;
    fn avarezhu_draw_gradient(
        gradient: *const u8, gradient_len: usize, width: usize, height: usize, pixels: *mut u8, pixels_len: usize,
    ) -> u32;
    fn avarezhu_draw_rows(
        text: *const u8, text_len: usize, width: usize, height: usize, first: usize, end: usize,
        pixels: *mut u8, pixels_len: usize,
    ) -> u32;
    fn avarezhu_draw_gradient_rows(
        gradient: *const u8, gradient_len: usize, width: usize, height: usize, first: usize, end: usize,
        pixels: *mut u8, pixels_len: usize,
    ) -> u32;
    fn avarezhu_draw_stops(
        gradient: *const u8, gradient_len: usize, stops: *const u8, stops_len: usize,
        width: usize, height: usize, pixels: *mut u8, pixels_len: usize,
    ) -> u32;
    fn avarezhu_png(
        text: *const u8, text_len: usize, width: usize, height: usize, png: *mut u8, png_len: usize,
    ) -> u32;
}

/// Rows from the first number up to, not including, the second.
pub type Rows = (usize, usize);

/// What one call is handed. `second` is for draw_stops alone, `area` is not for read, and `rows` is for the two exports
/// that draw strips; for the others it is all rows.
pub struct Call<'a> {
    pub export: Export,
    pub first: &'a [u8],
    pub second: &'a [u8],
    pub area: (usize, usize),
    pub rows: Rows,
    pub lent: usize,
}

/// Makes the call with copies of its slices. `out` must have room for `call.lent` bytes.
pub fn make(call: &Call, first: *const u8, second: *const u8, out: *mut u8) -> u32 {
    let (len, (width, height), lent) = (call.first.len(), call.area, call.lent);
    // SAFETY: the caller's pointers have at least the lengths given, and do not overlap.
    unsafe {
        match call.export {
            Export::Read => avarezhu_read(first, len, out, lent),
            Export::Place => avarezhu_place(first, len, width, height, out, lent),
            Export::PlaceGradient => avarezhu_place_gradient(first, len, width, height, out, lent),
            Export::Draw => avarezhu_draw(first, len, width, height, out, lent),
            Export::DrawGradient => avarezhu_draw_gradient(first, len, width, height, out, lent),
            Export::DrawRows => avarezhu_draw_rows(first, len, width, height, call.rows.0, call.rows.1, out, lent),
            Export::DrawGradientRows => {
                avarezhu_draw_gradient_rows(first, len, width, height, call.rows.0, call.rows.1, out, lent)
            }
            Export::DrawStops => {
                avarezhu_draw_stops(first, len, second, call.second.len(), width, height, out, lent)
            }
            Export::Png => avarezhu_png(first, len, width, height, out, lent),
        }
    }
}
