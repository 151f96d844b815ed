//! The charts that the rules work through by hand, first for the model alone.

use crate::cases::{text_case, Area};
use crate::chance::Chance;
use crate::compare::Compare;
use crate::expected::{answer, settle};
use crate::gradient::Amount;
use crate::grid::{units, Grid};
use crate::layout::take_stops;
use crate::library::{Call, Export};
use crate::png::{adler, crc, file};
use crate::reading::read;
use crate::sines::table_is_sound;
use crate::strips;

const GRAYS: [u8; 16] = [32, 32, 32, 255, 96, 96, 96, 255, 159, 159, 159, 255, 223, 223, 223, 255];

/// Charts with all their bytes.
const DRAWN: [(&str, &str, Area, &[u8]); 12] = [
    ("P1", "linear-gradient(to right, black, white)", (4, 1), &GRAYS),
    ("P2", "linear-gradient(to right, red, transparent)", (2, 1), &[191, 0, 0, 191, 64, 0, 0, 64]),
    ("P9", "radial-gradient(circle at 0.5px 0.5px, red -50px, yellow 100px)", (1, 1), &[255, 85, 0, 255]),
    // document 02's own case
    ("T-01", "repeating-linear-gradient(red 0, white 0, blue 0)", (1, 1), &[191, 128, 191, 255]),
    // 32 and 96 of 128 units, twice: 63.75 and 191.25
    ("two periods", "repeating-linear-gradient(to right, black, white 2px)", (4, 1), &TWICE),
    // the second pixel lies at 96, where the last stop meets the first: black is never reached
    ("a seam on a pixel", "repeating-linear-gradient(to right, #f00 -1.5px, #000 1.5px)", (2, 1), &SEAM),
    ("before the box", "repeating-linear-gradient(90deg, red -3px, red -2px, blue -2px, blue -1px)", (2, 1), &BARS),
    ("past the box", "repeating-linear-gradient(90deg, red 9px, red 10px, blue 10px, blue 11px)", (2, 1), &BARS),
    // every location is moved to the first stop's
    ("a period of one unit", "repeating-linear-gradient(90deg, red, lime 0.008px, blue 0.016px)", (2, 1), &RED),
    // 127.5 of red and of alpha
    ("one transparent color", "repeating-radial-gradient(0px, red, #0f00)", (1, 1), &[128, 0, 0, 128]),
    // (255 + 2 * 0 + 2 * 51 + 255) / 6 is 102, and (0 + 2 * 0 + 2 * 51 + 0) / 6 is 17
    ("one of four", "repeating-linear-gradient(#f00 5px, #000 4px, #333 3px, #f00 2px)", (1, 1), &[102, 17, 17, 255]),
    // 45 units from the center, and 101, which is 5 more than two periods of 48: 239.06 and 26.56
    ("rings", "repeating-radial-gradient(circle at 0 0, black, white 0.75px)", (2, 1), &RINGS),
];

const TWICE: [u8; 16] = [64, 64, 64, 255, 191, 191, 191, 255, 64, 64, 64, 255, 191, 191, 191, 255];
const SEAM: [u8; 8] = [85, 0, 0, 255, 255, 0, 0, 255];
const BARS: [u8; 8] = [0, 0, 255, 255, 255, 0, 0, 255];
const RED: [u8; 8] = [255, 0, 0, 255, 255, 0, 0, 255];
const RINGS: [u8; 8] = [239, 239, 239, 255, 27, 27, 27, 255];

/// Charts with the places of their stops.
const PLACED: [(&str, &str, Area, &[i64]); 13] = [
    ("P3", "linear-gradient(to top right, black, white)", (3, 4), &[0, 307]),
    ("P4", "linear-gradient(to right, red 40%, white, black, blue)", (200, 1), &[5120, 7680, 10_240, 12_800]),
    ("P5", "linear-gradient(to right, red -50%, white, blue)", (200, 1), &[-6400, 3200, 12_800]),
    ("P6", "linear-gradient(to right, red 20px, white 0px, blue 40px)", (200, 1), &[1280, 1280, 2560]),
    ("P7", "linear-gradient(to right, red, white -50%, black 150%, blue)", (200, 1), &[0, 0, 19_200, 19_200]),
    ("P8", "linear-gradient(to right, red -50px, white, blue)", (200, 1), &[-3200, 4800, 12_800]),
    ("P10", "linear-gradient(to right, red -0.01px, white 0.01px, blue 33.333%)", (200, 1), &[-1, 1, 4267]),
    ("less than a unit", "linear-gradient(to right, red -0.01%, white, blue -0.001%)", (200, 1), &[-1, 0, 0]),
    ("halves", "linear-gradient(to top right, red -50%, white 50%)", (3, 4), &[-153, 154]),
    ("a run over an odd distance", "linear-gradient(to right, red -0.016px, white, blue 0.032px)", (200, 1), &[-1, 1, 2]),
    ("a run of thirds", "linear-gradient(to right, red, white, black, blue 1px)", (200, 1), &[0, 21, 43, 64]),
    ("closest-corner", "radial-gradient(circle closest-corner at 3px 4px, red, blue)", (20, 20), &[0, 320]),
    ("a radius of 0", "radial-gradient(0px, red -10%, blue, lime 500%)", (3, 3), &[0, 0, 0]),
];

/// The file of one red pixel; its zlib stream was made by zlib itself.
const RED_DOT: [u8; 72] = [
    137, 80, 78, 71, 13, 10, 26, 10, 0, 0, 0, 13, 73, 72, 68, 82, 0, 0, 0, 1, 0, 0, 0, 1, 8, 2, 0, 0, 0, 144, 119, 83,
    222, 0, 0, 0, 15, 73, 68, 65, 84, 120, 1, 1, 4, 0, 251, 255, 0, 255, 0, 0, 3, 1, 1, 0, 141, 29, 229, 130, 0, 0, 0,
    0, 73, 69, 78, 68, 174, 66, 96, 130,
];

const SIXTEEN: &str = "red,red,red,red,red,red,red,red,red,red,red,red,red,red,red,red";

/// Texts and boxes with the reply of drawing, the lent slice being as long as the last number.
fn replies() -> Vec<(String, Area, usize, u32)> {
    let two = "linear-gradient(red,blue)".to_string();
    let list = |text: &str, reply: u32| (text.to_string(), (4, 1), 16, reply);
    vec![
        (two.clone(), (2048, 1), 8192, 0),
        (two.clone(), (2049, 1), 8196, 1),
        (two.clone(), (1, 0), 16, 1),
        (two, (4, 1), 15, 2),
        (format!("{}linear-gradient(red,blue)", " ".repeat(999)), (4, 1), 16, 0),
        (format!("{}linear-gradient(red,blue)", " ".repeat(1000)), (4, 1), 16, 3),
        list("", 4),
        list("linear-gradient(red)", 4),
        list("linear-gradient(red, blue,)", 4),
        list("linear-gradient(to left right, red, blue)", 4),
        list("radial-gradient(circle at top 20px, red, blue)", 4),
        list("radial-gradient(circle at left right, red, blue)", 4),
        list("linear-gradient(red 8192px, blue)", 0),
        list("linear-gradient(red 8192.001px, blue)", 5),
        list("linear-gradient(45.1deg, red, blue)", 5),
        list("RePeAtInG-linear-gradient(red, blue)", 0),
        list("repeating-linear-gradient(red)", 4),
        list("repeating- linear-gradient(red, blue)", 4),
        list("repeating-repeating-linear-gradient(red, blue)", 4),
        list("repeating-radial-gradient(red, blue 5px)", 4),
        list("repeating-radial-gradient(-1px, red, blue 5px)", 5),
        list(&format!("repeating-linear-gradient({SIXTEEN})"), 0),
        list(&format!("repeating-linear-gradient({SIXTEEN},red)"), 6),
        list(&format!("linear-gradient({SIXTEEN})"), 0),
        list(&format!("linear-gradient({SIXTEEN},red)"), 6),
        list(&format!("linear-gradient({SIXTEEN},red 9000px)"), 5),
        list(&format!("linear-gradient({SIXTEEN},red"), 4),
    ]
}

fn same<T: PartialEq + std::fmt::Debug>(name: &str, want: T, got: T) -> Result<(), String> {
    if want == got {
        return Ok(());
    }
    Err(format!("the model fails on {name}: expected {want:?}, got {got:?}\n"))
}

pub fn model() -> Result<(), String> {
    same("the rules of the sine table", true, table_is_sound())?;
    same("0.01px", 1, units(Amount::Length(10), 0))?;
    same("-0.01px", -1, units(Amount::Length(-10), 0))?;
    same("33.333% of 12,800", 4267, units(Amount::Percentage(33_333), 12_800))?;
    same("-0.01% of 12,800", -1, units(Amount::Percentage(-10), 12_800))?;
    same("50% of 1", 1, units(Amount::Percentage(50_000), 1))?;
    same("-50% of 1", 0, units(Amount::Percentage(-50_000), 1))?;
    same("the CRC-32 of 123456789", 0xCBF4_3926, crc(b"123456789"))?;
    same("the Adler-32 of Wikipedia", 0x11E6_0398, adler(b"Wikipedia"))?;
    same("the file of a red pixel", RED_DOT.to_vec(), file(&[255, 0, 0, 255], (1, 1)))?;
    for (name, text, area, bytes) in DRAWN {
        same(name, Ok(bytes.to_vec()), answer(Export::Draw, text.as_bytes(), &[], area))?;
    }
    for (name, text, area, places) in PLACED {
        let stops = take_stops(&answer(Export::Place, text.as_bytes(), &[], area).unwrap_or_default());
        let got: Vec<i64> = stops.unwrap_or_default().iter().map(|stop| stop.at).collect();
        same(name, places.to_vec(), got)?;
    }
    for (text, area, lent, reply) in replies() {
        let right = answer(Export::Draw, text.as_bytes(), &[], area);
        let call = Call { export: Export::Draw, first: text.as_bytes(), second: &[], area, rows: (0, area.1), lent };
        same(&text, reply, settle(&call, &right).0)?;
    }
    corner()
}

/// P3's two pixels.
fn corner() -> Result<(), String> {
    let (_, text, area, _) = PLACED[0];
    let reading = read(text.as_bytes()).map_err(|reply| format!("the model refuses P3 with {reply}\n"))?;
    let grid = Grid::new(&reading.gradient.shape, area);
    let bytes = answer(Export::Draw, text.as_bytes(), &[], area).unwrap_or_default();
    same("P3, pixel (0,3)", (44, 37), (grid.location(0, 3), bytes[4 * 9]))?;
    same("P3, pixel (2,0)", (262, 218), (grid.location(2, 0), bytes[4 * 2]))
}

/// The same charts through the library.
pub fn library(compare: &mut Compare) -> Result<(), String> {
    let drawn = DRAWN.iter().map(|(_, text, area, _)| (text.to_string(), *area));
    let placed = PLACED.iter().map(|(_, text, area, _)| (text.to_string(), *area));
    let refused = replies().into_iter().map(|(text, area, _, _)| (text, area));
    compare.place.part = "worked chart";
    for (k, (text, area)) in drawn.chain(placed).chain(refused).enumerate() {
        compare.place.number = k as u64 + 1;
        let mut chance = Chance::new(compare.place.seed, k as u64);
        text_case(compare, &mut chance, text.as_bytes(), area)?;
        strips::text_case(compare, &mut chance, text.as_bytes(), area)?;
    }
    Ok(())
}
