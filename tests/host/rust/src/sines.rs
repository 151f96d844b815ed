//! Sines of 0 to 90 degrees in quarter degrees, times 16,384, from the machine's own sine.

use std::f64::consts::PI;
use std::sync::OnceLock;

pub const SCALE: i64 = 16_384;

fn table() -> &'static [i64; 361] {
    static TABLE: OnceLock<[i64; 361]> = OnceLock::new();
    TABLE.get_or_init(|| std::array::from_fn(entry))
}

/// An f64 sine is off by far less than the distance from a half that is asserted here.
fn entry(k: usize) -> i64 {
    let exact = (k as f64 * PI / 720.0).sin() * SCALE as f64;
    let from_half = (exact - exact.floor() - 0.5).abs();
    assert!(from_half > 1e-6, "sine {k} is too near a half");
    exact.round() as i64
}

/// The sine of any whole number of quarter degrees.
pub fn sine(quarters: i64) -> i64 {
    let turn = quarters.rem_euclid(1440);
    match turn {
        0..=360 => table()[turn as usize],
        361..=720 => table()[(720 - turn) as usize],
        _ => -sine(turn - 720),
    }
}

/// The rules that the table itself must keep.
pub fn table_is_sound() -> bool {
    let s = table();
    let ends = s[0] == 0 && s[120] == 8192 && s[360] == SCALE;
    let rises = s.windows(2).all(|pair| pair[0] <= pair[1]);
    let squares = (0..=360).all(|k| (s[k] * s[k] + s[360 - k] * s[360 - k] - SCALE * SCALE).abs() <= 24_000);
    let steps = (0..360).all(|k| (SCALE * s[k + 1] - s[k] * s[359] - s[360 - k] * s[1]).abs() <= 32_768);
    ends && rises && squares && steps
}
