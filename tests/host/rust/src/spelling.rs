//! The ways to write one word, number or color.

use crate::chance::Chance;
use crate::gradient::{ANGLE_LIMIT, LENGTH_LIMIT, PERCENTAGE_LIMIT, QUARTER_DEGREE};
use crate::words::COLORS;

pub const WHITE: [u8; 5] = [b' ', b'\t', b'\n', b'\r', 0x0c];

#[derive(Clone, Copy)]
enum Case {
    Lower,
    Upper,
    Mixed,
}

pub struct Spelling<'a> {
    pub chance: &'a mut Chance,
    pub out: Vec<u8>,
    case: Case,
    /// White space where it may stand: never, sometimes, much.
    white: usize,
    /// Whether numbers may leave their ranges.
    beyond: bool,
}

impl<'a> Spelling<'a> {
    pub fn new(chance: &'a mut Chance) -> Spelling<'a> {
        let case = *chance.pick(&[Case::Lower, Case::Lower, Case::Upper, Case::Mixed]);
        let white = chance.below(3);
        let beyond = chance.one_in(12);
        Spelling { chance, out: Vec::new(), case, white, beyond }
    }

    pub fn raw(&mut self, text: &str) {
        self.out.extend_from_slice(text.as_bytes());
    }

    pub fn word(&mut self, word: &str) {
        for byte in word.bytes() {
            let upper = match self.case {
                Case::Lower => false,
                Case::Upper => true,
                Case::Mixed => self.chance.one_in(2),
            };
            self.out.push(if upper { byte.to_ascii_uppercase() } else { byte });
        }
    }

    pub fn maybe_white(&mut self) {
        let count = match self.white {
            0 => 0,
            1 => self.chance.below(2),
            _ => self.chance.below(4),
        };
        for _ in 0..count {
            let byte = *self.chance.pick(&WHITE);
            self.out.push(byte);
        }
    }

    /// White space that must stand.
    pub fn gap(&mut self) {
        let byte = if self.white == 0 { b' ' } else { *self.chance.pick(&WHITE) };
        self.out.push(byte);
        self.maybe_white();
    }

    pub fn color(&mut self) {
        let digits = match self.chance.below(10) {
            0 => return self.word("transparent"),
            1..=4 => {
                let (name, _) = *self.chance.pick(&COLORS);
                return self.word(name);
            }
            5 => 3,
            6 => 4,
            7 => 6,
            _ => 8,
        };
        self.raw("#");
        for _ in 0..digits {
            let digit = self.chance.below(16) as u32;
            let name = char::from_digit(digit, 16).unwrap_or('0').to_string();
            self.word(&name);
        }
    }

    pub fn amount(&mut self) {
        if self.chance.one_in(2) {
            let value = self.value(-LENGTH_LIMIT, LENGTH_LIMIT, 30_000);
            self.number(value, "px");
        } else {
            let value = self.value(-PERCENTAGE_LIMIT, PERCENTAGE_LIMIT, 120_000);
            self.number(value, "%");
        }
    }

    pub fn radius(&mut self) {
        let value = self.value(0, LENGTH_LIMIT, 40_000);
        self.number(value, "px");
    }

    pub fn angle(&mut self) {
        let value = self.value(-ANGLE_LIMIT, ANGLE_LIMIT, 720_000);
        let exact = self.beyond && self.chance.one_in(3);
        let value = if exact || value.abs() > ANGLE_LIMIT { value } else { value - value % QUARTER_DEGREE };
        self.number(value, "deg");
    }

    /// Thousandths: ordinary ones up to `usual`, the ends of the range and their neighbors.
    fn value(&mut self, low: i64, high: i64, usual: i64) -> i64 {
        if self.beyond && self.chance.one_in(3) {
            let far = [90_071_992_547_409, -5_000_000_000];
            return *self.chance.pick(&[low - 1, high + 1, low - 1000, high + 1000, far[0], far[1]]);
        }
        let from = low.max(-usual);
        match self.chance.below(24) {
            0 => low,
            1 => high,
            2 => low + 1,
            3 => high - 1,
            4..=5 => 0,
            6..=7 => self.chance.between(low, high),
            8..=15 => self.chance.between(from / 1000, usual / 1000) * 1000,
            _ => self.chance.between(from, usual),
        }
    }

    /// Writes a number, with more zeros than it needs at times.
    pub fn number(&mut self, value: i64, unit: &str) {
        let sign = if value < 0 || (value == 0 && self.chance.one_in(6)) { "-" } else { "" };
        let plus = if sign.is_empty() && self.chance.one_in(5) { "+" } else { "" };
        self.raw(sign);
        self.raw(plus);
        let digits = format!("{:03}", value.abs() % 1000);
        let least = digits.trim_end_matches('0').len();
        let shown = if self.chance.one_in(4) { self.chance.between(least as i64, 3) as usize } else { least };
        self.whole(value.abs() / 1000, shown > 0);
        if shown > 0 {
            self.raw(".");
            self.raw(&digits[..shown]);
        }
        if value != 0 || unit != "px" || !self.chance.one_in(3) {
            self.word(unit);
        }
    }

    fn whole(&mut self, whole: i64, point: bool) {
        if whole == 0 && point && self.chance.one_in(2) {
            return;
        }
        let zeros = match self.chance.below(60) {
            0 => 20 + self.chance.below(30),
            1..=8 => 1 + self.chance.below(4),
            _ => 0,
        };
        self.raw(&"0".repeat(zeros));
        self.raw(&whole.to_string());
        if self.beyond && self.chance.one_in(40) {
            let nines = 15 + self.chance.below(40);
            self.raw(&"9".repeat(nines));
        }
    }
}
