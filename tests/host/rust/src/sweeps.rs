//! Texts that go through every byte, word, number or angle in turn.

use crate::cases::{exact_case, read_case};
use crate::compare::Compare;
use crate::library::Export;

const BASES: [&[u8]; 5] = [
    b"linear-gradient(to left,red 5px,#Fff 7%)",
    b"radial-gradient(circle 9px at top,lime,#0a0b)",
    b"linear-gradient(-0.25deg, olive 0,navy)",
    b"repeating-linear-gradient(red,#0F0 5px)",
    b"Repeating-Radial-Gradient(9px,lime,navy 8%)",
];

pub fn all(compare: &mut Compare) -> Result<(), String> {
    bytes(compare)?;
    cuts(compare)?;
    words(compare)?;
    numbers(compare)?;
    long_numbers(compare)?;
    angles(compare)
}

fn step(compare: &mut Compare, text: &[u8]) -> Result<(), String> {
    compare.place.number += 1;
    read_case(compare, text)
}

/// Each byte in place of, and before, each byte of a text.
fn bytes(compare: &mut Compare) -> Result<(), String> {
    compare.place.part = "sweep of bytes, text";
    for base in BASES {
        for at in 0..=base.len() {
            for byte in 0..=255 {
                let mut longer = base.to_vec();
                longer.insert(at, byte);
                step(compare, &longer)?;
                if at < base.len() {
                    longer.remove(at + 1);
                    step(compare, &longer)?;
                }
            }
        }
    }
    Ok(())
}

fn cuts(compare: &mut Compare) -> Result<(), String> {
    compare.place.part = "sweep of cuts, text";
    for base in BASES {
        for from in 0..=base.len() {
            for to in from..=base.len() {
                step(compare, &base[from..to])?;
                let without = [&base[..from], &base[to..]].concat();
                step(compare, &without)?;
            }
        }
    }
    Ok(())
}

const VOCABULARY: [&str; 21] = [
    "", "to", "at", "left", "center", "right", "top", "bottom", "circle", "ellipse", "closest-side",
    "closest-corner", "farthest-side", "farthest-corner", "red", "5px", "-5px", "5%", "0", "90deg", "5",
];

/// Up to three words at each place before the stops.
fn words(compare: &mut Compare) -> Result<(), String> {
    compare.place.part = "sweep of words, text";
    let starts = [
        "linear-gradient(", "linear-gradient(to ", "radial-gradient(", "radial-gradient(circle at ",
        "repeating-linear-gradient(", "repeating-radial-gradient(circle at ",
    ];
    for a in VOCABULARY {
        for b in VOCABULARY {
            for c in VOCABULARY {
                for start in starts {
                    let text = format!("{start}{a} {b} {c}, red, blue 5px)");
                    step(compare, text.as_bytes())?;
                }
            }
        }
    }
    Ok(())
}

/// All strings of up to five signs, points and digits, with each unit.
fn numbers(compare: &mut Compare) -> Result<(), String> {
    compare.place.part = "sweep of numbers, text";
    let letters = ["", "+", "-", ".", "0", "7"];
    for code in 0..6usize.pow(5) {
        let spelled: String = (0..5).map(|k| letters[code / 6usize.pow(k) % 6]).collect();
        if spelled.len() < 5 && code >= 6usize.pow(spelled.len() as u32) {
            continue;
        }
        for unit in ["px", "%", "", "deg", "PX", "p", "Deg"] {
            step(compare, format!("linear-gradient(red {spelled}{unit}, blue)").as_bytes())?;
        }
        for unit in ["deg", "px"] {
            step(compare, format!("linear-gradient({spelled}{unit}, red, blue)").as_bytes())?;
        }
        step(compare, format!("radial-gradient({spelled}px, red, blue)").as_bytes())?;
    }
    Ok(())
}

/// Numbers that a fixed count of bits would bring back to 0 or 5, and many zeros before a digit.
fn long_numbers(compare: &mut Compare) -> Result<(), String> {
    compare.place.part = "sweep of long numbers, text";
    let mut spelled = vec!["340282366920938463463374607431768211456".to_string()];
    spelled.push("340282366920938463463374607431768211.456".to_string());
    for bits in [16, 24, 31, 32, 33, 53, 63, 64, 65, 127] {
        for value in [1u128 << bits, (1u128 << bits) + 5, (1u128 << bits) - 1] {
            spelled.push(value.to_string());
            spelled.push(format!("{}.{:03}", value / 1000, value % 1000));
        }
    }
    spelled.extend((0..990).step_by(33).map(|zeros| format!("{}5", "0".repeat(zeros))));
    spelled.extend((0..990).step_by(33).map(|zeros| format!("5{}", "0".repeat(zeros))));
    for number in spelled {
        for sign in ["", "-", "+"] {
            for unit in ["px", "%"] {
                step(compare, format!("linear-gradient(red {sign}{number}{unit},red)").as_bytes())?;
                step(compare, format!("radial-gradient(1px at {sign}{number}{unit},red,red)").as_bytes())?;
            }
            step(compare, format!("radial-gradient({sign}{number}px,red,red)").as_bytes())?;
            step(compare, format!("linear-gradient({sign}{number}deg,red,red)").as_bytes())?;
        }
    }
    Ok(())
}

/// Each quarter degree of the range; line lengths in three boxes show the sine and the cosine.
fn angles(compare: &mut Compare) -> Result<(), String> {
    compare.place.part = "sweep of angles, text";
    for quarters in -14_401i64..=14_401 {
        let text = format!("linear-gradient({}deg, #000, #fff8)", quarters as f64 / 4.0);
        step(compare, text.as_bytes())?;
        if (-720..=1440).contains(&quarters) {
            for area in [(2048, 1), (1, 2048), (2048, 2047)] {
                exact_case(compare, Export::Place, text.as_bytes(), area)?;
            }
            exact_case(compare, Export::Draw, text.as_bytes(), (9, 7))?;
        }
    }
    Ok(())
}
