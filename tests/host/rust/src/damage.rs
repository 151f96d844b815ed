//! Texts that are no longer, or only by luck, in the grammar.

use crate::chance::Chance;
use crate::spelling::WHITE;
use crate::texts::grammatical;

const TEMPTING: &[u8] = b"(),,#%.+-0123456789 \t\n\r\x0c\x0b\x00\x85\xa0pxdegtorlabcf[]{}@`/*";
const WORDS: [&str; 42] = [
    "linear-gradient(", "radial-gradient(", "repeating-linear-gradient(", "repeating-radial-gradient(",
    "repeating-", "to", "at", "left", "right", "top", "bottom", "center", "circle", "ellipse", "closest-side",
    "closest-corner", "farthest-side", "farthest-corner", "red", "blue", "transparent", "grey", "gray", "#123",
    "#12345", "#12345678", "#abcg", "0", "-0.0", "5", "5px", "5.px", ".5px", "1.2345px", "10%", "+10.5%",
    "45deg", "0deg", "45.1deg", "1e2px", ",", ")",
];

/// Any text: most from the grammar, the rest damaged, mixed from words, or of a special length.
pub fn text(chance: &mut Chance) -> Vec<u8> {
    match chance.below(100) {
        0..=63 => grammatical(chance),
        64..=91 => damaged(chance),
        92..=95 => from_words(chance),
        96..=97 => padded(chance),
        _ => odd(chance),
    }
}

fn damaged(chance: &mut Chance) -> Vec<u8> {
    let mut text = grammatical(chance);
    for _ in 0..1 + chance.below(3) {
        if text.is_empty() {
            break;
        }
        match chance.below(3) {
            0 => change_byte(chance, &mut text),
            1 => change_part(chance, &mut text),
            _ => change_words(chance, &mut text),
        }
        if chance.one_in(2) {
            break;
        }
    }
    text
}

fn change_byte(chance: &mut Chance, text: &mut Vec<u8>) {
    let k = chance.below(text.len());
    match chance.below(8) {
        0 => {
            text.remove(k);
        }
        1 => text.insert(k, text[k]),
        2 if k + 1 < text.len() => text.swap(k, k + 1),
        3 => text[k] = chance.byte(),
        4 => text[k] ^= 0x20,
        5 => text[k] ^= 1 << chance.below(8),
        6 => text.insert(k, *chance.pick(TEMPTING)),
        _ => text[k] = *chance.pick(TEMPTING),
    }
}

fn change_part(chance: &mut Chance, text: &mut Vec<u8>) {
    let k = chance.below(text.len());
    match chance.below(5) {
        0 => text.truncate(k),
        1 => {
            text.drain(..k);
        }
        2 => {
            let other = grammatical(chance);
            let from = chance.below(other.len());
            text.truncate(k);
            text.extend_from_slice(&other[from..]);
        }
        3 => {
            let to = k + chance.below(text.len() - k);
            let part = text[k..to].to_vec();
            text.splice(k..k, part);
        }
        _ => {
            let to = (k + 1 + chance.below(6)).min(text.len());
            text.drain(k..to);
        }
    }
}

/// Joins, drops, doubles or swaps whole words; commas count as words when they stand alone.
fn change_words(chance: &mut Chance, text: &mut Vec<u8>) {
    let spaced: Vec<u8> = text.iter().map(|b| if WHITE.contains(b) { b' ' } else { *b }).collect();
    let mut words: Vec<Vec<u8>> = spaced.split(|b| *b == b' ').map(<[u8]>::to_vec).collect();
    let k = chance.below(words.len());
    let other = chance.below(words.len());
    match chance.below(5) {
        0 => {
            words.remove(k);
        }
        1 => words.insert(k, words[k].clone()),
        2 => words.swap(k, other),
        3 => words[k] = chance.pick(&WORDS).as_bytes().to_vec(),
        _ => {
            *text = words.concat();
            return;
        }
    }
    *text = words.join(&b' ');
}

fn from_words(chance: &mut Chance) -> Vec<u8> {
    let mut text = chance.pick(&WORDS[..4]).as_bytes().to_vec();
    for _ in 0..chance.below(12) {
        text.extend_from_slice(chance.pick(&WORDS).as_bytes());
        text.extend_from_slice(chance.pick(&[" ", ",", ", ", ""]).as_bytes());
    }
    text.extend_from_slice(b"red, #0008 50%, white)");
    text
}

/// White space before, after or inside, up to a length at or next to the longest.
fn padded(chance: &mut Chance) -> Vec<u8> {
    let mut text = grammatical(chance);
    let length = *chance.pick(&[1023, 1024, 1024, 1025, 1026, 4096]);
    let places = [0, text.len(), text.iter().position(|b| *b == b'(').map_or(0, |k| k + 1)];
    let at = *chance.pick(&places);
    let fill: Vec<u8> = (text.len()..length).map(|_| *chance.pick(&WHITE)).collect();
    text.splice(at..at, fill);
    text
}

fn odd(chance: &mut Chance) -> Vec<u8> {
    let size = match chance.below(4) {
        0 => return Vec::new(),
        1 => 1 + chance.below(4),
        2 => *chance.pick(&[1023, 1024, 1025, 2000]),
        _ => 1 + chance.below(120),
    };
    match chance.below(3) {
        0 => (0..size).map(|_| chance.byte()).collect(),
        1 => (0..size).map(|_| *chance.pick(TEMPTING)).collect(),
        _ => (0..size).map(|_| *chance.pick(&WHITE)).collect(),
    }
}
