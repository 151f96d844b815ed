//! Makes a call of the library and compares everything that it may and may not change.

use crate::counts::Counts;
use crate::expected::{box_fits, needed, settle, Answer};
use crate::library::{make, Call};
use crate::report::{difference, Found};

const MARGIN: usize = 64;
const PERIOD: usize = 251;
const BLOCK: usize = PERIOD * 64;
/// No more than this is watched around a lent slice that is too short for the whole answer.
const AROUND: usize = 1 << 17;

/// Bytes that stand after a text in memory: a reader that goes on past the end would find them.
const TAILS: [&[u8]; 6] = [b")", b" )", b",red)", b"px)", b"0)", b"e,blue)"];

/// The seed and the place in the run, for a message.
#[derive(Clone, Copy)]
pub struct Place {
    pub seed: u64,
    pub part: &'static str,
    pub number: u64,
}

pub struct Compare {
    pub place: Place,
    pub counts: Counts,
    garbage: Vec<u8>,
    memory: Vec<u8>,
    turn: usize,
}

/// Where the lent slice lies in the memory around it.
struct Lent {
    from: usize,
    to: usize,
    salt: usize,
}

impl Compare {
    pub fn new(seed: u64) -> Compare {
        let garbage = (0..BLOCK + 2 * PERIOD).map(|i| (i % PERIOD) as u8 + 1).collect();
        let place = Place { seed, part: "start", number: 0 };
        Compare { place, counts: Counts::new(), garbage, memory: Vec::new(), turn: 0 }
    }

    /// Makes the call; a message if anything differs from the answer.
    pub fn check(&mut self, call: &Call, answer: &Answer) -> Result<(), String> {
        self.turn += 1;
        let (reply, bytes) = settle(call, answer);
        let first = self.held(call.first);
        let second = self.held(call.second);
        let (first_before, second_before) = (first.clone(), second.clone());
        let lent = self.lend(call);
        let start = self.turn % 8;
        let out = self.memory[lent.from..].as_mut_ptr();
        let got = make(call, first[start..].as_ptr(), second[start..].as_ptr(), out);
        let found = Found {
            reply: (reply, got),
            lent: self.lent_difference(&lent, bytes),
            margin: self.margin_difference(&lent),
            first: first_different(&first_before, &first),
            second: first_different(&second_before, &second),
        };
        if found.any() {
            return Err(difference(&self.place, call, &found, start));
        }
        self.counts.call(call, reply);
        Ok(())
    }

    /// What a call leaves, whatever that is: its reply and the lent bytes.
    pub fn left(&self, call: &Call) -> (u32, Vec<u8>) {
        let mut out = vec![0xa5; call.lent];
        let reply = make(call, call.first.as_ptr(), call.second.as_ptr(), out.as_mut_ptr());
        (reply, out)
    }

    /// A copy of a slice handed in, at a start that changes from call to call.
    fn held(&self, slice: &[u8]) -> Vec<u8> {
        let mut copy = self.garbage[..self.turn % 8].to_vec();
        copy.extend_from_slice(slice);
        copy.extend_from_slice(TAILS[self.turn % TAILS.len()]);
        copy.extend_from_slice(&self.garbage[..MARGIN]);
        copy
    }

    /// Fills the lent slice and its surroundings with garbage.
    fn lend(&mut self, call: &Call) -> Lent {
        let sized = box_fits(call.area) || !call.export.draws();
        let need = if sized { needed(call.export, call.area).min(AROUND) } else { 0 };
        let salt = self.turn % PERIOD;
        let from = MARGIN + self.turn % 16;
        let size = from + call.lent.max(need) + MARGIN;
        self.memory.resize(size, 0);
        for chunk in self.memory.chunks_mut(BLOCK) {
            chunk.copy_from_slice(&self.garbage[salt..salt + chunk.len()]);
        }
        Lent { from, to: from + call.lent, salt }
    }

    /// The first byte of the lent slice that is not the answer's, or not 0 after it: index, expected, got.
    fn lent_difference(&self, lent: &Lent, bytes: &[u8]) -> Option<(usize, u8, u8)> {
        let slice = &self.memory[lent.from..lent.to];
        let (head, rest) = slice.split_at(bytes.len());
        if head != bytes {
            return first_different(bytes, head);
        }
        if rest.iter().fold(0, |all, byte| all | byte) == 0 {
            return None;
        }
        let k = rest.iter().position(|byte| *byte != 0)?;
        Some((bytes.len() + k, 0, rest[k]))
    }

    /// A changed byte outside of the lent slice: its distance from the slice's start, expected, got.
    fn margin_difference(&self, lent: &Lent) -> Option<(isize, u8, u8)> {
        self.spoiled(0, lent.from, lent).or_else(|| self.spoiled(lent.to, self.memory.len(), lent))
    }

    /// The first byte from `at` up to `to` that is not as it was filled.
    fn spoiled(&self, mut at: usize, to: usize, lent: &Lent) -> Option<(isize, u8, u8)> {
        while at < to {
            let length = (to - at).min(BLOCK);
            let from = at % PERIOD + lent.salt;
            let want = &self.garbage[from..from + length];
            if let Some((k, want, got)) = first_different(want, &self.memory[at..at + length]) {
                return Some(((at + k) as isize - lent.from as isize, want, got));
            }
            at += length;
        }
        None
    }
}

fn first_different(want: &[u8], got: &[u8]) -> Option<(usize, u8, u8)> {
    if want == got {
        return None;
    }
    let k = want.iter().zip(got).position(|(a, b)| a != b)?;
    Some((k, want[k], got[k]))
}
