//! What a run has reached, and what it must reach.

use std::collections::BTreeMap;

use crate::expected::needed;
use crate::library::{Call, Export, EXPORTS};
use crate::repeat_counts::RepeatCounts;
use crate::strip_counts::StripCounts;

const CLAUSES: [&str; 48] = [
    "repeating line", "repeating circle",
    "no direction", "side", "corner, horizontal word first", "corner, vertical word first",
    "angle", "angle below 0", "angle above 360",
    "circle alone", "closest-side", "closest-corner", "farthest-side", "farthest-corner",
    "extent before circle", "circle and length", "length and circle", "single length",
    "no at", "at center", "at horizontal word", "at vertical word", "at number", "at two words",
    "at two words, vertical first", "at word and number", "at number and word", "at two numbers",
    "stop without position", "stop with length", "stop with percentage", "16 stops",
    "position taken down", "position taken up", "position at half a unit, above 0", "position at half a unit, below 0",
    "spacing taken down", "spacing taken up", "spacing at half a unit",
    "text of 1,024 bytes", "whole picture of 2,048 by 2,048", "every byte from 0 to 255",
    "file through which a gray square shows", "file of one row", "file of 2,048 by 2,048",
    "file, a byte too little lent", "file, as much lent as it needs", "file, more lent than it needs",
];

/// No call replies with 7.
const REPLIES: [usize; 8] = [0, 1, 2, 3, 4, 5, 6, 8];

pub struct Counts {
    replies: [[u64; 9]; EXPORTS.len()],
    pub strips: StripCounts,
    repeats: RepeatCounts,
    pixels: u64,
    pub texts: u64,
    clauses: BTreeMap<&'static str, u64>,
    bytes: [bool; 256],
}

fn replies_of(export: Export) -> &'static [usize] {
    match export {
        Export::Read => &[0, 2, 3, 4, 5, 6],
        Export::Place | Export::Draw | Export::Png => &[0, 1, 2, 3, 4, 5, 6],
        Export::DrawRows => &[0, 1, 2, 3, 4, 5, 6, 8],
        Export::DrawGradientRows => &[0, 1, 2, 4, 5, 6, 8],
        _ => &[0, 1, 2, 4, 5, 6],
    }
}

impl Counts {
    pub fn new() -> Counts {
        let clauses = CLAUSES.iter().map(|name| (*name, 0)).collect();
        let (strips, repeats) = (StripCounts::new(), RepeatCounts::new());
        Counts { replies: [[0; 9]; EXPORTS.len()], strips, repeats, pixels: 0, texts: 0, clauses, bytes: [false; 256] }
    }

    pub fn call(&mut self, call: &Call, reply: u32) {
        self.replies[call.export as usize][reply as usize] += 1;
        if reply == 0 && call.export.draws() {
            self.pixels += (call.area.0 * (call.rows.1 - call.rows.0)) as u64;
            self.repeats.call(call);
        }
        if reply == 0 && call.export.draws() && call.area == (2048, 2048) && call.rows == (0, 2048) {
            self.clause("whole picture of 2,048 by 2,048");
        }
        if call.export.draws_rows() {
            self.strips.call(call, reply);
        }
        if call.export == Export::Png {
            self.file(call, reply);
        }
    }

    fn file(&mut self, call: &Call, reply: u32) {
        if reply == 2 && call.lent + 1 == needed(call.export, call.area) {
            self.clause("file, a byte too little lent");
        }
        if reply != 0 {
            return;
        }
        match call.lent == needed(call.export, call.area) {
            true => self.clause("file, as much lent as it needs"),
            false => self.clause("file, more lent than it needs"),
        }
        if call.area.1 == 1 {
            self.clause("file of one row");
        }
        if call.area == (2048, 2048) {
            self.clause("file of 2,048 by 2,048");
        }
    }

    pub fn clause(&mut self, name: &'static str) {
        *self.clauses.get_mut(name).expect("a clause of the list") += 1;
    }

    pub fn text(&mut self, text: &[u8]) {
        self.texts += 1;
        for byte in text {
            self.bytes[usize::from(*byte)] = true;
        }
    }

    pub fn print(&mut self) {
        if self.bytes.iter().all(|seen| *seen) {
            self.clauses.insert("every byte from 0 to 255", 1);
        }
        println!("{:<28}{}", "reply", REPLIES.map(|r| format!("{r:>9}")).concat());
        for export in EXPORTS {
            let row = self.replies[export as usize];
            println!("{:<28}{}", export.name(), REPLIES.map(|r| format!("{:>9}", row[r])).concat());
        }
        println!("{} texts, {} pixels compared", self.texts, self.pixels);
        println!("accepted texts, by clause:");
        for name in CLAUSES {
            println!("  {:<40}{:>9}", name, self.clauses[name]);
        }
        self.strips.print();
        self.repeats.print();
    }

    /// The replies and clauses that the run should have reached and has not.
    pub fn missing(&self) -> Vec<String> {
        let mut list = Vec::new();
        for export in EXPORTS {
            for reply in replies_of(export) {
                if self.replies[export as usize][*reply] == 0 {
                    list.push(format!("{} with reply {reply}", export.name()));
                }
            }
        }
        let clauses = CLAUSES.iter().filter(|name| self.clauses[**name] == 0);
        list.extend(clauses.map(|name| name.to_string()));
        list.extend(self.strips.missing());
        list.extend(self.repeats.missing());
        list
    }
}
