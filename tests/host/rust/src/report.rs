//! The message for a difference.

use std::fmt::Write;

use crate::compare::Place;
use crate::library::{Call, Export};

/// What was compared: expected and got reply, and the first different byte of each piece of memory.
pub struct Found {
    pub reply: (u32, u32),
    pub lent: Option<(usize, u8, u8)>,
    pub margin: Option<(isize, u8, u8)>,
    pub first: Option<(usize, u8, u8)>,
    pub second: Option<(usize, u8, u8)>,
}

impl Found {
    pub fn any(&self) -> bool {
        let changed = self.first.is_some() || self.second.is_some();
        self.reply.0 != self.reply.1 || self.lent.is_some() || self.margin.is_some() || changed
    }
}

pub fn escaped(text: &[u8]) -> String {
    text.iter().flat_map(|byte| std::ascii::escape_default(*byte)).map(char::from).collect()
}

fn hex(bytes: &[u8]) -> String {
    let pairs: Vec<String> = bytes.iter().map(|byte| format!("{byte:02x}")).collect();
    pairs.join(" ")
}

fn inputs(call: &Call) -> String {
    let mut lines = String::new();
    let len = call.first.len();
    let _ = match call.export.takes_text() {
        true => writeln!(lines, "  text, {len} bytes: \"{}\"", escaped(call.first)),
        false => writeln!(lines, "  gradient, {len} bytes: {}", hex(call.first)),
    };
    if call.export == Export::DrawStops {
        let _ = writeln!(lines, "  stops, {} bytes: {}", call.second.len(), hex(call.second));
    }
    if call.export != Export::Read {
        let _ = writeln!(lines, "  box: {} x {}", call.area.0, call.area.1);
    }
    if call.export.draws_rows() {
        let _ = writeln!(lines, "  rows: {} up to {}", call.rows.0, call.rows.1);
    }
    let _ = writeln!(lines, "  lent: {} bytes", call.lent);
    lines
}

/// `start` is where a slice handed in begins within its copy.
pub fn difference(place: &Place, call: &Call, found: &Found, start: usize) -> String {
    let mut message = format!("difference in {}\n", call.export.name());
    let _ = writeln!(message, "  seed {}, {} {}", place.seed, place.part, place.number);
    message += &inputs(call);
    let (want, got) = found.reply;
    let _ = writeln!(message, "  reply: expected {want}, got {got}");
    if let Some((k, want, got)) = found.lent {
        let _ = writeln!(message, "  lent byte {k}: expected {want}, got {got}");
    }
    if let Some((k, want, got)) = found.margin {
        let _ = writeln!(message, "  outside the lent slice, byte {k} from its start: {want} became {got}");
    }
    for (name, changed) in [("first", found.first), ("second", found.second)] {
        if let Some((k, want, got)) = changed {
            let at = k as isize - start as isize;
            let _ = writeln!(message, "  {name} slice handed in changed, byte {at}: {want} became {got}");
        }
    }
    message
}
