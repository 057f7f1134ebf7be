//! Many bodies that are compared on each run and not kept: all the sequences of a few pieces.

use crate::cells::Way;
use crate::model::{Call, Case, Reader};

/// Single bytes, in sequences of up to five.
const BYTES: &[&str] = &["A", "1", "/", "~", "\r", "\n", " "];

/// Pieces that make BICs, accounts and numbered lines, in sequences of up to four.
pub const PIECES: &[&str] = &[
    "ABCDEFGH",
    "abcdef12345",
    "ABCé",
    "A",
    "1/",
    "2/",
    "/",
    "//",
    "/C/",
    "~",
    "\r",
    "\n",
    " ",
    "ABCDEFGHIJKLMNOPQRSTUVWXYZ01234567",
];

/// Calls `visit` with every case of the sweep.
pub fn each(mut visit: impl FnMut(Case) -> Result<(), String>) -> Result<(), String> {
    let askable = askable();
    for (pieces, longest) in [(BYTES, 5), (PIECES, 4)] {
        for body in sequences(pieces, longest) {
            for &(reader, call) in &askable {
                let body = body.clone();
                visit(Case { reader, call, body })?;
            }
        }
    }
    Ok(())
}

fn askable() -> Vec<(Reader, Call)> {
    let mut found = Vec::new();
    for reader in Reader::all() {
        let ways = Way::all(reader).into_iter().filter(|way| !way.is_refused());
        found.extend(ways.map(|way| (reader, way.calls(reader)[0])));
    }
    found
}

/// All the sequences of at most `longest` pieces.
fn sequences(pieces: &[&str], longest: usize) -> Vec<String> {
    let mut found = vec![String::new()];
    let mut start = 0;
    for _ in 0..longest {
        let end = found.len();
        for at in start..end {
            for piece in pieces {
                found.push(format!("{}{piece}", found[at]));
            }
        }
        start = end;
    }
    found
}
