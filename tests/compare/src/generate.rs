//! The bodies, each from its index and the seed.

use party_answers::bodies::legal;
use party_answers::model::Opt;
use party_answers::pool;
use party_answers::random::Random;
use party_answers::rules::LONGEST_BODY;
use party_answers::sweep;

/// Single bytes that the rules tell apart.
const BYTES: [&str; 9] = ["A", "1", "/", "~", "\r", "\n", " ", ":", "-"];
const MOST_BYTES: u32 = 7;
const MOST_PIECES: u32 = 5;

#[derive(Clone, Copy, PartialEq, Eq)]
pub enum Family {
    Bytes,
    Pieces,
    Limits,
    Damaged,
    Refused,
}

impl Family {
    pub const ALL: [Family; 5] =
        [Family::Bytes, Family::Pieces, Family::Limits, Family::Damaged, Family::Refused];
}

/// How many bodies there are of each family.
pub struct Plan {
    pieces: Vec<&'static str>,
    most_bytes: u32,
    most_pieces: u32,
    /// All but those of `Refused`, which come after them.
    pub bodies: u64,
    pub refused: u64,
}

impl Plan {
    /// All short sequences, but of no more than half of the bodies; random ones for the rest.
    pub fn new(bodies: u64) -> Plan {
        let pieces: Vec<&str> = sweep::PIECES.iter().copied().filter(|p| p.is_ascii()).collect();
        let longest = |symbols: usize, most: u32, share: u64| {
            (0..=most).rev().find(|&length| sequences(symbols, length) <= bodies / share)
        };
        let most_bytes = longest(BYTES.len(), MOST_BYTES, 2).unwrap_or(0);
        let most_pieces = longest(pieces.len(), MOST_PIECES, 10).unwrap_or(0);
        Plan { pieces, most_bytes, most_pieces, bodies, refused: bodies / 100 }
    }

    pub fn name(&self, family: Family) -> String {
        match family {
            Family::Bytes => {
                format!("all sequences of up to {} of {} bytes", self.most_bytes, BYTES.len())
            }
            Family::Pieces => {
                format!(
                    "all sequences of up to {} of {} pieces",
                    self.most_pieces,
                    self.pieces.len()
                )
            }
            Family::Limits => "random lines around the limits".to_string(),
            Family::Damaged => "good bodies, damaged copies, random lines".to_string(),
            Family::Refused => format!("over {LONGEST_BODY} bytes, or with bytes above 127"),
        }
    }

    /// The body at an index.
    pub fn body(&self, index: u64, random: &mut Random) -> (Family, Vec<u8>) {
        let bytes = sequences(BYTES.len(), self.most_bytes);
        let pieces = sequences(self.pieces.len(), self.most_pieces);
        if index >= self.bodies {
            (Family::Refused, refused(random))
        } else if index < pieces {
            (Family::Pieces, sequence(&self.pieces, index))
        } else if index - pieces < bytes {
            (Family::Bytes, sequence(&BYTES, index - pieces))
        } else if index.is_multiple_of(3) {
            (Family::Limits, around_limits(random))
        } else {
            let option = random.pick(&Opt::ALL);
            (Family::Damaged, pool::body(random, option).into_bytes())
        }
    }
}

/// How many sequences of at most `longest` symbols there are.
fn sequences(symbols: usize, longest: u32) -> u64 {
    (0..=longest).map(|length| (symbols as u64).pow(length)).sum()
}

/// The sequence at an index, the shorter ones first.
fn sequence(symbols: &[&str], mut index: u64) -> Vec<u8> {
    let count = symbols.len() as u64;
    let mut length = 0;
    while index >= count.pow(length) {
        index -= count.pow(length);
        length += 1;
    }
    let mut body = Vec::new();
    for _ in 0..length {
        body.extend_from_slice(symbols[(index % count) as usize].as_bytes());
        index /= count;
    }
    body
}

/// Up to six lines, most of a length at a limit or near it.
fn around_limits(random: &mut Random) -> Vec<u8> {
    let mut body = Vec::new();
    let end = random.pick(&["\n", "\n", "\r\n", "\r\r\n"]);
    let count = random.below(7);
    for at in 0..count {
        body.extend_from_slice(line(random, at).as_bytes());
        if at + 1 < count || random.one_in(3) {
            body.extend_from_slice(end.as_bytes());
        }
    }
    if random.one_in(4) && !body.is_empty() {
        let at = random.below(body.len());
        body[at] = random.pick(b"~^\\\0\t\x7f\r\n/: 1A");
    }
    if random.one_in(200) {
        lengthen(random, &mut body);
    }
    body
}

fn line(random: &mut Random, at: usize) -> String {
    const LENGTHS: [usize; 20] =
        [33, 34, 35, 36, 37, 38, 39, 33, 34, 35, 36, 0, 1, 2, 7, 8, 9, 10, 11, 12];
    let number = if random.one_in(8) { random.below(10) } else { at + random.below(2) };
    let start = match random.below(10) {
        0..=2 => String::new(),
        3 | 4 => "/".to_string(),
        5 => random.pick(&["//", "/A/", "/1B/", "/ABC/", "/-/"]).to_string(),
        _ => format!("{number}/"),
    };
    let length = random.pick(&LENGTHS);
    let left = if random.one_in(2) { length } else { length.saturating_sub(start.len()) };
    start + &legal(left)
}

/// Makes the body as long as the longest, or one or two bytes shorter.
fn lengthen(random: &mut Random, body: &mut Vec<u8>) {
    let filler: &[u8] = random.pick(&[b"A", b" ", b"\n", b"A\n", b"1/A\n"]);
    let bic: &[u8] = random.pick(&[b"", b"ABCDEFGH", b"\nABCDEFGH\n", b"\nABCDEFGHIJK"]);
    let length = LONGEST_BODY - random.below(3);
    let before = if random.one_in(2) { bic } else { b"" };
    body.splice(..0, before.iter().copied());
    while body.len() < length - bic.len() {
        body.extend_from_slice(filler);
    }
    body.truncate(length - bic.len());
    body.extend_from_slice(bic);
}

/// A body that is 12 or 13 by the rules; it need not be UTF-8.
fn refused(random: &mut Random) -> Vec<u8> {
    let option = random.pick(&Opt::ALL);
    let mut body = match random.one_in(2) {
        true => around_limits(random),
        false => pool::body(random, option).into_bytes(),
    };
    let long = random.one_in(3);
    if long {
        let length = LONGEST_BODY + random.pick(&[1, 1, 2, 3, 100, 2048, 6000]);
        body.resize(length.max(body.len()), b'A');
    }
    if !long || random.one_in(4) {
        for _ in 0..=random.below(3) {
            let at = random.below(body.len() + 1);
            body.insert(at, 128 + random.below(128) as u8);
        }
    }
    body
}
