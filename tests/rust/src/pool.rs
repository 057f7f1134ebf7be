//! Random bodies: good ones, damaged copies of good ones, and lines of any kind.

use crate::bodies::{self, legal};
use crate::cells::Way;
use crate::limits;
use crate::model::{Case, Opt, Reader};
use crate::random::Random;

/// `count` cases over all readers and all the ways to call them.
pub fn cases(seed: u64, count: usize) -> Vec<Case> {
    let mut random = Random::new(seed);
    let mut askable = Vec::new();
    for reader in Reader::all() {
        let ways = Way::all(reader).into_iter().filter(|way| !way.is_refused());
        askable.extend(ways.map(|way| (reader, way)));
    }
    (0..count).map(|_| case(&mut random, &askable)).collect()
}

fn case(random: &mut Random, askable: &[(Reader, Way)]) -> Case {
    let (reader, way) = random.pick(askable);
    let call = random.pick(&way.calls(reader));
    let option = match way.picked(reader) {
        Some(option) if !random.one_in(4) => option,
        _ => random.pick(reader.options()),
    };
    Case { reader, call, body: body(random, option) }
}

/// A good body of the option, a damaged copy of one, or lines of any kind.
pub fn body(random: &mut Random, option: Opt) -> String {
    let start = match random.below(8) {
        0 => return good(random, option),
        1 | 2 => return lines(random),
        3 => bodies::short(option)[0].to_string(),
        4 => random.pick(bodies::usual(option)).to_string(),
        5 => {
            let bodies = limits::bodies(option);
            bodies[random.below(bodies.len())].clone()
        }
        _ => good(random, option),
    };
    let mut bytes = start.into_bytes();
    for _ in 0..=random.below(3) {
        damage(random, &mut bytes);
    }
    bytes.into_iter().map(char::from).collect()
}

/// A body that the option accepts.
fn good(random: &mut Random, option: Opt) -> String {
    let count = 1 + random.below(4);
    let names: Vec<String> = (0..count).map(|_| text(random, 35)).collect();
    let numbered: Vec<String> =
        (1..=count).map(|at| format!("{at}/{}", text(random, 33))).collect();
    let party = text(random, 34);
    let bic = bic(random);
    let mut lines = match option {
        Opt::N50 => names,
        Opt::C50 => return bic,
        Opt::L50 => return format!("A{party}"),
        Opt::A50 | Opt::A59 => optional(random, vec![bic]),
        Opt::F50 => [vec![format!("X{party}")], numbered].concat(),
        Opt::K50 | Opt::N59 => optional(random, names),
        Opt::G50 => vec![format!("/X{}", text(random, 33)), bic],
        Opt::H50 => [vec![format!("/X{}", text(random, 33))], names].concat(),
        Opt::F59 => optional(random, numbered),
    };
    if random.one_in(4) {
        lines.push(String::new());
    }
    lines.join(random.pick(&["\n", "\n", "\r\n"]))
}

/// The lines, after an account or identifier or after none.
fn optional(random: &mut Random, lines: Vec<String>) -> Vec<String> {
    let first = match random.below(5) {
        0 => format!("/{}", text(random, 34).replace('/', "")),
        1 => format!("/C/{}", text(random, 32)),
        2 => format!("//{}", random.pick(&["FW", "RT1", "CH123456"])),
        _ => return lines,
    };
    [vec![first], lines].concat()
}

/// Legal bytes, most often few, at times as many as the limit or one fewer.
fn text(random: &mut Random, longest: usize) -> String {
    const SIGNS: &[u8] = b"ABCXYZabcxyz0189 /-?:().,'+{}%&*;<=>@[]_$!\"#|";
    if random.one_in(6) {
        return legal(longest - random.below(2));
    }
    let length = random.below(7);
    (0..length).map(|_| char::from(random.pick(SIGNS))).collect()
}

fn bic(random: &mut Random) -> String {
    random
        .pick(&["ABCDEFGH", "DEUTDEFF500", "deutdeff", "UBSWCHZ0", "AbCdEf12", "ABCDEF123AZ"])
        .to_string()
}

/// Lines of any kind.
fn lines(random: &mut Random) -> String {
    let count = random.pick(&[0, 1, 1, 2, 2, 2, 3, 3, 4, 5, 6, 7]);
    let mut body = String::new();
    for at in 0..count {
        if at > 0 {
            body.push_str(random.pick(&["\n", "\n", "\n", "\r\n", "\r"]));
        }
        body.push_str(&line(random, at));
    }
    if random.one_in(3) {
        body.push_str(random.pick(&["\n", "\r\n", "\r", "\n\n", " "]));
    }
    body
}

fn line(random: &mut Random, at: usize) -> String {
    match random.below(12) {
        0 => String::new(),
        1 => legal(random.pick(&[7, 8, 9, 10, 11, 12, 33, 34, 35, 36])),
        2 | 3 => format!("{at}/{}", text(random, 33)),
        4 => format!("{}/{}", random.below(10), text(random, 34)),
        5 | 6 => format!("/{}", text(random, 35)),
        7 => format!("//{}", text(random, 35)),
        8 => format!("/{}/{}", text(random, 2), text(random, 35)),
        9 => format!(" {}", bic(random)),
        10 => bic(random),
        _ => text(random, 36),
    }
}

/// One damage: a byte changed, put in or left out, or a part of the body.
fn damage(random: &mut Random, bytes: &mut Vec<u8>) {
    const SIGNS: &[u8] = b"\r\n\r\n//019Az ~^\\\0\t\x7f-:";
    let byte = if random.one_in(4) { random.below(128) as u8 } else { random.pick(SIGNS) };
    let at = random.below(bytes.len() + 1);
    match random.below(7) {
        0 | 1 => bytes.insert(at, byte),
        2 | 3 if at < bytes.len() => bytes[at] = byte,
        4 if at < bytes.len() => drop(bytes.remove(at)),
        5 => bytes.truncate(at),
        _ => {
            let end = at + random.below(bytes.len() - at + 1);
            let copy = bytes[at..end].to_vec();
            bytes.splice(at..at, copy);
        }
    }
}
