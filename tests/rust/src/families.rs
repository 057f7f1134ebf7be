//! The cases that every list holds, in families.

use crate::bodies::{self, LONG, legal};
use crate::cells::{LAST_LINES, Way, refusals};
use crate::model::{Call, Case, Choice, Opt, Reader};
use crate::rules::LONGEST_BODY;
use crate::{edges, limits, statements};

pub struct Family {
    pub title: &'static str,
    /// Each case, with the name that some have.
    pub cases: Vec<(Option<&'static str>, Case)>,
}

fn unnamed(title: &'static str, cases: Vec<Case>) -> Family {
    let cases = cases.into_iter().map(|case| (None, case)).collect();
    Family { title, cases }
}

fn named(title: &'static str, cases: Vec<(&'static str, Case)>) -> Family {
    let cases = cases.into_iter().map(|(name, case)| (Some(name), case)).collect();
    Family { title, cases }
}

pub fn kept() -> Vec<Family> {
    vec![
        named("bodies at the edges", edges::cases()),
        named("cases of docs/DIFFERENCES.md", statements::named_cases()),
        unnamed("each refusal at each line", each_refusal()),
        unnamed("each way to call a choice", each_way()),
        unnamed("limits", each_limit()),
        unnamed("CR and LF in every position", line_ends()),
        unnamed("each byte", each_byte()),
        unnamed("each kind of byte", each_kind_of_byte()),
        unnamed("the last line that a refusal can name", last_lines()),
        unnamed("bodies around 2,048 bytes", long_bodies()),
        unnamed("bytes above 127", high_bytes()),
    ]
}

/// The calls of a choice that pick an option.
fn picking(choice: Choice) -> Vec<(Call, Opt)> {
    let mut found = Vec::new();
    for &option in choice.options() {
        let call = option.letter().map_or(Call::NoLetter, Call::Letter);
        found.push((call, option));
    }
    found
}

fn each_refusal() -> Vec<Case> {
    let mut cases = Vec::new();
    for option in Opt::ALL {
        for body in refused_bodies(option, 4) {
            cases.push(Case::option(option, body));
        }
    }
    for choice in Choice::ALL {
        for (call, option) in picking(choice) {
            for body in refused_bodies(option, 1) {
                cases.push(Case::choice(choice, call, body));
            }
        }
    }
    cases
}

/// Bodies for every refusal of the option at every line, at most `most` for each.
fn refused_bodies(option: Opt, most: usize) -> Vec<String> {
    let mut found = Vec::new();
    for &(number, first, last) in refusals(option) {
        for line in first..=last {
            found.extend(bodies::refused(option, number, line).into_iter().take(most));
        }
    }
    found
}

fn each_way() -> Vec<Case> {
    let mut cases = Vec::new();
    for choice in Choice::ALL {
        let reader = Reader::Choice(choice);
        let body = bodies::short(choice.options()[0])[0];
        for way in Way::all(reader) {
            for call in way.calls(reader) {
                cases.push(Case::choice(choice, call, body));
            }
            if !way.is_refused() {
                let call = way.calls(reader)[0];
                let bodies = good_bodies(choice).into_iter();
                cases.extend(bodies.map(|body| Case::choice(choice, call, body)));
            }
        }
    }
    cases
}

/// Bodies that some option of the choice accepts, and some that none does.
fn good_bodies(choice: Choice) -> Vec<&'static str> {
    let mut found = vec!["", "~", "/~\n~"];
    for &option in choice.options() {
        found.push(bodies::short(option)[0]);
        found.extend(bodies::usual(option));
    }
    found
}

fn each_limit() -> Vec<Case> {
    let mut cases = Vec::new();
    for option in Opt::ALL {
        for body in limits::bodies(option) {
            cases.push(Case::option(option, body));
        }
    }
    cases.extend(limits::detected());
    cases
}

fn line_ends() -> Vec<Case> {
    let mut cases = Vec::new();
    for option in Opt::ALL {
        let bodies = bodies::short(option).iter();
        let bodies = bodies.flat_map(|body| with_line_ends(body));
        cases.extend(bodies.map(|body| Case::option(option, body)));
    }
    for choice in Choice::ALL {
        let options = choice.options().iter();
        let bodies = options.flat_map(|&option| with_line_ends(bodies::short(option)[0]));
        cases.extend(bodies.map(|body| Case::choice(choice, Call::Parse, body)));
    }
    cases
}

/// The body with CR, LF and CR LF put in at every position, and with CR and LF in every place.
fn with_line_ends(body: &str) -> Vec<String> {
    let mut found = Vec::new();
    for end in ["\r", "\n", "\r\n"] {
        for at in 0..=body.len() {
            found.push(format!("{}{end}{}", &body[..at], &body[at..]));
        }
    }
    for end in ["\r", "\n"] {
        for at in 0..body.len() {
            found.push(format!("{}{end}{}", &body[..at], &body[at + 1..]));
        }
    }
    found
}

/// Each byte from 0 to 127 in one place of each kind: start and end of the body around it.
fn each_byte() -> Vec<Case> {
    let option = |option, start, end| (Reader::Option(option), start, end);
    let choice = |choice, start, end| (Reader::Choice(choice), start, end);
    let places = [
        option(Opt::L50, "", ""),
        option(Opt::H50, "/", "\nA"),
        option(Opt::A50, "/", "/A\nABCDEFGH"),
        option(Opt::C50, "", "BCDEFGH"),
        option(Opt::C50, "ABCDEFG", ""),
        option(Opt::F59, "", "/A"),
        choice(Choice::InstructingParty, "", "ABCDEFGH"),
        choice(Choice::OrderingCustomerAFK, "JOHNDOES\nSTREETAB", ""),
    ];
    let mut cases = Vec::new();
    for (reader, start, end) in places {
        cases.extend((0..128).map(|byte| around(reader, start, byte, end)));
    }
    cases
}

fn around(reader: Reader, start: &str, byte: u8, end: &str) -> Case {
    Case { reader, call: Call::Parse, body: format!("{start}{}{end}", char::from(byte)) }
}

/// Bytes of each kind: control, blank, sign, digit, letter, and signs that are not legal.
const KINDS: &[u8] = b"\0\t\n\r !/0@Z[az{~";

/// A byte of each kind in place of each byte of a short body of each option.
fn each_kind_of_byte() -> Vec<Case> {
    let mut cases = Vec::new();
    for option in Opt::ALL {
        let body = bodies::short(option)[bodies::short(option).len() - 1];
        for at in 0..body.len() {
            for &byte in KINDS.iter().skip(at % 2).step_by(2) {
                let (start, end) = (&body[..at], &body[at + 1..]);
                cases.push(around(Reader::Option(option), start, byte, end));
            }
        }
    }
    let bic = legal(11);
    for at in 0..bic.len() {
        for byte in *b" /0[`~" {
            cases.push(around(Reader::Option(Opt::C50), &bic[..at], byte, &bic[at + 1..]));
        }
    }
    cases
}

fn last_lines() -> Vec<Case> {
    let mut cases = Vec::new();
    for (option, number, line) in LAST_LINES {
        let body = bodies::last_line(option, number, line);
        cases.push(Case::option(option, body));
    }
    cases
}

/// Bodies around the longest, and two that break a second rule: 14 comes before 12, 12 before 13.
fn long_bodies() -> Vec<Case> {
    let mut cases = Vec::new();
    for option in Opt::ALL {
        let lengths = match option {
            Opt::A50 | Opt::A59 => &LONG[..],
            _ => &LONG[2..],
        };
        for &length in lengths {
            cases.push(Case::option(option, bodies::long(option, length)));
        }
    }
    for choice in Choice::ALL {
        let reader = Reader::Choice(choice);
        for way in Way::all(reader).into_iter().filter(|way| !way.is_refused()) {
            let call = way.calls(reader)[0];
            let body = detected_long(choice, LONGEST_BODY + 1);
            cases.push(Case::choice(choice, call, body));
        }
        cases.push(Case::choice(choice, Call::Parse, detected_long(choice, LONGEST_BODY)));
    }
    let too_long = legal(LONGEST_BODY + 1);
    cases.push(Case::choice(Choice::Creditor, Call::Letter(b'a'), too_long));
    cases.push(Case::option(Opt::N50, "é".repeat(LONGEST_BODY / 2 + 1)));
    cases
}

/// A body of `length` bytes that the choice detects if it takes any so long.
fn detected_long(choice: Choice, length: usize) -> String {
    let (start, end) = match choice {
        Choice::InstructingParty => return format!("A{}", " ".repeat(length - 1)),
        Choice::OrderingCustomerFGH => ("/A\n", ""),
        _ => ("ABCDEFGH\n", "\nABCDEFGH"),
    };
    format!("{start}{}{end}", legal(length - start.len() - end.len()))
}

/// Bytes above 127 in each reader, and one with a letter that is refused: 14 comes before 13.
fn high_bytes() -> Vec<Case> {
    let mut cases = Vec::new();
    for option in Opt::ALL {
        let body = bodies::short(option)[0];
        for body in ["é", "€", "²", &body.replace("EF", "é"), &body.replace("DE", "é")] {
            cases.push(Case::option(option, body));
        }
        cases.push(Case::option(option, body.replacen(['A', '1'], "é", 1)));
        cases.push(Case::option(option, format!("{body}\u{a0}")));
    }
    for choice in Choice::ALL {
        let reader = Reader::Choice(choice);
        for way in Way::all(reader).into_iter().filter(|way| !way.is_refused()) {
            cases.push(Case::choice(choice, way.calls(reader)[0], "/é\né"));
        }
    }
    cases.push(Case::choice(Choice::Creditor, Call::Letter(b'a'), "é"));
    cases.retain(|case| !case.body.is_ascii());
    cases
}
