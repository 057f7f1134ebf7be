//! The project's own rules for a body, transcribed plainly and apart from the Rust.
//!
//! The rules are those of the readers: lines, identifier, BIC, the eleven options, the seven
//! choices, and the refusals 1 to 14 with the body line that each names.

use crate::model::{Answer, Call, Case, Choice, Opt, Reader, Record};

/// A refusal's number and body line.
type Refusal = (u8, usize);
type Reading = Result<Record, Refusal>;

pub const LONGEST_BODY: usize = 2048;
const MOST_NAMES: usize = 4;
const NAME: usize = 35;
const NUMBERED_TEXT: usize = 33;
const ACCOUNT: usize = 34;
const PARTY: usize = 35;

pub fn answer(case: &Case) -> Answer {
    match reading(case) {
        Ok(record) => {
            let written = written(&record, &digits(&record, case.body.as_bytes()));
            Answer::Read { record, written }
        }
        Err((number, line)) => Answer::Refused { number, line },
    }
}

fn reading(case: &Case) -> Reading {
    let body = case.body.as_bytes();
    admitted(case.call, body)?;
    match case.reader {
        Reader::Option(option) => read(option, body),
        Reader::Choice(choice) => choose(choice, case.call, body),
    }
}

/// 14, 12 and 13, in that order, before all else.
fn admitted(call: Call, body: &[u8]) -> Result<(), Refusal> {
    let letter = match call {
        Call::Parse | Call::NoLetter => 0,
        Call::Letter(letter) => letter,
    };
    if letter != 0 && !letter.is_ascii_uppercase() {
        return Err((14, 0));
    }
    if body.len() > LONGEST_BODY {
        return Err((12, 0));
    }
    if body.iter().any(|&byte| byte > 127) {
        return Err((13, 0));
    }
    Ok(())
}

fn choose(choice: Choice, call: Call, body: &[u8]) -> Reading {
    match choice.picked(call) {
        Some(option) => read(option, body),
        None => detect(choice, body),
    }
}

// Bytes and lines.

fn is_legal(byte: u8) -> bool {
    byte.is_ascii_alphanumeric() || b" \r\n/-?:().,'+{}%&*;<=>@[]_$!\"#|".contains(&byte)
}

pub fn all_legal(text: &[u8]) -> bool {
    text.iter().all(|&byte| is_legal(byte))
}

/// Each line ends at LF, with one CR just before that LF dropped.
/// Text after the last LF is a line if it is not empty.
pub fn lines(body: &[u8]) -> Vec<&[u8]> {
    let mut found = Vec::new();
    let mut start = 0;
    for (end, &byte) in body.iter().enumerate() {
        if byte == b'\n' {
            let line = &body[start..end];
            found.push(line.strip_suffix(b"\r").unwrap_or(line));
            start = end + 1;
        }
    }
    if start < body.len() {
        found.push(&body[start..]);
    }
    found
}

fn is_numbered(line: &[u8]) -> bool {
    line.len() >= 2 && line[0].is_ascii_digit() && line[1] == b'/'
}

fn has_slash(line: &[u8]) -> bool {
    line.first() == Some(&b'/')
}

fn trimmed(text: &[u8]) -> &[u8] {
    let blank = |byte: &u8| matches!(byte, 9..=13 | 32);
    let start = text.iter().take_while(|&byte| blank(byte)).count();
    let rest = &text[start..];
    let end = rest.iter().rev().take_while(|&byte| blank(byte)).count();
    &rest[..rest.len() - end]
}

// The parts of a body.

fn bic(text: &[u8], line: usize) -> Result<Vec<u8>, Refusal> {
    if text.len() != 8 && text.len() != 11 {
        return Err((9, line));
    }
    let (letters, others) = text.split_at(6);
    let good =
        letters.iter().all(u8::is_ascii_alphabetic) && others.iter().all(u8::is_ascii_alphanumeric);
    if good { Ok(text.to_vec()) } else { Err((10, line)) }
}

/// The value of an identifier on the first line, or none.
fn identifier(line: &[u8]) -> Result<Option<Vec<u8>>, Refusal> {
    let Some(value) = line.strip_prefix(b"/") else {
        return Ok(None);
    };
    let (id, shortest) = match value.iter().position(|&byte| byte == b'/') {
        Some(0) => (&value[1..], 1),
        Some(slash) => {
            let code = &value[..slash];
            if code.len() > 2 || !code.iter().all(u8::is_ascii_alphanumeric) {
                return Err((2, 1));
            }
            (&value[slash + 1..], 0)
        }
        None => (value, 0),
    };
    if id.len() < shortest || id.len() > ACCOUNT {
        return Err((2, 1));
    }
    if !all_legal(id) {
        return Err((3, 1));
    }
    Ok(Some(value.to_vec()))
}

/// A first line of `/` and an account of `shortest` to 34 bytes, not tested further.
fn account(line: &[u8], shortest: usize) -> Result<&[u8], Refusal> {
    match line.strip_prefix(b"/") {
        Some(text) if (shortest..=ACCOUNT).contains(&text.len()) => Ok(text),
        _ => Err((2, 1)),
    }
}

fn legal_account(line: &[u8], shortest: usize) -> Result<Vec<u8>, Refusal> {
    let text = account(line, shortest)?;
    if all_legal(text) { Ok(text.to_vec()) } else { Err((3, 1)) }
}

fn party(text: &[u8]) -> Result<Vec<u8>, Refusal> {
    if text.is_empty() || text.len() > PARTY {
        return Err((2, 1));
    }
    if all_legal(text) { Ok(text.to_vec()) } else { Err((3, 1)) }
}

/// A text of a line: its length, then its bytes.
fn text(text: &[u8], longest: usize, line: usize) -> Result<(), Refusal> {
    if text.len() > longest {
        return Err((4, line));
    }
    if all_legal(text) { Ok(()) } else { Err((3, line)) }
}

/// The lines after the first `skipped` as names, tested in order.
fn names(lines: &[&[u8]], skipped: usize) -> Result<Vec<Vec<u8>>, Refusal> {
    let mut found = Vec::new();
    for (index, line) in lines.iter().enumerate().skip(skipped) {
        text(line, NAME, index + 1)?;
        found.push(line.to_vec());
    }
    Ok(found)
}

fn counted(names: Vec<Vec<u8>>) -> Result<Vec<Vec<u8>>, Refusal> {
    if (1..=MOST_NAMES).contains(&names.len()) { Ok(names) } else { Err((7, 0)) }
}

// The eleven options.

fn read(option: Opt, body: &[u8]) -> Reading {
    let lines = lines(body);
    let fewest = match option {
        Opt::C50 | Opt::L50 => 0,
        Opt::F50 | Opt::G50 | Opt::H50 => 2,
        _ => 1,
    };
    let most = match option {
        Opt::N50 => 4,
        Opt::G50 => 2,
        _ => usize::MAX,
    };
    if lines.len() < fewest || lines.len() > most {
        return Err((1, 0));
    }
    let (party, bic, names) = match option {
        Opt::N50 => (None, Vec::new(), names(&lines, 0)?),
        Opt::A50 => read_50a(&lines)?,
        Opt::F50 => read_50f(&lines)?,
        Opt::K50 => read_50k(&lines)?,
        Opt::C50 => (None, bic(body, 1)?, Vec::new()),
        Opt::L50 => (Some(read_50l(body)?), Vec::new(), Vec::new()),
        Opt::G50 => (Some(legal_account(lines[0], 1)?), bic(lines[1], 2)?, Vec::new()),
        Opt::H50 => read_50h(&lines)?,
        Opt::N59 => read_59(&lines)?,
        Opt::A59 => read_59a(&lines)?,
        Opt::F59 => read_59f(&lines)?,
    };
    Ok(Record { option, party, bic, names })
}

/// Account or identifier, BIC, names.
type Parts = (Option<Vec<u8>>, Vec<u8>, Vec<Vec<u8>>);

fn bic_after(party: Option<Vec<u8>>, lines: &[&[u8]]) -> Result<Parts, Refusal> {
    let index = usize::from(party.is_some());
    let line = lines.get(index).ok_or((8, 0))?;
    Ok((party, bic(line, index + 1)?, Vec::new()))
}

fn read_50a(lines: &[&[u8]]) -> Result<Parts, Refusal> {
    bic_after(identifier(lines[0])?, lines)
}

fn read_50f(lines: &[&[u8]]) -> Result<Parts, Refusal> {
    let party = party(lines[0])?;
    let mut names = Vec::new();
    for (index, line) in lines.iter().enumerate().skip(1) {
        if !is_numbered(line) {
            return Err((5, index + 1));
        }
        text(&line[2..], NUMBERED_TEXT, index + 1)?;
        names.push(line[2..].to_vec());
    }
    Ok((Some(party), Vec::new(), counted(names)?))
}

fn read_50k(lines: &[&[u8]]) -> Result<Parts, Refusal> {
    let party = match has_slash(lines[0]) {
        true => Some(legal_account(lines[0], 0)?),
        false => None,
    };
    let names = names(lines, usize::from(party.is_some()))?;
    Ok((party, Vec::new(), counted(names)?))
}

fn read_50l(body: &[u8]) -> Result<Vec<u8>, Refusal> {
    if body.contains(&b'\n') {
        return Err((1, 0));
    }
    party(body)
}

fn read_50h(lines: &[&[u8]]) -> Result<Parts, Refusal> {
    let party = account(lines[0], 1)?.to_vec();
    Ok((Some(party), Vec::new(), counted(names(lines, 1)?)?))
}

/// The account of 59 and 59A: with over 34 bytes the line is no account.
fn account_59(line: &[u8]) -> Result<Option<Vec<u8>>, Refusal> {
    if has_slash(line) && line.len() - 1 <= ACCOUNT {
        return legal_account(line, 0).map(Some);
    }
    Ok(None)
}

fn read_59(lines: &[&[u8]]) -> Result<Parts, Refusal> {
    let party = account_59(lines[0])?;
    let names = names(lines, usize::from(party.is_some()))?;
    Ok((party, Vec::new(), counted(names)?))
}

fn read_59a(lines: &[&[u8]]) -> Result<Parts, Refusal> {
    bic_after(account_59(lines[0])?, lines)
}

fn read_59f(lines: &[&[u8]]) -> Result<Parts, Refusal> {
    let party = identifier(lines[0])?;
    let skipped = usize::from(party.is_some());
    let mut names = Vec::new();
    for (index, line) in lines.iter().enumerate().skip(skipped) {
        if !is_numbered(line) {
            return Err((5, index + 1));
        }
        if usize::from(line[0] - b'0') != index + 1 - skipped {
            return Err((6, index + 1));
        }
        text(&line[2..], NUMBERED_TEXT, index + 1)?;
        names.push(line.to_vec());
    }
    Ok((party, Vec::new(), counted(names)?))
}

// The seven choices.

fn detect(choice: Choice, body: &[u8]) -> Reading {
    let body = match choice {
        Choice::InstructingParty => trimmed(body),
        _ => body,
    };
    let lines = lines(body);
    let mut tried = candidates(choice, &lines).into_iter();
    tried.find_map(|option| read(option, body).ok()).ok_or((11, 0))
}

/// The options that detection tries, in order.
fn candidates(choice: Choice, lines: &[&[u8]]) -> Vec<Opt> {
    let tests: Vec<(Opt, bool)> = match choice {
        Choice::InstructingParty => vec![(Opt::C50, true), (Opt::L50, true)],
        Choice::OrderingCustomerFGH => fgh(lines),
        Choice::OrderingCustomerAFK => vec![
            (Opt::F50, any_numbered(lines)),
            (Opt::A50, ends_like_bic(lines)),
            (Opt::K50, true),
        ],
        Choice::OrderingCustomerNCF => vec![
            (Opt::C50, lines.len() == 1 && (8..=11).contains(&lines[0].len())),
            (Opt::F50, any_numbered(lines)),
            (Opt::N50, true),
        ],
        Choice::Creditor => vec![(Opt::A50, ends_like_bic(lines)), (Opt::K50, true)],
        Choice::Beneficiary => {
            vec![(Opt::A59, true), (Opt::F59, starts_numbered(lines)), (Opt::N59, true)]
        }
        Choice::Debtor => vec![(Opt::A59, true), (Opt::N59, true)],
    };
    tests.into_iter().filter(|test| test.1).map(|test| test.0).collect()
}

fn fgh(lines: &[&[u8]]) -> Vec<(Opt, bool)> {
    if lines.len() < 2 {
        return Vec::new();
    }
    let slash = has_slash(lines[0]);
    vec![
        (Opt::F50, any_numbered(&lines[1..])),
        (Opt::G50, slash && lines.len() == 2),
        (Opt::H50, slash),
    ]
}

fn any_numbered(lines: &[&[u8]]) -> bool {
    lines.iter().any(|line| is_numbered(line))
}

fn ends_like_bic(lines: &[&[u8]]) -> bool {
    let last = lines.last().map_or(&[][..], |line| trimmed(line));
    matches!(last.len(), 8 | 11) && last.iter().all(u8::is_ascii_alphanumeric)
}

fn starts_numbered(lines: &[&[u8]]) -> bool {
    let index = usize::from(lines.first().is_some_and(|line| has_slash(line)));
    lines.get(index).is_some_and(|line| is_numbered(line))
}

// Writing.

/// The digits of the lines of 50F, as they came in the body that gives the record. No other option
/// has them beside its names.
pub fn digits(record: &Record, body: &[u8]) -> Vec<u8> {
    match record.option {
        Opt::F50 => lines(body).iter().skip(1).map(|line| line[0]).collect(),
        _ => Vec::new(),
    }
}

pub fn written(record: &Record, digits: &[u8]) -> Vec<u8> {
    let mut lines: Vec<Vec<u8>> = Vec::new();
    if let Some(party) = &record.party {
        lines.push(party_line(record.option, party));
    }
    for (index, name) in record.names.iter().enumerate() {
        lines.push(name_line(digits.get(index), name));
    }
    if !record.bic.is_empty() {
        lines.push(record.bic.clone());
    }
    let tag = format!(":{}:", record.option.name()).into_bytes();
    [tag, lines.join(&b'\n')].concat()
}

fn party_line(option: Opt, party: &[u8]) -> Vec<u8> {
    match option {
        Opt::F50 | Opt::L50 => party.to_vec(),
        _ => [b"/", party].concat(),
    }
}

fn name_line(digit: Option<&u8>, name: &[u8]) -> Vec<u8> {
    match digit {
        Some(&digit) => [&[digit, b'/'], name].concat(),
        None => name.to_vec(),
    }
}
