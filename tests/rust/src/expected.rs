//! What ours must answer: as the Rust does, or as a rule of docs/DIFFERENCES.md has it.
//!
//! A rule is worked out from the letter and the body, or from the record, and from the Rust, never
//! from our answer. This is the only copy of the rules: the list carries what they give.

use crate::differences::{Class, IN_TURN};
use crate::model::{Answer, Call, Case, Choice, Opt, Reader, Record};
use crate::{reference, rules};

/// 14, 12 and 13, in that order; none where the Rust is asked.
pub fn refused(call: Call, body: &[u8]) -> Option<(u8, Class)> {
    match call {
        Call::Letter(letter) if letter != 0 && !letter.is_ascii_uppercase() => {
            return Some((14, Class::Letter));
        }
        _ => (),
    }
    if body.len() > rules::LONGEST_BODY {
        return Some((12, Class::LongBody));
    }
    (!body.is_ascii()).then_some((13, Class::HighByte))
}

/// An answer, and the rule where it is not the Rust's.
pub struct Expected {
    pub answer: Answer,
    pub rule: Option<Class>,
    /// The Rust's text of 50F, which ours has where its digits are set to 1, 2, 3, 4.
    pub in_turn: Option<Vec<u8>>,
}

impl Expected {
    fn new(answer: Answer, rule: Option<Class>) -> Expected {
        Expected { answer, rule, in_turn: None }
    }
}

/// The answer to a case, to which the Rust gives an answer.
pub fn answer(case: &Case, rust: Answer) -> Result<Expected, String> {
    if let Some((number, rule)) = refused(case.call, case.body.as_bytes()) {
        return Ok(Expected::new(Answer::Refused { number, line: 0 }, Some(rule)));
    }
    match rust {
        Answer::Read { record, written } if record.option == Opt::F50 => {
            Ok(as_it_came(record, written, case.body.as_bytes()))
        }
        Answer::Read { record, written } if record.option == Opt::F59 && record.party.is_some() => {
            let less = without_empty_line(&record, &written);
            let written = less.ok_or_else(|| format!("no empty line in the Rust's {written:?}"))?;
            let ours = Answer::Read { record, written };
            Ok(Expected::new(ours, Some(Class::EmptyLine59F)))
        }
        rust => of_50h(case, rust),
    }
}

/// The Rust's text of 59F with an identifier, with one LF removed: that of the empty line after the
/// identifier. None of any other record, and where the text has no such line.
pub fn without_empty_line(record: &Record, written: &[u8]) -> Option<Vec<u8>> {
    let identifier = record.party.as_ref().filter(|_| record.option == Opt::F59)?;
    let line = [b":59F:/", &identifier[..], b"\n"].concat();
    let rest = written.strip_prefix(&line[..])?.strip_prefix(b"\n")?;
    Some([&line, rest].concat())
}

/// 50F, which ours writes as the lines of the body came.
fn as_it_came(record: Record, rust: Vec<u8>, body: &[u8]) -> Expected {
    let written = [b":50F:", &rules::lines(body).join(&b'\n')[..]].concat();
    let rule = (written != rust).then_some(Class::Digits50F);
    let answer = Answer::Read { record, written };
    Expected { answer, rule, in_turn: Some(rust) }
}

/// The Rust's answer, but for the bytes of 50H's account.
fn of_50h(case: &Case, rust: Answer) -> Result<Expected, String> {
    let read_as_50h = case.reader.picked(case.call) == Some(Opt::H50);
    let fgh = case.reader == Reader::Choice(Choice::OrderingCustomerFGH);
    let detected = fgh && case.reader.picked(case.call).is_none();
    if !read_as_50h && !detected {
        return Ok(Expected::new(rust, None));
    }
    let Some(account) = illegal_account(&case.body) else {
        return Ok(Expected::new(rust, None));
    };
    let without = if read_as_50h { (3, 1) } else { (11, 0) };
    if rust != (Answer::Refused { number: without.0, line: without.1 }) {
        return Err(format!("an account of 50H with an illegal byte, and the Rust has {rust:?}"));
    }
    Ok(match (mended(&case.body, account)?, detected) {
        (Answer::Refused { .. }, true) => Expected::new(rust, None),
        (ours, true) => Expected::new(ours, Some(Class::Detected50H)),
        (ours, false) => Expected::new(ours, Some(Class::Account50H)),
    })
}

/// The account of a body of two lines or more whose first is `/` and 1 to 34 bytes, one of them
/// not legal.
fn illegal_account(body: &str) -> Option<&str> {
    let mut lines = body.lines();
    let account = lines.next()?.strip_prefix('/')?;
    lines.next()?;
    (account.len() <= 34 && !rules::all_legal(account.as_bytes())).then_some(account)
}

/// What the Rust's 50H answers where the account is of legal bytes, with the account put back.
fn mended(body: &str, account: &str) -> Result<Answer, String> {
    const BEFORE: &[u8] = b":50H:/";
    let legal = format!("/{}{}", "A".repeat(account.len()), &body[1 + account.len()..]);
    let mut answer = reference::answer(&Case::option(Opt::H50, legal))?;
    if let Answer::Read { record, written } = &mut answer {
        record.party = Some(account.as_bytes().to_vec());
        written[BEFORE.len()..BEFORE.len() + account.len()].copy_from_slice(account.as_bytes());
    }
    Ok(answer)
}

/// What is written of a record with these digits; none where no accepted body gives it, which is 22.
///
/// If any body gives the record, the body of its lines, each ended by CR LF, does.
pub fn written(record: &Record, digits: &[u8]) -> Result<Option<Vec<u8>>, String> {
    let body = body_of(record, digits);
    let Ok(body) = String::from_utf8(body) else {
        return Ok(None);
    };
    if refused(Call::Parse, body.as_bytes()).is_some() {
        return Ok(None);
    }
    let case = Case::option(record.option, body);
    match answer(&case, reference::answer(&case)?)?.answer {
        Answer::Read { record: read, written } if read == *record => Ok(Some(written)),
        _ => Ok(None),
    }
}

fn body_of(record: &Record, digits: &[u8]) -> Vec<u8> {
    let party = record.party.as_deref();
    match record.option {
        Opt::C50 => return record.bic.clone(),
        Opt::L50 => return party.unwrap_or_default().to_vec(),
        _ => (),
    }
    let mut body = Vec::new();
    let mut add = |before: &[u8], text: &[u8]| {
        for part in [before, text, b"\r\n"] {
            body.extend_from_slice(part);
        }
    };
    let slash: &[u8] = if record.option == Opt::F50 { b"" } else { b"/" };
    if let Some(party) = party {
        add(slash, party);
    }
    for (at, name) in record.names.iter().enumerate() {
        match digits.get(at) {
            Some(&digit) if record.option == Opt::F50 => add(&[digit, b'/'], name),
            _ => add(b"", name),
        }
    }
    if matches!(record.option, Opt::A50 | Opt::G50 | Opt::A59) {
        add(b"", &record.bic);
    }
    body
}

/// How a record is written.
#[derive(Clone, Copy, PartialEq, Eq)]
pub enum Way {
    AsTheRust,
    /// 50F with other digits: as the Rust where they are set to 1, 2, 3, 4.
    Digits,
    /// 59F with an identifier: as the Rust without the LF of the empty line.
    EmptyLine,
    /// No reader of ours gives it: 22.
    Refused,
    /// The Rust does not read it, and ours does: 50H, bytes of the account.
    OursAlone,
}

/// The record of a case, and what is written of it.
#[derive(Clone)]
pub struct Writing {
    pub record: Record,
    pub digits: Vec<u8>,
    pub way: Way,
    /// What ours writes; empty where it is refused.
    pub ours: Vec<u8>,
    /// What the Rust writes; empty where it does not read the record.
    pub rust: Vec<u8>,
}

/// The record that the Rust reads or, where it reads none, ours; none where neither does.
pub fn writing(case: &Case, rust: &Answer, ours: &Answer) -> Result<Option<Writing>, String> {
    let (record, rust) = match (rust, ours) {
        (Answer::Read { record, written }, _) => (record, &written[..]),
        (_, Answer::Read { record, .. }) => (record, &[][..]),
        _ => return Ok(None),
    };
    let digits = rules::digits(record, case.body.as_bytes());
    let text = written(record, &digits)?;
    if matches!(ours, Answer::Read { written, .. } if text.as_ref() != Some(written)) {
        return Err("what ours writes of a record is not what it writes of the body".to_string());
    }
    let way = way(record, rust, text.as_deref())?;
    let (record, rust) = (record.clone(), rust.to_vec());
    Ok(Some(Writing { record, digits, way, ours: text.unwrap_or_default(), rust }))
}

fn way(record: &Record, rust: &[u8], ours: Option<&[u8]>) -> Result<Way, String> {
    let Some(ours) = ours else {
        return Ok(Way::Refused);
    };
    if rust.is_empty() {
        return Ok(Way::OursAlone);
    }
    let in_turn = record.option == Opt::F50;
    if in_turn && written(record, &IN_TURN)?.as_deref() != Some(rust) {
        return Err("the Rust's text of 50F is another than ours with 1, 2, 3, 4".to_string());
    }
    match () {
        () if ours == rust => Ok(Way::AsTheRust),
        () if in_turn => Ok(Way::Digits),
        () if without_empty_line(record, rust).as_deref() == Some(ours) => Ok(Way::EmptyLine),
        () => Err("a text that no rule gives".to_string()),
    }
}
