//! The text format of the list: one line a call, fields separated by one tab.

use crate::compare::Asked;
use crate::differences::Class;
use crate::expected::{Way, Writing};
use crate::model::{Answer, Call, Case, Opt, Reader, Record};

/// Bytes 32 to 126 but for `\` stand for themselves; each other byte is `\` and two digits.
pub fn escaped(bytes: &[u8]) -> String {
    let mut text = String::new();
    for &byte in bytes {
        if (32..=126).contains(&byte) && byte != b'\\' {
            text.push(byte as char);
        } else {
            text.push_str(&format!("\\{byte:02x}"));
        }
    }
    text
}

/// The letter of a call, for messages.
pub fn letter(call: Call) -> String {
    match call {
        Call::Parse => "parse".to_string(),
        Call::NoLetter => "none".to_string(),
        Call::Letter(letter) => escaped(&[letter]),
    }
}

/// A case, for messages.
pub fn question(case: &Case) -> String {
    let body = escaped(case.body.as_bytes());
    format!("{}\t{}\t{body}", case.reader.name(), letter(case.call))
}

/// The function, the place of the option or choice, and the letter.
fn call(case: &Case) -> [u8; 3] {
    let place = match case.reader {
        Reader::Option(option) => return [0, option as u8, 0],
        Reader::Choice(choice) => choice as u8,
    };
    match case.call {
        Call::Parse => [1, place, 0],
        Call::NoLetter => [2, place, 0],
        Call::Letter(letter) => {
            assert_ne!(letter, 0, "to ours it is none, and to the Rust a letter");
            [2, place, letter]
        }
    }
}

/// The rule by which ours reads; 0 where it does as the Rust.
fn rule(class: Option<Class>) -> u8 {
    match class {
        None | Some(Class::EmptyLine59F | Class::Digits50F) => 0,
        Some(Class::LongBody) => 12,
        Some(Class::HighByte) => 13,
        Some(Class::Letter) => 14,
        Some(Class::Account50H | Class::Detected50H) => 50,
    }
}

/// The rule by which ours writes.
fn way(way: Way) -> u8 {
    match way {
        Way::AsTheRust => 1,
        Way::Digits => 2,
        Way::EmptyLine => 3,
        Way::Refused => 22,
        Way::OursAlone => 50,
    }
}

fn rust(answer: &Answer) -> String {
    match answer {
        Answer::Read { .. } => "ok".to_string(),
        Answer::Refused { number, line } => format!("{number} {line}"),
        Answer::Panicked => "panic".to_string(),
    }
}

/// Option, presence, count, account or identifier, BIC, four names, digits.
pub fn record(record: &Record, digits: &[u8]) -> String {
    let mut texts = vec![record.party.as_deref().unwrap_or_default(), &record.bic];
    texts.extend((0..4).map(|at| record.names.get(at).map_or(&[][..], Vec::as_slice)));
    texts.push(digits);
    let presence = u8::from(record.party.is_some());
    fields(record.option as u8, presence, record.names.len(), &texts)
}

pub fn fields(option: u8, presence: u8, count: usize, texts: &[&[u8]]) -> String {
    let texts: Vec<String> = texts.iter().map(|text| escaped(text)).collect();
    format!("{option}\t{presence}\t{count}\t{}", texts.join("\t"))
}

/// A case: the call, the body, what ours answers, the rule, what the Rust answers and, where one of
/// them reads a record, how that is written.
pub fn row(asked: &Asked, writing: Option<&Writing>) -> String {
    let [function, place, letter] = call(&asked.case);
    let body = escaped(asked.case.body.as_bytes());
    let (number, line) = match asked.ours {
        Answer::Refused { number, line } => (number, line),
        _ => (0, 0),
    };
    let (rule, rust) = (rule(asked.class), rust(&asked.rust));
    let asked = format!("{function}\t{place}\t{letter}\t{body}\t{number}\t{line}\t{rule}\t{rust}");
    match writing {
        None => format!("{asked}\t0\n"),
        Some(writing) => format!("{asked}\t{}\t{}\n", way(writing.way), written(writing)),
    }
}

/// The record, our text and the Rust's, where that is 50F's or another than ours.
fn written(writing: &Writing) -> String {
    let Writing { record: read, digits, way, ours, rust } = writing;
    let texts = match (way, read.option) {
        (Way::OursAlone, _) => vec![ours],
        (Way::AsTheRust, option) if option != Opt::F50 => vec![ours],
        _ => vec![ours, rust],
    };
    let texts: Vec<String> = texts.into_iter().map(|text| escaped(text)).collect();
    format!("{}\t{}", record(read, digits), texts.join("\t"))
}
