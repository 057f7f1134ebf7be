//! The answers of a page, to be read by people. No two records are listed alike: every text has its
//! label and its length, an absent account or identifier has no line, names are numbered, and 50F has
//! a line with the digits that its names came with.

use crate::input::Input;
use yewdome::pages::{self, Answer, Listed, Party, Read};
use yewdome::ParseError;

/// The width of the longest label, `name_and_address 1`.
const LABEL: usize = 18;

/// A text with its label.
type Text<'a> = (String, &'a [u8]);

/// Lists the answers of a page.
pub fn of(input: &Input, answers: &[Listed]) -> String {
    let lines = input.lines(answers);
    let count_width = width(answers.len());
    let line_width = width(lines.last().copied().unwrap_or(0));
    let indent = count_width + 2;
    let mut listing = String::new();
    for ((answer, line), count) in answers.iter().zip(lines).zip(1..) {
        let read = pages::read_at(&input.page, answer.at);
        let (what, texts) = match &read.answer {
            Answer::Record(party) => parts(party),
            Answer::Refused(refusal) => (refused(refusal), body(&input.page, &read)),
            Answer::End => {
                listing += &format!("end at byte {}\n", read.next);
                continue;
            }
        };
        listing += &format!("{count:count_width$}  page line {line:line_width$}  {what}\n");
        for (label, text) in texts {
            let (length, text) = (text.len(), quoted(text));
            listing += &format!("{:indent$}{label:LABEL$} {length:2} {text}\n", "");
        }
    }
    listing
}

fn width(number: usize) -> usize {
    number.to_string().len()
}

fn refused(refusal: &ParseError) -> String {
    match refusal.line() {
        0 => format!("refused with {}", refusal.number()),
        line => format!("refused with {}, body line {line}", refusal.number()),
    }
}

/// The body of a read that has one, which stands after its tag, so that it never starts at 0.
fn body<'a>(page: &'a [u8], read: &Read) -> Vec<Text<'a>> {
    let body = (read.body.start > 0).then(|| ("body".to_string(), &page[read.body.clone()]));
    body.into_iter().collect()
}

/// A text in quotes: a quote, a backslash and a byte that does not print stand as a backslash and
/// two hexadecimal digits.
fn quoted(text: &[u8]) -> String {
    let mut quoted = String::from("\"");
    for &byte in text {
        match byte {
            b' '..=b'~' if byte != b'"' && byte != b'\\' => quoted.push(char::from(byte)),
            _ => quoted += &format!("\\{byte:02x}"),
        }
    }
    quoted + "\""
}

/// The texts in a field of a struct, labelled by the field's name.
trait Texts {
    fn texts(&self, label: &str) -> Vec<Text<'_>>;
}

impl Texts for String {
    fn texts(&self, label: &str) -> Vec<Text<'_>> {
        vec![(label.to_string(), self.as_bytes())]
    }
}

impl Texts for Option<String> {
    fn texts(&self, label: &str) -> Vec<Text<'_>> {
        self.iter().flat_map(|text| text.texts(label)).collect()
    }
}

impl Texts for Vec<String> {
    fn texts(&self, label: &str) -> Vec<Text<'_>> {
        let numbered = self.iter().zip(1..);
        numbered.flat_map(|(text, number)| text.texts(&format!("{label} {number}"))).collect()
    }
}

/// The tag of a record and the texts of its struct, of which the fields are named.
macro_rules! parts {
    ($party:ident { $($struct:ident: $tag:literal { $($field:ident),+ },)+ }) => {
        match $party {
            $(Party::$struct(it) => {
                ($tag.to_string(), [$(it.$field.texts(stringify!($field))),+].concat())
            })+
        }
    };
}

fn parts(party: &Party) -> (String, Vec<Text<'_>>) {
    let (tag, mut texts) = parts!(party {
        Field50NoOption: "50" { name_and_address },
        Field50A: "50A" { party_identifier, bic },
        Field50F: "50F" { party_identifier, name_and_address },
        Field50K: "50K" { account, name_and_address },
        Field50C: "50C" { bic },
        Field50L: "50L" { party_identifier },
        Field50G: "50G" { account, bic },
        Field50H: "50H" { account, name_and_address },
        Field59NoOption: "59" { account, name_and_address },
        Field59A: "59A" { account, bic },
        Field59F: "59F" { party_identifier, name_and_address },
    });
    if let Party::Field50F(field) = party {
        texts.push(("digits".to_string(), field.line_digits()));
    }
    (tag, texts)
}
