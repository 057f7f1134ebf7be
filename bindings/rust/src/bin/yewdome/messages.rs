//! What is said on standard error.

use crate::input::Input;
use std::ffi::OsStr;
use std::io::{self, Write};
use yewdome::pages::{Listed, Outcome};
use yewdome::{ErrorKind, ParseError};

/// Says something. Where standard error takes nothing, there is nowhere to say so.
pub fn say(text: &str) {
    let _ = io::stderr().write_all(format!("yewdome: {text}\n").as_bytes());
}

/// A name as it is, where it is plain; else in quotes, with what does not print escaped, so that a
/// name is never taken for more of a message.
pub fn shown(name: &OsStr) -> String {
    let quoted = format!("{name:?}");
    let inner = &quoted[1..quoted.len() - 1];
    if name == inner && !inner.is_empty() && !inner.contains([' ', ':']) {
        return inner.to_string();
    }
    quoted
}

/// What the answers of a page come to.
#[derive(Default)]
pub struct Tally {
    records: usize,
    /// The records that are filed as other bytes than came.
    changed: usize,
    refused: usize,
    /// Those of the refused that are fields.
    refused_fields: usize,
    /// The bytes after the end line.
    unread: usize,
}

impl Tally {
    pub fn of(input: &Input, answers: &[Listed]) -> Self {
        let mut tally = Self::default();
        for answer in answers {
            match answer.outcome {
                Outcome::Record => {
                    tally.records += 1;
                    tally.changed += usize::from(!answer.causes.is_empty());
                }
                Outcome::Refused(refusal) => {
                    tally.refused += 1;
                    tally.refused_fields += usize::from(is_of_field(refusal));
                }
                Outcome::End => tally.unread = input.page.len() - answer.next,
            }
        }
        tally
    }

    pub fn is_good(&self) -> bool {
        self.refused == 0 && self.unread == 0
    }

    /// The counts of a page that is read.
    pub fn read(&self) -> String {
        format!("{}, {} refused", counted(self.records, "record"), self.refused)
    }

    /// The counts of a page that is filed.
    pub fn filed(&self) -> String {
        let changed = match self.changed {
            0 => String::new(),
            count => format!(", {count} of them as other bytes than came"),
        };
        format!("{} filed{changed}, {} refused", self.records, self.refused)
    }

    /// What keeps a page from being filed field for field as the very bytes that came, if anything
    /// does.
    pub fn inexact(&self) -> Option<String> {
        let whys = [
            (self.changed, "would be filed as other bytes than came".to_string()),
            (self.refused_fields, format!("{} refused", are(self.refused_fields))),
        ];
        let whys = whys.iter().filter(|(count, _)| *count > 0);
        let whys = whys.map(|(count, why)| format!("{} {why}", counted(*count, "field")));
        Some(whys.collect::<Vec<_>>().join(", ")).filter(|whys| !whys.is_empty())
    }
}

/// Whether what is refused is a field: not a line before the first one, nor that there is no end
/// line.
fn is_of_field(refusal: ParseError) -> bool {
    !matches!(refusal.kind(), ErrorKind::StrayLine | ErrorKind::PageLength)
}

/// Says what was refused of a page, what is filed as other bytes than came, and what was not read.
pub fn report(input: &Input, answers: &[Listed]) {
    for (answer, line) in answers.iter().zip(input.lines(answers)) {
        let message = match answer.outcome {
            Outcome::Record if answer.causes.is_empty() => continue,
            Outcome::Record => format!("{line}: {}", changed(&input.page, answer)),
            Outcome::Refused(refusal) => format!("{line}{}", refused(refusal)),
            Outcome::End if answer.next == input.page.len() => continue,
            Outcome::End => format!("{}: {}", line + 1, unread(input.page.len() - answer.next)),
        };
        say(&format!("{}: page line {message}", input.name));
    }
}

/// The rest of a message of a field that is filed as other bytes than came. Its tag stands between
/// two colons.
fn changed(page: &[u8], field: &Listed) -> String {
    let tag = page[field.at..].split(|&byte| byte == b':').nth(1).unwrap_or_default();
    let (tag, causes) = (tag.escape_ascii(), field.causes);
    format!("{tag} filed as other bytes than came: {causes}")
}

/// The rest of a message, after the page line.
fn refused(refusal: ParseError) -> String {
    let body_line = match refusal.line() {
        0 => String::new(),
        line => format!(", body line {line}"),
    };
    let why = match refusal.kind() {
        ErrorKind::PageLength => ": there is no end line",
        _ => "",
    };
    format!("{body_line}: {} (refusal {}){why}", refusal.kind(), refusal.number())
}

fn unread(count: usize) -> String {
    format!("{} after the end line {} not read", counted(count, "byte"), are(count))
}

fn are(count: usize) -> &'static str {
    if count == 1 {
        "is"
    } else {
        "are"
    }
}

/// `1 byte`, `2 bytes`.
fn counted(count: usize, what: &str) -> String {
    let ending = if count == 1 { "" } else { "s" };
    format!("{count} {what}{ending}")
}
