//! Each message of the Rust as a refusal number and a body line.
//!
//! A message counts the lines of its own part of the body, or names none. The body line is worked
//! out from the message, the option and the lines that the option took before that part.
//!
//! Left out is one message that no body gives: that a 50F has no numbered line. A 50F of fewer than
//! two lines is refused before that. A message that is not here stops the program.

use crate::model::{Case, Choice, Opt, Reader};

/// A message form: `#` stands for a number, a `*` at the end for any text.
struct Form {
    text: &'static str,
    number: u8,
    at: At,
}

/// The body line of a refusal.
enum At {
    /// 0, which names no line.
    Body,
    /// The first line.
    First,
    /// The line of the BIC: the one after those taken before it.
    Bic,
    /// The last number of the message, past the lines taken before.
    Counted,
}

const fn form(text: &'static str, number: u8, at: At) -> Form {
    Form { text, number, at }
}

const N50: &[Form] = &[
    form("Field 50 (No Option) must have at least one line", 1, At::Body),
    form("Field 50 (No Option) cannot have more than 4 lines, found #", 1, At::Body),
    form("Field 50 (No Option) line # exceeds 35 characters", 4, At::Counted),
    form(
        "Field 50 (No Option) line # contains invalid characters for SWIFT format",
        3,
        At::Counted,
    ),
];

const A50: &[Form] = &[
    form("Field 50A cannot be empty", 1, At::Body),
    form("Field 50A missing BIC code", 8, At::Body),
];

const F50: &[Form] = &[
    form(
        "Field 50F must have at least 2 lines (party identifier + numbered line), found #",
        1,
        At::Body,
    ),
    form("Field 50F party identifier must be 1-35 characters", 2, At::First),
    form("Field 50F party identifier contains invalid characters for SWIFT format", 3, At::First),
    form("Field 50F line # must start with line number", 5, At::Counted),
    form("Field 50F line # must have '/' after line number", 5, At::Counted),
    form("Field 50F line # text exceeds 33 characters", 4, At::Counted),
    form("Field 50F line # contains invalid characters for SWIFT format", 3, At::Counted),
    form("Field 50F cannot have more than 4 name/address lines, found #", 7, At::Body),
];

const K50: &[Form] = &[
    form("Field 50K must have at least one line", 1, At::Body),
    form("Field 50K account exceeds 34 characters", 2, At::First),
    form("Field 50K account contains invalid characters for SWIFT format", 3, At::First),
    form("Field 50K line # exceeds 35 characters", 4, At::Counted),
    form("Field 50K line # contains invalid characters for SWIFT format", 3, At::Counted),
    form("Field 50K must have at least one name/address line", 7, At::Body),
    form("Field 50K cannot have more than 4 name/address lines, found #", 7, At::Body),
];

const L50: &[Form] = &[
    form("Field 50L party identifier must be single line", 1, At::Body),
    form("Field 50L party identifier must be 1-35 characters", 2, At::First),
    form("Field 50L party identifier contains invalid characters for SWIFT format", 3, At::First),
];

const G50: &[Form] = &[
    form("Field 50G must have exactly 2 lines, found #", 1, At::Body),
    form("Field 50G account must start with '/'", 2, At::First),
    form("Field 50G account must be 1-34 characters", 2, At::First),
    form("Field 50G account contains invalid characters for SWIFT format", 3, At::First),
];

const H50: &[Form] = &[
    form("Field 50H must have at least 2 lines", 1, At::Body),
    form("Field 50H account must start with '/'", 2, At::First),
    form("Field 50H account must be 1-34 characters", 2, At::First),
    form("Field 50H account contains invalid characters for SWIFT format", 3, At::First),
    form("Field 50H line # exceeds 35 characters", 4, At::Counted),
    form("Field 50H line # contains invalid characters for SWIFT format", 3, At::Counted),
    form("Field 50H cannot have more than 4 name/address lines, found #", 7, At::Body),
];

const N59: &[Form] = &[
    form("Field 59 (No Option) cannot be empty", 1, At::Body),
    form("Field 59 account contains invalid characters for SWIFT format", 3, At::First),
    form("Field59NoOption line # exceeds 35 characters", 4, At::Counted),
    form("Field59NoOption line # contains invalid characters for SWIFT format", 3, At::Counted),
    form("Field59NoOption must have at least one name/address line", 7, At::Body),
    form("Field59NoOption cannot have more than 4 name/address lines, found #", 7, At::Body),
];

const A59: &[Form] = &[
    form("Field 59A cannot be empty", 1, At::Body),
    form("Field 59A account contains invalid characters for SWIFT format", 3, At::First),
    form("Field 59A missing BIC code", 8, At::Body),
];

const F59: &[Form] = &[
    form("Field 59F cannot be empty", 1, At::Body),
    form("Field 59F line # must start with line number and slash (e.g., '1/')", 5, At::Counted),
    form("Field 59F line number # doesn't match expected #", 6, At::Counted),
    form("Field 59F line # content exceeds 33 characters", 4, At::Counted),
    form("Field 59F line # contains invalid characters for SWIFT format", 3, At::Counted),
    form("Field 59F must have at least one name/address line", 7, At::Body),
    form("Field 59F cannot have more than 4 name/address lines, found #", 7, At::Body),
];

/// `parse_party_identifier`, in 50A and 59F.
const IDENTIFIER: &[Form] = &[
    form("Invalid special party identifier format: *", 2, At::First),
    form("Party identifier exceeds 34 characters: #", 2, At::First),
    form("Invalid party identifier format: *", 2, At::First),
    form("party identifier contains invalid characters for SWIFT format", 3, At::First),
];

/// `parse_bic`, in 50A, 50C, 50G and 59A.
const BIC: &[Form] = &[
    form("BIC must be 8 or 11 characters, found #", 9, At::Bic),
    form("BIC bank code (first 4 chars) must be letters", 10, At::Bic),
    form("BIC country code (chars 5-6) must be letters", 10, At::Bic),
    form("BIC location code (chars 7-8) must be alphanumeric", 10, At::Bic),
    form("BIC branch code (chars 9-11) must be alphanumeric", 10, At::Bic),
];

fn forms(option: Opt) -> [&'static [Form]; 3] {
    match option {
        Opt::N50 => [N50, &[], &[]],
        Opt::A50 => [A50, IDENTIFIER, BIC],
        Opt::F50 => [F50, &[], &[]],
        Opt::K50 => [K50, &[], &[]],
        Opt::C50 => [&[], &[], BIC],
        Opt::L50 => [L50, &[], &[]],
        Opt::G50 => [G50, &[], BIC],
        Opt::H50 => [H50, &[], &[]],
        Opt::N59 => [N59, &[], &[]],
        Opt::A59 => [A59, &[], BIC],
        Opt::F59 => [F59, IDENTIFIER, &[]],
    }
}

/// The message of a choice whose detection found no option.
fn undetected(choice: Choice) -> &'static str {
    match choice {
        Choice::InstructingParty => {
            "Field 50 Instructing Party could not be parsed as option C or L"
        }
        Choice::OrderingCustomerFGH => {
            "Field 50 Ordering Customer could not be parsed as option F, G or H"
        }
        Choice::OrderingCustomerAFK => {
            "Field 50 Ordering Customer could not be parsed as option A, F or K"
        }
        Choice::OrderingCustomerNCF => {
            "Field 50 Ordering Customer could not be parsed as No Option, C or F"
        }
        Choice::Creditor => "Field 50 Creditor could not be parsed as option A or K",
        Choice::Beneficiary => "Field 59 could not be parsed as option A, F, or No Option",
        Choice::Debtor => "Field 59 Debtor could not be parsed as option A or No Option",
    }
}

/// The refusal that a message stands for; an error where no form fits.
pub fn refusal(case: &Case, message: &str) -> Result<(u8, usize), String> {
    let found = match (case.reader.picked(case.call), case.reader) {
        (Some(option), _) => option_refusal(option, &case.body, message),
        (None, Reader::Choice(choice)) if message == undetected(choice) => Some((11, 0)),
        _ => None,
    };
    found.ok_or_else(|| format!("a message that is not mapped: {message:?}"))
}

fn option_refusal(option: Opt, body: &str, message: &str) -> Option<(u8, usize)> {
    let before = lines_before(option, body);
    let candidates = forms(option).into_iter().flatten();
    for Form { text, number, at } in candidates {
        let Some(counted) = fitted(text, message) else {
            continue;
        };
        let line = match at {
            At::Body => 0,
            At::First => 1,
            At::Bic => before + 1,
            At::Counted => before + counted?,
        };
        return Some((*number, line));
    }
    None
}

/// How many lines the option took before its names or its BIC.
fn lines_before(option: Opt, body: &str) -> usize {
    let first = body.lines().next().unwrap_or_default();
    let taken = match option {
        Opt::N50 | Opt::C50 | Opt::L50 => false,
        Opt::F50 | Opt::G50 | Opt::H50 => true,
        Opt::A50 | Opt::K50 | Opt::F59 => first.starts_with('/'),
        Opt::N59 | Opt::A59 => first.starts_with('/') && first.len() <= 35,
    };
    usize::from(taken)
}

/// Whether the message has the form; with the last number in it, if it has one.
fn fitted(form: &str, message: &str) -> Option<Option<usize>> {
    let mut rest = message;
    let mut counted = None;
    let mut pieces = form.split('#').peekable();
    while let Some(piece) = pieces.next() {
        if let Some(start) = piece.strip_suffix('*') {
            return rest.starts_with(start).then_some(counted);
        }
        rest = rest.strip_prefix(piece)?;
        if pieces.peek().is_some() {
            let end = rest.find(|c: char| !c.is_ascii_digit()).unwrap_or(rest.len());
            counted = Some(rest[..end].parse().ok()?);
            rest = &rest[end..];
        }
    }
    rest.is_empty().then_some(counted)
}
