//! The cases that docs/DIFFERENCES.md gives, with both answers in short.

use crate::differences::in_short;
use crate::format;
use crate::model::{Call, Case, Choice, Opt};
use crate::{reference, rules};

/// A name, a case, the Rust's answer and that of the rules.
type Statement = (&'static str, Case, &'static str, &'static str);

fn statements() -> Vec<Statement> {
    [account_of_50h(), long_bodies(), high_bytes(), panics(), letters(), kept_from_the_rust()]
        .concat()
}

/// Runs every case, and stops at one that is not as stated.
pub fn check() -> Result<usize, String> {
    let statements = statements();
    for (name, case, rust, ours) in &statements {
        let found = [in_short(&reference::answer(case)?), in_short(&rules::answer(case))];
        if found != [*rust, *ours] {
            return Err(format!("{name}: {found:?} for {}", format::question(case)));
        }
    }
    Ok(statements.len())
}

pub fn named_cases() -> Vec<(&'static str, Case)> {
    statements().into_iter().map(|(name, case, ..)| (name, case)).collect()
}

fn parse(choice: Choice, body: &str) -> Case {
    Case::choice(choice, Call::Parse, body)
}

fn account_of_50h() -> Vec<Statement> {
    let alone = |body| Case::option(Opt::H50, body);
    let fgh = |call, body| Case::choice(Choice::OrderingCustomerFGH, call, body);
    vec![
        ("50H, account", alone("/~\nA"), "3 1", "50H"),
        ("50H, account and a byte in a name", alone("/~\n~"), "3 1", "3 2"),
        ("50H, account and five names", alone("/~\n\n\n\n\n\n"), "3 1", "7 0"),
        ("FGH detected, H", fgh(Call::Parse, "/~\nA"), "11 0", "50H"),
        ("FGH detected, not F", fgh(Call::Parse, "/~\n1/A"), "11 0", "50H"),
        ("FGH detected, not G", fgh(Call::Parse, "/~\nABCDEFGH"), "11 0", "50H"),
        ("FGH with H", fgh(Call::Letter(b'H'), "/~\nA"), "3 1", "50H"),
        ("FGH without a letter", fgh(Call::NoLetter, "/~\nA"), "11 0", "50H"),
        ("FGH with another capital", fgh(Call::Letter(b'A'), "/~\nA"), "11 0", "50H"),
    ]
}

fn long_bodies() -> Vec<Statement> {
    let after = format!("ABCDEFGH\n{}", "A".repeat(2040));
    let between = format!("ABCDEFGH\n{}\nABCDEFGH", "A".repeat(2031));
    let blanks = format!("A{}", " ".repeat(2048));
    let (after, between) = (after.as_str(), between.as_str());
    vec![
        ("12, 50A", Case::option(Opt::A50, after), "50A", "12 0"),
        ("12, 59A", Case::option(Opt::A59, after), "59A", "12 0"),
        ("12, instructing party", parse(Choice::InstructingParty, &blanks), "50L", "12 0"),
        ("12, AFK", parse(Choice::OrderingCustomerAFK, between), "50A", "12 0"),
        ("12, creditor", parse(Choice::Creditor, between), "50A", "12 0"),
        ("12, 59", parse(Choice::Beneficiary, after), "59A", "12 0"),
        ("12, debtor", parse(Choice::Debtor, after), "59A", "12 0"),
        ("12, refused by both", Case::option(Opt::L50, after), "1 0", "12 0"),
    ]
}

fn high_bytes() -> Vec<Statement> {
    vec![
        ("13, a letter", Case::option(Opt::N50, "é"), "50", "13 0"),
        ("13, a digit", Case::option(Opt::N50, "²"), "50", "13 0"),
        ("13, a sign", Case::option(Opt::N50, "€"), "3 1", "13 0"),
        ("13, a letter in a BIC", Case::option(Opt::C50, "ABCDEFé"), "50C", "13 0"),
        ("13, a blank trimmed", parse(Choice::InstructingParty, "A\u{a0}"), "50L", "13 0"),
    ]
}

fn panics() -> Vec<Statement> {
    vec![
        ("13, over bytes 4 and 5", Case::option(Opt::C50, "ABCéEFG"), "panic", "13 0"),
        ("13, over bytes 6 and 7", Case::option(Opt::C50, "ABCDEéG"), "panic", "13 0"),
        ("13, over bytes 8 and 9", Case::option(Opt::C50, "ABCDEFGéIJ"), "panic", "13 0"),
        ("13, panic in 50A", Case::option(Opt::A50, "ABCéEFG"), "panic", "13 0"),
        ("13, panic in 50G", Case::option(Opt::G50, "/A\nABCéEFG"), "panic", "13 0"),
        ("13, panic in 59A", Case::option(Opt::A59, "ABCéEFG"), "panic", "13 0"),
        ("13, panic in detection", parse(Choice::Beneficiary, "ABCéEFG"), "panic", "13 0"),
    ]
}

fn letters() -> Vec<Statement> {
    let with = |choice, letter, body| Case::choice(choice, Call::Letter(letter), body);
    vec![
        ("14, lower case", with(Choice::InstructingParty, b'c', "A"), "50L", "14 0"),
        ("14, a digit", with(Choice::InstructingParty, b'0', "A"), "50L", "14 0"),
        ("14, another byte", with(Choice::InstructingParty, b'~', "A"), "50L", "14 0"),
        ("14, refused by both", with(Choice::Creditor, b'a', ""), "11 0", "14 0"),
    ]
}

/// Where the Rust and the rules agree, against the Handbook or ISO 9362.
fn kept_from_the_rust() -> Vec<Statement> {
    let same = |name, option, body, both| (name, Case::option(option, body), both, both);
    vec![
        same("ISO 9362: a small letter", Opt::C50, "aBCDEFGH", "50C"),
        same("ISO 9362: no country", Opt::C50, "AAAAZZAA", "50C"),
        same("Handbook: a byte outside the x set", Opt::L50, "!", "50L"),
        same("Handbook: a CR in a line", Opt::L50, "\r", "50L"),
        same("Handbook: a line after the BIC", Opt::A50, "ABCDEFGH\nA", "50A"),
        same("Handbook: the same in 59A", Opt::A59, "ABCDEFGH\nA", "59A"),
        same("Handbook: number 0 in 50F", Opt::F50, "/1\n0/A", "50F"),
        same("Handbook: 50F out of order", Opt::F50, "/1\n2/A\n1/B", "50F"),
        same("Handbook: first line of 50F", Opt::F50, "X\n1/A", "50F"),
        same("Handbook: a number twice in 59F", Opt::F59, "1/A\n1/B", "6 2"),
        same("Handbook: an empty name", Opt::N50, "\n", "50"),
        same("Handbook: an empty account", Opt::K50, "/\nA", "50K"),
        same("Handbook: an empty identifier", Opt::A50, "/\nABCDEFGH", "50A"),
        same("Handbook: a line that starts with a colon", Opt::N50, "A\n:", "50"),
        same("Handbook: a line that is a hyphen", Opt::N50, "A\n-", "50"),
    ]
}
