//! Every limit of the rules: one below it, at it and one above it.

use crate::bodies::{BIC, after, legal, names, numbered};
use crate::model::{Call, Case, Choice, Opt};

const NAME: [usize; 5] = [0, 1, 34, 35, 36];
const NUMBERED: [usize; 5] = [0, 1, 32, 33, 34];
const ACCOUNT: [usize; 6] = [0, 1, 33, 34, 35, 36];
const BIC_LENGTH: [usize; 8] = [0, 1, 7, 8, 9, 10, 11, 12];

fn each(lengths: &[usize], body: impl Fn(usize) -> String) -> Vec<String> {
    lengths.iter().map(|&length| body(length)).collect()
}

/// Bodies around the limits of an option.
pub fn bodies(option: Opt) -> Vec<String> {
    match option {
        Opt::N50 => [name_counts(""), name_lengths("")].concat(),
        Opt::A50 => [identifiers(BIC), bics(""), bics("/A\n"), lines_after_bic("/A\n")].concat(),
        Opt::F50 => [parties("\n1/A"), numbered_lines("X\n", 1)].concat(),
        Opt::K50 => names_after_account(),
        Opt::C50 => bics(""),
        Opt::L50 => parties(""),
        Opt::G50 => [accounts(BIC), bics("/A\n"), lines_after_bic("/A\n")].concat(),
        Opt::H50 => [accounts("A"), name_counts("/A\n"), name_lengths("/A\n")].concat(),
        Opt::N59 => names_after_account(),
        Opt::A59 => [accounts(BIC), bics(""), bics("/A\n"), lines_after_bic("/A\n")].concat(),
        Opt::F59 => [identifiers("1/A"), numbered_lines("", 0), numbered_lines("/A\n", 0)].concat(),
    }
}

fn names_after_account() -> Vec<String> {
    let with = [accounts("A"), name_counts("/A\n"), name_lengths("/A\n")].concat();
    [with, name_counts(""), name_lengths("")].concat()
}

fn accounts(rest: &str) -> Vec<String> {
    let mut bodies = each(&ACCOUNT, |length| format!("/{}\n{rest}", legal(length)));
    bodies.extend(each(&ACCOUNT, |length| format!("/{}", legal(length))));
    bodies
}

fn identifiers(rest: &str) -> Vec<String> {
    let mut bodies = each(&ACCOUNT, |length| format!("/{}\n{rest}", legal(length)));
    for start in ["//", "/A/", "/1/", "/A1/", "/12/"] {
        bodies.extend(each(&ACCOUNT, |length| format!("{start}{}\n{rest}", legal(length))));
    }
    bodies.extend(each(&[1, 2, 3, 4], |length| format!("/{}/1\n{rest}", legal(length))));
    bodies
}

fn bics(first: &str) -> Vec<String> {
    each(&BIC_LENGTH, |length| format!("{first}{}", legal(length)))
}

fn lines_after_bic(first: &str) -> Vec<String> {
    let ends = ["", "\n", "\r\n", "\n\n", "\nB", "\n~\n~"];
    ends.iter().map(|end| format!("{first}{BIC}{end}")).collect()
}

fn parties(rest: &str) -> Vec<String> {
    each(&NAME, |length| format!("{}{rest}", legal(length)))
}

fn name_counts(first: &str) -> Vec<String> {
    each(&[0, 1, 2, 3, 4, 5, 6], |count| format!("{first}{}", names(count)))
}

/// A name of each length, as the first and as the fourth.
fn name_lengths(first: &str) -> Vec<String> {
    let mut bodies = each(&NAME, |length| format!("{first}{}", legal(length)));
    bodies.extend(each(&NAME, |length| format!("{first}{}\n{}", names(3), legal(length))));
    bodies.extend(each(&NAME, |length| format!("{first}{}\nB", legal(length))));
    bodies
}

/// Counts of numbered lines, and a text of each length on the first and the fourth.
fn numbered_lines(first: &str, fewest: usize) -> Vec<String> {
    let counts: Vec<usize> = (fewest..=6).chain([9, 10, 11]).collect();
    let mut bodies = each(&counts, |count| format!("{first}{}", numbered(count)));
    bodies.extend(each(&NUMBERED, |length| format!("{first}1/{}", legal(length))));
    bodies.extend(each(&NUMBERED, |length| format!("{first}{}\n4/{}", numbered(3), legal(length))));
    bodies
}

/// Bodies around the limits of detection.
pub fn detected() -> Vec<Case> {
    let mut cases = Vec::new();
    let mut add = |choice, body: String| cases.push(Case::choice(choice, Call::Parse, body));
    for length in BIC_LENGTH {
        let text = legal(length);
        for (start, end) in [("", ""), (" ", ""), ("", "\t\r\n"), ("\n\x0b\x0c", "  ")] {
            add(Choice::InstructingParty, format!("{start}{text}{end}"));
            for choice in [Choice::OrderingCustomerAFK, Choice::Creditor] {
                add(choice, format!("JOHNDOES\n{start}{text}{end}"));
            }
        }
        for end in ["", "\n", "\r", "\r\n"] {
            add(Choice::OrderingCustomerNCF, format!("{text}{end}"));
        }
        for choice in [Choice::Beneficiary, Choice::Debtor] {
            add(choice, after("/1", &text));
        }
    }
    for length in [34, 35, 36] {
        add(Choice::InstructingParty, format!(" {}\r\n", legal(length)));
    }
    for first in ["/A", "A"] {
        for rest in ["", "A", BIC, "1/A", "A\nB", "A\n1/A", "1/A\nA", "1/A\n1/B"] {
            add(Choice::OrderingCustomerFGH, after(first, rest));
            add(Choice::OrderingCustomerAFK, after(first, rest));
            add(Choice::OrderingCustomerNCF, after(first, rest));
            add(Choice::Beneficiary, after(first, rest));
        }
    }
    cases
}
