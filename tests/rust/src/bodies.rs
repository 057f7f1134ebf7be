//! The bodies that the generator starts from.

use crate::cells::LATER;
use crate::model::Opt;
use crate::rules::LONGEST_BODY;

pub const BIC: &str = "ABCDEFGH";

/// The line that stands for the later ones.
const LATE: usize = 40;

/// `length` legal bytes; of 8 or 11, a BIC.
pub fn legal(length: usize) -> String {
    let alphabet = "ABCDEFGHIJKLMNOPQRSTUVWXYZ0123456789";
    alphabet.chars().cycle().take(length).collect()
}

/// `count` lines `A`, joined by LF.
pub fn names(count: usize) -> String {
    vec!["A"; count].join("\n")
}

/// `count` lines numbered 1, 2, 3 .. 9, 0, 1 .., joined by LF.
pub fn numbered(count: usize) -> String {
    let lines: Vec<String> = (1..=count).map(|line| format!("{}/A", line % 10)).collect();
    lines.join("\n")
}

/// `first`, an LF where lines follow, and those lines.
pub fn after(first: &str, rest: &str) -> String {
    if rest.is_empty() {
        return first.to_string();
    }
    format!("{first}\n{rest}")
}

/// Short bodies that the option accepts.
pub fn short(option: Opt) -> &'static [&'static str] {
    match option {
        Opt::N50 => &["A", "A\nB"],
        Opt::A50 => &["ABCDEFGH", "/A\nABCDEFGH"],
        Opt::F50 => &["X\n1/A", "X\n1/A\n2/B"],
        Opt::K50 => &["A\nB", "/1\nA"],
        Opt::C50 => &["ABCDEFGH"],
        Opt::L50 => &["AB"],
        Opt::G50 => &["/1\nABCDEFGH"],
        Opt::H50 => &["/1\nA\nB"],
        Opt::N59 => &["A\nB", "/1\nA"],
        Opt::A59 => &["ABCDEFGH", "/1\nABCDEFGH"],
        Opt::F59 => &["1/A\n2/B", "/1\n1/A"],
    }
}

/// Bodies as they are met, all accepted by the option.
pub fn usual(option: Opt) -> &'static [&'static str] {
    match option {
        Opt::N50 => &["ACME LTD\n1 HIGH STREET\nLONDON", "JOHN DOE\r\nSTREET 5\r\n"],
        Opt::A50 => &[
            "/DE89370400440532013000\nDEUTDEFF",
            "/C/12345678\nDEUTDEFF500\nNOT READ",
            "//CH123456\nUBSWCHZH80A",
            "abcdef12",
        ],
        Opt::F50 => &[
            "/GB82WEST12345698765432\n1/JOHN SMITH\n2/456 AVENUE\n3/GB/LONDON",
            "NIDN/DE/121231234342\n1/MANN GEORG\n6/DE/ABC BANK/1234578293",
        ],
        Opt::K50 => &[
            "/DE89370400440532013000\nJOHN DOE\n123 MAIN STREET\nBERLIN",
            "JOHN DOE\r\n123 MAIN STREET",
        ],
        Opt::C50 => &["DEUTDEFF", "DEUTDEFF500", "uBswChz0"],
        Opt::L50 => &["PARTY 4711", "/1234567890"],
        Opt::G50 => &["/12345678\nDEUTDEFF", "/DE89370400440532013000\r\nDEUTDEFF500\r\n"],
        Opt::H50 => &["/12345678\nJOHN DOE\n123 MAIN STREET", "/A\nONE\nTWO\nTHREE\nFOUR"],
        Opt::N59 => &[
            "/GB82WEST12345698765432\nJOHN SMITH\n456 AVENUE",
            "JOHN SMITH\n456 AVENUE\nLONDON\nGB",
        ],
        Opt::A59 => &["/GB82WEST12345698765432\nDEUTDEFF", "DEUTDEFF500\nNOT READ"],
        Opt::F59 => &[
            "/12345678\n1/DEPT OF PROMOTION\n2/CENTURY BOULEVARD 88\n3/US/NEW YORK",
            "1/JOHN SMITH\n2/AVENUE 7\n3/GB/LONDON\n4/EXTRA",
        ],
    }
}

/// Bodies that the option refuses with this number at this line.
pub fn refused(option: Opt, number: u8, line: usize) -> Vec<String> {
    match number {
        1 => wrong_count(option),
        2 => wrong_first(option),
        7 => wrong_names(option),
        8 => vec!["/A".to_string(), "/\r\n".to_string()],
        9 | 10 => wrong_bic(option, number, line),
        _ => wrong_line(option, number, line),
    }
}

fn owned(bodies: &[&str]) -> Vec<String> {
    bodies.iter().map(|body| body.to_string()).collect()
}

fn wrong_count(option: Opt) -> Vec<String> {
    match option {
        Opt::N50 => owned(&["", "A\nB\nC\nD\nE", "\n\n\n\n\n", "~\nB\nC\nD\nE"]),
        Opt::F50 => owned(&["", "X", "X\n", "~"]),
        Opt::L50 => owned(&["\n", "A\n", "A\nB", "~\n"]),
        Opt::G50 => owned(&["", "/A", "/A\nABCDEFGH\n\n", "~"]),
        Opt::H50 => owned(&["", "/A", "/A\n"]),
        _ => owned(&[""]),
    }
}

fn wrong_first(option: Opt) -> Vec<String> {
    let long = legal(36);
    match option {
        Opt::F50 => vec!["\n1/A".into(), format!("{long}\n1/A"), format!("{long}~\nA")],
        Opt::K50 => vec![format!("/{long}\nA"), format!("/{}\nA", legal(35))],
        Opt::L50 => vec![String::new(), long, legal(99)],
        Opt::G50 | Opt::H50 => {
            let rest = if option == Opt::G50 { BIC } else { "A" };
            let firsts = ["A", "/", "", "~", &format!("/{}", legal(35))];
            firsts.iter().map(|first| format!("{first}\n{rest}")).collect()
        }
        _ => wrong_identifier(if option == Opt::A50 { BIC } else { "1/A" }),
    }
}

fn wrong_identifier(rest: &str) -> Vec<String> {
    let long = legal(35);
    let firsts = [
        "//",
        "/ABC/1",
        "/A-/1",
        "/~/1",
        "/ABC/",
        &format!("/{long}"),
        &format!("//{long}"),
        &format!("/A/{long}"),
        &format!("/1/{long}"),
        &format!("/AB/{long}~"),
    ];
    firsts.iter().map(|first| format!("{first}\n{rest}")).collect()
}

fn wrong_names(option: Opt) -> Vec<String> {
    match option {
        Opt::F50 => vec![after("X", &numbered(5)), after("X", &numbered(11))],
        Opt::H50 => vec![after("/A", &names(5)), "/A\n\n\n\n\n\n".to_string()],
        Opt::F59 => vec!["/A".into(), numbered(5), numbered(9), after("/A", &numbered(5))],
        _ => vec!["/A".into(), "/\n".into(), names(5), after("/A", &names(5))],
    }
}

fn wrong_bic(option: Opt, number: u8, line: usize) -> Vec<String> {
    let bics: &[&str] = match number {
        9 => &["ABCDEFG", "ABCDEFGHI", "ABCDEFGHIJ", "ABCDEFGHIJKL", "A~"],
        _ => &["1BCDEFGH", "ABCDE1GH", "ABCDEF-H", "ABCDEFGHIJ-", "ABCD EFG"],
    };
    let first = match (option, line) {
        (_, 1) => "",
        (Opt::A50, _) => "/C/1\n",
        _ => "/1\n",
    };
    bics.iter().map(|bic| format!("{first}{bic}")).collect()
}

/// Good lines up to the one at fault, with and without the first line that may be left out.
fn wrong_line(option: Opt, number: u8, line: usize) -> Vec<String> {
    let line = if line == LATER { LATE } else { line };
    let mut bodies = Vec::new();
    for first in [false, true] {
        let before: Option<Vec<String>> =
            (1..line).map(|at| good_line(option, first, at)).collect();
        let faults = faulty_lines(option, first, number, line);
        let Some(before) = before else {
            continue;
        };
        for fault in faults {
            let body = [before.clone(), vec![fault]].concat().join("\n");
            if matches!(option, Opt::F50 | Opt::K50 | Opt::H50 | Opt::N59 | Opt::F59) {
                bodies.push(format!("{body}\n~"));
            }
            bodies.push(body);
        }
    }
    bodies
}

/// The line of a good body, with or without an account or identifier that may be left out.
fn good_line(option: Opt, first: bool, line: usize) -> Option<String> {
    let text = match (option, line) {
        (Opt::F50, 1) => "X".to_string(),
        (Opt::F50, _) => format!("{}/A", line % 10),
        (Opt::H50, 1) => "/A".to_string(),
        (Opt::K50 | Opt::N59 | Opt::F59, 1) if first => "/A".to_string(),
        (Opt::F59, _) => format!("{}/A", line_digit(first, line)?),
        _ => "A".to_string(),
    };
    Some(text)
}

/// The digit that 59F asks for at this line; none after 9.
fn line_digit(first: bool, line: usize) -> Option<usize> {
    let digit = line - usize::from(first);
    (digit <= 9).then_some(digit)
}

fn faulty_lines(option: Opt, first: bool, number: u8, line: usize) -> Vec<String> {
    let digit = line_digit(first && line > 1, line);
    match (option, number) {
        (Opt::F50, _) if line > 1 => faulty_numbered("3", number),
        (Opt::F59, 3) if first && line == 1 => vec!["/~".into(), "//~".into(), "/1/~".into()],
        (Opt::F59, 6) => faulty_numbers(digit),
        (Opt::F59, 5) => faulty_numbered("1", number),
        (Opt::F59, _) => {
            digit.map_or(Vec::new(), |digit| faulty_numbered(&digit.to_string(), number))
        }
        (Opt::A50, _) => vec![format!("/~\n{BIC}"), format!("//~\n{BIC}"), format!("/1/~\n{BIC}")],
        (Opt::A59 | Opt::G50, _) => vec![format!("/~\n{BIC}"), format!("/A~\n{BIC}")],
        (Opt::F50, _) => vec!["~\n1/A".into(), "A~\n1/A".into()],
        (Opt::L50, _) => vec!["~".into(), "A\\".into()],
        (Opt::K50 | Opt::N59, 3) if first && line == 1 => vec!["/~\nA".into()],
        (_, 3) => vec!["~".into(), "A\0".into()],
        (Opt::N59, _) if first && line == 1 => vec![format!("/{}\nA", legal(35))],
        _ => vec![legal(36)],
    }
}

fn faulty_numbered(digit: &str, number: u8) -> Vec<String> {
    match number {
        3 => vec![format!("{digit}/~"), format!("{digit}/A^")],
        4 => vec![format!("{digit}/{}", legal(34))],
        _ => owned(&["A", "", "1", "1A", "A/"]),
    }
}

fn faulty_numbers(expected: Option<usize>) -> Vec<String> {
    let digits = (0..=9).filter(|&digit| Some(digit) != expected);
    digits.step_by(4).map(|digit| format!("{digit}/A")).collect()
}

/// A body of at most 2,048 bytes that the option refuses with this number at this last line.
pub fn last_line(option: Opt, number: u8, line: usize) -> String {
    let fault = match (option, number) {
        (Opt::F50, 3) => "1/~".to_string(),
        (Opt::F50, 4) => format!("1/{}", legal(34)),
        (Opt::F50, _) => "\n".to_string(),
        (_, 3) => "~".to_string(),
        _ => legal(36),
    };
    let start = match option {
        Opt::F50 => format!("X\n{}", "1/\n".repeat(line - 2)),
        Opt::H50 => format!("/A\n{}", "\n".repeat(line - 2)),
        _ => "\n".repeat(line - 1),
    };
    start + &fault
}

/// A body of exactly `length` bytes that the option accepts if it takes any so long.
pub fn long(option: Opt, length: usize) -> String {
    let start = match option {
        Opt::A50 | Opt::A59 => format!("{BIC}\n"),
        Opt::F50 => "X\n".to_string(),
        Opt::G50 | Opt::H50 => "/A\n".to_string(),
        _ => String::new(),
    };
    let rest = length - start.len();
    start + &legal(rest)
}

/// Lengths around the longest body.
pub const LONG: [usize; 3] = [LONGEST_BODY - 1, LONGEST_BODY, LONGEST_BODY + 1];
