//! Replays the cases of crates/replay/stdin through the types: what the list says of each is expected
//! here. tests/README.md has its format.

use std::collections::BTreeMap;
use yewdome::fields::*;
use yewdome::kept::{self, Causes};
use yewdome::pages::{measure, Party};
use yewdome::traits::Parsed;
use yewdome::{ParseError, SwiftField};

/// The record and what is written of it, or the refusal's number and line.
type Answer = Result<(Party, String), (u8, u16)>;

/// The place of the choice that trims.
const INSTRUCTING_PARTY: u8 = 0;

/// How a reader is called.
enum Call {
    Parse,
    WithVariant(Option<String>),
}

struct Case {
    row: String,
    /// Whether a choice reads, and the place of the option or choice.
    reader: (bool, u8),
    call: Call,
    body: String,
    /// What is expected of ours, and the rule, 0 where it is the Rust's.
    answer: Answer,
    rule: u8,
    written: Option<Written>,
}

/// A record of the list, and what is written of it.
struct Written {
    party: Party,
    /// The rule: 1 as the Rust, 2 but for the digits of 50F, 3 but for the LF of 59F's empty line,
    /// 22 refused, 50 where the Rust does not read it.
    way: u8,
    ours: String,
    /// Where it is 50F's or another than ours.
    rust: Option<String>,
}

fn told(refusal: ParseError) -> (u8, u16) {
    (refusal.number(), refusal.line())
}

// The list.

fn cases() -> Vec<Case> {
    let path = concat!(env!("CARGO_MANIFEST_DIR"), "/../../crates/replay/stdin");
    let list = std::fs::read_to_string(path).expect("the list is there");
    let is_case = |row: &&str| ["0\t", "1\t", "2\t"].iter().any(|call| row.starts_with(call));
    list.lines().filter(is_case).map(case).collect()
}

fn case(row: &str) -> Case {
    let fields: Vec<String> = row.split('\t').map(unescaped).collect();
    let (letter, way): (u8, u8) = (decimal(&fields[2]), decimal(&fields[8]));
    let call = match (fields[0].as_str(), letter) {
        ("2", 0) => Call::WithVariant(None),
        ("2", letter) => Call::WithVariant(Some(char::from(letter).to_string())),
        _ => Call::Parse,
    };
    let written = match (way, fields.len()) {
        (0, 9) => None,
        (_, 20 | 21) => Some(Written {
            party: party(&fields[9..19]),
            way,
            ours: fields[19].clone(),
            rust: fields.get(20).cloned(),
        }),
        _ => panic!("no case: {row}"),
    };
    let answer = match (decimal(&fields[4]), decimal(&fields[5]), &written) {
        (0, 0, Some(written)) => Ok((written.party.clone(), written.ours.clone())),
        refusal => Err((refusal.0, refusal.1)),
    };
    let reader = (fields[0] != "0", decimal(&fields[1]));
    let (body, rule) = (fields[3].clone(), decimal(&fields[6]));
    Case { row: row.to_string(), reader, call, body, answer, rule, written }
}

/// A text of the list, where `\` and two digits are a byte.
fn unescaped(text: &str) -> String {
    let mut parts = text.split('\\');
    let mut bytes = parts.next().expect("there is a first part").as_bytes().to_vec();
    for part in parts {
        bytes.push(u8::from_str_radix(&part[..2], 16).expect("two digits"));
        bytes.extend_from_slice(&part.as_bytes()[2..]);
    }
    String::from_utf8(bytes).expect("the Rust was asked text")
}

fn decimal<T: std::str::FromStr>(text: &str) -> T {
    text.parse().unwrap_or_else(|_| panic!("no number: {text}"))
}

/// The value of a record of the list: option, presence, count, account or identifier, BIC, four
/// names, the digits of 50F.
fn party(fields: &[String]) -> Party {
    let (presence, account, bic) = (fields[1].as_str(), fields[3].clone(), fields[4].clone());
    let name_and_address = fields[5..5 + decimal::<usize>(&fields[2])].to_vec();
    let mut digits = [0; 4];
    digits[..fields[9].len()].copy_from_slice(fields[9].as_bytes());
    let some = match presence {
        "1" => Some(account.clone()),
        _ => None,
    };
    match decimal(&fields[0]) {
        0 => Field50NoOption { name_and_address }.into(),
        1 => Field50A { party_identifier: some, bic }.into(),
        2 => {
            let digits = LineDigits::from(digits);
            Field50F { digits, ..Field50F::new(account, name_and_address) }.into()
        }
        3 => Field50K { account: some, name_and_address }.into(),
        4 => Field50C { bic }.into(),
        5 => Field50L { party_identifier: account }.into(),
        6 => Field50G { account, bic }.into(),
        7 => Field50H { account, name_and_address }.into(),
        8 => Field59NoOption { account: some, name_and_address }.into(),
        9 => Field59A { account: some, bic }.into(),
        10 => Field59F { party_identifier: some, name_and_address }.into(),
        option => panic!("no option: {option}"),
    }
}

// Ours.

/// What a type gives of a body, and by which causes what it writes of it is another.
struct Asked {
    answer: Answer,
    causes: Result<Causes, (u8, u16)>,
}

fn ask<T: SwiftField + Parsed + Into<Party>>(call: &Call, body: &str) -> Asked {
    let (value, causes) = match call {
        Call::Parse => (T::parse(body), kept::parse::<T>(body)),
        Call::WithVariant(variant) => {
            let variant = variant.as_deref();
            (
                T::parse_with_variant(body, variant, None),
                kept::parse_with_variant::<T>(body, variant),
            )
        }
    };
    let answer = value.and_then(|value| {
        let written = value.to_swift_string()?;
        Ok((value.into(), written))
    });
    Asked { answer: answer.map_err(told), causes: causes.map_err(told) }
}

fn reader(case: &Case) -> fn(&Call, &str) -> Asked {
    match case.reader {
        (false, 0) => ask::<Field50NoOption>,
        (false, 1) => ask::<Field50A>,
        (false, 2) => ask::<Field50F>,
        (false, 3) => ask::<Field50K>,
        (false, 4) => ask::<Field50C>,
        (false, 5) => ask::<Field50L>,
        (false, 6) => ask::<Field50G>,
        (false, 7) => ask::<Field50H>,
        (false, 8) => ask::<Field59NoOption>,
        (false, 9) => ask::<Field59A>,
        (false, 10) => ask::<Field59F>,
        (true, INSTRUCTING_PARTY) => ask::<Field50InstructingParty>,
        (true, 1) => ask::<Field50OrderingCustomerFGH>,
        (true, 2) => ask::<Field50OrderingCustomerAFK>,
        (true, 3) => ask::<Field50OrderingCustomerNCF>,
        (true, 4) => ask::<Field50Creditor>,
        (true, 5) => ask::<Field59>,
        (true, 6) => ask::<Field59Debtor>,
        _ => panic!("no reader: {}", case.row),
    }
}

fn asked(case: &Case) -> Asked {
    reader(case)(&case.call, &case.body)
}

#[test]
fn every_case_is_read_as_expected() {
    let mut counts = BTreeMap::new();
    for case in cases() {
        assert_eq!(asked(&case).answer, case.answer, "{}", case.row);
        *counts.entry(case.rule).or_insert(0) += 1;
    }
    assert_eq!(counts, BTreeMap::from([(0, 5647), (12, 55), (13, 107), (14, 139), (50, 52)]));
}

/// Where the digits of 50F are set to 1, 2, 3, 4, its text is the Rust's.
#[test]
fn with_its_lines_numbered_50f_is_the_rusts() {
    let (mut in_turn, mut otherwise) = (0, 0);
    for case in cases() {
        let Ok((Party::Field50F(field), came)) = asked(&case).answer else {
            continue;
        };
        let party = Party::from(Field50F { digits: LineDigits::default(), ..field });
        let written = party.to_swift_string().expect("a reader gave its texts");
        match written == came {
            true => in_turn += 1,
            false => otherwise += 1,
        }
        let rust = case.written.and_then(|written| written.rust);
        assert_eq!(rust, Some(written), "{}", case.row);
    }
    assert_eq!((in_turn, otherwise), (170, 46));
}

#[test]
fn every_record_is_written_as_expected() {
    let mut counts = BTreeMap::new();
    for case in cases() {
        let Some(Written { party, way, ours: due, .. }) = case.written else {
            continue;
        };
        let ours = party.to_swift_string().map_err(told);
        assert_eq!(measure(&party).map_err(told), ours.as_ref().map(String::len).map_err(|it| *it));
        match way {
            22 => assert_eq!(ours, Err((22, 0)), "{}", case.row),
            _ => assert_eq!(ours, Ok(due), "{}", case.row),
        }
        *counts.entry(way).or_insert(0) += 1;
    }
    assert_eq!(counts, BTreeMap::from([(1, 2576), (2, 46), (3, 68), (22, 40), (50, 49)]));
}

#[test]
fn there_are_causes_exactly_where_a_body_is_written_as_another() {
    let (mut kept, mut changed) = (0, 0);
    for case in cases() {
        let Asked { answer, causes } = asked(&case);
        let is_kept = answer.map(|(_, field)| {
            let (_, written) = field[1..].split_once(':').expect("a field has a tag");
            written == case.body
        });
        match is_kept {
            Ok(true) => kept += 1,
            Ok(false) => changed += 1,
            Err(_) => {}
        }
        assert_eq!(causes.map(Causes::is_empty), is_kept, "{}", case.row);
    }
    assert_eq!((kept, changed), (2000, 577));
}

/// What is read of a body: all of it, but where the instructing party is detected, which trims.
fn text_of(case: &Case) -> &str {
    let picks =
        matches!(&case.call, Call::WithVariant(Some(letter)) if letter == "C" || letter == "L");
    match case.reader == (true, INSTRUCTING_PARTY) && !picks {
        true => case.body.trim(),
        false => &case.body,
    }
}

/// How many lines a body needs for its BIC; none where it has none.
fn lines_to_bic(party: &Party) -> Option<usize> {
    match party {
        Party::Field50A(field) => Some(1 + usize::from(field.party_identifier.is_some())),
        Party::Field59A(field) => Some(1 + usize::from(field.account.is_some())),
        Party::Field50G(_) => Some(2),
        Party::Field50C(_) => Some(1),
        _ => None,
    }
}

#[test]
fn each_cause_is_told_where_a_body_has_it() {
    let mut counts = [0; 5];
    for case in cases() {
        let Asked { answer: Ok((party, _)), causes: Ok(causes) } = asked(&case) else {
            continue;
        };
        let text = text_of(&case);
        let due = [
            text.contains("\r\n"),
            text.ends_with('\n'),
            lines_to_bic(&party).map_or(false, |lines| text.lines().count() > lines),
            text.len() < case.body.len(),
            false,
        ];
        let told = [
            causes.inner_cr(),
            causes.last_lf(),
            causes.after_bic(),
            causes.blanks(),
            causes.closing_cr(),
        ];
        assert_eq!(told, due, "{}", case.row);
        for (count, is_told) in counts.iter_mut().zip(told) {
            *count += usize::from(is_told);
        }
    }
    assert_eq!(counts, [327, 249, 53, 51, 0]);
}
