//! Values that are refused, the digits of 50F, variants, and the text of refusals.

use std::collections::HashSet;
use yewdome::fields::*;
use yewdome::pages::{measure, Party, LONGEST_BODY, LONGEST_FIELD};
use yewdome::{ErrorKind, Result, SwiftField};

fn names(names: &[&str]) -> Vec<String> {
    names.iter().map(|name| name.to_string()).collect()
}

/// Number and line of the refusal.
fn refused<T: std::fmt::Debug>(answer: Result<T>) -> (u8, u16) {
    let refusal = answer.expect_err("this is refused");
    (refusal.number(), refusal.line())
}

fn of_50(name_and_address: Vec<String>) -> Field50NoOption {
    Field50NoOption { name_and_address }
}

fn of_50k(account: Option<&str>, name: &str) -> Field50K {
    Field50K { account: account.map(str::to_string), name_and_address: names(&[name]) }
}

#[test]
fn values_at_the_limits_are_written() {
    let four = of_50(vec!["A".repeat(35); 4]);
    let lines = vec!["A".repeat(35); 4].join("\n");
    assert_eq!(four.to_swift_string(), Ok(format!(":50:{lines}")));
    let account = "1".repeat(34);
    let field = of_50k(Some(&account), "A");
    assert_eq!(field.to_swift_string(), Ok(format!(":50K:/{account}\nA")));
}

#[test]
fn the_longest_field_is_written() {
    let identifier = format!("AB/{}", "1".repeat(34));
    let names: Vec<String> = (1..=4).map(|n| format!("{n}/{}", "A".repeat(33))).collect();
    let due = format!(":59F:/{identifier}\n{}", names.join("\n"));
    assert_eq!(due.len(), LONGEST_FIELD);
    let field = Field59F { party_identifier: Some(identifier), name_and_address: names };
    assert_eq!(measure(&field), Ok(LONGEST_FIELD));
    assert_eq!(field.to_swift_string().as_deref(), Ok(&*due));
    assert_eq!(Field59F::parse(&due[":59F:".len()..]), Ok(field));
}

#[test]
fn an_empty_account_is_not_none() {
    assert_eq!(of_50k(Some(""), "A").to_swift_string(), Ok(":50K:/\nA".to_string()));
    assert_eq!(of_50k(None, "A").to_swift_string(), Ok(":50K:A".to_string()));
    assert_eq!(Field50K::parse("/\nA"), Ok(of_50k(Some(""), "A")));
    assert_eq!(Field50K::parse("A"), Ok(of_50k(None, "A")));
}

#[test]
fn values_that_no_reader_gives_are_22() {
    let values: Vec<Party> = vec![
        of_50(names(&[])).into(),
        of_50(names(&["A\nB"])).into(),
        of_50(names(&["A", "B", "C", "D", "E"])).into(),
        of_50(vec!["A".to_string(); 257]).into(),
        of_50k(None, "é").into(),
        of_50k(None, "~").into(),
        of_50k(Some("é"), "A").into(),
        Field50L { party_identifier: String::new() }.into(),
        Field50C { bic: "BNPAFRP".to_string() }.into(),
        Field50C { bic: String::new() }.into(),
        Field59F { party_identifier: None, name_and_address: names(&["2/A"]) }.into(),
    ];
    for value in values {
        assert_eq!(refused(measure(&value)), (22, 0), "{value:?}");
        assert_eq!(refused(value.to_swift_string()), (22, 0), "{value:?}");
    }
}

/// 36 is over the limit of a name, 39 over the room of a text in a record, 257 over a byte.
#[test]
fn texts_that_are_too_long_are_22() {
    for length in [36, 37, 38, 39, 40, 255, 256, 257, 1000] {
        let text = "A".repeat(length);
        let values: Vec<Party> = vec![
            of_50(vec![text.clone()]).into(),
            of_50(vec!["A".to_string(), "A".to_string(), "A".to_string(), text.clone()]).into(),
            of_50k(Some(&text), "A").into(),
            Field50L { party_identifier: text.clone() }.into(),
            Field50H { account: text.clone(), name_and_address: names(&["A"]) }.into(),
            Field50C { bic: text.clone() }.into(),
        ];
        for value in values {
            assert_eq!(refused(measure(&value)), (22, 0), "{length}: {value:?}");
            assert_eq!(refused(value.to_swift_string()), (22, 0), "{length}: {value:?}");
        }
    }
}

const FOUR: [&str; 4] = ["A", "B", "C", "D"];

/// 50F of so many names.
fn of_50f(digits: &[u8; 4], count: usize) -> Field50F {
    Field50F { digits: (*digits).into(), ..Field50F::new("X".to_string(), names(&FOUR[..count])) }
}

/// The body of as many lines as there are digits.
fn numbered(digits: &[u8]) -> String {
    let lines = digits.iter().zip(FOUR);
    lines.fold("X".to_string(), |body, (&digit, name)| format!("{body}\n{}/{name}", digit as char))
}

#[test]
fn two_sevens_are_written() {
    let field = Field50F::parse("X\n7/A\n7/B").expect("the body is good");
    assert_eq!(field.name_and_address, ["A", "B"]);
    assert_eq!(field.line_digits(), b"77");
    assert_eq!(field.to_swift_string(), Ok(":50F:X\n7/A\n7/B".to_string()));
    assert_eq!(field.to_string(), ":50F:X\n7/A\n7/B");
}

/// Every digit in each of up to four lines: in turn, repeated and out of order.
#[test]
fn all_digits_are_kept() {
    type Customer = Field50OrderingCustomerAFK;
    for count in 1..=4 {
        for number in 0..10_usize.pow(count as u32) {
            let digits = format!("{number:0count$}").into_bytes();
            let body = numbered(&digits);
            let field = Field50F::parse(&body).expect("each line has its digit");
            assert_eq!(field.line_digits(), digits);
            assert_eq!(field.name_and_address, FOUR[..count]);
            assert_eq!(field.to_swift_string(), Ok(format!(":50F:{body}")));
            assert_eq!(measure(&field), Ok(":50F:".len() + body.len()));
            assert_eq!(Customer::parse(&body), Ok(Customer::F(field)));
        }
    }
}

/// Measures and writes 50F with a byte in the place of a digit.
fn look_at_digit(byte: u8, place: usize, count: usize) {
    let mut digits = *b"1234";
    digits[place] = byte;
    let field = of_50f(&digits, count);
    let (measured, written) = (measure(&field), field.to_swift_string());
    if place < count && !byte.is_ascii_digit() {
        assert_eq!((refused(measured), refused(written)), ((22, 0), (22, 0)), "{field:?}");
    } else {
        let due = format!(":50F:{}", numbered(&digits[..count]));
        assert_eq!((measured, written), (Ok(due.len()), Ok(due)), "{field:?}");
    }
}

/// Where it is not used, it may be any byte.
#[test]
fn a_used_digit_that_is_none_is_22() {
    for byte in 0..=255 {
        for place in 0..4 {
            for count in 1..=4 {
                look_at_digit(byte, place, count);
            }
        }
    }
}

#[test]
fn lines_are_numbered_by_default() {
    let (party_identifier, name_and_address) = ("X".to_string(), names(&FOUR));
    let field = Field50F::new(party_identifier.clone(), name_and_address.clone());
    assert_eq!(field.to_swift_string(), Ok(":50F:X\n1/A\n2/B\n3/C\n4/D".to_string()));
    assert_eq!(Field50F::parse("X\n1/A\n2/B\n3/C\n4/D"), Ok(field.clone()));
    let digits = LineDigits::default();
    assert_eq!(Field50F { party_identifier, name_and_address, digits }, field);
    let Field50F { party_identifier, name_and_address, .. } = field;
    assert_eq!((&*party_identifier, &name_and_address[..]), ("X", &names(&FOUR)[..]));
}

#[test]
fn a_line_put_after_those_that_were_read_is_numbered_by_its_place() {
    let mut field = Field50F::parse("X\n7/A\n1/B").expect("the body is good");
    field.name_and_address.push("C".to_string());
    assert_eq!(field.to_swift_string(), Ok(":50F:X\n7/A\n1/B\n3/C".to_string()));
}

#[test]
fn line_digits_are_four_bytes() {
    let digits = LineDigits::from(*b"70\0\xff");
    let due = [Some(b'7'), Some(b'0'), Some(0), Some(255), None];
    assert_eq!([0, 1, 2, 3, 4].map(|index| digits.get(index)), due);
    assert_eq!(<[u8; 4]>::from(digits), *b"70\0\xff");
    assert_eq!(format!("{digits:?}"), r#"LineDigits("70\x00\xff")"#);
    assert_eq!(<[u8; 4]>::from(LineDigits::default()), *b"1234");
}

#[test]
fn variants_that_are_no_letter_are_14() {
    for variant in ["", "\0", "c", "0", "~", " ", "CC", "C\0", "50C", "é"] {
        let answer =
            Field50OrderingCustomerNCF::parse_with_variant("BNPAFRPP", Some(variant), None);
        assert_eq!(refused(answer), (14, 0), "{variant:?}");
    }
    let answer = Field59::parse_with_variant(&"é".repeat(LONGEST_BODY), Some("\0"), None);
    assert_eq!(refused(answer), (14, 0), "14 comes before 12 and 13");
}

#[test]
fn a_variant_picks_its_option() {
    let body = "BNPAFRPP";
    let bic = Field50C { bic: body.to_string() };
    let plain = of_50(names(&[body]));
    let read = |variant| Field50::parse_with_variant(body, variant, Some("50"));
    assert_eq!(read(Some("C")), Ok(Field50::C(bic.clone())));
    assert_eq!(read(Some("Z")), Ok(Field50::C(bic)));
    assert_eq!(read(None), Ok(Field50::NoOption(plain)));
    assert_eq!(refused(read(Some("F"))), (1, 0));
}

#[test]
fn a_struct_takes_any_variant() {
    for variant in [None, Some("K"), Some("a"), Some("\0"), Some("AB")] {
        let read = Field50C::parse_with_variant("BNPAFRPP", variant, None);
        assert_eq!(read, Field50C::parse("BNPAFRPP"), "{variant:?}");
    }
}

fn tag<T: SwiftField>(body: &str) -> Option<&'static str> {
    T::parse(body).expect("the body is good").get_variant_tag()
}

#[test]
fn three_enums_tell_their_letter() {
    assert_eq!(tag::<Field50OrderingCustomerAFK>("BNPAFRPP"), Some("A"));
    assert_eq!(tag::<Field50OrderingCustomerAFK>("X\n1/A"), Some("F"));
    assert_eq!(tag::<Field50OrderingCustomerAFK>("A"), Some("K"));
    assert_eq!(tag::<Field50Creditor>("BNPAFRPP"), Some("A"));
    assert_eq!(tag::<Field50Creditor>("A"), Some("K"));
    assert_eq!(tag::<Field59>("BNPAFRPP"), Some("A"));
    assert_eq!(tag::<Field59>("1/A"), Some("F"));
    assert_eq!(tag::<Field59>("A"), None);
    assert_eq!(tag::<Field50OrderingCustomerFGH>("X\n1/A"), None);
    assert_eq!(tag::<Field50OrderingCustomerNCF>("BNPAFRPP"), None);
    assert_eq!(tag::<Field50InstructingParty>("BNPAFRPP"), None);
    assert_eq!(tag::<Field59Debtor>("BNPAFRPP"), None);
    assert_eq!(tag::<Field50K>("A"), None);
}

fn text<T: std::fmt::Debug>(answer: Result<T>) -> String {
    let error: Box<dyn std::error::Error> = Box::new(answer.expect_err("this is refused"));
    error.to_string()
}

#[test]
fn every_refusal_of_a_reader_has_its_text() {
    let texts = [
        text(Field50F::parse("X")),
        text(Field50L::parse("")),
        text(Field50K::parse("A\nB~")),
        text(Field50K::parse(&"A".repeat(36))),
        text(Field50F::parse("X\nA")),
        text(Field59F::parse("2/A")),
        text(Field50K::parse("/1")),
        text(Field50A::parse("/1")),
        text(Field50A::parse("/1\nA")),
        text(Field50C::parse("BNPAFR~P")),
        text(Field50Creditor::parse("")),
        text(Field50K::parse(&"A".repeat(LONGEST_BODY + 1))),
        text(Field50K::parse("é")),
        text(Field50Creditor::parse_with_variant("A", Some("k"), None)),
    ];
    let due = [
        "wrong number of lines (refusal 1)",
        "account or identifier of a wrong form or length, in line 1 (refusal 2)",
        "illegal byte outside a BIC, in line 2 (refusal 3)",
        "name or numbered text too long, in line 1 (refusal 4)",
        "not a numbered line, in line 2 (refusal 5)",
        "number of a line of 59F out of turn, in line 1 (refusal 6)",
        "no name, or more than four (refusal 7)",
        "BIC line missing (refusal 8)",
        "BIC of a wrong length, in line 2 (refusal 9)",
        "illegal byte in a BIC, in line 1 (refusal 10)",
        "no option of the choice accepts the body (refusal 11)",
        "body too long (refusal 12)",
        "byte above 127 (refusal 13)",
        "variant that is no letter from A to Z (refusal 14)",
    ];
    assert_eq!(texts, due);
}

#[test]
fn a_struct_is_taken_out_of_an_enum_that_holds_it() {
    let field = of_50k(None, "A");
    let choice = Field50OrderingCustomerAFK::K(field.clone());
    assert_eq!(Field50K::try_from(choice.clone()), Ok(field.clone()));
    assert_eq!(Field50A::try_from(choice.clone()), Err(choice));
    let party = Party::from(field.clone());
    assert_eq!(Field50C::try_from(party.clone()), Err(party.clone()));
    assert_eq!(Field50K::try_from(party), Ok(field));
}

#[test]
fn values_are_shown_as_they_are_written() {
    let field = of_50k(Some("12"), "A");
    assert_eq!(field.to_string(), ":50K:/12\nA");
    assert_eq!(Field50Creditor::K(field.clone()).to_string(), ":50K:/12\nA");
    assert_eq!(Party::from(field).to_string(), ":50K:/12\nA");
    assert_eq!(of_50(names(&[])).to_string(), "value that no reader gives (refusal 22)");
    assert_eq!(ErrorKind::NoSpace.to_string(), "too little space");
}

#[test]
fn equal_values_are_one_key() {
    let parties = ["A", "B", "A"].map(|name| Party::from(of_50k(None, name)));
    assert_eq!(HashSet::from(parties).len(), 2);
}

/// How many keys values of 50F are, alone and as parties.
fn keys<const N: usize>(fields: [Field50F; N]) -> usize {
    let keys = HashSet::from(fields.clone()).len();
    assert_eq!(HashSet::from(fields.map(Party::from)).len(), keys);
    keys
}

#[test]
fn values_of_50f_are_equal_by_the_digits_that_they_use() {
    let alike = [b"7734", b"7700", b"77\0\0", b"77\xffA"].map(|digits| of_50f(digits, 2));
    assert!(alike.iter().all(|field| *field == alike[0]));
    assert_eq!(keys(alike), 1);
    assert_eq!(keys([b"1234", b"4321"].map(|digits| of_50f(digits, 0))), 1);
    let different = [b"7734", b"7134", b"1734", b"1134", b"7/34"].map(|digits| of_50f(digits, 2));
    assert_eq!(keys(different), 5);
    assert_eq!(keys([0, 1, 2, 3, 4].map(|count| of_50f(b"7777", count))), 5);
    let five = Field50F { name_and_address: vec!["A".to_string(); 5], ..of_50f(b"1234", 4) };
    let last = Field50F { digits: LineDigits::from(*b"1235"), ..five.clone() };
    assert_eq!(keys([five.clone(), five, last]), 2);
}
