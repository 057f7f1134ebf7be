//! The network profile: each rule by itself, all of them against a plain statement, and pages of
//! what is read under it.

#[path = "../../../tests/rust/src/random.rs"]
mod random;

use random::Random;
use std::collections::{BTreeMap, HashSet};
use std::fmt::Debug;
use yewdome::fields::*;
use yewdome::pages::{self, Answer, Party, LONGEST_BODY};
use yewdome::profile::{self, Profiled};
use yewdome::{ErrorKind, ParseError, Result, SwiftField};

// The rules one by one.

/// What can be read in both ways, and compared.
trait Read: SwiftField + Profiled + Debug + PartialEq {}
impl<T: SwiftField + Profiled + Debug + PartialEq> Read for T {}

fn told(refusal: ParseError) -> (u8, u16) {
    (refusal.number(), refusal.line())
}

fn inside<T: Read>(body: &str) {
    let value = T::parse(body).unwrap_or_else(|refusal| panic!("{body:?}: {refusal}"));
    assert_eq!(profile::parse(body), Ok(value), "{body:?}");
}

fn outside<T: Read>(body: &str, line: u16) {
    assert!(T::parse(body).is_ok(), "{body:?}");
    assert_eq!(profile::parse::<T>(body).map_err(told), Err((32, line)), "{body:?}");
}

fn refused<T: Read>(body: &str, due: (u8, u16)) {
    assert_eq!(T::parse(body).map_err(told), Err(due), "{body:?}");
    assert_eq!(profile::parse::<T>(body).map_err(told), Err(due), "{body:?}");
}

/// Every letter, every digit, the space and ten others; of these the BIC has no small letter.
#[test]
fn a_line_has_only_bytes_of_the_set() {
    let set = "ABCDEFGHIJKLMNOPQRSTUVWXYZabcdefghijklmnopqrstuvwxyz0123456789 /-?:().,'+";
    for byte in (0..128).map(char::from).filter(|&byte| byte != '\n') {
        // the account of 50H takes any byte
        let (first, later) = (format!("/1{byte}2\nA"), format!("/12\nA{byte}B"));
        if set.contains(byte) {
            inside::<Field50H>(&first);
            inside::<Field50H>(&later);
        } else {
            outside::<Field50H>(&first, 1);
            outside::<Field50OrderingCustomerFGH>(&first, 1);
            match Field50H::parse(&later) {
                Ok(_) => outside::<Field50H>(&later, 2),
                Err(_) => refused::<Field50H>(&later, (3, 2)),
            }
        }
    }
    outside::<Field50NoOption>("A&B", 1);
    outside::<Field50NoOption>("A\nB\nC\nD_", 4);
    outside::<Field50F>("X\n1/A\n2/B@C", 3);
    outside::<Field50L>("TREASURY #7", 1);
    outside::<Field59F>("1/A\n2/B=C", 2);
    outside::<Field59>("/1;2\nA", 1);
    outside::<Field50Creditor>("/12\nA\n{B}", 3);
}

#[test]
fn the_bic_has_no_small_letter() {
    for body in ["BNPAFRPp", "bNPAFRPP", "bnpafrppxxx"] {
        outside::<Field50A>(body, 1);
        outside::<Field50C>(body, 1);
        outside::<Field59A>(body, 1);
        outside::<Field50InstructingParty>(body, 1);
        outside::<Field50OrderingCustomerAFK>(body, 1);
        outside::<Field50OrderingCustomerNCF>(body, 1);
        outside::<Field50Creditor>(body, 1);
        outside::<Field59>(body, 1);
        outside::<Field59Debtor>(body, 1);
        let body = format!("/12\n{body}");
        outside::<Field50A>(&body, 2);
        outside::<Field50G>(&body, 2);
        outside::<Field59A>(&body, 2);
        outside::<Field50OrderingCustomerFGH>(&body, 2);
        outside::<Field50OrderingCustomerAFK>(&body, 2);
        outside::<Field59>(&body, 2);
    }
}

#[test]
fn small_letters_are_good_elsewhere() {
    inside::<Field50NoOption>("bnpafrpp");
    inside::<Field50K>("/de12\nbnpafrpp");
    inside::<Field50L>("bnpafrpp");
    inside::<Field50A>("/bnpafrpp\nBNPAFRPP");
    inside::<Field50G>("/bnpafrpp\nBNPAFRPP");
    inside::<Field59A>("/bnpafrpp\nBNPAFRPP");
    inside::<Field50F>("bnpafrpp\n1/bnpafrpp");
    inside::<Field59F>("/bnpafrpp\n1/bnpafrpp");
    inside::<Field50InstructingParty>("treasury 7");
    inside::<Field59>("1/bnpafrpp");
}

/// Under the profile too, and they are read as without it.
#[test]
fn the_digits_of_50f_may_be_any() {
    for body in ["X\n7/A\n7/B", "X\n0/A", "X\n4/A\n3/B\n2/C\n1/D", "/12\n9/A\n0/B\n9/C"] {
        inside::<Field50F>(body);
        inside::<Field50OrderingCustomerAFK>(body);
        inside::<Field50OrderingCustomerFGH>(body);
        inside::<Field50OrderingCustomerNCF>(body);
    }
}

#[test]
fn no_line_comes_after_the_bic() {
    for after in ["X", " ", "BNPAFRPP", "/12", "X\nY"] {
        outside::<Field50A>(&format!("BNPAFRPP\n{after}"), 2);
        outside::<Field59A>(&format!("BNPAFRPP\n{after}"), 2);
        outside::<Field59>(&format!("BNPAFRPP\n{after}"), 2);
        outside::<Field50A>(&format!("/12\nBNPAFRPP\n{after}"), 3);
        outside::<Field59Debtor>(&format!("/12\r\nBNPAFRPP\r\n{after}"), 3);
    }
    outside::<Field50OrderingCustomerAFK>("/12\nBNPAFRPP\nBNPAFRPP", 3);
    outside::<Field50Creditor>("BNPAFRPP\nBNPAFRPP", 2);
    for end in ["", "\n", "\r\n"] {
        inside::<Field50A>(&format!("/12\nBNPAFRPP{end}"));
        inside::<Field50G>(&format!("/12\nBNPAFRPP{end}"));
        inside::<Field59>(&format!("BNPAFRPP{end}"));
    }
}

#[test]
fn no_line_is_empty() {
    outside::<Field50NoOption>("\nA", 1);
    outside::<Field50K>("\r\nA", 1);
    outside::<Field50OrderingCustomerAFK>("\nA", 1);
    outside::<Field50K>("A\n\nB", 2);
    outside::<Field59NoOption>("/12\r\nA\r\n\r\nB", 3);
    outside::<Field50Creditor>("A\n\n", 2);
    outside::<Field50A>("BNPAFRPP\n\n", 2);
    inside::<Field50K>("A\n");
    inside::<Field50K>(" \nA\n ");
}

#[test]
fn no_line_after_the_first_starts_with_a_colon_or_a_hyphen() {
    for start in [":", "-"] {
        for line in [start.to_string(), format!("{start}A"), format!("{start}}}")] {
            outside::<Field50NoOption>(&format!("A\n{line}"), 2);
            outside::<Field50K>(&format!("/12\n{line}"), 2);
            outside::<Field59NoOption>(&format!("A\nB\nC\n{line}"), 4);
            outside::<Field50OrderingCustomerFGH>(&format!("/12\nA\n{line}"), 3);
            outside::<Field59Debtor>(&format!("/12\nA\n{line}"), 3);
        }
        for line in [start.to_string(), format!("{start}A"), format!("{start}50K{start}")] {
            inside::<Field50NoOption>(&line);
            inside::<Field50K>(&format!("{line}\nA"));
            inside::<Field50L>(&line);
            inside::<Field50F>(&format!("{line}\n1/A"));
            inside::<Field59>(&line);
            inside::<Field50Creditor>(&format!("{line}\n {line}"));
            inside::<Field50InstructingParty>(&line);
        }
    }
}

#[test]
fn the_first_line_at_fault_is_named() {
    outside::<Field50K>("A&B\n\n:C", 1);
    outside::<Field50K>("A\n:B\n\nC&D", 2);
    outside::<Field50K>("A\n\n-B", 2);
    outside::<Field50K>(":A\nB\nC\r\r\n-D", 3);
    outside::<Field50A>("bnpafrpp\nX", 1);
    outside::<Field50A>("/1&2\nbnpafrpp\n\n", 1);
    outside::<Field50A>("/12\nbnpafrpp\n&", 2);
    outside::<Field50OrderingCustomerAFK>("/12\nA&B\n-C", 2);
    outside::<Field59>("BNPAFRPP\n\n:&", 2);
}

#[test]
fn a_cr_that_stays_in_a_line_is_outside_the_set() {
    inside::<Field50K>("/12\r\nA\r\nB");
    inside::<Field50OrderingCustomerAFK>("/12\r\nA\r\n");
    outside::<Field50K>("A\r", 1);
    outside::<Field50K>("A\rB\nC", 1);
    outside::<Field50K>("A\r\r\nB", 1);
    outside::<Field50K>("A\r\nB\r", 2);
    outside::<Field50OrderingCustomerNCF>("A\n\r", 2);
    outside::<Field50L>("A\r", 1);
}

/// Detecting trims the body, but the profile tests it as it came.
#[test]
fn the_instructing_party_may_have_blank_lines_before_its_bic() {
    for body in [" BNPAFRPP ", " \nBNPAFRPP", " \r\n  \n BNPAFRPP \n", "BNPAFRPP\r\n"] {
        inside::<Field50InstructingParty>(body);
    }
    let cases = [
        ("\nBNPAFRPP", 1),
        ("\t\nBNPAFRPP", 1),
        ("\tBNPAFRPP", 1),
        (" \r\r\nBNPAFRPP", 1),
        ("\r\nBNPAFRPP", 1),
        ("BNPAFRPP\r", 1),
        ("BNPAFRPP\t", 1),
        ("BNPAFRPP \x0b", 1),
        (" bNPAFRPP", 1),
        (" \n\nBNPAFRPP", 2),
        (" \n\x0c\nBNPAFRPP", 2),
        (" \nBNPAFRPP\r", 2),
        (" \nBNPAFRPp ", 2),
        ("BNPAFRPP\n ", 2),
        ("BNPAFRPP\n\n", 2),
        ("BNPAFRPP\n\r", 2),
        ("BNPAFRPP\r\n\t", 2),
        (" \n BNPAFRPP\n ", 3),
        (" \nBNPAFRPP\r\n\r\n", 3),
    ];
    for (body, line) in cases {
        outside::<Field50InstructingParty>(body, line);
    }
    // the last line of the longest body
    let body = format!("{}BNPAFRPP\n ", " \n".repeat(1019));
    assert_eq!(body.len(), LONGEST_BODY);
    outside::<Field50InstructingParty>(&body, 1021);
    refused::<Field50InstructingParty>(&format!("{body} "), (12, 0));
}

/// 50L has no BIC, so that blank lines may stand after it too.
#[test]
fn the_instructing_party_may_have_blank_lines_around_its_identifier() {
    for body in [" \nTREASURY 7", "TREASURY 7\n ", " \r\n  \n TREASURY 7\n \r\n", " \n -7"] {
        inside::<Field50InstructingParty>(body);
    }
    outside::<Field50InstructingParty>(" \n-TREASURY", 2);
    outside::<Field50InstructingParty>(" \n:TREASURY\n", 2);
    outside::<Field50InstructingParty>("TREASURY 7\n\n", 2);
    outside::<Field50InstructingParty>("TREASURY 7\n \t", 2);
    outside::<Field50InstructingParty>("TREASURY 7\r", 1);
    refused::<Field50InstructingParty>("TREASURY\n7", (11, 0));
}

#[test]
fn a_refusal_of_the_ordinary_reading_stands() {
    refused::<Field50NoOption>("", (1, 0));
    refused::<Field50K>("A&B\nC~", (3, 2));
    refused::<Field50A>("/1&2\nbnpafrp", (9, 2));
    refused::<Field50C>("BNPAFRPP\n", (9, 1));
    refused::<Field59F>("1/A&B\n3/C", (6, 2));
    refused::<Field50Creditor>("A&B\nC~", (11, 0));
    refused::<Field50K>(&"&".repeat(LONGEST_BODY + 1), (12, 0));
    refused::<Field59>(&"é".repeat(LONGEST_BODY), (12, 0));
    refused::<Field50K>("A&é", (13, 0));
    refused::<Field50InstructingParty>("\té", (13, 0));
}

#[test]
fn a_variant_picks_its_option() {
    type Customer = Field50OrderingCustomerAFK;
    let read = |body, variant| profile::parse_with_variant::<Customer>(body, variant).map_err(told);
    let plain = Field50K { account: None, name_and_address: vec!["bnpafrpp".to_string()] };
    assert_eq!(read("bnpafrpp", Some("K")), Ok(Customer::K(plain)));
    assert_eq!(read("bnpafrpp", Some("A")), Err((32, 1)));
    assert_eq!(read("bnpafrpp", Some("Z")), Err((32, 1)), "detected as 50A");
    assert_eq!(read("bnpafrpp", None), Err((32, 1)), "detected as 50A");
    assert_eq!(read("/12\nBNPAFRPP\nX", Some("A")), Err((32, 3)));
    assert_eq!(read("bnpafrpp", Some("F")), Err((1, 0)));
    // by its letter the instructing party is not trimmed
    let read =
        |variant| profile::parse_with_variant::<Field50InstructingParty>(" BNPAFRPP", variant);
    assert_eq!(read(Some("C")).map_err(told), Err((9, 1)));
    let identifier = Field50L { party_identifier: " BNPAFRPP".to_string() };
    assert_eq!(read(Some("L")), Ok(Field50InstructingParty::L(identifier)));
    assert_eq!(read(None), profile::parse("BNPAFRPP"));
}

#[test]
fn variants_that_are_no_letter_are_14() {
    let long = "é".repeat(LONGEST_BODY);
    for variant in ["", "\0", "k", "0", "~", "KK", "50K", "é"] {
        for body in ["A", "A&B", "", &long] {
            let answer = profile::parse_with_variant::<Field50Creditor>(body, Some(variant));
            assert_eq!(answer.map_err(told), Err((14, 0)), "{variant:?}");
        }
        let answer = profile::parse_with_variant::<Field50C>("bnpafrpp", Some(variant));
        assert_eq!(answer.map_err(told), Err((32, 1)), "a struct takes any variant");
    }
}

#[test]
fn the_refusal_has_its_text() {
    let refusal = profile::parse::<Field50K>("A\n-B").expect_err("the line starts with a hyphen");
    assert_eq!(refusal.kind(), ErrorKind::OutsideProfile);
    let due = "line that breaks a rule of the network profile, in line 2 (refusal 32)";
    assert_eq!(refusal.to_string(), due);
}

// All the rules, of bodies made from pieces.

/// The line at fault in a body that is read as a party.
fn at_fault(party: &Party, body: &str) -> Option<u16> {
    let bic = bic_of(party).map(|bic| bic_line(bic, body));
    let mut lines = (1..).zip(body.lines());
    lines.find(|&(n, line)| is_at_fault(line, n, bic)).map(|(n, _)| n)
}

/// Whether line n breaks a rule; `bic` is the number of the BIC's line, if there is one.
fn is_at_fault(line: &str, n: u16, bic: Option<u16>) -> bool {
    let in_set = |byte: u8| byte.is_ascii_alphanumeric() || b" /-?:().,'+".contains(&byte);
    !line.bytes().all(in_set)
        || bic == Some(n) && line.contains(|letter: char| letter.is_ascii_lowercase())
        || bic.map_or(false, |bic| n > bic)
        || line.is_empty()
        || n > 1 && line.starts_with([':', '-'])
}

/// Where the BIC stands: in the first line that is neither blank nor an account or identifier.
fn bic_line(bic: &str, body: &str) -> u16 {
    let mut lines = (1..).zip(body.lines());
    let holds = |&(_, line): &(u16, &str)| !line.starts_with('/') && !line.trim().is_empty();
    let (n, line) = lines.find(holds).expect("the BIC has a line");
    assert_eq!(line.trim(), bic);
    n
}

fn bic_of(party: &Party) -> Option<&str> {
    match party {
        Party::Field50A(field) => Some(&field.bic),
        Party::Field50C(field) => Some(&field.bic),
        Party::Field50G(field) => Some(&field.bic),
        Party::Field59A(field) => Some(&field.bic),
        _ => None,
    }
}

/// The party, or the refusal's number and line.
type Told = std::result::Result<Party, (u8, u16)>;

/// What is due under the profile, by what is read without it.
fn due(ordinary: Told, body: &str) -> Told {
    let party = ordinary?;
    match at_fault(&party, body) {
        Some(line) => Err((32, line)),
        None => Ok(party),
    }
}

/// How a type is called.
#[derive(Clone, Copy)]
enum Call {
    Parse,
    WithVariant(Option<&'static str>),
}

/// What a type reads: as ever, and under the profile.
type Reader = fn(Call, &str) -> [Told; 2];

fn both<T: Read + Into<Party>>(call: Call, body: &str) -> [Told; 2] {
    let both = match call {
        Call::Parse => [T::parse(body), profile::parse(body)],
        Call::WithVariant(variant) => {
            [T::parse_with_variant(body, variant, None), profile::parse_with_variant(body, variant)]
        }
    };
    both.map(|read| read.map(T::into).map_err(told))
}

const READERS: [(&str, Reader); 18] = [
    ("50", both::<Field50NoOption>),
    ("50A", both::<Field50A>),
    ("50F", both::<Field50F>),
    ("50K", both::<Field50K>),
    ("50C", both::<Field50C>),
    ("50L", both::<Field50L>),
    ("50G", both::<Field50G>),
    ("50H", both::<Field50H>),
    ("59", both::<Field59NoOption>),
    ("59A", both::<Field59A>),
    ("59F", both::<Field59F>),
    ("Field50InstructingParty", both::<Field50InstructingParty>),
    ("Field50OrderingCustomerFGH", both::<Field50OrderingCustomerFGH>),
    ("Field50OrderingCustomerAFK", both::<Field50OrderingCustomerAFK>),
    ("Field50OrderingCustomerNCF", both::<Field50OrderingCustomerNCF>),
    ("Field50Creditor", both::<Field50Creditor>),
    ("Field59", both::<Field59>),
    ("Field59Debtor", both::<Field59Debtor>),
];

/// Z is of no option.
const VARIANTS: [Option<&str>; 9] =
    [None, Some("A"), Some("C"), Some("F"), Some("G"), Some("H"), Some("K"), Some("L"), Some("Z")];

/// Pieces of a body, each with odd ones beside them.
type Pieces = [&'static [&'static str]; 2];
const HEADS: Pieces = [
    &["/12", "/C/123", "//x1", "/", "/bnpafrpp", "/ABCDEFGHIJKLMNOPQRSTUVWXYZ 0123456"],
    &["12", "/1&2", "/1~2", "/1\r2", "", "/ABC/1", "-1"],
];
const BICS: Pieces = [
    &["BNPAFRPP", "DEUTDE55XXX", "CHASUS33"],
    &["bnpafrpp", "BNPAFRPPxXX", "BNPAFRPP\r", " BNPAFRPP", "BNPAFRP", "BNPAFR-P"],
];
const NAMES: Pieces = [
    &["ACME", "Acme (1)", "St. 2, 'B' + C?", " ", "1/A", "ABCDEFGHIJKLMNOPQRSTUVWXYZ 012345"],
    &[":A", "-A", "-", "", "A&B", "{A", "A\rB", "A~", "\t"],
];
const ENDS: Pieces = [&["\n"], &["\r\n"]];
const BLANKS: Pieces = [&[" \n", "  \r\n", " "], &["\n", "\t\n", "\r", " \r\r\n"]];

/// One of the pieces, one time in six an odd one.
fn piece(random: &mut Random, [common, odd]: Pieces) -> &'static str {
    let pieces = if random.one_in(6) { odd } else { common };
    random.pick(pieces)
}

/// The lines of a body: perhaps an account or identifier, then a BIC, names or numbered names. A
/// BIC has one or two lines after it two times in seven, and a number is any digit one time in eight.
fn lines(random: &mut Random) -> Vec<String> {
    let mut lines = Vec::new();
    if random.one_in(2) {
        lines.push(piece(random, HEADS).to_string());
    }
    let form = random.below(3);
    let names = if form == 0 { random.below(7).saturating_sub(4) } else { 1 + random.below(4) };
    if form == 0 {
        lines.push(piece(random, BICS).to_string());
    }
    for n in 1..=names {
        let name = piece(random, NAMES);
        let number = if random.one_in(8) { random.below(10) } else { n };
        lines.push(if form == 1 { format!("{number}/{name}") } else { name.to_string() });
    }
    lines
}

/// Puts a byte of any kind in at a place, or makes the one there small or capital.
fn change(random: &mut Random, body: &mut String) {
    let at = random.below(body.len() + 1);
    if random.one_in(2) {
        body.insert(at, char::from(random.below(128) as u8));
    } else if let Some(text) = body.get_mut(at..at + 1) {
        match random.one_in(2) {
            true => text.make_ascii_lowercase(),
            false => text.make_ascii_uppercase(),
        }
    }
}

/// A body, perhaps with an end of its last line, blanks around it, and a byte changed.
fn body(random: &mut Random) -> String {
    let end = piece(random, ENDS);
    let mut body = lines(random).join(end);
    if random.one_in(4) {
        body.push_str(end);
    }
    if random.one_in(8) {
        body.insert_str(0, piece(random, BLANKS));
    }
    if random.one_in(8) {
        body.push_str(piece(random, BLANKS));
    }
    if random.one_in(6) {
        change(random, &mut body);
    }
    body
}

/// How many bodies each type reads in each of its two ways.
const BODIES: usize = 12_000;

/// Has each type read bodies, and looks at what it gives of each.
fn each_reading(mut look: impl FnMut((&'static str, &'static str), &str, [Told; 2])) {
    let mut random = Random::new(32);
    for (name, reader) in READERS {
        for _ in 0..BODIES {
            let text = body(&mut random);
            look((name, "parse"), &text, reader(Call::Parse, &text));
            let (text, variant) = (body(&mut random), random.pick(&VARIANTS));
            look((name, "variant"), &text, reader(Call::WithVariant(variant), &text));
        }
    }
}

/// The place of an outcome in a count: accepted, outside the profile at line 1 or at a later one,
/// refused as ever.
fn place(profiled: &Told) -> usize {
    match profiled {
        Ok(_) => 0,
        Err((32, 1)) => 1,
        Err((32, _)) => 2,
        Err(_) => 3,
    }
}

#[test]
fn bodies_are_read_as_the_rules_say() {
    let mut counts: BTreeMap<_, [usize; 4]> = BTreeMap::new();
    each_reading(|way, body, [ordinary, profiled]| {
        counts.entry(way).or_default()[place(&profiled)] += 1;
        assert_eq!(profiled, due(ordinary, body), "{way:?}: {body:?}");
    });
    assert_eq!(counts.len(), 2 * READERS.len());
    for ((name, call), count) in counts {
        assert_eq!(count.iter().sum::<usize>(), BODIES);
        // what 50C and 50L accept is one line
        let of_one_line = ["50C", "50L"].contains(&name);
        let enough = |(place, &count): (usize, &usize)| match place {
            2 if of_one_line => count == 0,
            _ => count >= 30,
        };
        assert!(count.iter().enumerate().all(enough), "{name}, {call}: {count:?}");
    }
}

// Pages.

/// Files a party on a page in just the space that it takes, and reads it back.
fn filed(party: &Party) -> Result<Answer> {
    let mut page = vec![0; pages::measure(party)? + 3];
    let position = pages::add(party, &mut page, 0)?;
    pages::close(&mut page, position)?;
    Ok(pages::read_at(&page, 0).answer)
}

#[test]
fn a_page_accepts_what_is_read_under_the_profile() {
    let mut taken = HashSet::new();
    each_reading(|_, _, [_, profiled]| taken.extend(profiled));
    let (mut tags, mut identified, mut sevens) = (HashSet::new(), 0, 0);
    for party in taken {
        tags.insert(party.to_string()[..4].to_string());
        match &party {
            Party::Field59F(Field59F { party_identifier: Some(_), .. }) => identified += 1,
            Party::Field50F(field) if field.line_digits()[0] == b'7' => sevens += 1,
            _ => {}
        }
        assert_eq!(filed(&party).map_err(told), Ok(Answer::Record(party)));
    }
    assert_eq!(tags.len(), 11, "of every option some are filed: {tags:?}");
    assert!(identified > 0, "59F with an identifier among them");
    assert!(sevens > 0, "50F whose first digit is 7 among them");
}
