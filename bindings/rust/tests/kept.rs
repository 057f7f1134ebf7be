//! The causes by which what is written is other bytes than came: each by itself, several at once and
//! none, of bodies and of pages.

mod parties;

use parties::{one_of_each, parsed, refused};
use yewdome::fields::*;
use yewdome::kept::{self, Causes};
use yewdome::pages::{self, Outcome, LONGEST_BODY, LONGEST_PAGE};
use yewdome::traits::Parsed;
use yewdome::SwiftField;

fn named(causes: Causes) -> Vec<&'static str> {
    let all = [
        (causes.inner_cr(), "inner_cr"),
        (causes.last_lf(), "last_lf"),
        (causes.after_bic(), "after_bic"),
        (causes.blanks(), "blanks"),
        (causes.closing_cr(), "closing_cr"),
    ];
    let names: Vec<_> = all.iter().filter(|(is_told, _)| *is_told).map(|&(_, name)| name).collect();
    assert_eq!(causes.is_empty(), names.is_empty());
    names
}

/// Looks that a body has these causes, and that what is written of it is another where there are any.
fn told<T: Parsed + SwiftField>(body: &str, due: &[&str]) {
    let causes = kept::parse::<T>(body).unwrap_or_else(|refusal| panic!("{body:?}: {refusal}"));
    assert_eq!(named(causes), due, "{body:?}");
    let field = parsed::<T>(body).to_swift_string().expect("a reader gave it");
    let (_, written) = field[1..].split_once(':').expect("a field has a tag");
    assert_eq!(written == body, due.is_empty(), "{body:?}");
}

// Bodies.

#[test]
fn a_cr_before_an_lf_is_left_off() {
    let due = &["inner_cr"];
    told::<Field50NoOption>("A\r\nB", due);
    told::<Field50A>("/12\r\nBNPAFRPP", due);
    told::<Field50F>("X\r\n1/A", due);
    told::<Field50K>("A\r\nB", due);
    told::<Field50G>("/12\r\nBNPAFRPP", due);
    told::<Field50H>("/12\r\nA", due);
    told::<Field59NoOption>("A\nB\r\nC", due);
    told::<Field59A>("/12\r\nBNPAFRPP", due);
    told::<Field59F>("/1\n1/A\r\n2/B", due);
    told::<Field50OrderingCustomerFGH>("/12\r\nA", due);
    told::<Field50OrderingCustomerAFK>("/12\r\nA", due);
    told::<Field50OrderingCustomerNCF>("A\r\nB", due);
    told::<Field50Creditor>("/12\r\nBNPAFRPP", due);
    told::<Field59>("1/A\r\n2/B", due);
    told::<Field59Debtor>("A\r\nB", due);
    // of two only the last
    told::<Field50K>("A\r\r\nB", due);
}

#[test]
fn a_last_lf_is_left_off() {
    let due = &["last_lf"];
    told::<Field50NoOption>("A\n", due);
    told::<Field50A>("BNPAFRPP\n", due);
    told::<Field50F>("X\n1/A\n", due);
    told::<Field50K>("A\n", due);
    told::<Field50G>("/12\nBNPAFRPP\n", due);
    told::<Field50H>("/12\nA\n", due);
    told::<Field59NoOption>("A\n", due);
    told::<Field59A>("/12\nBNPAFRPP\n", due);
    told::<Field59F>("1/A\n", due);
    told::<Field50OrderingCustomerAFK>("A\n", due);
    told::<Field59Debtor>("BNPAFRPP\n", due);
    // of two only the last: the other is that of an empty name
    told::<Field50K>("A\n\n", due);
}

#[test]
fn lines_after_the_bic_are_ignored() {
    let due = &["after_bic"];
    told::<Field50A>("ABCDEFGH\nX", due);
    told::<Field50A>("/12\nABCDEFGH\nX\nY", due);
    told::<Field59A>("ABCDEFGH\n ", due);
    told::<Field59A>("/12\nABCDEFGH\nABCDEFGH", due);
    told::<Field50OrderingCustomerAFK>("/12\nABCDEFGH\nABCDEFGH", due);
    told::<Field50Creditor>("ABCDEFGH\nABCDEFGH", due);
    told::<Field59>("ABCDEFGH\nX", due);
    told::<Field59Debtor>("/12\nABCDEFGH\nX", due);
}

#[test]
fn blanks_are_trimmed_where_the_instructing_party_is_detected() {
    for body in [" A", "A ", " A ", "\tBNPAFRPP", "BNPAFRPP\x0b\x0c", "\rA", "\r\nA\r\n"] {
        told::<Field50InstructingParty>(body, &["blanks"]);
        let by_variant =
            |variant| kept::parse_with_variant::<Field50InstructingParty>(body, variant).map(named);
        assert_eq!(by_variant(None), Ok(vec!["blanks"]));
        assert_eq!(by_variant(Some("Z")), Ok(vec!["blanks"]), "no option has the letter");
    }
    told::<Field50InstructingParty>("A B", &[]);
    let picked = kept::parse_with_variant::<Field50InstructingParty>(" A ", Some("L"));
    assert_eq!(picked.map(named), Ok(vec![]));
    told::<Field50L>(" A ", &[]);
    told::<Field50K>(" A ", &[]);
    told::<Field50OrderingCustomerNCF>(" A ", &[]);
}

#[test]
fn several_causes_are_told_at_once() {
    told::<Field50K>("A\r\nB\n", &["inner_cr", "last_lf"]);
    told::<Field50A>("/12\r\nABCDEFGH\nX", &["inner_cr", "after_bic"]);
    told::<Field59>("/12\nABCDEFGH\nX\n", &["last_lf", "after_bic"]);
    told::<Field59Debtor>("ABCDEFGH\r\nX\n", &["inner_cr", "last_lf", "after_bic"]);
    told::<Field50A>("ABCDEFGH\nX\r\nY", &["inner_cr", "after_bic"]);
    told::<Field50K>("A\r\n", &["inner_cr", "last_lf"]);
}

#[test]
fn all_other_bytes_are_kept() {
    for body in ["A", "/\nA", "/12\nA\nB", "A\r", "A\rB\nC", "\nA", "A\n\nB", " A \n B ", "-\n:"] {
        told::<Field50K>(body, &[]);
    }
    told::<Field50F>("X\n7/A\n7/B", &[]);
    told::<Field50H>("/\x01~\nA", &[]);
    told::<Field59F>("/1\n1/A", &[]);
    told::<Field50A>("/C/12\nabcdefgh", &[]);
    told::<Field59>("//1\nA", &[]);
}

/// Number and line, as the reader gives them.
fn refused_alike<T: Parsed + SwiftField + std::fmt::Debug>(body: &str) -> u8 {
    let refusal = kept::parse::<T>(body).expect_err("this is refused");
    assert_eq!(Some(refusal), T::parse(body).err());
    refusal.number()
}

#[test]
fn what_is_not_read_is_refused() {
    assert_eq!(refused_alike::<Field50K>(""), 1);
    assert_eq!(refused_alike::<Field50K>("A\r\nB~"), 3);
    assert_eq!(refused_alike::<Field50C>("BNPAFRPP\n"), 9);
    assert_eq!(refused_alike::<Field50L>("A\n"), 1);
    assert_eq!(refused_alike::<Field50Creditor>("A\nB~"), 11);
    assert_eq!(refused_alike::<Field50A>(&"A".repeat(LONGEST_BODY + 1)), 12);
    assert_eq!(refused_alike::<Field59>("A\r\né"), 13);
}

#[test]
fn variants_that_are_no_letter_are_14() {
    for variant in ["", "\0", "k", "0", "KK", "é"] {
        for body in ["A", "A\n", "", "~"] {
            let answer = kept::parse_with_variant::<Field50Creditor>(body, Some(variant));
            assert_eq!(refused(answer), 14, "{variant:?}");
        }
        let answer = kept::parse_with_variant::<Field50K>("A\n", Some(variant));
        assert_eq!(answer.map(named), Ok(vec!["last_lf"]), "a struct takes any variant");
    }
    let by_letter = |letter| {
        kept::parse_with_variant::<Field50OrderingCustomerAFK>("ABCDEFGH\nX", Some(letter))
    };
    assert_eq!(by_letter("A").map(named), Ok(vec!["after_bic"]));
    assert_eq!(by_letter("K").map(named), Ok(vec![]));
    assert_eq!(refused(by_letter("F")), 5);
}

#[test]
fn causes_are_shown_in_words() {
    let shown = |page: &[u8]| kept::field_at(page, 0).map(|causes| causes.unwrap().to_string());
    let due = |text: &str| Ok(text.to_string());
    assert_eq!(shown(b":50K:A\n-\n"), due(""));
    assert_eq!(shown(b":50K:A\r\nB\n-\n"), due("CR before an LF inside the body"));
    assert_eq!(shown(b":50K:A\n\n-\n"), due("empty last line"));
    assert_eq!(shown(b":50K:A\r\n-\n"), due("CR before the LF that closes the field"));
    let both = kept::parse::<Field50A>("/12\r\nABCDEFGH\nX").expect("the body is good");
    assert_eq!(both.to_string(), "CR before an LF inside the body, lines after the BIC");
    assert_eq!(both.phrases().last(), Some("lines after the BIC"));
    let blanks = kept::parse::<Field50InstructingParty>(" A").expect("the body is good");
    assert_eq!(blanks.to_string(), "blanks at the ends of the body");
    assert_eq!(Causes::default().phrases().count(), 0);
}

// Pages.

#[test]
fn on_a_page_a_cr_before_the_closing_lf_is_told_too() {
    let cases: [(&[u8], &[&str]); 11] = [
        (b":50K:A\r\n-\n", &["closing_cr"]),
        (b":50K:A\r\n", &["closing_cr"]),
        (b":50K:A\n-\r\n", &[]),
        (b":50K:A", &[]),
        (b":50K:A\r\nB\n-\n", &["inner_cr"]),
        (b":50K:A\r\nB\r\n-\n", &["inner_cr", "closing_cr"]),
        (b":50K:A\n\n-\n", &["last_lf"]),
        (b":59A:/12\nABCDEFGH\nX\r\n-\n", &["after_bic", "closing_cr"]),
        (b":59A:ABCDEFGH\r\nX\r\n\r\n-\n", &["inner_cr", "last_lf", "after_bic", "closing_cr"]),
        (b":50L: A \n-\n", &[]),
        (b":50L: A \r\n-\n", &["closing_cr"]),
    ];
    for (page, due) in cases {
        let causes = kept::field_at(page, 0).expect("the field is good").expect("it is no end");
        assert_eq!(named(causes), due, "{page:?}");
        let mut buffer = [0; 64];
        let filing = pages::file(page, &mut buffer);
        assert_eq!(
            (filing.answers[0].outcome, filing.answers[0].causes),
            (Outcome::Record, causes)
        );
    }
}

#[test]
fn at_the_end_of_a_page_there_are_no_causes() {
    for end in [&b"-"[..], b"-\r\n", b"-}\n"] {
        assert_eq!(kept::field_at(end, 0), Ok(None));
    }
    for (page, at, number) in [
        (&b":52A:X\r\n-\n"[..], 0, 15),
        (b"junk\r\n-\n", 0, 16),
        (b"", 0, 17),
        (&[b'\n'; LONGEST_PAGE + 1], 0, 18),
        (b"-\n", 1, 21),
        (b":50K:A\r\nB~\r\n-\n", 0, 3),
    ] {
        assert_eq!(refused(kept::field_at(page, at)), number);
    }
}

#[test]
fn filing_tells_the_causes_of_each_field() {
    let page = b"junk\r\n:50C:BNPAFRPP\n:50K:A\r\nB\n:50K:A\n\n\n:59A:BNPAFRPP\nX\n:52A:X\r\n:50L: A\r\n-\r\n";
    let mut buffer = [0; LONGEST_PAGE];
    let filing = pages::file(page, &mut buffer);
    let told: Vec<_> = filing.answers.iter().map(|read| named(read.causes)).collect();
    let due: [&[&str]; 8] =
        [&[], &[], &["inner_cr"], &[], &["after_bic"], &[], &["closing_cr"], &[]];
    assert_eq!(told, due);
    assert!(pages::listed(page).iter().all(|read| read.causes.is_empty()));
    // a record that a page cannot carry is read with its cause, and not filed
    let not_carried = filing.answers[3];
    assert!(matches!(not_carried.outcome, Outcome::Refused(refusal) if refusal.number() == 23));
    let read = kept::field_at(page, not_carried.at).map(|causes| causes.map(named));
    assert_eq!(read, Ok(Some(vec!["last_lf"])));
    // what is filed is filed again as it is
    let length = filing.closed.expect("there is space");
    let again = pages::file(&buffer[..length], &mut [0; LONGEST_PAGE]);
    assert_eq!(again.answers.len(), 5);
    assert!(again.answers.iter().all(|read| read.causes.is_empty()));
}

#[test]
fn a_page_with_cr_lf_is_filed_as_other_bytes_than_its_twin() {
    let mut page = vec![0; LONGEST_PAGE];
    let mut position = 0;
    for party in one_of_each() {
        position = pages::add(&party, &mut page, position).expect("a page carries it");
    }
    let length = pages::close(&mut page, position).expect("there is space");
    page.truncate(length);
    let mut buffer = [0; LONGEST_PAGE];
    let filing = pages::file(&page, &mut buffer);
    assert_eq!((filing.closed, &buffer[..page.len()]), (Ok(page.len()), &page[..]));
    assert!(filing.answers.iter().all(|read| read.causes.is_empty()));
    let delivered = String::from_utf8(page.clone()).expect("it is text").replace('\n', "\r\n");
    let filing = pages::file(delivered.as_bytes(), &mut buffer);
    assert_eq!((filing.closed, &buffer[..page.len()]), (Ok(page.len()), &page[..]));
    for (read, party) in filing.answers.iter().zip(one_of_each()) {
        let due: &[&str] = match party.to_string().contains('\n') {
            true => &["inner_cr", "closing_cr"],
            false => &["closing_cr"],
        };
        assert_eq!(named(read.causes), due);
    }
}
