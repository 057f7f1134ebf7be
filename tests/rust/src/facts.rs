//! What docs/DIFFERENCES.md says of the Rust that is no case of the list.

use crate::model::{Call, Case, Choice};
use crate::{differences, reference};
use swift_mt_message::fields::field50::*;
use swift_mt_message::fields::field59::Field59F;
use swift_mt_message::traits::SwiftField;

/// Checks each fact, and stops at one that does not hold.
pub fn check() -> Result<usize, String> {
    let facts = [writings(), empty_line(), digits(), variants()?].concat();
    for (name, found, expected) in &facts {
        if found != expected {
            return Err(format!("{name}: {found:?}"));
        }
    }
    Ok(facts.len())
}

type Fact = (&'static str, String, &'static str);

/// Values that no reader gives, written all the same.
fn writings() -> Vec<Fact> {
    let none = Field50NoOption { name_and_address: Vec::new() };
    let empty = Field50L { party_identifier: String::new() };
    let two_in_one = Field50NoOption { name_and_address: vec!["A\nB".to_string()] };
    vec![
        ("50 without names", none.to_swift_string(), ":50:"),
        ("50L without a text", empty.to_swift_string(), ":50L:"),
        ("50 with LF in a name", two_in_one.to_swift_string(), ":50:A\nB"),
    ]
}

/// 59F with an identifier, whose text the Rust does not read back.
fn empty_line() -> Vec<Fact> {
    let written = Field59F::parse("/1\n1/A").map(|field| field.to_swift_string());
    vec![("59F with an identifier", written.unwrap_or_default(), ":59F:/1\n\n1/A")]
}

/// 50F, of which the Rust keeps no digit.
fn digits() -> Vec<Fact> {
    let written = |body| Field50F::parse(body).map_or(String::new(), |it| it.to_swift_string());
    vec![
        ("50F, a digit that is not 1", written("X\n0/"), ":50F:X\n1/"),
        ("50F, two sevens", written("X\n7/A\n7/B"), ":50F:X\n1/A\n2/B"),
    ]
}

/// Variants that our one letter cannot say.
fn variants() -> Result<Vec<Fact>, String> {
    let zero = Case::choice(Choice::OrderingCustomerNCF, Call::Letter(0), "ABCDEFGH");
    let zero = differences::in_short(&reference::answer(&zero)?);
    let two = Field50OrderingCustomerNCF::parse_with_variant("ABCDEFGH", Some("FF"), None);
    let two = two.map_or_else(|error| error.to_string(), |field| field.to_swift_string());
    Ok(vec![
        ("the variant of one byte 0", zero, "50C"),
        ("a variant of two letters", two, ":50C:ABCDEFGH"),
    ])
}
