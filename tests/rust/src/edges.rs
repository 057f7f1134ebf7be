//! The bodies that the rules name as edges, with their names. A star marks those that have a
//! theorem together.
//!
//! The page `:50K:A`, LF, `-`, LF is not here: the Rust has no pages. Its body is.

use crate::bodies::{legal, names};
use crate::model::{Call, Case, Choice, Opt};

fn detected(choice: Choice, body: &str) -> Case {
    Case::choice(choice, Call::Parse, body)
}

pub fn cases() -> Vec<(&'static str, Case)> {
    let account = format!("/{}", legal(34));
    vec![
        ("* 50K, a name and an empty one", Case::option(Opt::K50, "a\n\n")),
        ("* 59F with an identifier", Case::option(Opt::F59, "/1\n1/A")),
        ("* 59F, the body that it then writes", Case::option(Opt::F59, "/1\n\n1/A")),
        ("* 50F, its digits are not kept", Case::option(Opt::F50, "X\n7/A\n7/B")),
        ("* 59F, out of turn", Case::option(Opt::F59, "2/A")),
        (
            "* AFK detected, a name like a BIC",
            detected(Choice::OrderingCustomerAFK, "JOHNDOES\nSTREETAB"),
        ),
        ("* 50A, an empty identifier", Case::option(Opt::A50, "/\nABCDEFGH")),
        ("* 50A, two slashes and nothing", Case::option(Opt::A50, "//\nABCDEFGH")),
        ("* 50H, a byte that is not legal in its account", Case::option(Opt::H50, "/~\nA")),
        ("* 50G, the same", Case::option(Opt::G50, "/~\nABCDEFGH")),
        ("* NCF detected, a BIC and LF", detected(Choice::OrderingCustomerNCF, "ABCDEFGH\n")),
        ("* NCF detected, a BIC without LF", detected(Choice::OrderingCustomerNCF, "ABCDEFGH")),
        ("50L, 35 bytes", Case::option(Opt::L50, legal(35))),
        ("50L, 36 bytes", Case::option(Opt::L50, legal(36))),
        ("59, an account of 34 and a name", Case::option(Opt::N59, format!("{account}\nA"))),
        ("59, an account of 34 alone", Case::option(Opt::N59, account)),
        ("59, slash and 35", Case::option(Opt::N59, format!("/{}", legal(35)))),
        ("50K, five names", Case::option(Opt::K50, names(5))),
        ("50, five names", Case::option(Opt::N50, names(5))),
        ("Creditor, empty body", detected(Choice::Creditor, "")),
        ("50K, the body of the page with one field", Case::option(Opt::K50, "A")),
    ]
}
