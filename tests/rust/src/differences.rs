//! Where the Rust's answer is not that of the rules.

use crate::model::Answer;

/// The digits of 50F's lines as the Rust writes them.
pub const IN_TURN: [u8; 4] = *b"1234";

/// The classes of difference, as docs/DIFFERENCES.md names them.
#[derive(Clone, Copy, Debug, PartialEq, Eq, PartialOrd, Ord)]
pub enum Class {
    /// The Rust tests the bytes of 50H's account.
    Account50H,
    /// What follows from that in the detection of F, G or H.
    Detected50H,
    /// The Rust writes an empty line after the identifier of 59F.
    EmptyLine59F,
    /// The Rust numbers the lines of 50F, which came with other digits.
    Digits50F,
    /// 12: a body over 2,048 bytes.
    LongBody,
    /// 13: a byte above 127.
    HighByte,
    /// 14: a letter that is none of A to Z.
    Letter,
}

impl Class {
    pub const ALL: [Class; 7] = [
        Class::Account50H,
        Class::Detected50H,
        Class::EmptyLine59F,
        Class::Digits50F,
        Class::LongBody,
        Class::HighByte,
        Class::Letter,
    ];

    pub fn name(self) -> &'static str {
        match self {
            Class::Account50H => "50H, bytes of the account",
            Class::Detected50H => "FGH detected, bytes of the account",
            Class::EmptyLine59F => "59F, the LF of its empty line",
            Class::Digits50F => "50F, digits other than 1, 2, 3, 4",
            Class::LongBody => "12, body over 2,048",
            Class::HighByte => "13, byte above 127",
            Class::Letter => "14, letter none of A to Z",
        }
    }
}

/// An answer in short: the option, or number and line, or `panic`.
pub fn in_short(answer: &Answer) -> String {
    match answer {
        Answer::Read { record, .. } => record.option.name().to_string(),
        Answer::Refused { number, line } => format!("{number} {line}"),
        Answer::Panicked => "panic".to_string(),
    }
}
