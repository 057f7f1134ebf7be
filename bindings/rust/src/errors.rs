//! Refusals.

use std::fmt;

/// What a function gives that can refuse.
pub type Result<T> = std::result::Result<T, ParseError>;

/// Makes the enum of the kinds: each with its number and its text.
macro_rules! kinds {
    ($($name:ident = $number:literal: $text:literal,)+) => {
        /// What is refused, by the names and numbers of `bindings/c/yewdome.h`.
        ///
        /// 1 to 14 are of a body and its variant, 15 to 18 of a page that is read, 21 to 24 of a
        /// position, a value or a buffer, 31 of an index, 32 of a body under the network profile.
        /// 41 to 43 are of a call that this crate does not make.
        #[derive(Debug, Clone, Copy, PartialEq, Eq, Hash)]
        #[repr(u8)]
        pub enum ErrorKind {
            $(#[doc = concat!(stringify!($number), ": ", $text, ".")] $name = $number,)+
        }

        impl ErrorKind {
            /// The kind that has a number.
            pub(crate) const fn of(number: u8) -> Option<Self> {
                match number {
                    $($number => Some(Self::$name),)+
                    _ => None,
                }
            }

            const fn text(self) -> &'static str {
                match self {
                    $(Self::$name => $text,)+
                }
            }
        }
    };
}

kinds! {
    LineCount = 1: "wrong number of lines",
    PartyIdentifier = 2: "account or identifier of a wrong form or length",
    IllegalByte = 3: "illegal byte outside a BIC",
    TooLong = 4: "name or numbered text too long",
    NotNumbered = 5: "not a numbered line",
    OutOfTurn = 6: "number of a line of 59F out of turn",
    NameCount = 7: "no name, or more than four",
    BicMissing = 8: "BIC line missing",
    BicLength = 9: "BIC of a wrong length",
    BicByte = 10: "illegal byte in a BIC",
    NoOption = 11: "no option of the choice accepts the body",
    BodyTooLong = 12: "body too long",
    NotAscii = 13: "byte above 127",
    NotALetter = 14: "variant that is no letter from A to Z",
    UnknownTag = 15: "tag of none of the eleven options",
    StrayLine = 16: "line that neither opens a field nor ends the page",
    PageLength = 17: "read at the page's length",
    PageTooLong = 18: "page too long",
    Position = 21: "position past the end or not at the start of a line, or wrong entry",
    NoSuchRecord = 22: "value that no reader gives",
    NotCarried = 23: "record that a page cannot carry",
    NoSpace = 24: "too little space",
    NoEntry = 31: "no free entry in the index, or no such entry",
    OutsideProfile = 32: "line that breaks a rule of the network profile",
    NoSuchOption = 41: "no such option or choice",
    ShortRecord = 42: "lent record too short",
    ShortAnswers = 43: "too few numbers lent for the answers",
}

/// A refusal: what is refused, and the line of the body that it names.
#[derive(Debug, Clone, Copy, PartialEq, Eq, Hash)]
pub struct ParseError {
    kind: ErrorKind,
    line: u16,
}

impl ParseError {
    pub(crate) const fn new(kind: ErrorKind, line: u16) -> Self {
        Self { kind, line }
    }

    /// What is refused.
    pub const fn kind(&self) -> ErrorKind {
        self.kind
    }

    /// The number of its kind.
    pub const fn number(&self) -> u8 {
        self.kind as u8
    }

    /// The line of the body that the refusal names, counted from 1; 0 where it names none.
    pub const fn line(&self) -> u16 {
        self.line
    }
}

impl fmt::Display for ErrorKind {
    fn fmt(&self, f: &mut fmt::Formatter<'_>) -> fmt::Result {
        f.write_str(self.text())
    }
}

impl fmt::Display for ParseError {
    fn fmt(&self, f: &mut fmt::Formatter<'_>) -> fmt::Result {
        write!(f, "{}", self.kind)?;
        if self.line != 0 {
            write!(f, ", in line {}", self.line)?;
        }
        write!(f, " (refusal {})", self.number())
    }
}

impl std::error::Error for ParseError {}
