//! Whether what is written of a field is what came, byte for byte, and if not, why.
//!
//! A field is written from its value, and so filed on a page. That gives other bytes than came where
//! the field has one of these [`Causes`], and nowhere else:
//!
//! - a CR before an LF inside the body, which is left off;
//! - a last LF of the body, which is an empty last line, and is left off;
//! - lines after the BIC of 50A or 59A, which are ignored;
//! - blanks, bytes 9 to 13 and 32, at the ends of the body, which [`Field50InstructingParty`] trims
//!   where it detects: never on a page, and not where a letter picks the option;
//! - on a page alone, a CR before the LF that closes the field.
//!
//! None of them is a refusal. [`pages::file`](crate::pages::file) tells them of each field that it
//! files.
//!
//! [`Field50InstructingParty`]: crate::fields::Field50InstructingParty

use crate::errors::Result;
use crate::fields::letter;
use crate::library::{self, Reader};
use crate::traits::Parsed;
use std::fmt;

pub(crate) const INNER_CR: u8 = 1;
pub(crate) const LAST_LF: u8 = 2;
pub(crate) const AFTER_BIC: u8 = 4;
pub(crate) const BLANKS: u8 = 8;
pub(crate) const CLOSING_CR: u8 = 16;

/// The causes in words.
const PHRASES: [(u8, &str); 5] = [
    (INNER_CR, "CR before an LF inside the body"),
    (LAST_LF, "empty last line"),
    (AFTER_BIC, "lines after the BIC"),
    (BLANKS, "blanks at the ends of the body"),
    (CLOSING_CR, "CR before the LF that closes the field"),
];

/// By which causes what is written of a field is other bytes than came. It is empty where they are
/// the same.
#[derive(Debug, Clone, Copy, PartialEq, Eq, Hash, Default)]
pub struct Causes(u8);

impl Causes {
    /// The causes of the library's bits.
    pub(crate) fn of(bits: usize) -> Self {
        let known: u8 = PHRASES.iter().map(|(bit, _)| bit).sum();
        match u8::try_from(bits) {
            Ok(bits) if bits & !known == 0 => Self(bits),
            _ => panic!("the linked library tells causes {bits}, which yewdome.h does not have"),
        }
    }

    const fn has(self, bit: u8) -> bool {
        self.0 & bit != 0
    }

    /// Whether a CR before an LF inside the body is left off.
    pub const fn inner_cr(self) -> bool {
        self.has(INNER_CR)
    }

    /// Whether a last LF of the body is left off.
    pub const fn last_lf(self) -> bool {
        self.has(LAST_LF)
    }

    /// Whether lines after the BIC are ignored.
    pub const fn after_bic(self) -> bool {
        self.has(AFTER_BIC)
    }

    /// Whether blanks at the ends of the body are trimmed.
    pub const fn blanks(self) -> bool {
        self.has(BLANKS)
    }

    /// Whether a CR before the LF that closes the field, on a page, is left off.
    pub const fn closing_cr(self) -> bool {
        self.has(CLOSING_CR)
    }

    /// Whether there is none, so that what is written is what came.
    pub const fn is_empty(self) -> bool {
        self.0 == 0
    }

    /// Each of them in words.
    pub fn phrases(self) -> impl Iterator<Item = &'static str> {
        PHRASES.iter().filter(move |(bit, _)| self.has(*bit)).map(|&(_, phrase)| phrase)
    }
}

/// Their phrases, with commas between them.
impl fmt::Display for Causes {
    fn fmt(&self, f: &mut fmt::Formatter<'_>) -> fmt::Result {
        f.write_str(&self.phrases().collect::<Vec<_>>().join(", "))
    }
}

/// Reads a body as [`SwiftField::parse`](crate::SwiftField::parse) does, and gives the causes by which
/// the body that is written of its value is another.
///
/// Refused as there.
pub fn parse<T: Parsed>(body: &str) -> Result<Causes> {
    match T::READER {
        Reader::Option(place) => library::read_kept(place, body.as_bytes()),
        Reader::Choice(place) => library::parse_kept(place, body.as_bytes()),
    }
}

/// Reads a body by the letter of its tag as
/// [`SwiftField::parse_with_variant`](crate::SwiftField::parse_with_variant) does, and gives the causes
/// by which the body that is written of its value is another.
///
/// Refused as there.
pub fn parse_with_variant<T: Parsed>(body: &str, variant: Option<&str>) -> Result<Causes> {
    match T::READER {
        Reader::Option(_) => parse::<T>(body),
        Reader::Choice(place) => {
            library::parse_kept_with_variant(place, body.as_bytes(), letter(variant)?)
        }
    }
}

/// Reads a page at a position as [`pages::read_at`](crate::pages::read_at) does, and gives the causes
/// by which the field there is filed as other bytes than came; `None` where the page ends there.
///
/// Refused as there. That a page cannot carry the record, 23, is told by
/// [`pages::add`](crate::pages::add) alone.
pub fn field_at(page: &[u8], at: usize) -> Result<Option<Causes>> {
    library::field_kept(page, at)
}
