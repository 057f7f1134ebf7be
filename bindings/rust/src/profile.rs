//! The network profile: the narrower rules of a network that fields are sent on to.
//!
//! A body is read as ever, by [`SwiftField`](crate::SwiftField), and a refusal of that stands. What
//! it accepts is then tested line by line, as the body came, with nothing trimmed: 32 names the first
//! line at which one of these rules is broken.
//!
//! - a line has only letters, digits, space and `/-?:().,'+`;
//! - the BIC has no small letter; anywhere else small letters are good;
//! - no line comes after the BIC's: [`Field50InstructingParty`], which trims a body that it detects,
//!   may have lines of spaces before it, but none after it;
//! - no line is empty;
//! - no line after the first starts with `:` or `-`.
//!
//! The lines are those of [`str::lines`], counted from 1; a CR that stays in a line is a byte outside
//! the set.
//!
//! The value is the one that is read without the profile. [`pages::add`](crate::pages::add) accepts
//! it, space allowing.
//!
//! [`Field50InstructingParty`]: crate::fields::Field50InstructingParty

use crate::errors::Result;
use crate::fields::letter;
use crate::library::{self, Reader};
use crate::traits::Parsed;

/// What is read under the profile: the struct of an option, or the enum of a choice.
pub use crate::traits::Parsed as Profiled;

/// Reads a body as [`SwiftField::parse`](crate::SwiftField::parse) does, under the profile.
///
/// Refused as there, and after that with 32.
pub fn parse<T: Parsed>(body: &str) -> Result<T> {
    let record = match T::READER {
        Reader::Option(place) => library::read_profiled(place, body.as_bytes()),
        Reader::Choice(place) => library::parse_profiled(place, body.as_bytes()),
    };
    record?.value()
}

/// Reads a body by the letter of its tag as
/// [`SwiftField::parse_with_variant`](crate::SwiftField::parse_with_variant) does, under the profile.
///
/// Refused as there, and after that with 32.
pub fn parse_with_variant<T: Parsed>(body: &str, variant: Option<&str>) -> Result<T> {
    match T::READER {
        Reader::Option(_) => parse(body),
        Reader::Choice(place) => {
            let letter = letter(variant)?;
            library::parse_profiled_with_variant(place, body.as_bytes(), letter)?.value()
        }
    }
}
