//! What every field can do.

use crate::errors::Result;
use crate::library::Reader;
use crate::record::Recorded;

/// Reading and writing of a field, for the struct of an option and for the enum of a choice.
pub trait SwiftField {
    /// Reads a body, which is what follows the tag. An enum detects the option.
    fn parse(input: &str) -> Result<Self>
    where
        Self: Sized;

    /// Reads a body by the letter of its tag, `None` where the tag has none.
    ///
    /// An enum reads it by the option that has the letter, and detects where none of its options
    /// has it; without a letter it reads 50 or 59 if that is one of its options, and else detects.
    /// A variant that is no letter from A to Z is refused with 14. The struct of an option reads
    /// the body as `parse` does, whatever the variant. The tag of the field is not used.
    fn parse_with_variant(
        value: &str,
        _variant: Option<&str>,
        _field_tag: Option<&str>,
    ) -> Result<Self>
    where
        Self: Sized,
    {
        Self::parse(value)
    }

    /// Writes the field, tag and body: `:50C:BNPAFRPP`. A value that no reader gives is refused
    /// with 22.
    fn to_swift_string(&self) -> Result<String>;

    /// The letter of the value's option, `None` where it has none.
    ///
    /// It is told by `Field50OrderingCustomerAFK`, `Field50Creditor` and `Field59`, the types for
    /// which swift-mt-message 3.1.5 writes it out; all others give `None`.
    fn get_variant_tag(&self) -> Option<&'static str> {
        None
    }
}

/// What a body is read as: the struct of an option, or the enum of a choice.
///
/// Only these types have it, since the type of its constant is private to this crate.
pub trait Parsed: Recorded {
    /// What reads it.
    #[doc(hidden)]
    const READER: Reader;
}
