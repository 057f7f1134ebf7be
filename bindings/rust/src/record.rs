//! A record as the library has it, in bytes: the option's place in the library's table, 1 or 0 for
//! whether there is an account or identifier, the count of names, then six texts: the account or
//! identifier, the BIC, four names; then the digits of the names' lines, which 50F alone has. A text
//! is its length and room for the longest one.

use crate::errors::{ErrorKind, ParseError, Result};
use crate::fields::LineDigits;

pub(crate) const LENGTH: usize = 241;
const OPTION: usize = 0;
const PRESENCE: usize = 1;
const COUNT: usize = 2;
const FIRST_TEXT: usize = 3;
const TEXT_LENGTH: usize = 39;
pub(crate) const FIRST_DIGIT: usize = LENGTH - 4;

/// Where the texts stand among the six.
const ACCOUNT: usize = 0;
const BIC: usize = 1;
const NAMES: std::ops::Range<usize> = 2..6;

/// The record of a value, or of an answer of the library.
///
/// Of a value that the bytes cannot hold, a length or the count is over the most that they hold. The
/// library refuses that with 22, in its turn among the refusals.
pub struct Record([u8; LENGTH]);

impl Record {
    /// A record of an option, with nothing in it.
    pub(crate) fn new(option: u8) -> Self {
        let mut bytes = [0; LENGTH];
        bytes[OPTION] = option;
        Self(bytes)
    }

    /// The bytes for the library.
    pub(crate) fn bytes(&self) -> &[u8] {
        &self.0
    }

    /// The bytes for the library to write.
    pub(crate) fn bytes_mut(&mut self) -> &mut [u8] {
        &mut self.0
    }

    /// The place of the option in the library's table.
    pub(crate) fn option(&self) -> u8 {
        self.0[OPTION]
    }

    /// The value of a record that the library gave, which is of an option that was asked for.
    pub(crate) fn value<T: Recorded>(&self) -> Result<T> {
        T::of(self).ok_or(ParseError::new(ErrorKind::NoSuchOption, 0))
    }

    fn text(&self, place: usize) -> String {
        let at = FIRST_TEXT + place * TEXT_LENGTH;
        let length = usize::from(self.0[at]);
        text_of(&self.0[at + 1..at + TEXT_LENGTH][..length])
    }

    fn put_text(&mut self, place: usize, text: &str) {
        let at = FIRST_TEXT + place * TEXT_LENGTH;
        let room = &mut self.0[at..at + TEXT_LENGTH];
        room[0] = length_of(text.as_bytes());
        if let Some(used) = room[1..].get_mut(..text.len()) {
            used.copy_from_slice(text.as_bytes());
        }
    }
}

/// A length as a byte. What is longer than a byte tells is longer than what a record holds.
fn length_of<T>(list: &[T]) -> u8 {
    u8::try_from(list.len()).unwrap_or(u8::MAX)
}

/// Bytes of the library as text. They are ASCII, of which this is exact.
fn text_of(bytes: &[u8]) -> String {
    String::from_utf8_lossy(bytes).into_owned()
}

/// The account or identifier of a record.
pub(crate) struct Account;
/// The BIC of a record.
pub(crate) struct Bic;
/// The names of a record.
pub(crate) struct Names;
/// The digits of their lines.
pub(crate) struct Digits;

/// A field of a struct that is a part of the record: [`Account`], [`Bic`], [`Names`] or [`Digits`].
pub(crate) trait Part<Place> {
    fn get(record: &Record) -> Self;
    fn put(&self, record: &mut Record);
}

/// Of an option that may have none.
impl Part<Account> for Option<String> {
    fn get(record: &Record) -> Self {
        (record.0[PRESENCE] == 1).then(|| record.text(ACCOUNT))
    }

    fn put(&self, record: &mut Record) {
        if let Some(text) = self {
            Part::<Account>::put(text, record);
        }
    }
}

/// Of an option that always has one.
impl Part<Account> for String {
    fn get(record: &Record) -> Self {
        record.text(ACCOUNT)
    }

    fn put(&self, record: &mut Record) {
        record.0[PRESENCE] = 1;
        record.put_text(ACCOUNT, self);
    }
}

impl Part<Bic> for String {
    fn get(record: &Record) -> Self {
        record.text(BIC)
    }

    fn put(&self, record: &mut Record) {
        record.put_text(BIC, self);
    }
}

impl Part<Names> for Vec<String> {
    fn get(record: &Record) -> Self {
        NAMES.take(usize::from(record.0[COUNT])).map(|place| record.text(place)).collect()
    }

    fn put(&self, record: &mut Record) {
        record.0[COUNT] = length_of(self);
        for (place, name) in NAMES.zip(self) {
            record.put_text(place, name);
        }
    }
}

/// Those that the record does not use stay as [`LineDigits::default`] has them.
impl Part<Digits> for LineDigits {
    fn get(record: &Record) -> Self {
        let mut digits = Self::default();
        let used = record.0[FIRST_DIGIT..].iter().take(usize::from(record.0[COUNT]));
        for (digit, &came) in digits.0.iter_mut().zip(used) {
            *digit = came;
        }
        digits
    }

    fn put(&self, record: &mut Record) {
        record.0[FIRST_DIGIT..].copy_from_slice(&self.0);
    }
}

/// A party: the struct of an option, the enum of a choice, or [`Party`](crate::pages::Party).
///
/// Only these types have it, since what its methods take is private to this crate.
pub trait Recorded: Sized {
    /// The value of a record; none where this type does not have the record's option.
    #[doc(hidden)]
    fn of(record: &Record) -> Option<Self>;

    /// The record of the value.
    #[doc(hidden)]
    fn record(&self) -> Record;
}

/// Gives an enum of structs the record of the struct that it holds.
macro_rules! one_of {
    ($name:ident { $($variant:ident),+ $(,)? }) => {
        impl $crate::record::Recorded for $name {
            fn of(record: &$crate::record::Record) -> Option<Self> {
                None$(.or_else(|| $crate::record::Recorded::of(record).map(Self::$variant)))+
            }

            fn record(&self) -> $crate::record::Record {
                match self {
                    $(Self::$variant(field) => field.record(),)+
                }
            }
        }
    };
}
pub(crate) use one_of;
