//! The fields: a struct for each option, an enum for each choice among options.

use crate::errors::{ErrorKind, ParseError, Result};

/// Makes a struct the field of an option: its place in the library's table, and what part of the
/// record each of its fields is.
macro_rules! option {
    ($name:ident at $place:literal { $($field:ident: $part:ident),+ }) => {
        impl $crate::record::Recorded for $name {
            fn of(record: &$crate::record::Record) -> Option<Self> {
                use $crate::record::{Part, $($part),+};
                (record.option() == $place)
                    .then(|| Self { $($field: Part::<$part>::get(record)),+ })
            }

            fn record(&self) -> $crate::record::Record {
                use $crate::record::{Part, $($part),+};
                let mut record = $crate::record::Record::new($place);
                $(Part::<$part>::put(&self.$field, &mut record);)+
                record
            }
        }

        impl $crate::SwiftField for $name {
            fn parse(input: &str) -> $crate::Result<Self> {
                $crate::library::read($place, input.as_bytes())?.value()
            }

            fn to_swift_string(&self) -> $crate::Result<String> {
                $crate::library::write(&$crate::record::Recorded::record(self))
            }
        }

        impl $crate::traits::Parsed for $name {
            const READER: $crate::library::Reader = $crate::library::Reader::Option($place);
        }

        impl From<$name> for $crate::pages::Party {
            fn from(field: $name) -> Self {
                Self::$name(field)
            }
        }

        $crate::fields::held!($crate::pages::Party, $name($name));
        $crate::fields::shown!($name);
    };
}

/// Gives the struct that a value of an enum holds, where it is this one, and else the value back.
macro_rules! held {
    ($name:path, $variant:ident($field:ident)) => {
        impl TryFrom<$name> for $field {
            type Error = $name;

            fn try_from(value: $name) -> std::result::Result<Self, $name> {
                use $name as Value;
                match value {
                    Value::$variant(field) => Ok(field),
                    other => Err(other),
                }
            }
        }
    };
}
pub(crate) use held;

/// Shows a value as its field is written, tag and body, or as the refusal to write it.
macro_rules! shown {
    ($name:ident) => {
        impl std::fmt::Display for $name {
            fn fmt(&self, f: &mut std::fmt::Formatter<'_>) -> std::fmt::Result {
                match $crate::library::write(&$crate::record::Recorded::record(self)) {
                    Ok(field) => f.write_str(&field),
                    Err(refusal) => write!(f, "{refusal}"),
                }
            }
        }
    };
}
pub(crate) use shown;

/// Makes an enum the field of a choice: its place among the library's choices, and its variants,
/// with the letter where `get_variant_tag` tells it.
macro_rules! choice {
    ($name:ident at $place:literal { $($variant:ident($field:ident) $($tag:literal)?),+ }) => {
        $crate::record::one_of!($name { $($variant),+ });
        $($crate::fields::held!($name, $variant($field));)+
        $crate::fields::shown!($name);

        impl $crate::SwiftField for $name {
            fn parse(input: &str) -> $crate::Result<Self> {
                $crate::library::parse($place, input.as_bytes())?.value()
            }

            fn parse_with_variant(
                value: &str,
                variant: Option<&str>,
                _field_tag: Option<&str>,
            ) -> $crate::Result<Self> {
                let letter = $crate::fields::letter(variant)?;
                $crate::library::parse_with_variant($place, value.as_bytes(), letter)?.value()
            }

            fn to_swift_string(&self) -> $crate::Result<String> {
                $crate::library::write(&$crate::record::Recorded::record(self))
            }

            fn get_variant_tag(&self) -> Option<&'static str> {
                match self {
                    $(Self::$variant(_) => None$(.or(Some($tag)))?,)+
                }
            }
        }

        impl $crate::traits::Parsed for $name {
            const READER: $crate::library::Reader = $crate::library::Reader::Choice($place);
        }

        impl From<$name> for $crate::pages::Party {
            fn from(choice: $name) -> Self {
                match choice {
                    $($name::$variant(field) => field.into(),)+
                }
            }
        }
    };
}

/// The letter that the library takes for a variant, 0 for none. So the text of the one byte 0 is
/// not handed on; the library refuses every other byte that is none of A to Z.
pub(crate) fn letter(variant: Option<&str>) -> Result<u8> {
    match variant.map(str::as_bytes) {
        None => Ok(0),
        Some(&[letter]) if letter != 0 => Ok(letter),
        Some(_) => Err(ParseError::new(ErrorKind::NotALetter, 0)),
    }
}

pub mod field50;
pub mod field59;

pub use field50::*;
pub use field59::*;
