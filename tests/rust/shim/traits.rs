//! A stand-in for src/traits.rs, which is not among the published files used here.

/// The methods that field50.rs and field59.rs implement.
///
/// Every method that is compared is implemented by those files themselves:
/// `parse` and `to_swift_string` by all eighteen types, `parse_with_variant` by
/// the seven enums. The two bodies below only let the other types compile. They
/// are never called, and stop the program if they are.
pub trait SwiftField: Sized {
    fn parse(input: &str) -> crate::Result<Self>;

    fn to_swift_string(&self) -> String;

    fn parse_with_variant(
        _value: &str,
        _variant: Option<&str>,
        _field_tag: Option<&str>,
    ) -> crate::Result<Self> {
        std::process::abort()
    }

    fn get_variant_tag(&self) -> Option<&'static str> {
        std::process::abort()
    }
}
