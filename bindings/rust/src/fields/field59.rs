//! Field 59: the beneficiary customer, the debtor.
//!
//! ```text
//! :59:/GB82WEST12345698765432
//! JOHN SMITH
//! 456 RESIDENTIAL AVENUE
//! ```

/// 59F: perhaps an identifier, and numbered lines of name and address.
///
/// With an identifier swift-mt-message writes an empty line after it, which no reader takes. That
/// one LF is left out here, so that the text reads back.
#[derive(Debug, Clone, PartialEq, Eq, Hash)]
pub struct Field59F {
    /// The first line without its first slash.
    pub party_identifier: Option<String>,
    /// 1 to 4 lines with their numbers, which are 1, 2, 3, 4: `1/ACME CORP`. At most 33 bytes
    /// follow the slash.
    pub name_and_address: Vec<String>,
}
option!(Field59F at 10 { party_identifier: Account, name_and_address: Names });

/// 59A: perhaps an account, and a BIC.
#[derive(Debug, Clone, PartialEq, Eq, Hash)]
pub struct Field59A {
    /// At most 34 bytes, without the slash.
    pub account: Option<String>,
    /// 8 or 11 bytes.
    pub bic: String,
}
option!(Field59A at 9 { account: Account, bic: Bic });

/// 59 without a letter: perhaps an account, and name and address.
#[derive(Debug, Clone, PartialEq, Eq, Hash)]
pub struct Field59NoOption {
    /// At most 34 bytes, without the slash.
    pub account: Option<String>,
    /// 1 to 4 lines of at most 35 bytes.
    pub name_and_address: Vec<String>,
}
option!(Field59NoOption at 8 { account: Account, name_and_address: Names });

/// The beneficiary customer: A, F or without a letter.
#[derive(Debug, Clone, PartialEq, Eq, Hash)]
pub enum Field59 {
    /// 59A.
    A(Field59A),
    /// 59F.
    F(Field59F),
    /// 59 without a letter.
    NoOption(Field59NoOption),
}
choice!(Field59 at 5 { A(Field59A) "A", F(Field59F) "F", NoOption(Field59NoOption) });

/// The debtor: A or without a letter.
#[derive(Debug, Clone, PartialEq, Eq, Hash)]
pub enum Field59Debtor {
    /// 59A.
    A(Field59A),
    /// 59 without a letter.
    NoOption(Field59NoOption),
}
choice!(Field59Debtor at 6 { A(Field59A), NoOption(Field59NoOption) });
