//! Field 50: the ordering customer, the instructing party, the creditor.
//!
//! ```text
//! :50K:/DE89370400440532013000
//! JOHN DOE
//! 123 MAIN STREET
//! ```

use std::fmt;
use std::hash::{Hash, Hasher};

/// 50 without a letter: name and address.
#[derive(Debug, Clone, PartialEq, Eq, Hash)]
pub struct Field50NoOption {
    /// 1 to 4 lines of at most 35 bytes.
    pub name_and_address: Vec<String>,
}
option!(Field50NoOption at 0 { name_and_address: Names });

/// 50A: perhaps an identifier, and a BIC.
#[derive(Debug, Clone, PartialEq, Eq, Hash)]
pub struct Field50A {
    /// The first line without its first slash.
    pub party_identifier: Option<String>,
    /// 8 or 11 bytes.
    pub bic: String,
}
option!(Field50A at 1 { party_identifier: Account, bic: Bic });

/// 50F: an identifier, and numbered lines of name and address.
///
/// The digits are the sender's, and are written back. swift-mt-message has no `digits` and numbers
/// the lines 1, 2, 3, 4: [`new`](Self::new) makes a value that is written so. A pattern that names
/// the two other fields ends in `..` here.
///
/// Two values are equal where identifiers, names and the digits of these are.
#[derive(Debug, Clone)]
pub struct Field50F {
    /// The first line: 1 to 35 bytes, with its slash if it has one.
    pub party_identifier: String,
    /// 1 to 4 lines of at most 33 bytes, without their digits: `ACME CORP`.
    pub name_and_address: Vec<String>,
    /// The digit of each line, by its place: who puts a name in or takes one out moves the digits
    /// after it too.
    pub digits: LineDigits,
}
option!(Field50F at 2 { party_identifier: Account, name_and_address: Names, digits: Digits });

impl Field50F {
    /// A value whose lines are numbered 1, 2, 3, 4.
    pub fn new(party_identifier: String, name_and_address: Vec<String>) -> Self {
        Self { party_identifier, name_and_address, digits: LineDigits::default() }
    }

    /// The digits that are used: as many as there are names, at most four.
    pub fn line_digits(&self) -> &[u8] {
        let digits = &self.digits.0;
        &digits[..digits.len().min(self.name_and_address.len())]
    }

    /// What is equal in values that are.
    fn compared(&self) -> (&str, &[String], &[u8]) {
        (&self.party_identifier, &self.name_and_address, self.line_digits())
    }
}

impl PartialEq for Field50F {
    fn eq(&self, other: &Self) -> bool {
        self.compared() == other.compared()
    }
}

impl Eq for Field50F {}

impl Hash for Field50F {
    fn hash<H: Hasher>(&self, state: &mut H) {
        self.compared().hash(state);
    }
}

/// The digits of the lines of a [`Field50F`], in ASCII: any of `0` to `9`, in any order. A digit
/// tells what its line holds: name, street, country.
///
/// There are four, and a field uses as many as it has names. The others may be anything; reading
/// leaves them as in [`LineDigits::default`]. A value is refused with 22 where a byte that it uses is
/// no digit. Since the field alone knows which it uses, fields are compared and these are not.
///
/// ```
/// use yewdome::fields::{Field50F, LineDigits};
/// use yewdome::SwiftField;
///
/// let mut field = Field50F::parse("X\n7/A\n7/B")?;
/// assert_eq!(field.line_digits(), b"77");
/// assert_eq!(field.digits.get(1), Some(b'7'));
/// assert_eq!(field.to_swift_string()?, ":50F:X\n7/A\n7/B");
///
/// field.digits = LineDigits::default();
/// assert_eq!(field.to_swift_string()?, ":50F:X\n1/A\n2/B");
/// field.digits = LineDigits::from(*b"1634");
/// assert_eq!(field.to_swift_string()?, ":50F:X\n1/A\n6/B");
/// # Ok::<(), yewdome::ParseError>(())
/// ```
#[derive(Clone, Copy)]
pub struct LineDigits(pub(crate) [u8; 4]);

impl LineDigits {
    /// The digit of `name_and_address[index]`.
    pub fn get(&self, index: usize) -> Option<u8> {
        self.0.get(index).copied()
    }
}

/// 1, 2, 3, 4.
impl Default for LineDigits {
    fn default() -> Self {
        Self(*b"1234")
    }
}

impl From<[u8; 4]> for LineDigits {
    fn from(digits: [u8; 4]) -> Self {
        Self(digits)
    }
}

impl From<LineDigits> for [u8; 4] {
    fn from(digits: LineDigits) -> Self {
        digits.0
    }
}

/// As text: `LineDigits("1234")`.
impl fmt::Debug for LineDigits {
    fn fmt(&self, f: &mut fmt::Formatter<'_>) -> fmt::Result {
        write!(f, "LineDigits(\"{}\")", self.0.escape_ascii())
    }
}

/// 50K: perhaps an account, and name and address.
#[derive(Debug, Clone, PartialEq, Eq, Hash)]
pub struct Field50K {
    /// At most 34 bytes, without the slash.
    pub account: Option<String>,
    /// 1 to 4 lines of at most 35 bytes.
    pub name_and_address: Vec<String>,
}
option!(Field50K at 3 { account: Account, name_and_address: Names });

/// 50C: a BIC.
#[derive(Debug, Clone, PartialEq, Eq, Hash)]
pub struct Field50C {
    /// 8 or 11 bytes.
    pub bic: String,
}
option!(Field50C at 4 { bic: Bic });

/// 50L: an identifier.
#[derive(Debug, Clone, PartialEq, Eq, Hash)]
pub struct Field50L {
    /// 1 to 35 bytes.
    pub party_identifier: String,
}
option!(Field50L at 5 { party_identifier: Account });

/// 50G: an account and a BIC.
#[derive(Debug, Clone, PartialEq, Eq, Hash)]
pub struct Field50G {
    /// 1 to 34 bytes, without the slash.
    pub account: String,
    /// 8 or 11 bytes.
    pub bic: String,
}
option!(Field50G at 6 { account: Account, bic: Bic });

/// 50H: an account, and name and address.
#[derive(Debug, Clone, PartialEq, Eq, Hash)]
pub struct Field50H {
    /// 1 to 34 bytes of any kind, without the slash.
    pub account: String,
    /// 1 to 4 lines of at most 35 bytes.
    pub name_and_address: Vec<String>,
}
option!(Field50H at 7 { account: Account, name_and_address: Names });

/// The instructing party: C or L.
#[derive(Debug, Clone, PartialEq, Eq, Hash)]
pub enum Field50InstructingParty {
    /// 50C.
    C(Field50C),
    /// 50L.
    L(Field50L),
}
choice!(Field50InstructingParty at 0 { C(Field50C), L(Field50L) });

/// The ordering customer: F, G or H.
#[derive(Debug, Clone, PartialEq, Eq, Hash)]
pub enum Field50OrderingCustomerFGH {
    /// 50F.
    F(Field50F),
    /// 50G.
    G(Field50G),
    /// 50H.
    H(Field50H),
}
choice!(Field50OrderingCustomerFGH at 1 { F(Field50F), G(Field50G), H(Field50H) });

/// The ordering customer: A, F or K.
#[derive(Debug, Clone, PartialEq, Eq, Hash)]
pub enum Field50OrderingCustomerAFK {
    /// 50A.
    A(Field50A),
    /// 50F.
    F(Field50F),
    /// 50K.
    K(Field50K),
}
choice!(Field50OrderingCustomerAFK at 2 { A(Field50A) "A", F(Field50F) "F", K(Field50K) "K" });

/// The ordering customer: without a letter, C or F.
#[derive(Debug, Clone, PartialEq, Eq, Hash)]
pub enum Field50OrderingCustomerNCF {
    /// 50 without a letter.
    NoOption(Field50NoOption),
    /// 50C.
    C(Field50C),
    /// 50F.
    F(Field50F),
}
choice!(Field50OrderingCustomerNCF at 3 { NoOption(Field50NoOption), C(Field50C), F(Field50F) });

/// The creditor: A or K.
#[derive(Debug, Clone, PartialEq, Eq, Hash)]
pub enum Field50Creditor {
    /// 50A.
    A(Field50A),
    /// 50K.
    K(Field50K),
}
choice!(Field50Creditor at 4 { A(Field50A) "A", K(Field50K) "K" });

/// Another name of the ordering customer without a letter, C or F.
pub type Field50 = Field50OrderingCustomerNCF;
