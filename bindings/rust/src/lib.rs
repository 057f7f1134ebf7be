//! Party fields 50 and 59 of SWIFT MT messages, and pages of them.
//!
//! The types, their fields and their methods are those of `fields::field50` and `fields::field59`
//! of swift-mt-message 3.1.5, under the same paths. The reading and writing is done by the static
//! library of Yewdome, whose functions are proved equal to written rules. What is not as in
//! swift-mt-message:
//!
//! - [`SwiftField::to_swift_string`] gives a [`Result`]: a value that no reader gives is refused
//!   with 22, and nothing is cut off;
//! - [`ParseError`] is a kind, which has a number, and a body line;
//! - a body over [`pages::LONGEST_BODY`] bytes is refused with 12, one with a byte above 127 with
//!   13, and a variant that is no letter from A to Z with 14;
//! - the account of 50H takes bytes of any kind up to 127;
//! - [`Field50F`](fields::Field50F) has the digits of its lines beside the names, and they are
//!   written as they came; `Field50F::new` takes what swift-mt-message has, and numbers the lines
//!   1, 2, 3, 4 as it does;
//! - 59F with an identifier is written without the empty line that swift-mt-message has after it.
//!
//! # A field
//!
//! ```
//! use yewdome::fields::{Field50K, Field50OrderingCustomerAFK};
//! use yewdome::{ErrorKind, SwiftField};
//!
//! let customer = Field50OrderingCustomerAFK::parse("/DE89370400440532013000\nJOHN DOE")?;
//! let Field50OrderingCustomerAFK::K(field) = &customer else {
//!     panic!("read as another option");
//! };
//! assert_eq!(field.account.as_deref(), Some("DE89370400440532013000"));
//! assert_eq!(field.name_and_address, ["JOHN DOE"]);
//! assert_eq!(customer.to_swift_string()?, ":50K:/DE89370400440532013000\nJOHN DOE");
//!
//! let refusal = Field50K::parse("JOHN DOE\nCAF~").unwrap_err();
//! assert_eq!((refusal.kind(), refusal.line()), (ErrorKind::IllegalByte, 2));
//! assert_eq!(refusal.number(), 3);
//! assert_eq!(refusal.to_string(), "illegal byte outside a BIC, in line 2 (refusal 3)");
//! # Ok::<(), yewdome::ParseError>(())
//! ```
//!
//! # The network profile
//!
//! ```
//! use yewdome::fields::{Field50A, Field50OrderingCustomerAFK};
//! use yewdome::{profile, ErrorKind, SwiftField};
//!
//! let customer: Field50OrderingCustomerAFK = profile::parse("/12\nJohn Doe (1)")?;
//! assert_eq!(customer, Field50OrderingCustomerAFK::parse("/12\nJohn Doe (1)")?);
//! assert_eq!(customer, profile::parse_with_variant("/12\nJohn Doe (1)", Some("K"))?);
//!
//! // a small letter in the BIC is good without the profile
//! assert!(Field50A::parse("/12\nBNPAFRPp").is_ok());
//! let refusal = profile::parse::<Field50A>("/12\nBNPAFRPp").unwrap_err();
//! assert_eq!((refusal.kind(), refusal.line()), (ErrorKind::OutsideProfile, 2));
//! assert_eq!(refusal.number(), 32);
//! # Ok::<(), yewdome::ParseError>(())
//! ```
//!
//! # A page
//!
//! ```
//! use yewdome::fields::{Field50C, Field59NoOption};
//! use yewdome::pages::{self, Answer};
//!
//! let sender = Field50C { bic: "BNPAFRPPXXX".to_string() };
//! let receiver = Field59NoOption {
//!     account: Some("12".to_string()),
//!     name_and_address: vec!["BENEFICIARY SA".to_string()],
//! };
//!
//! // the space that each needs is known before it is filed: its field, LF, and 2 for the end
//! assert_eq!(pages::measure(&sender)?, ":50C:BNPAFRPPXXX".len());
//!
//! let mut buffer = [0; pages::LONGEST_PAGE];
//! let position = pages::add(&sender, &mut buffer, 0)?;
//! let position = pages::add(&receiver, &mut buffer, position)?;
//! let length = pages::close(&mut buffer, position)?;
//! let page = &buffer[..length];
//! assert_eq!(page, b":50C:BNPAFRPPXXX\n:59:/12\nBENEFICIARY SA\n-\n");
//!
//! let mut answers = pages::answers(page).map(|read| read.answer);
//! assert_eq!(answers.next(), Some(Answer::Record(sender.into())));
//! assert_eq!(answers.next(), Some(Answer::Record(receiver.into())));
//! assert_eq!(answers.next(), Some(Answer::End));
//! assert_eq!(answers.next(), None);
//!
//! let first = pages::read_at(page, 0);
//! assert_eq!(&page[first.body], b"BNPAFRPPXXX");
//! # Ok::<(), yewdome::ParseError>(())
//! ```
//!
//! # An index beside a page
//!
//! ```
//! use yewdome::fields::{Field50C, Field50L};
//! use yewdome::pages::{self, Answer, Entry, Index};
//!
//! let bank = Field50C { bic: "BNPAFRPPXXX".to_string() };
//! let party = Field50L { party_identifier: "TREASURY 7".to_string() };
//! let mut buffer = [0; 64];
//! let mut index = Index::new();
//! let position = pages::add_indexed(&bank, &mut buffer, 0, &mut index)?;
//! let position = pages::add_indexed(&party, &mut buffer, position, &mut index)?;
//! assert_eq!(index.entries()[1], Entry { option: 5, position: 17, length: 15 });
//!
//! // the second field, without reading the first; the page is still open
//! let page = &buffer[..position];
//! let read = pages::look_up(page, &index, 2)?;
//! assert_eq!(read, pages::read_at(page, 17));
//! assert_eq!(read.answer, Answer::Record(party.into()));
//!
//! // there is no third, and of another page the index is not believed
//! assert_eq!(pages::look_up(page, &index, 3).unwrap_err().number(), 31);
//! assert_eq!(pages::look_up(b":50L:A\n-\n", &index, 1).unwrap_err().number(), 21);
//! # Ok::<(), yewdome::ParseError>(())
//! ```
//!
//! # A page filed on a new one
//!
//! ```
//! use yewdome::pages::{self, Outcome};
//! use yewdome::ErrorKind;
//!
//! let page = b"a stray line\n:50C:BNPAFRPPXXX\n:59:/12\nBENEFICIARY SA\n-\n";
//! let mut buffer = [0; pages::LONGEST_PAGE];
//! let filing = pages::file(page, &mut buffer);
//! let length = filing.closed?;
//! assert_eq!(&buffer[..length], b":50C:BNPAFRPPXXX\n:59:/12\nBENEFICIARY SA\n-\n");
//!
//! let [first, second, third, last] = filing.answers[..] else {
//!     panic!("read otherwise");
//! };
//! assert!(matches!(first.outcome, Outcome::Refused(it) if it.kind() == ErrorKind::StrayLine));
//! assert_eq!((second.at, second.outcome), (first.next, Outcome::Record));
//! assert_eq!((third.at, third.outcome), (second.next, Outcome::Record));
//! assert_eq!((last.outcome, last.next), (Outcome::End, page.len()));
//! assert_eq!(pages::listed(page), filing.answers);
//! # Ok::<(), yewdome::ParseError>(())
//! ```
//!
//! # What is written as other bytes than came
//!
//! ```
//! use yewdome::fields::{Field50A, Field50K};
//! use yewdome::{kept, pages};
//!
//! assert!(kept::parse::<Field50K>("/12\nACME")?.is_empty());
//! let causes = kept::parse::<Field50A>("/12\r\nBNPAFRPP\nPARIS")?;
//! assert!(causes.inner_cr() && causes.after_bic());
//! assert_eq!(causes.to_string(), "CR before an LF inside the body, lines after the BIC");
//!
//! // filing tells it of each field
//! let page = b":50C:BNPAFRPPXXX\n:59:/12\nBENEFICIARY SA\r\n-\r\n";
//! let filing = pages::file(page, &mut [0; pages::LONGEST_PAGE]);
//! let [first, second, _end] = filing.answers[..] else {
//!     panic!("read otherwise");
//! };
//! assert!(first.causes.is_empty());
//! assert!(second.causes.closing_cr());
//! assert_eq!(kept::field_at(page, second.at)?, Some(second.causes));
//! # Ok::<(), yewdome::ParseError>(())
//! ```

#![deny(unsafe_code)]
#![warn(missing_docs)]

pub mod errors;
pub mod fields;
pub mod kept;
#[allow(unsafe_code)]
mod library;
pub mod pages;
pub mod profile;
mod record;
pub mod traits;

pub use errors::{ErrorKind, ParseError, Result};
pub use traits::SwiftField;
