//! The crate root that the five published files expect around them.
//!
//! `errors` and the four files below `fields` are the published files, unchanged.
//! `run` copies them to `target/source` after it has checked their SHA-256.
//! Added here: this file, `fields.rs` and `traits.rs`.

#[path = "../target/source/src/errors.rs"]
pub mod errors;
pub mod fields;
pub mod traits;

pub use errors::Result;
