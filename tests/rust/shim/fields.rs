//! The module file of `fields`, with the four files that are needed.

#[path = "../target/source/src/fields/field50.rs"]
pub mod field50;
#[path = "../target/source/src/fields/field59.rs"]
pub mod field59;
#[path = "../target/source/src/fields/field_utils.rs"]
pub mod field_utils;
#[path = "../target/source/src/fields/swift_utils.rs"]
pub mod swift_utils;
