//! The published Rust on party fields 50 and 59, asked; our rules beside it; and bodies to ask.

pub mod bodies;
pub mod cells;
pub mod choose;
pub mod compare;
pub mod coverage;
pub mod differences;
pub mod edges;
pub mod expected;
pub mod facts;
pub mod families;
pub mod format;
pub mod limits;
pub mod list;
pub mod mapping;
pub mod model;
pub mod pages;
pub mod pool;
pub mod random;
pub mod reference;
pub mod rules;
pub mod statements;
pub mod sweep;
