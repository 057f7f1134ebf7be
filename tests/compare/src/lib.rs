//! Yewdome's static library, for Rust programs.

pub mod ours;
