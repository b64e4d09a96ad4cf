//! A second program for the rules of document 01, sharing nothing with the proved crates.
//!
//! `model` holds the rules, `generate` makes seeded files that try them, `coverage` counts
//! what those files reach, and `mistakes` names the deliberate mistakes.

pub mod coverage;
pub mod generate;
pub mod mistakes;
pub mod model;
pub mod random;
