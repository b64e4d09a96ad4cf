//! The rules of document 01 and the formats of the job files and the call files.

pub mod call;
pub mod call_file;
pub mod gf2;
pub mod job;
pub mod outer;
pub mod reasons;
pub mod shape;
pub mod stripe;
pub mod unknowns;
