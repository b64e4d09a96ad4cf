//! Seeded files: jobs and calls that reach every answer and every edge of the rules.

pub mod calls;
pub mod endings;
pub mod jobs;
pub mod refusals;
pub mod shapes;
pub mod spoil;
pub mod stripes;
pub mod sweep;
