//! Bangsorut for Rust: a verified coder for RAID-6 disk sets under V2-Code.
//!
//! The calls are the proved ones, linked from the archive that `bin/build-library` makes; this crate gives them slices
//! and types. The header `bangsorut.h` beside the archive has the rules of each call at length.
//!
//! A stripe has m rows and n columns of symbols of w bytes, a [`Shape`]. Column j is the bytes from j·m·w up to
//! (j+1)·m·w; row i of it starts i·w bytes in. Rows 0 to m-2 hold information, row m-1 holds parity. Any two columns may
//! be lost, [`Losses`].
//!
//! A call takes any numbers and slices of any length: what it cannot do it refuses, with a [`Refusal`]. A refused call
//! changes no stripe and no answer buffer. Nothing is kept between calls, so they may run in several threads at once.
//! The archive's one demand on a caller's buffers, that they do not overlap, is Rust's own rule for `&mut`.
//!
//! ```
//! use bangsorut::{Losses, Shape};
//!
//! let shape = Shape::stock(2)?;
//! let mut stripe = vec![7; shape.stripe_length()];
//! shape.encode(&mut stripe)?;
//!
//! let before = stripe.clone();
//! stripe[..shape.column_length()].fill(0);
//! let mut workspace = vec![0; shape.workspace_length()];
//! shape.rebuild(Losses::One(0), &mut stripe, &mut workspace)?;
//! assert_eq!(stripe, before);
//! # Ok::<(), bangsorut::Refusal>(())
//! ```

#![deny(unsafe_code)]
#![warn(missing_docs)]

mod answers;
mod calls;
#[allow(unsafe_code)]
mod raw;

#[cfg(test)]
mod tests;

pub use answers::{Checked, Damage, Prices, Refusal};
pub use calls::{Losses, Shape};
