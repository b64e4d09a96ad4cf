//! What the calls answer.

use std::fmt;

/// Why a call was refused. Where several reasons apply, the one with the lowest number is given.
///
/// ```
/// use bangsorut::{Refusal, Shape};
///
/// let narrow = Shape { m: 2, n: 4, w: 0 };
/// assert_eq!(narrow.prices(), Err(Refusal::BadColumns));
/// assert_eq!(Refusal::BadColumns.number(), 2);
/// assert_eq!(Refusal::BadColumns.to_string(), "n is outside its range");
/// ```
#[derive(Clone, Copy, PartialEq, Eq, PartialOrd, Ord, Hash, Debug)]
pub enum Refusal {
    /// m is outside its range, 2 to 16.
    BadRows = 1,
    /// n is outside its range, 4m-3 to 64.
    BadColumns,
    /// w is outside its range, 1 to 4,096, or m·n·w is over 65,536.
    BadSymbol,
    /// The length of the stripe is not m·n·w.
    BadStripe,
    /// Rebuild's workspace is under 2·m·w bytes.
    SmallWorkspace,
    /// A column is n or more, or the row is none that the call may write.
    NoSuchPlace,
    /// Both lost columns are the same.
    SameColumn,
    /// The length of the symbol is not w, or the answer buffer is under m·w bytes.
    BadBuffer,
    /// The survivors disagree.
    Disagree,
    /// The stock number is over 9.
    NoSuchStock,
}

/// The refusals in the order of their numbers, from 1.
pub(crate) const REFUSALS: [Refusal; 10] = [
    Refusal::BadRows,
    Refusal::BadColumns,
    Refusal::BadSymbol,
    Refusal::BadStripe,
    Refusal::SmallWorkspace,
    Refusal::NoSuchPlace,
    Refusal::SameColumn,
    Refusal::BadBuffer,
    Refusal::Disagree,
    Refusal::NoSuchStock,
];

impl Refusal {
    /// The number of the refusal, 1 to 10.
    pub const fn number(self) -> usize {
        self as usize
    }

    const fn words(self) -> &'static str {
        match self {
            Refusal::BadRows => "m is outside its range",
            Refusal::BadColumns => "n is outside its range",
            Refusal::BadSymbol => "w is outside its range, or m·n·w is over 65,536",
            Refusal::BadStripe => "the length of the stripe is not m·n·w",
            Refusal::SmallWorkspace => "the workspace is under 2·m·w bytes",
            Refusal::NoSuchPlace => "a column is n or more, or the row is none that the call may write",
            Refusal::SameColumn => "both lost columns are the same",
            Refusal::BadBuffer => "the length of the symbol is not w, or the answer buffer is under m·w bytes",
            Refusal::Disagree => "the survivors disagree",
            Refusal::NoSuchStock => "the stock number is over 9",
        }
    }
}

impl fmt::Display for Refusal {
    fn fmt(&self, to: &mut fmt::Formatter) -> fmt::Result {
        to.write_str(self.words())
    }
}

impl std::error::Error for Refusal {}

/// The result that goes with the number of an answer: done is 0.
pub(crate) fn answered<T>(number: usize, done: T) -> Result<T, Refusal> {
    match number.checked_sub(1) {
        None => Ok(done),
        Some(place) => Err(*REFUSALS.get(place).expect("the archive gives the answers 0 to 10")),
    }
}

/// What check reports.
#[derive(Clone, Copy, PartialEq, Eq, Hash, Debug)]
pub struct Checked {
    /// How many chains break the parity rule.
    pub broken: usize,
    /// How many bits differ between stored and computed parity, summed over all chains.
    pub bits: usize,
}

/// What locate finds.
#[derive(Clone, Copy, PartialEq, Eq, Hash, Debug)]
pub enum Damage {
    /// No chain is broken.
    Sound,
    /// The stripe is not sound, and a change within this column alone makes it sound; of no other column is that so.
    Column(usize),
    /// Neither of these: more than one column.
    Several,
}

/// The price list of a shape.
#[derive(Clone, Copy, PartialEq, Eq, Hash, Debug)]
pub struct Prices {
    /// Encode, in symbol XORs.
    pub encode: usize,
    /// The rebuild of one column, in symbol XORs.
    pub one: usize,
    /// The rebuild of two columns, in symbol XORs.
    pub two: usize,
    /// The symbols read for one column.
    pub reads: usize,
}
