//! The calls, as methods of the shape.

use crate::answers::{answered, Checked, Damage, Prices, Refusal};
use crate::raw::{self, Named};

/// The shape of a stripe: m rows, n columns, and w bytes in each symbol.
///
/// m is 2 to 16, n is 4m-3 to 64, w is 1 to 4,096, and m·n·w is at most 65,536. Any numbers may stand here: each call
/// checks them.
#[derive(Clone, Copy, PartialEq, Eq, Hash, Debug)]
pub struct Shape {
    /// The number of rows.
    pub m: usize,
    /// The number of columns.
    pub n: usize,
    /// The size of a symbol in bytes.
    pub w: usize,
}

/// Which columns are lost. The order in which two are named makes no difference.
#[derive(Clone, Copy, PartialEq, Eq, Hash, Debug)]
pub enum Losses {
    /// No column is lost.
    None,
    /// This column is lost.
    One(usize),
    /// These two columns are lost.
    Two(usize, usize),
}

impl Losses {
    /// The losses as the archive is told them.
    fn named(self) -> Named {
        match self {
            Losses::None => Named { count: 0, a: 0, b: 0 },
            Losses::One(a) => Named { count: 1, a, b: 0 },
            Losses::Two(a, b) => Named { count: 2, a, b },
        }
    }
}

impl Shape {
    /// The stock shape of a number from 0 to 9.
    ///
    /// ```
    /// use bangsorut::{Refusal, Shape};
    ///
    /// assert_eq!(Shape::stock(9), Ok(Shape { m: 16, n: 61, w: 64 }));
    /// assert_eq!(Shape::stock(10), Err(Refusal::NoSuchStock));
    /// ```
    pub fn stock(number: usize) -> Result<Shape, Refusal> {
        let mut shape = [0; 3];
        let answer = raw::stock(number, &mut shape);
        let [m, n, w] = shape;
        answered(answer, Shape { m, n, w })
    }

    /// How many bytes a stripe has: m·n·w. Of a shape that the calls refuse it may be the largest number there is.
    pub const fn stripe_length(self) -> usize {
        self.column_length().saturating_mul(self.n)
    }

    /// How many bytes a column has, and the least that an answer buffer holds: m·w, with the same exception.
    pub const fn column_length(self) -> usize {
        self.m.saturating_mul(self.w)
    }

    /// The least number of bytes that a workspace holds: 2·m·w, with the same exception.
    pub const fn workspace_length(self) -> usize {
        self.column_length().saturating_mul(2)
    }

    /// What the calls cost for this shape.
    ///
    /// ```
    /// use bangsorut::{Prices, Shape};
    ///
    /// let prices = Shape { m: 3, n: 9, w: 1 }.prices();
    /// assert_eq!(prices, Ok(Prices { encode: 27, one: 9, two: 18, reads: 11 }));
    /// ```
    pub fn prices(self) -> Result<Prices, Refusal> {
        let mut prices = [0; 4];
        let answer = raw::prices(self, &mut prices);
        let [encode, one, two, reads] = prices;
        answered(answer, Prices { encode, one, two, reads })
    }

    /// Sets every parity symbol of the stripe by the rule; information is untouched.
    ///
    /// ```
    /// use bangsorut::Shape;
    ///
    /// let mut stripe = [0x01, 0, 0x02, 0, 0x04, 0, 0x08, 0, 0x10, 0];
    /// Shape { m: 2, n: 5, w: 1 }.encode(&mut stripe)?;
    /// assert_eq!(stripe, [0x01, 0x12, 0x02, 0x05, 0x04, 0x0A, 0x08, 0x14, 0x10, 0x09]);
    /// # Ok::<(), bangsorut::Refusal>(())
    /// ```
    pub fn encode(self, stripe: &mut [u8]) -> Result<(), Refusal> {
        answered(raw::encode(self, stripe), ())
    }

    /// Counts the chains of the stripe that break the rule, and the bits in which they do.
    ///
    /// ```
    /// use bangsorut::{Checked, Shape};
    ///
    /// let stripe = [0x00, 0x12, 0x02, 0x05, 0x04, 0x0A, 0x08, 0x14, 0x10, 0x09];
    /// let checked = Shape { m: 2, n: 5, w: 1 }.check(&stripe);
    /// assert_eq!(checked, Ok(Checked { broken: 2, bits: 2 }));
    /// ```
    pub fn check(self, stripe: &[u8]) -> Result<Checked, Refusal> {
        let mut counts = [0; 2];
        let answer = raw::check(self, stripe, &mut counts);
        let [broken, bits] = counts;
        answered(answer, Checked { broken, bits })
    }

    /// Finds the column of the stripe that is damaged.
    ///
    /// ```
    /// use bangsorut::{Damage, Shape};
    ///
    /// let stripe = [0x00, 0x12, 0x02, 0x05, 0x04, 0x0A, 0x08, 0x14, 0x10, 0x09];
    /// assert_eq!(Shape { m: 2, n: 5, w: 1 }.locate(&stripe), Ok(Damage::Column(0)));
    /// ```
    pub fn locate(self, stripe: &[u8]) -> Result<Damage, Refusal> {
        let mut found = [0; 2];
        let answer = raw::locate(self, stripe, &mut found);
        let damage = match found {
            [0, _] => Damage::Sound,
            [1, column] => Damage::Column(column),
            _ => Damage::Several,
        };
        answered(answer, damage)
    }

    /// Replaces one information symbol and XORs the change into its two parity symbols.
    ///
    /// Each chain that was broken stays broken by the same bytes. The row is one of 0 to m-2, the symbol is w bytes.
    ///
    /// ```
    /// use bangsorut::Shape;
    ///
    /// let mut stripe = [0x01, 0x12, 0x02, 0x05, 0x04, 0x0A, 0x08, 0x14, 0x10, 0x09];
    /// Shape { m: 2, n: 5, w: 1 }.small_write(&mut stripe, 4, 0, &[0xFF])?;
    /// assert_eq!(stripe, [0x01, 0xFD, 0x02, 0x05, 0x04, 0x0A, 0x08, 0xFB, 0xFF, 0x09]);
    /// # Ok::<(), bangsorut::Refusal>(())
    /// ```
    pub fn small_write(self, stripe: &mut [u8], column: usize, row: usize, symbol: &[u8]) -> Result<(), Refusal> {
        answered(raw::small_write(self, stripe, column, row, symbol), ())
    }

    /// Replaces one symbol of any row and touches nothing else; it keeps no parity right. The symbol is w bytes.
    pub fn raw_store(self, stripe: &mut [u8], column: usize, row: usize, symbol: &[u8]) -> Result<(), Refusal> {
        answered(raw::raw_store(self, stripe, column, row, symbol), ())
    }

    /// Writes the lost columns of the stripe from the survivors, if they agree; else it is refused with
    /// [`Refusal::Disagree`] and the stripe stays as it is.
    ///
    /// The workspace holds at least 2·m·w bytes. It is zero to its end after the call, under every answer.
    ///
    /// ```
    /// use bangsorut::{Losses, Shape};
    ///
    /// let mut stripe = [0xEE, 0xEE, 0x02, 0x05, 0xEE, 0xEE, 0x08, 0x14, 0x10, 0x09];
    /// let mut workspace = [0xAA; 5];
    /// Shape { m: 2, n: 5, w: 1 }.rebuild(Losses::Two(0, 2), &mut stripe, &mut workspace)?;
    /// assert_eq!(stripe, [0x01, 0x12, 0x02, 0x05, 0x04, 0x0A, 0x08, 0x14, 0x10, 0x09]);
    /// assert_eq!(workspace, [0; 5]);
    /// # Ok::<(), bangsorut::Refusal>(())
    /// ```
    pub fn rebuild(self, lost: Losses, stripe: &mut [u8], workspace: &mut [u8]) -> Result<(), Refusal> {
        answered(raw::rebuild(self, lost.named(), stripe, workspace), ())
    }

    /// Puts a lost column into the first m·w bytes of the answer buffer; the rest of it, and all of it if the column
    /// survives, is untouched. It does not test whether the survivors agree.
    ///
    /// ```
    /// use bangsorut::{Losses, Shape};
    ///
    /// let shape = Shape { m: 2, n: 5, w: 1 };
    /// let stripe = [0xEE, 0xEE, 0x02, 0x05, 0xEE, 0xEE, 0x08, 0x14, 0x10, 0x09];
    /// let (lost, mut buffer) = (Losses::Two(0, 2), [0xAA; 3]);
    /// shape.fill(&stripe, lost, 2, &mut buffer)?;
    /// assert_eq!(buffer, [0x04, 0x0A, 0xAA]);
    /// assert_eq!(shape.choose(&stripe, lost, 2, &buffer), Some(&buffer[..2]));
    /// assert_eq!(shape.choose(&stripe, lost, 3, &buffer), Some(&stripe[6..8]));
    /// # Ok::<(), bangsorut::Refusal>(())
    /// ```
    pub fn fill(self, stripe: &[u8], lost: Losses, wanted: usize, buffer: &mut [u8]) -> Result<(), Refusal> {
        answered(raw::fill(self, stripe, lost.named(), wanted, buffer), ())
    }

    /// The column in the stripe if it survives, or else the first m·w bytes of the answer buffer, with no promise that
    /// fill was called. The bytes are the caller's own, not a copy; none exactly when fill would be refused.
    pub fn choose<'a>(self, stripe: &'a [u8], lost: Losses, wanted: usize, buffer: &'a [u8]) -> Option<&'a [u8]> {
        let mut part = [0; 3];
        raw::choose(self, stripe, lost.named(), wanted, buffer, &mut part);
        let [place, start, length] = part;
        part_of(if place == 0 { stripe } else { buffer }, start, length)
    }

    /// The bytes of a column: the caller's own, not a copy; none where the request is refused.
    ///
    /// ```
    /// use bangsorut::Shape;
    ///
    /// let stripe = [0x01, 0x12, 0x02, 0x05, 0x04, 0x0A, 0x08, 0x14, 0x10, 0x09];
    /// assert_eq!(Shape { m: 2, n: 5, w: 1 }.column(&stripe, 4), Some(&stripe[8..]));
    /// assert_eq!(Shape { m: 2, n: 5, w: 1 }.column(&stripe, 5), None);
    /// ```
    pub fn column(self, stripe: &[u8], column: usize) -> Option<&[u8]> {
        let mut part = [0; 2];
        raw::column(self, stripe, column, &mut part);
        let [start, length] = part;
        part_of(stripe, start, length)
    }
}

/// The part that the archive told of; a part of length 0 is none.
fn part_of(bytes: &[u8], start: usize, length: usize) -> Option<&[u8]> {
    match length {
        0 => None,
        _ => Some(&bytes[start..start + length]),
    }
}
