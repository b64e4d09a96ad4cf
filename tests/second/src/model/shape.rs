//! Shapes, the stock of them, and their prices.

use crate::mistakes::{right, wrong};

/// The three numbers of a shape, as a caller may give them: nothing is known about them yet.
#[derive(Clone, Copy, PartialEq, Eq, Debug)]
pub struct Shape {
    pub m: u64,
    pub n: u64,
    pub w: u64,
}

/// The stock shapes, in the order of their numbers.
pub const STOCK: [Shape; 10] = [
    Shape::new(2, 5, 512),
    Shape::new(2, 12, 512),
    Shape::new(3, 9, 512),
    Shape::new(3, 16, 1024),
    Shape::new(4, 13, 512),
    Shape::new(4, 16, 1024),
    Shape::new(6, 21, 256),
    Shape::new(8, 29, 256),
    Shape::new(12, 45, 64),
    Shape::new(16, 61, 64),
];

impl Shape {
    pub const fn new(m: u64, n: u64, w: u64) -> Shape {
        Shape { m, n, w }
    }

    /// m·n·w; a product too large to hold counts as the largest number there is.
    pub fn stripe_bytes(self) -> u128 {
        self.column_bytes().saturating_mul(u128::from(self.n))
    }

    /// m·w.
    pub fn column_bytes(self) -> u128 {
        u128::from(self.m) * u128::from(self.w)
    }

    /// 2·m·w.
    pub fn workspace_bytes(self) -> u128 {
        self.column_bytes().saturating_mul(2)
    }

    pub fn is_good(self) -> bool {
        self.reasons().is_empty()
    }

    /// Every refusal number among 1 to 3 that applies to the shape.
    pub fn reasons(self) -> Vec<u8> {
        let (m, n, w) = (i128::from(self.m), i128::from(self.n), i128::from(self.w));
        let mut reasons = Vec::new();
        let fewest_rows = right(2, &[("m-from-3", 3)]);
        let most_rows = right(16, &[("m-limit-15", 15)]);
        if m < fewest_rows || m > most_rows {
            reasons.push(1);
        }
        let fewest_columns =
            right(4 * m - 3, &[("n-from-4m-4", 4 * m - 4), ("n-from-4m-2", 4 * m - 2)]);
        let most_columns = right(64, &[("n-limit-63", 63), ("n-limit-65", 65)]);
        if n < fewest_columns || n > most_columns {
            reasons.push(2);
        }
        let none = i128::MAX;
        let smallest = right(1, &[("w-from-0", 0)]);
        let largest =
            right(4_096, &[("w-limit-4095", 4_095), ("w-limit-none", none), ("size-wraps", none)]);
        if w < smallest || w > largest || self.is_too_large() {
            reasons.push(3);
        }
        reasons
    }

    fn is_too_large(self) -> bool {
        if wrong("size-wraps") {
            return self.m.wrapping_mul(self.n).wrapping_mul(self.w) > 65_536;
        }
        let none = u128::MAX;
        let largest = right(65_536, &[("size-limit-65535", 65_535), ("size-limit-none", none)]);
        self.stripe_bytes() > largest
    }

    /// The price list of a good shape: encode, one column, two columns, symbols read for one.
    pub fn prices(self) -> [u64; 4] {
        let Shape { m, n, .. } = self;
        let xors = 2 * m - 3;
        let encode = right(n * xors, &[("price-encode-counts-symbols", n * (2 * m - 2))]);
        let two = right(2 * m * xors, &[("price-two-as-encode", n * xors)]);
        let read = right(2 * m * (m - 1) - 1, &[("price-read-one-more", 2 * m * (m - 1))]);
        [encode, m * xors, two, read]
    }
}

/// The stock shape of a number, if there is one.
pub fn stock(number: u64) -> Option<Shape> {
    let number = right(
        number,
        &[("stock-number-cut-to-8-bits", number & 255), ("stock-from-1", number.wrapping_sub(1))],
    );
    STOCK.get(usize::try_from(number).ok()?).copied()
}
