//! Shapes to try: mostly small ones, a share of large ones, and those at and beyond the limits.

use crate::model::shape::{Shape, STOCK};
use crate::random::Random;

/// A shape for a call with a stripe; most stripes are kept small, since they are printed.
pub fn any(random: &mut Random) -> Shape {
    match random.below(1000) {
        0..=9 => random.pick(&STOCK),
        10..=29 => at_the_size_limit(random),
        30..=99 => refused(random),
        100..=199 => wide(random),
        _ => small(random),
    }
}

/// A shape for a call without a stripe, where size costs nothing.
pub fn any_without_stripe(random: &mut Random) -> Shape {
    match random.below(10) {
        0 => random.pick(&STOCK),
        1..=3 => at_the_size_limit(random),
        4..=5 => refused(random),
        6 => beyond(random),
        _ => wide(random),
    }
}

/// A good shape of two to four rows.
pub fn small(random: &mut Random) -> Shape {
    let m = random.between(2, 4);
    let fewest = 4 * m - 3;
    let n = if random.chance(50) { fewest } else { random.between(fewest, fewest + 6) };
    let w = if random.chance(70) { random.between(1, 6) } else { random.between(1, 40) };
    Shape::new(m, n, w)
}

/// A good shape of any number of rows and columns.
pub fn wide(random: &mut Random) -> Shape {
    let m = random.pick(&[2, 3, 4, 5, 6, 8, 9, 11, 14, 16]);
    let n = random.pick(&[4 * m - 3, 4 * m - 2, (4 * m + 61) / 2, 63, 64]);
    Shape::new(m, n.max(4 * m - 3), random.between(1, 3))
}

/// A shape whose stripe is as large as it may be, or one step larger.
pub fn at_the_size_limit(random: &mut Random) -> Shape {
    let (m, n) = random.pick(&[
        (2, 5),
        (2, 8),
        (2, 16),
        (2, 33),
        (2, 64),
        (3, 9),
        (4, 16),
        (4, 64),
        (8, 32),
        (16, 61),
        (16, 64),
    ]);
    let largest = (65_536 / (m * n)).min(4_096);
    Shape::new(m, n, largest + u64::from(random.chance(50)))
}

/// A shape refused by one of its numbers, though small enough for a stripe that fits it.
pub fn refused(random: &mut Random) -> Shape {
    let Shape { m, n, w } = small(random);
    match random.below(8) {
        0 => Shape::new(1, n, w),
        1 => Shape::new(0, n, w),
        2 => Shape::new(17, random.pick(&[64, 65, 66]), random.between(1, 2)),
        3 => Shape::new(m, 4 * m - 4, w),
        4 => Shape::new(m, random.below(4 * m - 3), w),
        5 => Shape::new(m, 65, random.between(1, 3)),
        6 => Shape::new(m, n, 0),
        _ => Shape::new(2, 5, random.pick(&[4_097, 6_553, 6_554])),
    }
}

/// Three numbers of any size.
pub fn beyond(random: &mut Random) -> Shape {
    let Shape { m, n, w } = small(random);
    Shape::new(around(random, m), around(random, n), around(random, w))
}

/// A number that a program might take for `number`, or that might overflow.
pub fn around(random: &mut Random, number: u64) -> u64 {
    match random.below(9) {
        0 => u64::MAX,
        1 => number.wrapping_add(1 << 32),
        2 => number.wrapping_add(1 << 16),
        3 => number.wrapping_add(1 << 8),
        4 => number.wrapping_add(1 << 63),
        5 => random.any(),
        6 => 1 << random.below(64),
        7 => u64::MAX - random.below(4),
        _ => number,
    }
}
