//! A sweep over every pair of columns of a few shapes, in both orders, so that none is left out.

use super::stripes;
use crate::model::call::{Call, Kind};
use crate::model::shape::Shape;
use crate::model::stripe::Code;
use crate::model::unknowns::survivors_agree;
use crate::random::Random;

/// The shapes swept, as (m, n); those with even n have pairs whose two walks are n/2.
pub const SWEPT: [(u64, u64); 5] = [(2, 5), (2, 6), (3, 9), (3, 10), (4, 13)];

/// What is tried with every pair.
#[derive(Clone, Copy, PartialEq, Eq, Debug)]
enum Try {
    Rebuild,
    RebuildDamaged,
    FillFirst,
    FillSecond,
}

const TRIES: [Try; 4] = [Try::Rebuild, Try::RebuildDamaged, Try::FillFirst, Try::FillSecond];

/// Every ordered pair of different columns of the swept shapes.
pub fn pairs() -> Vec<(u64, u64, u64, u64)> {
    let mut pairs = Vec::new();
    for (m, n) in SWEPT {
        let all = (0..n).flat_map(|first| (0..n).map(move |second| (first, second)));
        pairs.extend(all.filter(|(first, second)| first != second).map(|(a, b)| (m, n, a, b)));
    }
    pairs
}

/// The call of the sweep with this number; numbers beyond the last begin again.
pub fn call(random: &mut Random, number: u64) -> Call {
    let pairs = pairs();
    let number = (number % (pairs.len() * TRIES.len()) as u64) as usize;
    let (m, n, first, second) = pairs[number / TRIES.len()];
    let what = TRIES[number % TRIES.len()];
    let shape = Shape::new(m, n, random.between(1, 4));
    let buffer1 = stripe(random, Code::of(shape), [first as usize, second as usize], what);
    let length = 2 * shape.column_bytes() as usize + random.index(3) * random.index(9);
    Call {
        kind: if matches!(what, Try::Rebuild | Try::RebuildDamaged) {
            Kind::Rebuild
        } else {
            Kind::Fill
        },
        shape,
        a: 2,
        b: first,
        c: second,
        d: if what == Try::FillFirst { first } else { second },
        buffer1,
        buffer2: random.bytes(length),
    }
}

/// A sound stripe with the pair lost; unless rebuild is to succeed, the survivors disagree.
fn stripe(random: &mut Random, code: Code, lost: [usize; 2], what: Try) -> Vec<u8> {
    let mut stripe = stripes::sound(random, code);
    for column in lost {
        stripes::change_column(random, code, &mut stripe, column);
    }
    while what != Try::Rebuild && survivors_agree(code, &stripe, &lost) {
        stripes::change_byte(random, &mut stripe);
    }
    stripe
}
