//! Stripes to try: sound ones, and ones damaged in ways that lie near the edges of the rules.

use crate::model::shape::Shape;
use crate::model::stripe::{encode, xor, Code, Symbol};
use crate::random::Random;

/// A stripe that keeps the rule.
pub fn sound(random: &mut Random, code: Code) -> Vec<u8> {
    let mut stripe = random.bytes(code.n * code.column_bytes());
    encode(code, &mut stripe);
    stripe
}

/// A stripe for a shape that may be refused: it fits the shape if that is not too large.
pub fn fitting(random: &mut Random, shape: Shape) -> Vec<u8> {
    if shape.is_good() {
        let code = Code::of(shape);
        let mut stripe = sound(random, code);
        damage(random, code, &mut stripe);
        return stripe;
    }
    let fits = shape.stripe_bytes() <= if random.chance(3) { 66_000 } else { 3_000 };
    let length = if fits { shape.stripe_bytes() as usize } else { random.index(300) };
    random.bytes(length)
}

/// Damages a sound stripe, or leaves it sound.
pub fn damage(random: &mut Random, code: Code, stripe: &mut [u8]) {
    let column = random.index(code.n);
    match random.below(12) {
        0 | 1 => {}
        2 => change_byte(random, stripe),
        3 => change_column(random, code, stripe, column),
        4 => change_symbol(random, code, stripe, column),
        5 => change_two_columns(random, code, stripe, column),
        6 => change_parity_pair(random, code, stripe, column),
        7 => change_parity_pair_almost(random, code, stripe, column),
        8 => change_column_and_one_outside(random, code, stripe, column),
        9 => change_two_bytes(random, stripe),
        10 => change_parity(random, code, stripe, column),
        _ => change_everything(random, stripe),
    }
}

pub fn change_byte(random: &mut Random, stripe: &mut [u8]) {
    let at = random.index(stripe.len());
    stripe[at] ^= random.change();
}

fn change_two_bytes(random: &mut Random, stripe: &mut [u8]) {
    change_byte(random, stripe);
    change_byte(random, stripe);
}

pub fn change_column(random: &mut Random, code: Code, stripe: &mut [u8], column: usize) {
    let change = random.bytes(code.column_bytes());
    xor(&mut stripe[code.column(column)], &change);
}

fn change_symbol(random: &mut Random, code: Code, stripe: &mut [u8], column: usize) {
    let symbol = Symbol { column, height: random.index(code.m) };
    let change = random.bytes(code.w);
    xor(&mut stripe[code.place(symbol)], &change);
}

fn change_two_columns(random: &mut Random, code: Code, stripe: &mut [u8], column: usize) {
    let other = code.up(column, random.between(1, code.n as u64 - 1) as usize);
    change_column(random, code, stripe, column);
    change_symbol(random, code, stripe, other);
}

fn parity(column: usize) -> Symbol {
    Symbol { column, height: 0 }
}

fn change_parity(random: &mut Random, code: Code, stripe: &mut [u8], column: usize) {
    let place = code.place(parity(column));
    stripe[place.start + random.index(code.w)] ^= random.change();
}

/// Equal damage to two parities that a column between them explains, though it is unchanged.
fn change_parity_pair(random: &mut Random, code: Code, stripe: &mut [u8], column: usize) {
    let height = random.between(1, code.m as u64 - 1) as usize;
    let change = random.bytes(code.w);
    xor(&mut stripe[code.place(parity(code.up(column, height)))], &change);
    xor(&mut stripe[code.place(parity(code.down(column, height)))], &change);
}

/// The same, but one of the two differs in the last byte.
fn change_parity_pair_almost(random: &mut Random, code: Code, stripe: &mut [u8], column: usize) {
    let height = if random.chance(50) { code.m - 1 } else { 1 };
    let change = random.bytes(code.w);
    xor(&mut stripe[code.place(parity(code.down(column, height)))], &change);
    let above = code.place(parity(code.up(column, height)));
    xor(&mut stripe[above.clone()], &change);
    stripe[above.end - 1] ^= random.change();
}

/// A column's damage, and one chain next to the outermost it touches.
fn change_column_and_one_outside(
    random: &mut Random,
    code: Code,
    stripe: &mut [u8],
    column: usize,
) {
    change_column(random, code, stripe, column);
    let outside = match random.chance(50) {
        true => code.up(column, code.m),
        false => code.down(column, code.m),
    };
    change_parity(random, code, stripe, outside);
}

fn change_everything(random: &mut Random, stripe: &mut [u8]) {
    stripe.fill_with(|| random.any() as u8);
}

/// Fills the lost columns with leftovers, and at times damages a survivor.
pub fn lose(random: &mut Random, code: Code, stripe: &mut [u8], lost: &[usize]) {
    for &column in lost {
        if random.chance(80) {
            let leftovers = random.bytes(code.column_bytes());
            stripe[code.column(column)].copy_from_slice(&leftovers);
        }
    }
    match random.below(10) {
        0..=4 => {}
        5 | 6 => change_byte(random, stripe),
        7 => change_between(random, code, stripe, lost),
        _ => damage(random, code, stripe),
    }
}

/// Damages a survivor halfway between two lost parities: they hide it, so the survivors agree.
fn change_between(random: &mut Random, code: Code, stripe: &mut [u8], lost: &[usize]) {
    let middle = |column: &usize| {
        (1..code.m)
            .any(|d| lost.contains(&code.up(*column, d)) && lost.contains(&code.down(*column, d)))
    };
    let Some(column) = (0..code.n).find(middle) else {
        return;
    };
    let height =
        |d: &usize| lost.contains(&code.up(column, *d)) && lost.contains(&code.down(column, *d));
    let Some(height) = (1..code.m).find(height) else {
        return;
    };
    let change = random.bytes(code.w);
    xor(&mut stripe[code.place(Symbol { column, height })], &change);
}
