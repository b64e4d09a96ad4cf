//! Call files.

use super::{endings, refusals, shapes, spoil, stripes, sweep};
use crate::model::call::{Call, Kind};
use crate::model::call_file::write;
use crate::model::shape::{Shape, STOCK};
use crate::model::stripe::{xor, Code, Symbol};
use crate::random::Random;

/// How often each kind is to come: those with more to go wrong come more often.
const MIX: [(Kind, usize); 11] = [
    (Kind::Encode, 2),
    (Kind::Check, 2),
    (Kind::Locate, 3),
    (Kind::SmallWrite, 3),
    (Kind::RawStore, 3),
    (Kind::Rebuild, 4),
    (Kind::Fill, 5),
    (Kind::Choose, 5),
    (Kind::Column, 2),
    (Kind::Prices, 1),
    (Kind::Stock, 1),
];

/// The kinds tried in turn with every stock shape.
const WITH_STOCK: [Kind; 5] =
    [Kind::Rebuild, Kind::Fill, Kind::Locate, Kind::Encode, Kind::SmallWrite];

/// A file of so many calls, and at times a bad one at its end.
pub fn calls(seed: u64, count: u64) -> Vec<u8> {
    let mut random = Random::new(seed.wrapping_mul(2).wrapping_add(1));
    let mut file = Vec::new();
    let sweeps = (0..count).filter(|&k| is_sweep(k)).count() as u64;
    let mut next_sweep = seed.wrapping_mul(sweeps);
    let mut next_refusal = seed.wrapping_mul(count / 10);
    for k in 0..count {
        let call = if is_sweep(k) {
            next_sweep = next_sweep.wrapping_add(1);
            sweep::call(&mut random, next_sweep.wrapping_sub(1))
        } else if k % 10 == 3 {
            next_refusal = next_refusal.wrapping_add(1);
            refusals::call(&mut random, next_refusal.wrapping_sub(1))
        } else if k == 5 {
            stock_call(&mut random, seed)
        } else if (k, seed % 10) == (15, 0) {
            most_bits(&mut random)
        } else {
            any_call(&mut random)
        };
        write(&call, &mut file);
    }
    endings::end_calls(&mut random, seed, &mut file);
    file
}

/// Three calls in ten belong to the sweep over pairs of columns.
fn is_sweep(k: u64) -> bool {
    k % 10 < 3
}

/// A call with a stock shape, another one for every seed.
fn stock_call(random: &mut Random, seed: u64) -> Call {
    let shape = STOCK[(seed % 10) as usize];
    let kind = WITH_STOCK[(seed / 10 % 5) as usize];
    good(random, kind, shape)
}

/// A check of a large stripe whose parities are wrong in every bit, or in about half.
fn most_bits(random: &mut Random) -> Call {
    let (n, w) = random.pick(&[(8, 4096), (16, 2048), (64, 512)]);
    let mut call = good(random, Kind::Check, Shape::new(2, n, w));
    let code = Code::of(call.shape);
    call.buffer1 = stripes::sound(random, code);
    let is_every_bit = random.chance(50);
    for symbol in (0..code.n).map(|column| Symbol { column, height: 0 }) {
        let change = if is_every_bit { vec![0xFF; code.w] } else { random.bytes(code.w) };
        xor(&mut call.buffer1[code.place(symbol)], &change);
    }
    call
}

fn any_call(random: &mut Random) -> Call {
    let kind = random.pick(&MIX.map(|(kind, times)| vec![kind; times]).concat());
    let shape = match kind {
        Kind::Prices | Kind::Stock => shapes::any_without_stripe(random),
        _ => shapes::any(random),
    };
    let mut call = good(random, kind, shape);
    if random.chance(50) {
        for _ in 0..random.between(1, 3) {
            spoil::spoil(random, &mut call);
        }
    }
    call
}

/// A call that is good as far as its shape is; numbers it does not use are any numbers.
pub fn good(random: &mut Random, kind: Kind, shape: Shape) -> Call {
    let mut call = Call {
        kind,
        shape,
        a: shapes::around(random, 1),
        b: shapes::around(random, 1),
        c: shapes::around(random, 1),
        d: shapes::around(random, 1),
        buffer1: Vec::new(),
        buffer2: Vec::new(),
    };
    match kind {
        Kind::Prices => {}
        Kind::Stock => call.a = stock_number(random),
        Kind::SmallWrite | Kind::RawStore => write_call(random, &mut call),
        Kind::Rebuild | Kind::Fill | Kind::Choose => lost_call(random, &mut call),
        _ => call.buffer1 = stripes::fitting(random, shape),
    }
    if kind == Kind::Column {
        call.a = a_column(random, shape);
    }
    if !matches!(kind, Kind::SmallWrite | Kind::RawStore) && !call.has_losses() && random.chance(10)
    {
        call.buffer2 = small_bytes(random);
    }
    call
}

/// A buffer lent to a call that has no use for it.
fn small_bytes(random: &mut Random) -> Vec<u8> {
    let length = random.index(20);
    random.bytes(length)
}

fn stock_number(random: &mut Random) -> u64 {
    let number = random.below(10);
    match random.below(10) {
        0 => 10,
        1 => 11,
        2 | 3 => shapes::around(random, number),
        _ => number,
    }
}

/// A column below n if there is one; the last one comes often.
fn a_column(random: &mut Random, shape: Shape) -> u64 {
    let n = shape.n.max(1);
    if random.chance(20) {
        n - 1
    } else {
        random.below(n)
    }
}

fn write_call(random: &mut Random, call: &mut Call) {
    call.buffer1 = stripes::fitting(random, call.shape);
    call.a = a_column(random, call.shape);
    let rows =
        if call.kind == Kind::RawStore { call.shape.m } else { call.shape.m.saturating_sub(1) };
    call.b = random.below(rows.max(1));
    call.buffer2 = random.bytes(call.shape.w.min(5_000) as usize);
}

fn lost_call(random: &mut Random, call: &mut Call) {
    call.a = random.pick(&[0, 0, 1, 1, 1, 2, 2, 2, 2]);
    (call.b, call.c) = a_pair(random, call.shape);
    let any = a_column(random, call.shape);
    call.d = random.pick(&[&call.lost()[..], &[any]].concat());
    call.buffer1 = lost_stripe(random, call);
    let needed = match call.kind {
        Kind::Rebuild => call.shape.workspace_bytes(),
        _ => call.shape.column_bytes(),
    };
    let extra = random.pick(&[0, 0, 1, 40]) * random.index(3);
    call.buffer2 = random.bytes(needed.min(19_900) as usize + extra);
}

/// Two columns: neighbours, around the edge, opposite each other, or any; in either order.
fn a_pair(random: &mut Random, shape: Shape) -> (u64, u64) {
    let n = shape.n.max(2);
    let first = random.below(n);
    let distance = match random.below(5) {
        0 => 1,
        1 => n / 2,
        2 => random.between(1, shape.m.clamp(1, n - 1)),
        _ => random.between(1, n - 1),
    };
    let second = (u128::from(first) + u128::from(distance)) % u128::from(n);
    match random.chance(50) {
        true => (first, second as u64),
        false => (second as u64, first),
    }
}

fn lost_stripe(random: &mut Random, call: &Call) -> Vec<u8> {
    if !call.shape.is_good() {
        return stripes::fitting(random, call.shape);
    }
    let code = Code::of(call.shape);
    let mut stripe = stripes::sound(random, code);
    stripes::lose(random, code, &mut stripe, &call.lost_indices());
    stripe
}
