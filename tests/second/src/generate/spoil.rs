//! Spoils a good call, often in several ways at once, so that the order of refusals matters.

use super::shapes::around;
use crate::model::call::{Call, Kind};
use crate::random::Random;

/// One way to spoil a call.
type Spoil = fn(&mut Random, &mut Call);

/// The ways to spoil the shape.
const SHAPE_WAYS: [Spoil; 3] = [spoil_m, spoil_n, spoil_w];

/// The other ways that matter to a kind.
fn own_ways(kind: Kind) -> &'static [Spoil] {
    match kind {
        Kind::Stock | Kind::Prices => &[],
        Kind::Encode | Kind::Check | Kind::Locate => &[spoil_stripe],
        Kind::Column => &[spoil_stripe, spoil_column],
        Kind::SmallWrite | Kind::RawStore => {
            &[spoil_stripe, spoil_column, spoil_row, spoil_buffer2]
        }
        Kind::Rebuild | Kind::Fill | Kind::Choose => {
            &[spoil_stripe, spoil_column, spoil_column, spoil_pair, spoil_buffer2, spoil_buffer2]
        }
    }
}

/// Spoils one thing of the call, seldom the shape, since its numbers come before all others.
pub fn spoil(random: &mut Random, call: &mut Call) {
    let own = own_ways(call.kind);
    let shape_chance = if own.len() < 3 { 60 } else { 25 };
    let way = match own.is_empty() || random.chance(shape_chance) {
        true => random.pick(&SHAPE_WAYS),
        false => random.pick(own),
    };
    way(random, call);
}

/// Spoils what may bring about the refusal of this number.
pub fn spoil_for(random: &mut Random, call: &mut Call, reason: u8) {
    let is_write = matches!(call.kind, Kind::SmallWrite | Kind::RawStore);
    let way: Spoil = match reason {
        1 => spoil_m,
        2 => spoil_n,
        3 => spoil_w,
        4 => spoil_stripe,
        6 if is_write && random.chance(50) => spoil_row,
        6 => spoil_column,
        7 => spoil_pair,
        _ => spoil_buffer2,
    };
    way(random, call);
}

fn spoil_m(random: &mut Random, call: &mut Call) {
    let m = call.shape.m;
    call.shape.m = match random.below(6) {
        0 => 0,
        1 => 1,
        2 => 17,
        _ => around(random, m),
    };
}

fn spoil_n(random: &mut Random, call: &mut Call) {
    let n = call.shape.n;
    let fewest = call.shape.m.saturating_mul(4).saturating_sub(3);
    call.shape.n = match random.below(7) {
        0 => 0,
        1 => fewest.saturating_sub(1),
        2 => 65,
        3 => 66,
        _ => around(random, n),
    };
}

fn spoil_w(random: &mut Random, call: &mut Call) {
    let w = call.shape.w;
    call.shape.w = match random.below(7) {
        0 => 0,
        1 => 4_096,
        2 => 4_097,
        3 => wrapping_size(call),
        _ => around(random, w),
    };
}

/// A symbol size that gives the same m·n·w where that is counted modulo 2^64.
fn wrapping_size(call: &Call) -> u64 {
    let zeros = call.shape.m.wrapping_mul(call.shape.n).trailing_zeros();
    match zeros {
        1..=63 => call.shape.w.wrapping_add(1 << (64 - zeros)),
        _ => call.shape.w,
    }
}

/// Gives the buffer another length, keeping what it holds as far as it goes.
fn resize(random: &mut Random, buffer: &mut Vec<u8>, length: usize) {
    let more = random.bytes(length.saturating_sub(buffer.len()));
    buffer.truncate(length);
    buffer.extend(more);
}

fn spoil_stripe(random: &mut Random, call: &mut Call) {
    let length = call.buffer1.len();
    let length = match random.below(5) {
        0 => 0,
        1 => length.saturating_sub(1),
        2 => length + 1,
        3 => length.saturating_sub(call.shape.column_bytes().min(100) as usize),
        _ => length + call.shape.column_bytes().min(100) as usize,
    };
    resize(random, &mut call.buffer1, length.min(66_000));
}

fn spoil_column(random: &mut Random, call: &mut Call) {
    let n = call.shape.n;
    let column = match random.below(7) {
        0 | 1 => n,
        2 => n.wrapping_add(1),
        3 => n.wrapping_sub(1),
        4 => u64::MAX,
        _ => {
            let good = random.below(5);
            around(random, good)
        }
    };
    if !call.has_losses() {
        call.a = column;
        return;
    }
    let used = call.a + u64::from(call.reads_column());
    match random.below(used.max(1)) {
        0 if call.a > 0 => call.b = column,
        1 if call.a > 1 => call.c = column,
        _ => call.d = column,
    }
}

/// Names the same column twice.
fn spoil_pair(random: &mut Random, call: &mut Call) {
    call.a = random.pick(&[call.a, 2]);
    match random.below(4) {
        0 => (call.b, call.c) = (call.shape.n, call.shape.n),
        1 => (call.b, call.c) = (u64::MAX, u64::MAX),
        _ => call.c = call.b,
    }
}

fn spoil_row(random: &mut Random, call: &mut Call) {
    let m = call.shape.m;
    call.b = match random.below(5) {
        0 => m,
        1 => m.wrapping_sub(1),
        2 => m.wrapping_add(1),
        3 => u64::MAX,
        _ => around(random, 0),
    };
}

fn spoil_buffer2(random: &mut Random, call: &mut Call) {
    let length = call.buffer2.len();
    let length = match random.below(6) {
        0 => 0,
        1 | 2 => length.saturating_sub(1),
        3 => length / 2,
        4 => length + 1,
        _ => length + random.index(50),
    };
    resize(random, &mut call.buffer2, length.min(20_000));
}
