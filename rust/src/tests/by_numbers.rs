//! A call made as C makes it: arrays of result numbers that hold stale ones, numbers that the call has no use for, and
//! counts of losses over 2, which mean 2.

use super::{shape_of, Lent, Told};
use crate::raw::{self, Named};
use crate::Shape;
use second::model::call::{Call, Kind};

/// What an array of result numbers holds before a call.
const STALE: usize = 0x5EED;

/// The losses, and of two lost columns any count over 2 in half of the calls.
pub fn named(call: &Call) -> Named {
    let over = [3, 4, 255, 256, 1 << 32, (1 << 32) + 1, usize::MAX - 1, usize::MAX];
    let pick = call.buffer1.iter().chain(&call.buffer2).map(|&byte| usize::from(byte)).sum::<usize>();
    let count = match call.a {
        2 if pick % 2 == 1 => over[pick / 2 % over.len()],
        a => a as usize,
    };
    Named { count, a: call.b as usize, b: call.c as usize }
}

/// The first numbers of a result, and zeros after them.
fn padded<const K: usize>(numbers: [usize; K]) -> [usize; 4] {
    std::array::from_fn(|i| numbers.get(i).copied().unwrap_or(0))
}

/// A call that gives numbers in an array of its own.
fn with_numbers<const K: usize>(call: impl Fn(&mut [usize; K]) -> usize) -> Told {
    let mut numbers = [STALE; K];
    let answer = call(&mut numbers);
    Told { answer, x: padded(numbers), part: [0; 3] }
}

fn answer(answer: usize) -> Told {
    Told { answer, x: [0; 4], part: [0; 3] }
}

fn rebuild(shape: Shape, call: &Call, one: &mut Lent, two: &mut Lent) -> Told {
    let number = raw::rebuild(shape, named(call), one.bytes_mut(), two.bytes_mut());
    let lost = if number == 0 { call.a as usize } else { 0 };
    Told { answer: number, x: [lost, 0, 0, 0], part: [0; 3] }
}

fn choose(shape: Shape, call: &Call, one: &Lent, two: &Lent) -> Told {
    let mut part = [STALE; 3];
    raw::choose(shape, one.bytes(), named(call), call.d as usize, two.bytes(), &mut part);
    Told { answer: 0, x: [0; 4], part }
}

fn column(shape: Shape, call: &Call, one: &Lent) -> Told {
    let mut part = [STALE; 2];
    raw::column(shape, one.bytes(), call.a as usize, &mut part);
    Told { answer: 0, x: [0; 4], part: [0, part[0], part[1]] }
}

pub fn made(call: &Call, one: &mut Lent, two: &mut Lent) -> Told {
    let shape = shape_of(call);
    let (a, b, d) = (call.a as usize, call.b as usize, call.d as usize);
    match call.kind {
        Kind::Encode => answer(raw::encode(shape, one.bytes_mut())),
        Kind::Check => with_numbers(|counts| raw::check(shape, one.bytes(), counts)),
        Kind::Locate => with_numbers(|found| raw::locate(shape, one.bytes(), found)),
        Kind::SmallWrite => answer(raw::small_write(shape, one.bytes_mut(), a, b, two.bytes())),
        Kind::RawStore => answer(raw::raw_store(shape, one.bytes_mut(), a, b, two.bytes())),
        Kind::Rebuild => rebuild(shape, call, one, two),
        Kind::Fill => answer(raw::fill(shape, one.bytes(), named(call), d, two.bytes_mut())),
        Kind::Choose => choose(shape, call, one, two),
        Kind::Column => column(shape, call, one),
        Kind::Prices => with_numbers(|prices| raw::prices(shape, prices)),
        Kind::Stock => with_numbers(|numbers| raw::stock(a, numbers)),
    }
}
