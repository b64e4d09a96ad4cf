//! A call made as users of this crate make it.

use super::{shape_of, Lent, Told};
use crate::{Damage, Losses, Refusal, Shape};
use second::model::call::{Call, Kind};

fn losses_of(call: &Call) -> Losses {
    match call.a {
        0 => Losses::None,
        1 => Losses::One(call.b as usize),
        _ => Losses::Two(call.b as usize, call.c as usize),
    }
}

/// The numbers of a result: those of a refused call are 0.
fn told<T>(result: Result<T, Refusal>, numbers: impl Fn(T) -> [usize; 4]) -> Told {
    let (answer, x) = result.map_or_else(|refusal| (refusal.number(), [0; 4]), |done| (0, numbers(done)));
    Told { answer, x, part: [0; 3] }
}

/// The place of a part in one of the two buffers.
fn handed(part: Option<&[u8]>, buffers: [&Lent; 2]) -> Told {
    let place = part.map_or([0; 3], |part| {
        let starts = buffers.map(|buffer| buffer.start_of(part));
        let place = starts.iter().position(Option::is_some).expect("a part is the caller's own bytes");
        [place, starts[place].unwrap_or_default(), part.len()]
    });
    Told { answer: 0, x: [0; 4], part: place }
}

pub fn made(call: &Call, one: &mut Lent, two: &mut Lent) -> Told {
    let (shape, lost) = (shape_of(call), losses_of(call));
    let (a, b, d) = (call.a as usize, call.b as usize, call.d as usize);
    let none = |()| [0; 4];
    match call.kind {
        Kind::Encode => told(shape.encode(one.bytes_mut()), none),
        Kind::Check => told(shape.check(one.bytes()), |checked| [checked.broken, checked.bits, 0, 0]),
        Kind::Locate => told(shape.locate(one.bytes()), found),
        Kind::SmallWrite => told(shape.small_write(one.bytes_mut(), a, b, two.bytes()), none),
        Kind::RawStore => told(shape.raw_store(one.bytes_mut(), a, b, two.bytes()), none),
        Kind::Rebuild => told(shape.rebuild(lost, one.bytes_mut(), two.bytes_mut()), |()| [a, 0, 0, 0]),
        Kind::Fill => told(shape.fill(one.bytes(), lost, d, two.bytes_mut()), none),
        Kind::Choose => handed(shape.choose(one.bytes(), lost, d, two.bytes()), [one, two]),
        Kind::Column => handed(shape.column(one.bytes(), a), [one, two]),
        Kind::Prices => told(shape.prices(), |prices| [prices.encode, prices.one, prices.two, prices.reads]),
        Kind::Stock => told(Shape::stock(a), |shape| [shape.m, shape.n, shape.w, 0]),
    }
}

fn found(damage: Damage) -> [usize; 4] {
    match damage {
        Damage::Sound => [0; 4],
        Damage::Column(column) => [1, column, 0, 0],
        Damage::Several => [2, 0, 0, 0],
    }
}
